# A CLOSE of the end of a parked READ lets it complete.
# difference close-parked in enter defer sqpoll
# rules: r -9, w -32
# linux: r 1, w 1
pipe 16
ring 8
on 0
read r 0 4
submit
close c 0
submit
wait c
write w 1 x
submit
wait w
wait r
