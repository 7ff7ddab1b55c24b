# So with a WRITE.
# difference close-parked in enter defer sqpoll
# rules: v -9
# linux: v waits
pipe 1
ring 8
on 0
write w 1 a
submit
wait w
write v 1 b
submit
close c 1
submit
wait c
wait v
