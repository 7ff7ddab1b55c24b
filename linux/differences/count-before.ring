# It leaves out those before the arming.
# difference count in enter defer sqpoll
# rules: t 0
# linux: t waits
pipe 16
ring 8
on 0
read r 0 1 link
timeout t 100 count=1
submit
nop n
submit
wait n
write w 1 x
submit
wait r
wait t
