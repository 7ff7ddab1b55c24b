# From a source at its end into a full target it waits.
# difference splice-full in enter defer sqpoll
# rules: s 0
# linux: s waits
pipe 16
pipe 1
ring 8
on 0
write w 3 x
submit
wait w
close c 1
submit
wait c
splice s 0 3 4
submit
wait s
