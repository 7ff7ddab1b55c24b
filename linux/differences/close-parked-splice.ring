# So with a SPLICE.
# difference close-parked in enter defer sqpoll
# rules: s -9
# linux: s waits
pipe 16
pipe 16
ring 8
ring 8
on 0
splice s 0 3 4
submit
wait a
close c 0
submit
wait c
wait s
on 1
timeout a 1
submit
on clock
armed a
tick 1
