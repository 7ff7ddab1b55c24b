# Its cancel replies -114, or with a polling thread -2, and the READ -4.
# difference after-splice in enter sqpoll seldom in defer
# rules: r -125, c 0
# linux: r -4, c -114 | r -4, c -2
pipe 16
pipe 16
pipe 16
ring 8
ring 8
on 0
write x 1 z
splice s 0 3 1 link
read r 4 4
submit
wait s
wait a
cancel c r
submit
wait c
wait r
on 1
timeout a 1
submit
on clock
armed a
tick 1
