# The cancel of a waiting SPLICE replies -114, or with a polling thread -2, and the SPLICE -512.
# difference cancel-splice in enter defer sqpoll
# rules: s -125, c 0
# linux: s -512, c -114 | s -512, c -2
pipe 16
pipe 16
ring 8
ring 8
on 0
splice s 0 3 4
submit
wait a
cancel c s
submit
wait c
wait s
on 1
timeout a 1
submit
on clock
armed a
tick 1
