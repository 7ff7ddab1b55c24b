# With CANCEL_ALL it doesn't count the SPLICE that it signals.
# difference cancel-splice in enter defer sqpoll
# rules: s -125, c 1
# linux: s -512, c 0
pipe 16
pipe 16
ring 8
ring 8
on 0
splice s 0 3 4
submit
wait a
cancel c s all
submit
wait c
wait s
on 1
timeout a 1
submit
on clock
armed a
tick 1
