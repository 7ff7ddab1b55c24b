# A page of the target with a few bytes has no room for others.
# difference splice-page in enter defer sqpoll
# rules: s 1
# linux: s waits
# bytes: exact
pipe 4096
pipe 4096
ring 8
on 0
write a 1 x
write b 3 y
submit
wait a
wait b
splice s 0 3 1
submit
wait s
