# So between the ends of one pipe.
# difference splice-nothing in enter defer sqpoll
# rules: s -22
# linux: s 0
pipe 16
ring 8
on 0
splice s 0 1 0
submit
wait s
