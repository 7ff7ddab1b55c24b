# A SPLICE of no bytes replies 0, whichever ends they are.
# difference splice-nothing in enter defer sqpoll
# rules: s -9
# linux: s 0
pipe 16
pipe 16
ring 8
on 0
splice s 1 2 0
submit
wait s
