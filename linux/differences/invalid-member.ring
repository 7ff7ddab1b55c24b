# A chain with an Invalid member fails when it is read.
# difference invalid-member in enter defer sqpoll
# rules: a 0, b -22
# linux: a -125, b -22
ring 8
on 0
nop a link
raw b ff000000000000000000000000000000000000000000000000000000000000000000000000000000000000000000000000000000000000000000000000000000
submit
wait b
