# Each Invalid member of it replies -22.
# difference invalid-member in enter defer sqpoll
# rules: a -22, b -125
# linux: a -22, b -22
ring 8
on 0
link-timeout a 1 link
link-timeout b 1
submit
wait b
