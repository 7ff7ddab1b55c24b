# A cancel doesn't find a member of a chain that waits.
# difference cancel-waiting in enter defer sqpoll
# rules: n -125, c 0
# linux: c -2
pipe 16
ring 8
on 0
read r 0 4 link
nop n
submit
cancel c n
submit
wait c
