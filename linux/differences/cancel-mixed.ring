# Of a TIMEOUT and a later READ with one user_data it takes the READ.
# difference cancel-mixed in enter defer sqpoll
# rules: t -125
# linux: t -62, r -125, c 0
pipe 16
ring 8
on 0
timeout t 2 ud=9
read r 0 4 ud=9
submit
cancel c ud=9
submit
wait c
on clock
armed t
wait c
tick 2
wait t
