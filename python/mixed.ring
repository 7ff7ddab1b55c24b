# Two rings, a pipe, a timer and a cancel.
pipe 4
ring 8
ring 8
on 0
write w 1 abcd
timeout t 5
submit
cancel c t
submit
wait c
on 1
read r 0 4 link
nop n
submit
wait n
on clock
armed t
tick 5
