# Without it -62 fails.
ring 8
on 0
timeout t 1 link
nop n
submit
wait n
on clock
armed t
tick 1
