# With ETIME_SUCCESS the chain goes on.
ring 8
on 0
timeout t 1 etime-ok link
nop n
submit
wait n
on clock
armed t
tick 1
