# A cancel comes before its timeout runs out, or after.
ring 8
on 0
timeout t 5
submit
cancel c t
submit
wait c
on clock
armed t
tick 5
