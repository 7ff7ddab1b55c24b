# A count of two later completions.
ring 8
on 0
timeout t 100 count=2
submit
nop a
submit
wait a
nop b
submit
wait t
