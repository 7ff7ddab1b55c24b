# One NOP, submitted and waited for.
ring 4
on 0
nop a ud=7
submit
wait a
