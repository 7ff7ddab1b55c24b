# A cancel without a match.
ring 8
on 0
nop a
submit
wait a
cancel c a
cancel d ud=77
submit
wait c
wait d
