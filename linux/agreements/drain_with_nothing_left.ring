# Once nothing is left from before, a drain holds nobody.
ring 8
on 0
nop a
nop d drain
submit
wait d
nop n
submit
wait n
