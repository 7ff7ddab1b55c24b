# A cancel waits for the drain that holds its target, so it never finds it held.
pipe 16
ring 8
on 0
read r 0 4
nop d drain
submit
cancel c d
submit
wait c
