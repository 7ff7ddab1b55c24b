# IO_DRAIN on the first member of a chain.
pipe 16
ring 8
ring 8
on 0
read r 0 1
nop d drain link
nop e
submit
wait e
on 1
write w 1 x
submit
wait w
