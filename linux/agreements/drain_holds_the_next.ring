# What comes after a drain waits for it.
pipe 16
ring 8
ring 8
on 0
read r 0 1
nop d drain
nop e
submit
wait e
on 1
write w 1 x
submit
wait w
