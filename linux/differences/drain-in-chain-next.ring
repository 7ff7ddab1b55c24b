# After a chain with a drain inside the next entry drains, too.
# difference drain-in-chain in enter defer sqpoll
# rules: n 0
# linux: n waits
pipe 16
ring 8
on 0
nop x link
nop d drain
read r 0 4
nop n
submit
wait n
