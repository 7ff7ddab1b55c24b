# IO_DRAIN on a later member of a chain holds the whole chain.
# difference drain-in-chain in enter defer sqpoll
# rules: a 0
# linux: a waits
pipe 16
ring 8
on 0
read r 0 4
nop a link
nop d drain
submit
wait a
