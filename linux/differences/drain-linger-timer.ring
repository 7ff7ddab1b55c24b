# The same without a chain, with a TIMEOUT that doesn't run out.
# difference drain-linger in enter defer sqpoll
# rules: n 0
# linux: n waits
ring 8
on 0
nop d drain
timeout t 100
submit
wait d
nop n
submit
wait n
