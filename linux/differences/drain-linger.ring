# The drain has replied, and yet what is submitted then waits for what was submitted before.
# difference drain-linger in enter defer sqpoll
# rules: r 4
# linux: r waits
pipe 16
ring 8
on 0
nop d drain link
read r 0 4
submit
wait d
write w 1 abcd
submit
wait r
