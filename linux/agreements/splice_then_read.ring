# What is linked after a SPLICE, with bytes at hand.
pipe 16
pipe 16
ring 8
on 0
write w 1 ab
submit
wait w
splice s 0 3 2 link
read r 2 2
submit
wait r
