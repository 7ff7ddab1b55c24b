# What is linked after a SPLICE runs in a worker thread that blocks: a WRITE waits until all of it is in.
# difference after-splice in enter sqpoll seldom in defer
# rules: s -22, w 1
# linux: w waits
pipe 1
ring 8
on 0
splice s 0 1 3 hard
write w 1 ab
submit
wait w
