# A chain runs in order: the READ gets what the WRITE before it put into the pipe.
pipe 16
ring 8
on 0
nop a link
write b 1 abcd link
read c 0 4
submit
wait c
