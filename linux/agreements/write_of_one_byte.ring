# A WRITE of one byte, a page, waits for room.
pipe 2
ring 8
on 0
write a 1 x
write b 1 y
submit
wait a
wait b
write c 1 z
submit
read r 0 1
submit
wait c
