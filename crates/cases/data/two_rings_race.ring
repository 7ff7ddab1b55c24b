# Two rings race to write to one pipe; a READ of one byte gets what was written first.
pipe 16
ring 4
ring 4
on 0
write a 1 x
submit
wait a
on 1
write b 1 y
submit
wait b
wait a
read r 0 1
submit
wait r
