# Two rings write to one pipe at the same time.
pipe 16
ring 8
ring 8
on 0
write a 1 x
submit
wait a
wait b
read r 0 2
submit
wait r
on 1
write b 1 y
submit
wait b
