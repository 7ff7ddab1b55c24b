# A CLOSE of the other end ends a parked READ.
pipe 16
ring 8
on 0
read r 0 4
submit
close c 1
submit
wait r
