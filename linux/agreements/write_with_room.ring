# A WRITE of several pages goes in whole where they fit.
pipe 4
ring 8
on 0
write a 1 abcd
submit
wait a
read r 0 8
submit
wait r
