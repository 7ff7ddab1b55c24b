# A full pipe has no POLLOUT until a page is read.
pipe 1
ring 8
on 0
write a 1 x
submit
wait a
poll p 1 4
submit
read r 0 1
submit
wait p
