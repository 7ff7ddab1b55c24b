# A closed end is no end.
pipe 16
ring 8
on 0
close c 0
submit
wait c
close d 0
read r 0 1
poll p 0 1
submit
wait d
wait r
wait p
