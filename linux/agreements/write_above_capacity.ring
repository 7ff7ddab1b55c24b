# A WRITE above the capacity writes what fits.
pipe 2
ring 8
on 0
write a 1 abc
submit
wait a
