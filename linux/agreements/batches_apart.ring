# A link flag at the end of a batch joins nothing.
pipe 16
ring 8
on 0
read r 0 4 link
submit
nop n
submit
wait n
