# A chain of nine entries on one ring.
pipe 16
ring 16
on 0
nop n0 link
nop n1 link
nop n2 link
nop n3 link
nop n4 link
nop n5 link
nop n6 link
nop n7 link
nop h
submit
wait h
