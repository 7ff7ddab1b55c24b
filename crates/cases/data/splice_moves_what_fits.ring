# A SPLICE moves bytes from one pipe into another. Four fit, which is fewer than asked for, and so the next entry is cut off.
pipe 16
pipe 4
ring 8
on 0
write w 1 abcdef
submit
wait w
splice s 0 3 8 link
nop n
submit
wait n
read r 2 8
submit
wait r
