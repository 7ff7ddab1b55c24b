# A READ of fewer bytes than asked for fails; after a hard link the chain goes on all the same.
pipe 16
ring 8
on 0
write w 1 abc
submit
wait w
read r 0 8 hard
nop n
submit
wait n
