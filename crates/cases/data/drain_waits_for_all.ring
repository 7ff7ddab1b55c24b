# An entry with IOSQE_IO_DRAIN runs after all earlier ones and before all later ones.
pipe 16
ring 8
on 0
write a 1 ab
read b 0 2
nop d drain
nop e
submit
wait e
