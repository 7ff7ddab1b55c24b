# A SPLICE from a source at its end replies 0.
pipe 16
pipe 16
ring 8
on 0
close c 1
submit
wait c
splice s 0 3 4
submit
wait s
