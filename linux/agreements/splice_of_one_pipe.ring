# A SPLICE between the ends of one pipe is -22.
pipe 16
ring 8
on 0
splice s 0 1 3
submit
wait s
