# After its read end is closed a WRITE answers -32 (EPIPE), and the write end polls as 8 (POLLERR).
pipe 16
ring 8
on 0
close c 0
submit
wait c
write w 1 x
poll p 1 0
submit
wait w
wait p
