# After the CLOSE was waited for there is no reader.
pipe 16
ring 8
on 0
close c 0
submit
wait c
write w 1 x
submit
wait w
