# An end is closed only after its CLOSE has replied: a linked WRITE still finds a reader.
# difference close-late in enter sqpoll
# rules: w -32
# linux: w 1
pipe 16
ring 8
on 0
close c 0 link
write w 1 x
submit
wait w
