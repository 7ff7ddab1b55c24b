# The same seen by a POLL_ADD.
# difference close-late in enter sqpoll
# rules: p 12
# linux: p 4
pipe 16
ring 8
on 0
close c 0 link
poll p 1 4
submit
wait p
