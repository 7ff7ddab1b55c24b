# So with a POLL_ADD.
# difference close-parked in enter defer sqpoll
# rules: p -9
# linux: p waits
pipe 16
ring 8
on 0
poll p 0 1
submit
close c 0
submit
wait c
wait p
