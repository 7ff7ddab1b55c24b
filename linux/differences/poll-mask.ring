# A mask of POLL_ADD may have other bits, here POLLPRI.
# difference limits in enter defer sqpoll
# rules: p -22
# linux: p 4
pipe 16
ring 8
on 0
poll p 1 6
submit
wait p
