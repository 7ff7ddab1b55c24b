# A LINK_TIMEOUT ends whatever it finds by its target's user_data, here the newer READ.
# difference link-timeout-other in enter defer sqpoll
# rules: a 2, t -62
# linux: b 2, a -125, t -62
pipe 16
pipe 16
ring 8
on 0
read b 2 4 ud=9 link
link-timeout t 2
read a 0 4 ud=9
submit
wait t
write w 1 xy
write v 3 zw
submit
wait a
wait w
wait v
wait b
on clock
armed t
tick 2
