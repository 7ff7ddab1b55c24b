# The READ is answered in time, so its LINK_TIMEOUT is cancelled.
pipe 16
ring 8
on 0
read r 0 4 link
link-timeout t 5
submit
write w 1 z
submit
wait r
wait t
