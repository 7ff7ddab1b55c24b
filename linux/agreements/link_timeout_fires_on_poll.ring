# A LINK_TIMEOUT ends a parked POLL_ADD.
pipe 16
ring 8
on 0
poll p 0 1 link
link-timeout t 2
submit
wait t
wait p
on clock
armed t
tick 2
