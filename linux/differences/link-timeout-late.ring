# A LINK_TIMEOUT that runs out together with its target replies -2.
# difference link-timeout-late in enter defer sqpoll
# rules: t -125 | t -62
# linux: a -62, t -2
ring 8
on 0
timeout a 2 link
link-timeout t 2
submit
wait a
wait t
on clock
armed t
armed a
tick 2
