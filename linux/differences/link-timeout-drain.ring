# A LINK_TIMEOUT with IO_DRAIN is accepted.
# difference link-timeout-drain in enter defer sqpoll
# rules: a 0, t -22
# linux: a 0, t -125
ring 8
on 0
nop a link
link-timeout t 5 drain
submit
wait t
