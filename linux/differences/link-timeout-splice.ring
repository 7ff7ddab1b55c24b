# The LINK_TIMEOUT of a waiting SPLICE doesn't run out.
# difference link-timeout-splice in enter defer sqpoll
# rules: s -125, t -62
# linux: t waits
pipe 16
pipe 16
ring 8
on 0
splice s 0 3 4 link
link-timeout t 2
submit
wait t
on clock
armed t
tick 2
