# Its LINK_TIMEOUT doesn't run out.
# difference after-splice in enter sqpoll seldom in defer
# rules: r -125, t -62
# linux: t waits
pipe 16
pipe 16
pipe 16
ring 8
on 0
write x 1 z
splice s 0 3 1 link
read r 4 4 link
link-timeout t 2
submit
wait t
on clock
armed t
tick 2
