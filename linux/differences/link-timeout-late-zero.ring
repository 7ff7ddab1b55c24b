# So does one of 0 ticks after a NOP.
# difference link-timeout-late in enter defer sqpoll
# rules: t -125 | t -62
# linux: a 0, t -2
ring 8
on 0
nop a link
link-timeout t 0
submit
wait t
