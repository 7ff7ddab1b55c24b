# But not one of 0 ticks that is right before it.
# difference count in enter defer sqpoll
# rules: u -125
# linux: t -62, u 0
ring 8
on 0
timeout t 0
timeout u 100 count=1
submit
wait t
