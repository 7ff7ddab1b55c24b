# So where its target is a TIMEOUT, which then runs out.
# difference link-timeout-other in enter defer sqpoll
# rules: b -125, t -62
# linux: b -62, a -125, t -62
pipe 16
ring 8
on 0
timeout b 4 ud=9 link
link-timeout t 2
read a 0 4 ud=9
submit
wait t
on clock
armed t
tick 2
wait t
tick 4
wait b
