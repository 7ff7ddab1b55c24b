# It leaves out a TIMEOUT that ran out.
# difference count in enter defer sqpoll
# rules: u 0
# linux: u waits
ring 8
on 0
timeout u 100 count=1
timeout t 1
submit
wait u
on clock
armed t
tick 1
