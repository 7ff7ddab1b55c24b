# It leaves out a TIMEOUT that counted enough.
# difference count in enter defer sqpoll
# rules: u 0
# linux: u waits
ring 8
on 0
timeout u 100 count=2
timeout t 100 count=1
submit
nop a
submit
wait t
wait u
