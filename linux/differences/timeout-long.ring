# A time may be as long as a timespec says.
# difference limits in enter defer sqpoll
# rules: t -22
# linux: t waits
ring 8
on 0
timeout t 2147483648
submit
wait t
