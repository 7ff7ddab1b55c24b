# A count may be above 1023.
# difference limits in enter defer sqpoll
# rules: t -22
# linux: t waits
ring 8
on 0
timeout t 100 count=1024
submit
wait t
