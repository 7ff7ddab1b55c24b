# A race: a count of 1023 may be answered after three completions.
# difference count-early seldom in enter sqpoll
# rules: u -125
# linux: u 0
ring 16
on 0
timeout s 200 count=1
timeout t 200 count=1
timeout u 200 count=1023
nop a
submit
wait s
wait t
wait a
