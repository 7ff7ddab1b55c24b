# Timers run out in the order of their deadlines, and none before its tick.
ring 8
on 0
timeout a 1
timeout b 3
timeout c 5
submit
wait b
on clock
armed a
armed b
armed c
tick 2
tick 3
