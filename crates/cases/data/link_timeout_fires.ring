# Nothing feeds the READ, so its LINK_TIMEOUT cancels it.
pipe 16
ring 8
on 0
read r 0 4 link
link-timeout t 5
submit
wait t
on clock
armed t
tick 4
tick 5
