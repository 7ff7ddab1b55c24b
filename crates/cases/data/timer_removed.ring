# A TIMEOUT that is taken back answers -125 (ECANCELED).
pipe 16
ring 8
on 0
timeout t 5
remove m t
submit
wait m
