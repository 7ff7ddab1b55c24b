# Of two TIMEOUTs with one user_data a cancel takes the first.
ring 8
on 0
timeout a 2 ud=9
timeout b 4 ud=9
submit
cancel c ud=9
submit
wait c
on clock
armed a
armed b
wait c
tick 3
