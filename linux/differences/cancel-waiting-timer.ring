# Nor a timer that isn't armed.
# difference cancel-waiting in enter defer sqpoll
# rules: t -125, m 0
# linux: m -2
pipe 16
ring 8
on 0
read r 0 4 link
timeout t 2
submit
remove m t
submit
wait m
