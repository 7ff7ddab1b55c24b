# The chain failed before its target: both are cancelled.
pipe 16
ring 8
on 0
read r 9 4 link
poll p 0 1 link
link-timeout t 2
submit
wait t
