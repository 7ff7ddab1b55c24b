# The cancel finds the READ before it runs, or while it does.
pipe 16
ring 8
on 0
read r 0 4
cancel c r
submit
wait c
