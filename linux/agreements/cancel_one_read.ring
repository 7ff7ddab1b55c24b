# A cancel takes the READ that it names.
pipe 16
ring 8
on 0
read a 0 4
read b 0 4
submit
cancel c a
submit
wait c
wait a
