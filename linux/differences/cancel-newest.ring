# Of two parked READs with one user_data a cancel takes the newer.
# difference cancel-newest in enter defer sqpoll
# rules: a -125 | a 2, b -125, c -114
# linux: a 2, b -125, c 0
pipe 16
ring 8
on 0
read a 0 4 ud=9
read b 0 4 ud=9
submit
cancel c ud=9
submit
wait c
write w 1 ab
submit
wait w
wait a
