# So of two READs with one user_data they take one, and the other gets the bytes.
# difference cancel-twice in enter defer sqpoll
# rules: x 0, y 0, a -125, b -125 | x -114 | y -114
# linux: x 0, y 0, a 2, b -125
pipe 16
ring 8
on 0
read a 0 4 ud=9
read b 0 4 ud=9
submit
cancel x ud=9
cancel y ud=9
submit
wait x
wait y
write w 1 ab
submit
wait w
