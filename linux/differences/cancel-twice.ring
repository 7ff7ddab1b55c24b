# Two cancels of one batch both reply 0 for one request.
# difference cancel-twice in enter defer sqpoll
# rules: x 0, y -2 | x -114, y 0 | x 0, y -114 | x -2, y 0 | x -114, y -114
# linux: x 0, y 0
pipe 16
ring 8
on 0
poll a 0 1
submit
cancel x a
cancel y a
submit
wait x
wait y
