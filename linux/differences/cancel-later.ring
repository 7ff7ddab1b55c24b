# A cancel finds what was submitted after it.
# difference cancel-later in enter defer sqpoll
# rules: c -2
# linux: c 0, p -125
pipe 16
pipe 16
ring 8
on 0
read r 0 1 link
cancel c p
submit
poll p 2 1
submit
write w 1 x
submit
wait c
