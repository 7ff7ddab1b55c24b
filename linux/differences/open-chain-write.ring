# An entry that ends its batch with a link flag runs in a worker thread, where a WRITE waits until all of it is in.
# difference open-chain in enter defer sqpoll
# rules: w 1
# linux: w waits
pipe 1
ring 8
on 0
write w 1 ab link
submit
wait w
