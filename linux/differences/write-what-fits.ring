# A WRITE above PIPE_BUF, here of two pages, writes what fits.
# difference write-what-fits in enter defer sqpoll
# rules: b 2
# linux: b 1
pipe 2
ring 8
on 0
write a 1 x
submit
wait a
write b 1 yz
submit
read r 0 1
submit
wait b
