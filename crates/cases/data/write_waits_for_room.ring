# A WRITE that its pipe can hold waits until a READ has made room for all of it.
pipe 4
ring 8
on 0
write a 1 abc
submit
wait a
write b 1 de
submit
read r 0 2
submit
wait b
