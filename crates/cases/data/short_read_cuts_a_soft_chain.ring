# A READ of fewer bytes than asked for fails, and cuts its chain.
pipe 16
ring 8
on 0
write w 1 abc
submit
wait w
read r 0 8 link
nop n
submit
wait n
