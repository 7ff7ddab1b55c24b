# Room is counted in pages: a pipe of one page with one byte in it has none.
# difference room-pages in enter defer sqpoll
# rules: p 4
# linux: p waits
# bytes: exact
pipe 4096
ring 8
on 0
write w 1 a
submit
wait w
poll p 1 4
submit
wait p
