# From an empty source it waits, even where its target has no reader.
# difference splice-no-reader in enter defer sqpoll
# rules: s -32
# linux: s waits
pipe 16
pipe 16
ring 8
on 0
close c 2
submit
wait c
splice s 0 3 4
submit
wait s
