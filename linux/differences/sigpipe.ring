# -32 comes with SIGPIPE where no thread polls.
# difference sigpipe in enter defer
# rules: w -32
# linux: w -32, SIGPIPE
pipe 16
ring 8
on 0
close c 0
submit
wait c
write w 1 x
submit
wait w
