# Completions past the queue's size come into it only inside io_uring_enter.
# difference overflow in peek
# rules: a 0, b 0, c 0, d 0, e 0
# linux: a waits | b waits | c waits | d waits | e waits
pipe 16
ring 4 4
on 0
read a 0 1
read b 0 1
read c 0 1
read d 0 1
submit
close e 1
submit
wait a
wait b
wait c
wait d
wait e
