# No drain holds an Invalid entry.
# difference invalid-drained in enter defer sqpoll
# rules: none
# linux: z -22
pipe 16
ring 8
on 0
read r 0 4 drain
raw z ff000000000000000000000000000000000000000000000000000000000000000000000000000000000000000000000000000000000000000000000000000000
submit
wait z
