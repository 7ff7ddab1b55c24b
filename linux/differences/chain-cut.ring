# With several rings on one polling thread a chain is cut after 8 entries.
# difference chain-cut in shared
# rules: none
# linux: h 0
pipe 16
ring 16
ring 16
on 0
read r 0 4 link
nop a link
nop b link
nop c link
nop d link
nop e link
nop f link
nop g link
nop h
submit
wait h
