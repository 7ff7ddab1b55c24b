# A polling thread that finds two submits together joins them to one chain.
# difference batches-joined in joined
# rules: n 0
# linux: n waits
pipe 16
ring 8
on 0
read r 0 4 link
submit
nop n
submit
wait n
