# Two rings run side by side; the second one waits for a reply of the first.
ring 4
ring 4
on 0
nop a
submit
wait a
on 1
wait a
nop b
submit
wait b
