# Tables don't depend on the cells. In a ring of one cell `run` stands still here, as its READ keeps the cell; Linux frees a slot once its entry is taken.
pipe 16
ring 1
on 0
read r 0 4
submit
nop n
submit
wait n
