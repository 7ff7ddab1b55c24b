# A cancel with `all` takes each READ that no worker has at that moment, and replies how many it took.
pipe 16
ring 8
on 0
read a 0 4 ud=9
read b 0 4 ud=9
cancel c ud=9 all
submit
wait c
