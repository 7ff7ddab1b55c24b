# A cancel of all takes each parked READ.
pipe 16
ring 8
on 0
read a 0 4 ud=9
read b 0 4 ud=9
submit
cancel c ud=9 all
submit
wait c
wait a
wait b
