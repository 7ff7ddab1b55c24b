# A SPLICE from an empty pipe waits. The cancel finds it before it runs, or while it does.
pipe 16
pipe 4
ring 8
on 0
splice s 0 3 4
cancel c s
submit
wait c
