# A TIMEOUT with a count answers 0 once so many later entries of its ring have been answered.
pipe 16
ring 8
on 0
timeout t 100 count=2
nop a
nop b
submit
wait t
