# A cancel with IO_DRAIN that names its own user_data finds itself running.
# difference cancel-itself in enter defer
# rules: c -2
# linux: c -114
ring 8
on 0
cancel c ud=9 drain ud=9
submit
wait c
