# A count is of the completions after the arming, also of earlier requests.
# difference count in enter defer sqpoll
# rules: t -125
# linux: a 0, t 0
ring 8
on 0
nop a
timeout t 100 count=1
submit
wait a
