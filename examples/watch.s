# The program of watch.json: it ends with 0.
mov64 r0, 0
exit
