# The program of copy.json: it copies the value of the changed cell to column 1 of its row. The change record has the row
# at 0 and the value at 48 (32 bytes, zero where the cell was deleted); helper 2 writes a cell.
mov64 r6, r1
ldxdw r2, [r6+48]
stxdw [r10-32], r2
ldxdw r2, [r6+56]
stxdw [r10-24], r2
ldxdw r2, [r6+64]
stxdw [r10-16], r2
ldxdw r2, [r6+72]
stxdw [r10-8], r2
ldxdw r1, [r6+0]
mov64 r2, 1
mov64 r3, r10
add64 r3, -32
call 2
mov64 r0, 0
exit
