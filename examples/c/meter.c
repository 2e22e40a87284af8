/* Adds up the signed readings of the changed cell, which stand in its first eight bytes: one byte, half a word from byte 2 on
 * and a word from byte 4 on, the lowest byte first. Column 13 of the row keeps their sum, which may be negative, and
 * after it the first reading less the second.
 *
 * With -mcpu=v4 the compiler extends signs by instructions of their own, which profile 2 has. */
#include "percobpf.h"

OBSERVER u64 meter(const struct change *change) {
    u64 row = change->row;
    u64 word = change->value[0];
    int first = (signed char)word, second = (short)(word >> 16), third = (int)(word >> 32);
    struct value sum = {{0, 0, 0, 0}};
    if (!change->present)
        return delete_cell(row, 13);
    sum.word[0] = (u64)((long long)first + second + third);
    sum.word[1] = (u64)(long long)(first - second);
    return write_cell(row, 13, &sum);
}
