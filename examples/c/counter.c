/* Counts the runs on the cells of a row: column 15 of the row has the number, in its first eight bytes. */
#include "percobpf.h"

OBSERVER u64 counter(const struct change *change) {
    u64 row = change->row;
    struct value count;
    if (read_cell(row, 15, &count) == 2)
        return 1;
    count.word[0] += 1;
    return write_cell(row, 15, &count);
}
