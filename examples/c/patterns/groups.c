/* Counts the rows of each group, and adds up their amounts. A value's first word is its row's group, and the second
 * the amount. A group's cell is in column 13, at the row whose number is the group: how many rows are in the group, and
 * then their sum. A group without rows has no cell. It takes the change record of version 2: the old value is what the
 * row's group and amount counted for until now. */
#include "percobpf.h"

enum { TOTAL = 13 };
/* The words of a cell of column 13. */
enum { COUNT, SUM };

OBSERVER u64 groups(const struct change_with_old *change) {
    struct value total;
    /* A row that stays in its group has one cell to change. A run doesn't see its own writes, so that it can't change
     * a cell twice. */
    if (change->had_value && change->present && change->old[0] == change->value[0]) {
        read_cell(change->value[0], TOTAL, &total);
        total.word[SUM] += change->value[1] - change->old[1];
        return write_cell(change->value[0], TOTAL, &total);
    }
    if (change->had_value) {
        read_cell(change->old[0], TOTAL, &total);
        total.word[COUNT] -= 1;
        total.word[SUM] -= change->old[1];
        if (total.word[COUNT])
            write_cell(change->old[0], TOTAL, &total);
        else
            delete_cell(change->old[0], TOTAL);
    }
    if (!change->present)
        return 0;
    read_cell(change->value[0], TOTAL, &total);
    total.word[COUNT] += 1;
    total.word[SUM] += change->value[1];
    return write_cell(change->value[0], TOTAL, &total);
}
