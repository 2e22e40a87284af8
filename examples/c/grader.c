/* Writes a grade of the changed cell to column 14 of its row: the first four bytes are a signed mark, and the next four
 * an unsigned weight. */
#include "percobpf.h"

OBSERVER u64 grader(const struct change *change) {
    u64 row = change->row;
    int mark = (int)(u32)change->value[0];
    u32 weight = (u32)(change->value[0] >> 32);
    struct value grade = {{0, 0, 0, 0}};
    if (!change->present)
        return delete_cell(row, 14);
    if (mark < 0)
        grade.word[0] = 1;
    else if (mark > 1000 || weight == 7)
        grade.word[0] = 2;
    else if (weight >= 500)
        grade.word[0] = 3 + (u64)weight;
    else
        grade.word[0] = 4;
    grade.word[1] = (u32)mark + weight;
    return write_cell(row, 14, &grade);
}
