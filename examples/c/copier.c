/* Copies the changed cell to the next column of its row, and deletes the copy where the cell was deleted. */
#include "percobpf.h"

OBSERVER u64 copier(const struct change *change) {
    u64 row = change->row;
    u64 column = change->column + 1;
    if (!change->present)
        return delete_cell(row, column);
    struct value value;
    value.word[0] = change->value[0];
    value.word[1] = change->value[1];
    value.word[2] = change->value[2];
    value.word[3] = change->value[3];
    return write_cell(row, column, &value);
}
