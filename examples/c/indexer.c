/* Keeps an index of a column in which no two cells have the same first word: the row that is numbered by a cell's
 * first word has in column 12 the row of that cell. An entry is deleted when its cell has another word or none.
 * Where two cells have one word, they share an entry, and the first that leaves deletes it; patterns/posting.c takes
 * such columns. It takes the change record of version 2. */
#include "percobpf.h"

OBSERVER u64 indexer(const struct change_with_old *change) {
    u64 row = change->row;
    u64 now = change->value[0];
    u64 before = change->old[0];
    u64 is_there = change->present;
    struct value entry = {{row, 0, 0, 0}};
    if (change->had_value && (!is_there || before != now))
        delete_cell(before, 12);
    if (!is_there)
        return 0;
    return write_cell(now, 12, &entry);
}
