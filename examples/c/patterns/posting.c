/* Keeps an index with duplicates: for each value of a column, the list of the rows that have it. A value's key is
 * its first word. The first row of a list is in column 12, at the row whose number is the key. Each row of a list has
 * in column 13 the rows before and after it there. It takes the change record of version 2: the old value names the
 * list that the row leaves. */
#include "percobpf.h"

enum { FIRST = 12, LINK = 13 };
/* The words of a cell of column 13. There are flags, since any number may be a row. */
enum { BEFORE, AFTER, HAS_BEFORE, HAS_AFTER };

OBSERVER u64 posting(const struct change_with_old *change) {
    struct value own, other, first;
    if (change->had_value && change->present && change->old[0] == change->value[0])
        return 0;
    read_cell(change->row, LINK, &own);
    if (change->had_value) {
        /* Out of the old list: what stands before and after the row is joined. */
        read_cell(change->old[0], FIRST, &first);
        if (own.word[HAS_AFTER]) {
            read_cell(own.word[AFTER], LINK, &other);
            other.word[BEFORE] = own.word[BEFORE];
            other.word[HAS_BEFORE] = own.word[HAS_BEFORE];
            write_cell(own.word[AFTER], LINK, &other);
        }
        if (own.word[HAS_BEFORE]) {
            read_cell(own.word[BEFORE], LINK, &other);
            other.word[AFTER] = own.word[AFTER];
            other.word[HAS_AFTER] = own.word[HAS_AFTER];
            write_cell(own.word[BEFORE], LINK, &other);
        } else if (own.word[HAS_AFTER]) {
            first.word[0] = own.word[AFTER];
            write_cell(change->old[0], FIRST, &first);
        } else {
            delete_cell(change->old[0], FIRST);
        }
    }
    if (!change->present)
        return delete_cell(change->row, LINK);
    /* Into the new list, as its first row. */
    u64 is_empty = read_cell(change->value[0], FIRST, &first);
    own.word[HAS_BEFORE] = own.word[BEFORE] = 0;
    own.word[HAS_AFTER] = !is_empty;
    own.word[AFTER] = first.word[0];
    write_cell(change->row, LINK, &own);
    if (!is_empty) {
        read_cell(first.word[0], LINK, &other);
        other.word[HAS_BEFORE] = 1;
        other.word[BEFORE] = change->row;
        write_cell(first.word[0], LINK, &other);
    }
    first.word[0] = change->row;
    return write_cell(change->value[0], FIRST, &first);
}
