/* A queue of rows. A row with a value in column 0 is put there, and a row with one in column 1 takes from there.
 * Those that are put are numbered from 0 on, and so are those that take: who takes under a number is given the row
 * that was put under it. A row is put once and takes once, whatever becomes of it. Two observers of a manifest have
 * this program, one of each column. */
#include "percobpf.h"

/* Column 10 has the number of a row that was put, and column 11 that of one that takes. Column 12 has, at the row with
 * a number, the row that waits under it, on either side. Column 13 has what a row that takes was given. Of column 14,
 * row 0 counts the rows that were put, and row 1 those that take. */
enum { OWN = 10, WAITS = 12, GIVEN = 13, ENDS = 14 };

OBSERVER u64 queue(const struct change *change) {
    struct value own, end, other, given;
    u64 takes = change->column;
    if (!change->present || read_cell(change->row, OWN + takes, &own) == 0)
        return 0;
    /* The next number of its side. */
    read_cell(takes, ENDS, &end);
    u64 number = end.word[0]++;
    write_cell(takes, ENDS, &end);
    own.word[0] = number;
    write_cell(change->row, OWN + takes, &own);
    /* Nobody has come to this number from the other side: this row waits. */
    if (read_cell(number, WAITS, &other)) {
        other.word[0] = change->row;
        return write_cell(number, WAITS, &other);
    }
    u64 item = change->row, taker = other.word[0];
    if (takes) {
        item = other.word[0];
        taker = change->row;
    }
    read_cell(taker, GIVEN, &given);
    given.word[0] = item;
    write_cell(taker, GIVEN, &given);
    return delete_cell(number, WAITS);
}
