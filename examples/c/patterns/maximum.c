/* Keeps the greatest number of a column, also when it is lowered or deleted. A value's first word is its row's
 * number. It takes rows 0 to 1023, the leaves of a tree. Nodes are numbered from the root, 1; below node N are 2N
 * and 2N + 1, and the leaf of a row is 1024 and the row's number. A node's cell is in column 14, at the row whose
 * number is the node's: the greatest number below the node, a row that has it, and 1; or zeros, if no row below has
 * any. */
#include "percobpf.h"

enum { LEVELS = 10, ROWS = 1 << LEVELS, NODE = 14 };
/* The words of a cell of column 14. */
enum { NUMBER, ROW, IS_THERE };

OBSERVER u64 maximum(const struct change *change) {
    struct value best = {{change->value[0], change->present ? change->row : 0, change->present, 0}}, other, was;
    u64 node = ROWS + change->row;
    if (change->row >= ROWS)
        return 1;
    /* The other leaf below the same node; from then on, the other node below the same node. */
    other.word[IS_THERE] = !read_cell(change->row ^ 1, change->column, &other);
    other.word[ROW] = change->row ^ 1;
#pragma unroll
    for (int level = 1; level <= LEVELS; level++) {
        if (other.word[IS_THERE] > best.word[IS_THERE] || other.word[NUMBER] > best.word[NUMBER]) {
            best.word[NUMBER] = other.word[NUMBER];
            best.word[ROW] = other.word[ROW];
            best.word[IS_THERE] = 1;
        }
        node /= 2;
        read_cell(node, NODE, &was);
        u64 stays = was.word[NUMBER] == best.word[NUMBER] && was.word[ROW] == best.word[ROW] &&
                    was.word[IS_THERE] == best.word[IS_THERE];
        /* A node is written even if it stays as it was: of two runs that meet there, one has to conflict. */
        write_cell(node, NODE, &best);
        /* What is above follows from this node. */
        if (stays)
            return 0;
        if (level < LEVELS)
            read_cell(node ^ 1, NODE, &other);
    }
    return 0;
}
