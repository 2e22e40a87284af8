/* Refused with 36: the function has no end. */
#include "percobpf.h"

OBSERVER u64 no_end(const struct change *change) {
    delete_cell(change->row, 1);
    __builtin_unreachable();
}
