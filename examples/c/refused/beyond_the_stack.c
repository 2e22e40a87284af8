/* Refused with 25: the 32 bytes after the value are beyond the stack. */
#include "percobpf.h"

OBSERVER u64 beyond_the_stack(const struct change *change) {
    struct value value;
    return read_cell(change->row, 1, &value + 1) == 2;
}
