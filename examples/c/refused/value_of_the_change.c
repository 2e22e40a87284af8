/* Refused with 31: the value has to stand on the stack. */
#include "percobpf.h"

OBSERVER u64 value_of_the_change(const struct change *change) {
    return write_cell(change->row, 1, (const struct value *)change->value);
}
