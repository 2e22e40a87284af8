/* Refused with 26: bytes of the value were never written. */
#include "percobpf.h"

OBSERVER u64 half_set(const struct change *change) {
    struct value value;
    value.word[0] = change->value[0];
    return write_cell(change->row, 1, &value);
}
