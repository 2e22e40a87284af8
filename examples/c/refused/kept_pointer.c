/* Refused with 24: a pointer is kept on the stack. */
#include "percobpf.h"

OBSERVER u64 kept_pointer(const struct change *change) {
    const struct change *volatile kept = change;
    return kept->row == 0;
}
