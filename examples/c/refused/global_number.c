/* Refused with 29: a variable outside of the function. */
#include "percobpf.h"

static volatile u64 runs;

OBSERVER u64 global_number(const struct change *change) {
    runs += 1;
    return change->row == 0;
}
