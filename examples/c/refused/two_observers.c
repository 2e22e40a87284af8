/* Refused with 35: two functions in the section. */
#include "percobpf.h"

OBSERVER u64 first(const struct change *change) { return change->row == 0; }

OBSERVER u64 second(const struct change *change) { return change->row == 1; }
