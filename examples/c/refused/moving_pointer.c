/* Refused with 23: a pointer is moved by a number that is not known when it is compiled. */
#include "percobpf.h"

OBSERVER u64 moving_pointer(const struct change *change) { return change->value[change->column & 3] == 0; }
