/* Refused with 38: a pointer is compared. */
#include "percobpf.h"

OBSERVER u64 compared_pointer(const struct change *change) { return (u64)change < 4096 ? 1 : change->row == 0; }
