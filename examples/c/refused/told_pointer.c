/* Refused with 37: a pointer is returned. */
#include "percobpf.h"

OBSERVER u64 told_pointer(const struct change *change) { return (u64)change; }
