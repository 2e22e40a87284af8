/* Refused with 14: a call of a function of one's own, which is not inlined. */
#include "percobpf.h"

static __attribute__((noinline)) u64 low(u64 number) { return number & 255; }

OBSERVER u64 own_function(const struct change *change) { return low(change->value[0]) == 0; }
