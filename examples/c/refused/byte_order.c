/* Refused with 12: an instruction that turns the order of bytes. */
#include "percobpf.h"

OBSERVER u64 byte_order(const struct change *change) { return __builtin_bswap64(change->value[0]) < change->row; }
