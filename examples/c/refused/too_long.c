/* Refused with 11: over 512 slots. The loop is unrolled. */
#include "percobpf.h"

OBSERVER u64 too_long(const struct change *change) {
    u64 sum = change->row;
#pragma clang loop unroll(full)
    for (int i = 0; i < 300; i++)
        sum = sum * 3 + (sum >> 5);
    return sum == 0;
}
