/* Refused with 30: there is no helper 5. */
#include "percobpf.h"

static u64 (*const unknown)(void) = (void *)5;

OBSERVER u64 no_helper(const struct change *change) { return unknown() == change->row; }
