/* Refused with 27: the change has 80 bytes, and this is the word after them. */
#include "percobpf.h"

OBSERVER u64 beyond_the_change(const struct change *change) { return ((const u64 *)change)[10] == 0; }
