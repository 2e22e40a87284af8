/* Refused with 10: without OBSERVER there is no code in the section. */
#include "percobpf.h"

u64 no_section(const struct change *change) { return change->row == 0; }
