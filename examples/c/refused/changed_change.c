/* Refused with 28: the change may not be written to. */
#include "percobpf.h"

OBSERVER u64 changed_change(struct change *change) {
    change->row = 1;
    return 0;
}
