/* Refused with 21: nothing is returned. */
#include "percobpf.h"

OBSERVER u64 no_result(const struct change *change) {
    u64 result;
    return result;
}
