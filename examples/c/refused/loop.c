/* Refused with 32: a loop whose turns are not known when it is compiled. */
#include "percobpf.h"

OBSERVER u64 loop(const struct change *change) {
    u64 number = change->value[0], bits = 0;
    while (number) {
        bits += number & 1;
        number >>= 1;
    }
    return bits == 64;
}
