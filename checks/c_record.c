/* The places of the change record's members in examples/c/percobpf.h, by docs/MACHINE.md, "The change record". It is compiled, and not run. */
#include "../examples/c/percobpf.h"

#define IS_AT(type, member, place) _Static_assert(__builtin_offsetof(struct type, member) == (place), #type ": " #member);

/* Both versions begin alike. */
#define BEGINS_AS_RECORD(type) \
    IS_AT(type, row, 0) IS_AT(type, column, 8) IS_AT(type, start, 16) IS_AT(type, commit, 24) IS_AT(type, present, 32) \
    IS_AT(type, acknowledged, 40) IS_AT(type, value, 48)

BEGINS_AS_RECORD(change)
BEGINS_AS_RECORD(change_with_old)
IS_AT(change_with_old, had_value, 80)
IS_AT(change_with_old, old, 88)
_Static_assert(sizeof(struct change) == 80 && sizeof(struct change_with_old) == 120, "how many bytes a record has");
_Static_assert(sizeof(struct value) == 32, "how many bytes a value has");
