/* What the wrappers of library/percobpf_api.h hand on to the exports of the library: an address for each null pointer, whose length is 0,
 * and each other pointer as it is, with its length. The exports are stood in for here, so that no library is wanted. Each is called with
 * each of its pointers null and not. The last line has how many calls there were, and how many pointers were handed on otherwise.
 */
#include "../library/percobpf_api.h"

#include <stdio.h>

enum { MOST = 4 };

static char bytes_given[MOST][8];
static struct percobpf_reply replies_given[1];
static void *given[MOST];
static size_t calls, wrong;

/* Notes which pointers came, each with its length. */
static void note(const char *name, size_t count, const void *const came[], const size_t lengths[]) {
    calls++;
    for (size_t at = 0; at < count; at++) {
        if (came[at] == NULL || (given[at] != NULL && came[at] != given[at]) || (given[at] != NULL) != (lengths[at] != 0)) {
            printf("%s: pointer %zu\n", name, at);
            wrong++;
        }
    }
}

struct percobpf_verdict(percobpf_check)(const uint8_t *bytes, size_t count, uint32_t profile, uint32_t record, uint32_t helpers) {
    note("check", 1, (const void *[]){bytes}, (const size_t[]){count});
    return (struct percobpf_verdict){profile, record, helpers};
}

struct percobpf_text(percobpf_asm)(const char *text, size_t count, uint32_t profile, uint8_t *out, size_t room) {
    note("asm", 2, (const void *[]){text, out}, (const size_t[]){count, room});
    return (struct percobpf_text){.kind = profile};
}

struct percobpf_text(percobpf_dis)(const uint8_t *bytes, size_t count, uint32_t profile, char *out, size_t room) {
    note("dis", 2, (const void *[]){bytes, out}, (const size_t[]){count, room});
    return (struct percobpf_text){.kind = profile};
}

struct percobpf_manifest_verdict(percobpf_manifest)(const char *text, size_t count) {
    note("manifest", 1, (const void *[]){text}, (const size_t[]){count});
    return (struct percobpf_manifest_verdict){0};
}

struct percobpf_reached(percobpf_run)(const uint8_t *bytes, size_t count, uint32_t profile, uint32_t record, uint32_t helpers,
    const struct percobpf_change *change, uint64_t start, const struct percobpf_reply *replies, size_t reply_count) {
    note("run", 2, (const void *[]){bytes, replies}, (const size_t[]){count, reply_count});
    return (struct percobpf_reached){.kind = profile + record + helpers, .row = change->row + start};
}

struct percobpf_text(percobpf_replay)(const char *manifest, size_t manifest_count, const char *script, size_t script_count,
    const char *schedule, size_t schedule_count, uint64_t clock, char *out, size_t room) {
    note("replay", 4, (const void *[]){manifest, script, schedule, out}, (const size_t[]){manifest_count, script_count, schedule_count, room});
    return (struct percobpf_text){.needed = (size_t)clock};
}

/* Gives all pointers but those of this set. */
static void give(unsigned set) {
    for (size_t at = 0; at < MOST; at++) {
        given[at] = set >> at & 1 ? bytes_given[at] : NULL;
    }
}

static size_t length_of(size_t at) { return given[at] != NULL ? sizeof bytes_given[at] : 0; }

int main(void) {
    struct percobpf_change change = {.row = 7};
    for (unsigned set = 0; set < 1u << MOST; set++) {
        give(set);
        percobpf_check(given[0], length_of(0), 1, 1, 0);
        percobpf_asm(given[0], length_of(0), 1, given[1], length_of(1));
        percobpf_dis(given[0], length_of(0), 1, given[1], length_of(1));
        percobpf_manifest(given[0], length_of(0));
        percobpf_replay(given[0], length_of(0), given[1], length_of(1), given[2], length_of(2), 0, given[3], length_of(3));
        given[1] = given[1] != NULL ? replies_given : NULL;
        percobpf_run(given[0], length_of(0), 1, 1, 0, &change, 9, given[1], given[1] != NULL ? 1 : 0);
    }
    printf("%zu calls, %zu wrong\n", calls, wrong);
    return wrong != 0;
}
