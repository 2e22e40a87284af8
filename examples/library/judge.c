/* Judges programs in this process: each word is a file with a program's text, which is assembled and judged for all helpers.
 *
 *     cc -Ilibrary examples/library/judge.c library/out/libpercobpf.a -o judge
 *     ./judge examples/copy.s examples/watch.s
 */
#include "percobpf_api.h"

#include <stdio.h>

enum { MOST_TEXT = 1 << 20, MOST_CODE = 512 * 8 };

/* The verdict on the text of a program of profile 1, which has at most 512 slots, as a line. */
static void judge(const char *name, const char *text, size_t count) {
    uint8_t code[MOST_CODE];
    struct percobpf_text made = percobpf_asm(text, count, 1, code, sizeof code);
    if (made.kind == PERCOBPF_KIND_REFUSED) {
        printf("%s: line %zu code %u\n", name, made.place, (unsigned)made.code);
        return;
    }
    if (made.kind != PERCOBPF_KIND_DONE) {
        printf("%s: kind %u\n", name, (unsigned)made.kind);
        return;
    }
    struct percobpf_verdict verdict = percobpf_check(code, made.needed, 1, 1, PERCOBPF_ALL_HELPERS);
    if (verdict.kind == PERCOBPF_KIND_DONE) {
        printf("%s: accepted %u slots\n", name, (unsigned)verdict.slot);
    } else {
        printf("%s: refused slot %u code %u\n", name, (unsigned)verdict.slot, (unsigned)verdict.code);
    }
}

int main(int count, char **words) {
    static char text[MOST_TEXT];
    if (percobpf_version().interface != PERCOBPF_INTERFACE) {
        return 2;
    }
    for (int at = 1; at < count; at++) {
        FILE *file = fopen(words[at], "rb");
        if (!file) {
            perror(words[at]);
            return 1;
        }
        judge(words[at], text, fread(text, 1, sizeof text, file));
        fclose(file);
    }
    return 0;
}
