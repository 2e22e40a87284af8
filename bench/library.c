// `FILE TIMES` has the library for C judge the program in a file so often, with all helpers, and prints how many slots it has. Status 1:
// it is refused.
#include "../library/percobpf_api.h"

#include <stdio.h>
#include <stdlib.h>

int main(int argc, char **argv) {
    static uint8_t bytes[1 << 16];
    struct percobpf_verdict verdict = {0, 0, 0};
    if (argc != 3) {
        return 2;
    }
    FILE *file = fopen(argv[1], "rb");
    if (file == NULL) {
        return 2;
    }
    size_t count = fread(bytes, 1, sizeof bytes, file);
    fclose(file);
    for (long left = atol(argv[2]); left > 0; left--) {
        verdict = percobpf_check(bytes, count, 2, 1, 15);
        if (verdict.kind != PERCOBPF_KIND_DONE) {
            return 1;
        }
    }
    printf("%u\n", verdict.slot);
    return 0;
}
