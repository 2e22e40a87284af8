// `run FILE TIMES` runs the BPF program in a file so often by DPDK's interpreter, on 80 bytes that are those of the record
// of a deleted cell 7 0 of start 1 and commit 2, and prints what the last run ended with. `load FILE TIMES` only loads it
// so often, which verifies it and makes machine code of it; `verify FILE TIMES` loads it without machine code.
//
// DPDK has no switch for that. So its loader is linked from the static library with its call of bpf_jit turned to
// __wrap_bpf_jit here (`ld --wrap`); the loader doesn't look at what that call answers.
#include <errno.h>
#include <rte_bpf.h>
#include <stdint.h>
#include <stdio.h>
#include <stdlib.h>
#include <string.h>

#define MOST_SLOTS 4096
#define RECORD_BYTES 80

int __real_bpf_jit(struct rte_bpf *program);

static int makes_code = 1;

int __wrap_bpf_jit(struct rte_bpf *program) {
    return makes_code ? __real_bpf_jit(program) : -ENOTSUP;
}

int main(int argc, char **argv) {
    static struct ebpf_insn slots[MOST_SLOTS];
    uint64_t record[RECORD_BYTES / 8] = {7, 0, 1, 2};
    uint64_t end = 0;
    if (argc != 4) {
        return 2;
    }
    FILE *file = fopen(argv[2], "rb");
    if (file == NULL) {
        return 2;
    }
    size_t count = fread(slots, sizeof slots[0], MOST_SLOTS, file);
    fclose(file);
    struct rte_bpf_prm how = {
        .ins = slots,
        .nb_ins = (uint32_t)count,
        .prog_arg = {.type = RTE_BPF_ARG_PTR, .size = sizeof record},
    };
    long left = atol(argv[3]);
    makes_code = strcmp(argv[1], "verify") != 0;
    if (strcmp(argv[1], "run") != 0) {
        for (; left > 0; left--) {
            struct rte_bpf *loaded = rte_bpf_load(&how);
            if (loaded == NULL) {
                return 1;
            }
            rte_bpf_destroy(loaded);
        }
        return 0;
    }
    struct rte_bpf *program = rte_bpf_load(&how);
    if (program == NULL) {
        return 1;
    }
    for (; left > 0; left--) {
        end = rte_bpf_exec(program, record);
    }
    rte_bpf_destroy(program);
    printf("result %llu\n", (unsigned long long)end);
    return 0;
}
