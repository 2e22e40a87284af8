// `FILE TIMES` loads the BPF program in a file so often into the kernel by bpf(), as a socket filter, and prints how many
// microseconds the kernel's verifier took together, by its own log (BPF_LOG_STATS). Status 3: bpf() isn't allowed here.
#include <errno.h>
#include <linux/bpf.h>
#include <stdint.h>
#include <stdio.h>
#include <stdlib.h>
#include <string.h>
#include <sys/syscall.h>
#include <unistd.h>

#define MOST_SLOTS 512
#define LOG_STATS 4

int main(int argc, char **argv) {
    static struct bpf_insn slots[MOST_SLOTS];
    static char log[65536];
    unsigned long total = 0;
    if (argc != 3) {
        return 2;
    }
    FILE *file = fopen(argv[1], "rb");
    if (file == NULL) {
        return 2;
    }
    size_t count = fread(slots, sizeof slots[0], MOST_SLOTS, file);
    fclose(file);
    for (long left = atol(argv[2]); left > 0; left--) {
        union bpf_attr how;
        unsigned long took;
        memset(&how, 0, sizeof how);
        how.prog_type = BPF_PROG_TYPE_SOCKET_FILTER;
        how.insns = (uint64_t)(uintptr_t)slots;
        how.insn_cnt = (uint32_t)count;
        how.license = (uint64_t)(uintptr_t) "GPL";
        how.log_level = LOG_STATS;
        how.log_buf = (uint64_t)(uintptr_t)log;
        how.log_size = sizeof log;
        int loaded = (int)syscall(SYS_bpf, BPF_PROG_LOAD, &how, sizeof how);
        if (loaded < 0) {
            return errno == EPERM || errno == ENOSYS ? 3 : 1;
        }
        close(loaded);
        if (sscanf(log, "verification time %lu usec", &took) != 1) {
            return 1;
        }
        total += took;
    }
    printf("%lu\n", total);
    return 0;
}
