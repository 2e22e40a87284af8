// Has the kernel run the BPF programs of standard input by bpf() (BPF_PROG_TEST_RUN), and prints a line for each: `result` and
// register 0 as 16 hexadecimal digits, or `refused`, the error's number and the last line of the verifier's log.
//
// A program stands there as its number of slots in four bytes, 80 bytes of context, and its slots. It is loaded with the type
// SYSCALL, whose context is memory of the caller: register 1 points to it, and the program has to leave register 0 in the last
// eight bytes of it. Status 3: bpf() isn't allowed here.
#include <errno.h>
#include <linux/bpf.h>
#include <stdint.h>
#include <stdio.h>
#include <string.h>
#include <sys/syscall.h>
#include <unistd.h>

#define MOST_SLOTS 8192
#define CONTEXT_WORDS 10

static struct bpf_insn slots[MOST_SLOTS];
static uint64_t context[CONTEXT_WORDS];
static char notes[1 << 20];

// Loads a program, with the verifier's log where that is wanted.
static int load(uint32_t count, uint32_t log_level) {
    union bpf_attr how;
    memset(&how, 0, sizeof how);
    how.prog_type = BPF_PROG_TYPE_SYSCALL;
    how.prog_flags = BPF_F_SLEEPABLE;
    how.insns = (uint64_t)(uintptr_t)slots;
    how.insn_cnt = count;
    how.license = (uint64_t)(uintptr_t) "GPL";
    if (log_level != 0) {
        how.log_level = log_level;
        how.log_buf = (uint64_t)(uintptr_t)notes;
        how.log_size = sizeof notes;
    }
    return (int)syscall(SYS_bpf, BPF_PROG_LOAD, &how, sizeof how);
}

// The last line of the log that says why, before the figures.
static const char *reason(void) {
    char *figures = strstr(notes, "processed ");
    if (figures != NULL && figures > notes) {
        figures[-1] = 0;
    }
    char *last = strrchr(notes, '\n');
    return last == NULL ? notes : last + 1;
}

static int run(int loaded) {
    union bpf_attr how;
    memset(&how, 0, sizeof how);
    how.test.prog_fd = (uint32_t)loaded;
    how.test.ctx_in = (uint64_t)(uintptr_t)context;
    how.test.ctx_size_in = sizeof context;
    return (int)syscall(SYS_bpf, BPF_PROG_TEST_RUN, &how, sizeof how);
}

int main(void) {
    uint32_t count;
    int has_loaded = 0;
    while (fread(&count, sizeof count, 1, stdin) == 1) {
        if (count > MOST_SLOTS || fread(context, sizeof context, 1, stdin) != 1 ||
            fread(slots, sizeof slots[0], count, stdin) != count) {
            return 2;
        }
        int loaded = load(count, 0);
        if (loaded < 0 && !has_loaded && (errno == EPERM || errno == ENOSYS)) {
            return 3;
        }
        if (loaded < 0) {
            int number = errno;
            notes[0] = 0;
            load(count, 1);
            printf("refused %d %s\n", number, reason());
            continue;
        }
        has_loaded = 1;
        if (run(loaded) < 0) {
            printf("refused %d run\n", errno);
        } else {
            printf("result %016llx\n", (unsigned long long)context[CONTEXT_WORDS - 1]);
        }
        close(loaded);
    }
    return 0;
}
