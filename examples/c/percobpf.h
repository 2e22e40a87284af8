/* What an observer sees: the change that it runs on, and the helpers that it may call.
 *
 * An observer is one function, compiled for BPF (RFC 9669) by
 *
 *     clang -target bpfel -mcpu=v3 -O2 -c NAME.c -o NAME.o
 *     llvm-objcopy -O binary --only-section=observer NAME.o NAME.bin
 *
 * It gets the address of the change, runs to its end without loops, and returns 0. With another result its writes are
 * dropped. Its stack has 512 bytes; a pointer may not be stored there, compared, or moved by a number that isn't known
 * when it is compiled. `percobpf check NAME.bin` reports whether a program is accepted, and where it isn't. */
#ifndef PERCOBPF_H
#define PERCOBPF_H

typedef unsigned char u8;
typedef unsigned int u32;
typedef unsigned long long u64;

/* The change record of version 1: 80 bytes, which may be read and not written. */
struct change {
    u64 row;
    u64 column;
    u64 start;        /* of the transaction that made the change */
    u64 commit;       /* of that transaction */
    u64 present;      /* 1: the cell has a value; 0: it was deleted */
    u64 acknowledged; /* the start of this observer's last committed run on the cell, or 0 */
    u64 value[4];     /* 32 bytes as four little-endian words; zero where the cell was deleted */
};

/* That of version 2, for an observer whose element of the manifest has `"record": 2`: 120 bytes, which begin as those of
 * version 1. The old value is that of the cell as of `acknowledged`: what the observer's last committed run on it saw. */
struct change_with_old {
    u64 row;
    u64 column;
    u64 start;
    u64 commit;
    u64 present;
    u64 acknowledged;
    u64 value[4];
    u64 had_value; /* 1: the cell had a value then; 0: it had none, or there was no run */
    u64 old[4];    /* that value; zero where there was none */
};

/* The content of a cell: 32 bytes. */
struct value {
    u64 word[4];
};

/* Reads a cell as of this run's start: 0 and its value; 1 and zeros where it is absent or deleted; 2 and zeros where
 * the column is over 15. The run's own writes aren't seen. */
static u64 (*const read_cell)(u64 row, u64 column, struct value *value) = (void *)1;

/* Writes a cell when this run commits: 0; 2 where the column is over 15; 3 where it would be the 17th cell. */
static u64 (*const write_cell)(u64 row, u64 column, const struct value *value) = (void *)2;

/* Deletes a cell when this run commits; answers as write_cell does. */
static u64 (*const delete_cell)(u64 row, u64 column) = (void *)3;

/* This run's start timestamp. */
static u64 (*const run_start)(void) = (void *)4;

/* Before the observer's function. */
#define OBSERVER __attribute__((section("observer"), used))

/* The same for an observer of this column, so that `./manifest` reads the column, and the version of the change record, from
 * the object: OBSERVER_OF(0) u64 NAME(const struct change *change), or, of version 2,
 * OBSERVER_WITH_OLD_OF(0) u64 NAME(const struct change_with_old *change). */
#define OBSERVER_ABOUT(column, version) \
    static const u32 observer_about[2] __attribute__((section("observer.about"), used)) = {column, version};
#define OBSERVER_OF(column) OBSERVER_ABOUT(column, 1) OBSERVER
#define OBSERVER_WITH_OLD_OF(column) OBSERVER_ABOUT(column, 2) OBSERVER

#endif
