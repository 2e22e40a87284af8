/* percobpf in a C program's own process: what needs no table. The functions go from bytes to bytes, and library/make builds them:
   `cc .. library/out/libpercobpf.a`, or `-lpercobpf` for the shared object, on Linux for x86-64. docs/EMBEDDING.md shows a caller.

   Threads: the library has no state, takes no lock and starts no thread. Any thread may call any function at any time, but not from
   a signal handler, and not in the child of a fork of a process with threads, since each may call `malloc`.

   Stack: a call takes fewer than PERCOBPF_STACK_BYTES. `percobpf_manifest` and `percobpf_replay` take most, of a manifest whose arrays
   or objects are nested 127 deep; other calls take a tenth of that at most. This is measured (checks/c_stack.c), and not proved.

   Memory: what a function is given stays the caller's, is only read during the call, and isn't kept. What it takes from `malloc` it
   gives back before it returns. There is nothing to open, to close or to free.

   Answers: each function returns a struct of numbers. Read `kind` first. Members that a kind doesn't name are 0.

   Texts and bytes: as `snprintf` does, a function writes into `out` what fits into `room` bytes, and returns in `needed` how many
   bytes the whole has. `kind` doesn't depend on `room`: the whole is there where `needed <= room`. So a call with `room` 0
   measures. Unlike `snprintf` it writes no byte 0 at the end, and `needed` is the length. Bytes of `out` after what was written stay
   as they are; so do all where there is nothing to write, and `needed` is 0 then.

   Pointers: at `bytes` and `text` as many bytes may be read as the next argument says, and at `out` written. `out` overlaps no
   other argument. A pointer may be null where its length is 0. Nothing checks this: a wrong length is undefined behavior.

   Codes are those of docs/CODES.md. What each function answers is proved, but for the two things that stand in C: the wrappers below,
   which take null pointers, and `percobpf_commit`. */
#ifndef PERCOBPF_API_H
#define PERCOBPF_API_H
#include <stddef.h>
#include <stdint.h>
#ifdef __cplusplus
extern "C" {
#endif

/* The version of this header. A library with another `interface` (`percobpf_version`) is not for it. */
#define PERCOBPF_INTERFACE 1

/* A call takes fewer bytes of stack than these 160 KiB. A thread with such a stack has room for any call of its first function. */
#define PERCOBPF_STACK_BYTES 163840

enum percobpf_kind {
    PERCOBPF_KIND_DONE = 0,         /* accepted, assembled, listed, replayed, or run to the end */
    PERCOBPF_KIND_REFUSED = 1,      /* what was given is at fault, and `code` is why */
    PERCOBPF_KIND_NO_MEMORY = 2,    /* `malloc` had none; `code` is 1. The same call may be made again */
    PERCOBPF_KIND_BAD_ARGUMENT = 3, /* a number that isn't one of those that it may be */
    PERCOBPF_KIND_NOT_TEXT = 4,     /* what is to be a text isn't UTF-8 */
    PERCOBPF_KIND_ASKS = 5          /* `percobpf_run`: the program asks for a cell */
};

/* Numbers for `helpers`, to be or-ed. */
enum percobpf_helpers {
    PERCOBPF_READS = 1,   /* helper 1, reads a cell */
    PERCOBPF_WRITES = 2,  /* helper 2, writes a cell */
    PERCOBPF_DELETES = 4, /* helper 3, deletes a cell */
    PERCOBPF_STARTS = 8,  /* helper 4, returns the start timestamp */
    PERCOBPF_ALL_HELPERS = 15
};

/* ---- the verdict on a program */

struct percobpf_verdict {
    uint32_t kind; /* done, refused, no memory, or bad argument */
    uint32_t slot; /* done: how many slots the program has; refused: the first slot at fault, from 0 */
    uint32_t code; /* refused: the lowest code at that slot, 10 to 38 */
};

/* Judges the bytes of a program as an upload is judged.
   profile  1 or 2: which instructions there are (docs/MACHINE.md)
   record   1 or 2: the version of the change record that the program is to be run with. In a manifest of profile 1 it is 1
   helpers  those that the program may call, of enum percobpf_helpers; the command `check` takes all */
struct percobpf_verdict percobpf_check(const uint8_t *bytes, size_t count, uint32_t profile, uint32_t record, uint32_t helpers);

/* ---- programs as texts, and back */

struct percobpf_text {
    uint32_t kind;
    uint32_t code;  /* refused: why */
    size_t place;   /* refused: where, by each function's own count */
    size_t needed;  /* done: how many bytes there are */
};

/* Assembles the text of a program, one instruction per line, in a profile. `out` gets the program's bytes, 8 for each slot.
   Refused: `place` is the first line at fault, from 1, or 0 where the text has no instruction (84); codes 80 to 84.
   Kinds: done, refused, no memory, bad argument (the profile), not text. */
struct percobpf_text percobpf_asm(const char *text, size_t count, uint32_t profile, uint8_t *out, size_t room);

/* Lists the bytes of a program in a profile: `out` gets the text that `percobpf_asm` reads back, with a newline after each line.
   Refused: `place` is the first slot at fault, from 0; codes 10 to 16. The rules of `percobpf_check` aren't asked.
   Kinds: done, refused, no memory, bad argument (the profile). */
struct percobpf_text percobpf_dis(const uint8_t *bytes, size_t count, uint32_t profile, char *out, size_t room);

/* ---- the verdict on a manifest */

/* The member `observer` where a fault is of the whole manifest. */
#define PERCOBPF_NO_OBSERVER UINT32_MAX

struct percobpf_manifest_verdict {
    uint32_t kind;
    uint32_t observers; /* done: how many there are, at most 32 */
    uint32_t observer;  /* refused: the observer at fault, from 0; of all other kinds, and where it is the whole's fault,
                           PERCOBPF_NO_OBSERVER */
    uint32_t code;      /* refused: why, 50 to 56 */
    uint32_t slot;      /* refused with 56: the first slot of that observer's program at fault */
    uint32_t slot_code; /* refused with 56: the lowest code there, 10 to 38; else 0 */
};

/* Judges the text of a manifest, each program with its own helpers and record.
   Kinds: done, refused, no memory, not text. */
struct percobpf_manifest_verdict percobpf_manifest(const char *text, size_t count);

/* ---- a run of a program

   A program runs on the record of a change, and asks for cells on its way. Nothing is kept between two calls: each begins at the
   program's entry, with all replies so far. So call with none, add a reply to the array for each ask, and call again, until the
   program ends. It asks at most as often as it has slots. */

/* A number `has_..` is 0 for no; any other is yes. Where it is 0, the bytes after it aren't looked at. */
struct percobpf_change {
    uint64_t row;
    uint32_t column;       /* 0 to 15 */
    uint32_t has_value;    /* whether the cell got a value; else it was deleted */
    uint8_t value[32];
    uint64_t start;        /* when the transaction that changed the cell began */
    uint64_t commit;       /* and when it committed */
    uint64_t acknowledged; /* up to when the observer has handled changes of the cell before, or 0 */
    uint32_t has_old;      /* whether the cell had a value then. Only a record of version 2 shows it */
    uint8_t old[32];
};

struct percobpf_reply {
    uint32_t has_value; /* else the cell is absent, or deleted */
    uint8_t value[32];
};

struct percobpf_write {
    uint64_t row;
    uint32_t column;
    uint32_t has_value; /* else the cell is deleted */
    uint8_t value[32];
};

struct percobpf_reached {
    uint32_t kind;
    uint32_t slot;         /* refused: the first slot at fault, from 0 */
    uint32_t code;         /* refused: the lowest code at that slot, 10 to 38 */
    uint32_t instructions; /* asks: how many were done before; done: how many in all, the exit included */
    size_t replied;        /* asks, done: how many of the replies the program had. If it asks, it had all */
    uint64_t row;          /* asks: the cell */
    uint32_t column;
    uint32_t write_count;  /* done: how many cells it writes; none where the result isn't 0 */
    uint64_t result;       /* done: register 0 */
    struct percobpf_write writes[16]; /* done: the first `write_count`, in the order of the first write to each cell */
};

/* Runs the bytes of a program, judged as `percobpf_check` judges them with the same numbers.
   change   the change that the program runs on
   start    the run's start timestamp, which helper 4 returns
   replies  the replies to its first asks, in order, so many
   Kinds: asks, done, refused, no memory, bad argument (a number of `percobpf_check`, or the change's column). */
struct percobpf_reached percobpf_run(const uint8_t *bytes, size_t count, uint32_t profile, uint32_t record, uint32_t helpers,
    const struct percobpf_change *change, uint64_t start, const struct percobpf_reply *replies, size_t reply_count);

/* ---- a replay

   Lets the events of a schedule happen, as the command `replay` does: in a new table with the observers of a manifest and the changes
   of a script, with `clock` as the last timestamp given out. `out` gets the report; where a text or an event is at fault, it gets
   the line that the command prints, without a newline after it. Both are UTF-8.
   Not text: `place` is the first that isn't, of manifest 0, script 1 and schedule 2.
   Kinds: done, refused, no memory, not text. */
struct percobpf_text percobpf_replay(const char *manifest, size_t manifest_count, const char *script, size_t script_count,
    const char *schedule, size_t schedule_count, uint64_t clock, char *out, size_t room);

/* ---- versions */

struct percobpf_versions {
    uint32_t interface; /* PERCOBPF_INTERFACE of the header that the library is for */
    uint32_t profiles;  /* profiles are 1 to this */
    uint32_t records;   /* records are 1 to this */
    uint32_t helpers;   /* helpers are 1 to this, so that `helpers` is below 1 << this */
};

struct percobpf_versions percobpf_version(void);

/* The commit of the repository that the library was built of, in 40 hexadecimal digits, and after them `-changed` where a source
   differed from that commit; `unknown` where the sources weren't in git. The text is the library's, and stays. */
const char *percobpf_commit(void);

/* ---- null pointers

   The functions that the library exports take no null pointer. These wrappers pass them an address where the length is 0. Other
   languages call the exports themselves, and have to do the same; in C that is `(percobpf_check)(..)`. */

static inline struct percobpf_verdict percobpf_checked(const uint8_t *bytes, size_t count, uint32_t profile, uint32_t record, uint32_t helpers) {
    uint8_t none = 0;
    return percobpf_check(count ? bytes : &none, count, profile, record, helpers);
}

static inline struct percobpf_text percobpf_assembled(const char *text, size_t count, uint32_t profile, uint8_t *out, size_t room) {
    char none = 0;
    uint8_t no_room = 0;
    return percobpf_asm(count ? text : &none, count, profile, room ? out : &no_room, room);
}

static inline struct percobpf_text percobpf_listed(const uint8_t *bytes, size_t count, uint32_t profile, char *out, size_t room) {
    uint8_t none = 0;
    char no_room = 0;
    return percobpf_dis(count ? bytes : &none, count, profile, room ? out : &no_room, room);
}

static inline struct percobpf_manifest_verdict percobpf_manifest_judged(const char *text, size_t count) {
    char none = 0;
    return percobpf_manifest(count ? text : &none, count);
}

static inline struct percobpf_reached percobpf_ran(const uint8_t *bytes, size_t count, uint32_t profile, uint32_t record,
    uint32_t helpers, const struct percobpf_change *change, uint64_t start, const struct percobpf_reply *replies, size_t reply_count) {
    uint8_t none = 0;
    struct percobpf_reply no_reply = {0, {0}};
    return percobpf_run(count ? bytes : &none, count, profile, record, helpers, change, start, reply_count ? replies : &no_reply,
        reply_count);
}

static inline struct percobpf_text percobpf_replayed(const char *manifest, size_t manifest_count, const char *script,
    size_t script_count, const char *schedule, size_t schedule_count, uint64_t clock, char *out, size_t room) {
    char none = 0, no_room = 0;
    return percobpf_replay(manifest_count ? manifest : &none, manifest_count, script_count ? script : &none, script_count,
        schedule_count ? schedule : &none, schedule_count, clock, room ? out : &no_room, room);
}

#define percobpf_check(bytes, count, profile, record, helpers) percobpf_checked(bytes, count, profile, record, helpers)
#define percobpf_asm(text, count, profile, out, room) percobpf_assembled(text, count, profile, out, room)
#define percobpf_dis(bytes, count, profile, out, room) percobpf_listed(bytes, count, profile, out, room)
#define percobpf_manifest(text, count) percobpf_manifest_judged(text, count)
#define percobpf_run(bytes, count, profile, record, helpers, change, start, replies, reply_count) \
    percobpf_ran(bytes, count, profile, record, helpers, change, start, replies, reply_count)
#define percobpf_replay(manifest, manifest_count, script, script_count, schedule, schedule_count, clock, out, room) \
    percobpf_replayed(manifest, manifest_count, script, script_count, schedule, schedule_count, clock, out, room)

#ifdef __cplusplus
}
#endif
#endif
