/* Calls each function of library/percobpf_api.h on inputs whose answers are worked out by hand from RFC 9669 and docs/, and prints
 * what isn't as it has to be. Each input ends where no byte may be read, and each buffer where none may be written. Every request
 * for memory is refused once (the linker wraps malloc, realloc and free), and threads with little stack call at once.
 */
#include "../library/percobpf_api.h"

#include <pthread.h>
#include <stdatomic.h>
#include <stdio.h>
#include <stdlib.h>
#include <string.h>
#include <sys/mman.h>
#include <unistd.h>

enum { CANARY = 0xa5, THREADS = 8, ROUNDS = 500, DEEPEST = 127, MOST = 1 << 13 };

/* What a thread gets: the stack that the header names, and the rest for this file's own arrays and what a sanitizer adds. What a call
 * takes by itself, checks/c_stack.c measures. */
enum { STACK = PERCOBPF_STACK_BYTES + (112 << 10) };

static int met, faults;

static void expect(int holds, const char *what, size_t number) {
    met++;
    if (!holds) {
        faults++;
        printf("wrong: %s, %zu\n", what, number);
    }
}

/* ---- memory */

void *__real_malloc(size_t size);
void *__real_realloc(void *old, size_t size);
void __real_free(void *block);

/* Which request is refused, counted from 1; 0 refuses none. */
static long refused_at;
static atomic_long requests, blocks;

static int is_refused(void) { return atomic_fetch_add(&requests, 1) + 1 == refused_at; }

void *__wrap_malloc(size_t size);
void *__wrap_malloc(size_t size) {
    void *block = is_refused() ? NULL : __real_malloc(size);
    atomic_fetch_add(&blocks, block != NULL);
    return block;
}

void *__wrap_realloc(void *old, size_t size);
void *__wrap_realloc(void *old, size_t size) { return is_refused() ? NULL : __real_realloc(old, size); }

void __wrap_free(void *block);
void __wrap_free(void *block) {
    atomic_fetch_sub(&blocks, block != NULL);
    __real_free(block);
}

/* ---- inputs and buffers that end before a page that may not be touched */

struct guarded {
    uint8_t *begin, *end;
};

static struct guarded guarded(void) {
    size_t page = (size_t)sysconf(_SC_PAGESIZE), size = (MOST + page - 1) / page * page;
    uint8_t *at = mmap(NULL, size + page, PROT_READ | PROT_WRITE, MAP_PRIVATE | MAP_ANONYMOUS, -1, 0);
    if (at == MAP_FAILED || mprotect(at + size, page, PROT_NONE)) {
        perror("c_library");
        exit(2);
    }
    return (struct guarded){at, at + size};
}

enum { TEXTS = 3 };

static _Thread_local struct guarded given[TEXTS], taken;

static void guard_all(void) {
    for (int at = 0; at < TEXTS; at++) {
        given[at] = guarded();
    }
    taken = guarded();
}

/* The bytes, where a page begins after them that may not be read; so many texts may stand at once. */
static const void *put_as(int which, const void *bytes, size_t count) { return memcpy(given[which].end - count, bytes, count); }

static const void *put(const void *bytes, size_t count) { return put_as(0, bytes, count); }

/* A buffer of canaries, after which a page begins that may not be written. */
static void *room_for(size_t room) { return memset(taken.end - room, CANARY, room); }

static int are_canaries(const uint8_t *from, size_t count) {
    size_t at = 0;
    while (at < count && from[at] == CANARY) {
        at++;
    }
    return at == count;
}

/* ---- programs */

/* Programs in hexadecimal. A program of COPIES writes to column 1, READS reads, DELETES deletes. */
#define MOV "b700000000000000"
#define EXIT "9500000000000000"
#define START "8500000004000000"
#define MOVSX "b701000080000000bf10080000000000"
#define OLD "7110500000000000"
#define READS "b701000000000000b702000000000000bfa300000000000007030000e0ffffff8500000001000000"
#define WRITES "b701000000000000b702000000000000bfa300000000000007030000e0ffffff8500000002000000"
#define DELETES "b701000000000000b7020000000000008500000003000000"

struct judged {
    const char *code;
    uint32_t profile, record, helpers;
    struct percobpf_verdict verdict;
};

static const struct judged JUDGED[] = {
    {"", 1, 1, 15, {1, 0, 10}},
    {"b7", 1, 1, 15, {1, 0, 10}},
    {MOV EXIT, 1, 1, 0, {0, 2, 0}},
    {MOV EXIT, 1, 1, 15, {0, 2, 0}},
    {MOV EXIT, 2, 2, 15, {0, 2, 0}},
    {MOV, 1, 1, 0, {1, 0, 36}},
    {EXIT, 1, 1, 0, {1, 0, 21}},
    {MOV EXIT EXIT, 1, 1, 0, {1, 2, 35}},
    {"8f01000000000000" EXIT, 1, 1, 0, {1, 0, 12}},
    /* a helper that may be called, and all but that one */
    {READS EXIT, 1, 1, 1, {0, 6, 0}},
    {READS EXIT, 1, 1, 14, {1, 4, 30}},
    /* it writes stack bytes that aren't set, which is asked only of a helper that may be called */
    {WRITES EXIT, 1, 1, 2, {1, 4, 26}},
    {WRITES EXIT, 1, 1, 13, {1, 4, 30}},
    {DELETES EXIT, 1, 1, 4, {0, 4, 0}},
    {DELETES EXIT, 1, 1, 11, {1, 2, 30}},
    {START EXIT, 1, 1, 8, {0, 2, 0}},
    {START EXIT, 1, 1, 7, {1, 0, 30}},
    /* the same by the names that the header has for these numbers */
    {READS EXIT, 1, 1, PERCOBPF_READS, {0, 6, 0}},
    {WRITES EXIT, 1, 1, PERCOBPF_WRITES, {1, 4, 26}},
    {DELETES EXIT, 1, 1, PERCOBPF_DELETES, {0, 4, 0}},
    {START EXIT, 1, 1, PERCOBPF_STARTS, {0, 2, 0}},
    {DELETES EXIT, 1, 1, PERCOBPF_ALL_HELPERS - PERCOBPF_DELETES, {1, 2, 30}},
    {START EXIT, 1, 1, PERCOBPF_ALL_HELPERS - PERCOBPF_STARTS, {1, 0, 30}},
    {MOV EXIT, 1, 1, PERCOBPF_ALL_HELPERS + 1, {3, 0, 0}},
    /* an instruction of profile 2, and a byte of the record of version 2 */
    {MOVSX EXIT, 2, 1, 0, {0, 3, 0}},
    {MOVSX EXIT, 1, 1, 0, {1, 1, 14}},
    {OLD EXIT, 1, 2, 0, {0, 2, 0}},
    {OLD EXIT, 1, 1, 0, {1, 0, 27}},
    {OLD EXIT, 2, 1, 0, {1, 0, 27}},
    /* numbers that stand for nothing, also where there is nothing to judge */
    {MOV EXIT, 0, 1, 0, {3, 0, 0}},
    {MOV EXIT, 3, 1, 0, {3, 0, 0}},
    {MOV EXIT, UINT32_MAX, 1, 0, {3, 0, 0}},
    {MOV EXIT, 1, 0, 0, {3, 0, 0}},
    {MOV EXIT, 1, 3, 0, {3, 0, 0}},
    {MOV EXIT, 1, 1, 16, {3, 0, 0}},
    {MOV EXIT, 1, 1, UINT32_MAX, {3, 0, 0}},
    {"", 0, 1, 0, {3, 0, 0}},
};

static size_t bytes_of(const char *digits, uint8_t *bytes) {
    size_t count = strlen(digits) / 2;
    for (size_t at = 0; at < count; at++) {
        sscanf(digits + 2 * at, "%2hhx", &bytes[at]);
    }
    return count;
}

static int is_verdict(struct percobpf_verdict a, struct percobpf_verdict b) {
    return a.kind == b.kind && a.slot == b.slot && a.code == b.code;
}

static void try_check(void) {
    for (size_t at = 0; at < sizeof JUDGED / sizeof *JUDGED; at++) {
        const struct judged *its = &JUDGED[at];
        uint8_t code[MOST];
        size_t count = bytes_of(its->code, code);
        struct percobpf_verdict verdict = percobpf_check(put(code, count), count, its->profile, its->record, its->helpers);
        expect(is_verdict(verdict, its->verdict), "a verdict", at);
    }
    expect(is_verdict(percobpf_check(NULL, 0, 1, 1, 0), (struct percobpf_verdict){1, 0, 10}), "a verdict on null", 0);
}

/* ---- texts */

struct written {
    const char *text, *code; /* one of them null where there is none */
    uint32_t profile;
    uint32_t kind, number;
    size_t place;
};

#define TEXT "mov64 r0, 0\nexit\n"
#define LDDW "1800000007000000" "0000000001000000"

static const struct written ASSEMBLED[] = {
    {TEXT, MOV EXIT, 1, 0, 0, 0},
    {TEXT, MOV EXIT, 2, 0, 0, 0},
    {"# a remark\n\nlddw r0, 4294967303", LDDW, 1, 0, 0, 0},
    {"", NULL, 1, 1, 84, 0},
    {"# a remark\n", NULL, 1, 1, 84, 0},
    {TEXT "foo r1\n", NULL, 1, 1, 80, 3},
    {"# a remark\nmov64 r0,  1\n", NULL, 1, 1, 81, 2},
    {"mov64 r0, 2147483648", NULL, 1, 1, 82, 1},
    {"movsx64 r0, r1, 8", "bf10080000000000", 2, 0, 0, 0},
    {"movsx64 r0, r1, 8", NULL, 1, 1, 80, 1},
    {"\xff", NULL, 1, 4, 0, 0},
    {TEXT "# \xc3\xa4", MOV EXIT, 1, 0, 0, 0},
    {TEXT "# \xc3", NULL, 1, 4, 0, 0},
    {TEXT, NULL, 0, 3, 0, 0},
    {TEXT, NULL, 3, 3, 0, 0},
    {"\xff", NULL, 3, 3, 0, 0},
};

static const struct written LISTED[] = {
    {TEXT, MOV EXIT, 1, 0, 0, 0},
    {TEXT, MOV EXIT, 2, 0, 0, 0},
    {"lddw r0, 4294967303\n", LDDW, 1, 0, 0, 0},
    {"movsx64 r0, r1, 8\n", "bf10080000000000", 2, 0, 0, 0},
    {NULL, "bf10080000000000", 1, 1, 14, 0},
    {NULL, "", 1, 1, 10, 0},
    {NULL, MOV "8f01000000000000", 1, 1, 12, 1},
    {NULL, MOV EXIT "ff", 1, 1, 10, 0},
    {NULL, MOV EXIT, 0, 3, 0, 0},
    {NULL, MOV EXIT, 3, 3, 0, 0},
};

static struct percobpf_text call(int is_listing, const void *from, size_t count, uint32_t profile, void *out, size_t room) {
    return is_listing ? percobpf_dis(from, count, profile, out, room) : percobpf_asm(from, count, profile, out, room);
}

/* With each room up to one more than is needed: the answer is the same, as much as fits is there, and nothing after it. */
static void try_rooms(const struct written *its, size_t number, int is_listing) {
    uint8_t code[MOST];
    size_t text = its->text ? strlen(its->text) : 0, count = its->code ? bytes_of(its->code, code) : 0;
    const void *from = is_listing ? put(code, count) : put(its->text, text), *whole = is_listing ? its->text : (const char *)code;
    size_t given_count = is_listing ? count : text, needed = its->kind ? 0 : is_listing ? text : count;
    for (size_t room = 0; room <= needed + 1; room++) {
        uint8_t *out = room_for(room);
        struct percobpf_text answer = call(is_listing, from, given_count, its->profile, out, room);
        size_t fits = room < needed ? room : needed;
        expect(answer.kind == its->kind && answer.code == its->number && answer.place == its->place, "an answer", number);
        expect(answer.needed == needed, "what is needed", number);
        expect((!fits || !memcmp(out, whole, fits)) && are_canaries(out + fits, room - fits), "a buffer", number);
    }
}

static void try_texts(void) {
    for (size_t at = 0; at < sizeof ASSEMBLED / sizeof *ASSEMBLED; at++) {
        try_rooms(&ASSEMBLED[at], at, 0);
    }
    for (size_t at = 0; at < sizeof LISTED / sizeof *LISTED; at++) {
        try_rooms(&LISTED[at], at, 1);
    }
    expect(percobpf_asm(NULL, 0, 1, NULL, 0).code == 84, "an assembled null", 0);
    expect(percobpf_dis(NULL, 0, 1, NULL, 0).code == 10, "a listed null", 0);
    expect(percobpf_asm(TEXT, strlen(TEXT), 1, NULL, 0).needed == 16, "a measured program", 0);
}

/* ---- manifests */

#define WATCH "{\"name\":\"watch\",\"column\":0,\"helpers\":[],\"code\":\"" MOV EXIT "\"}"
#define LOW "{\"name\":\"low\",\"column\":1,\"helpers\":[1],\"code\":\"" START EXIT "\"}"
#define MANIFEST(observers) "{\"profile\":1,\"observers\":[" observers "]}"

static const struct {
    const char *text;
    struct percobpf_manifest_verdict verdict;
} MANIFESTS[] = {
    {MANIFEST(""), {0, 0, UINT32_MAX, 0, 0, 0}},
    {MANIFEST(WATCH), {0, 1, UINT32_MAX, 0, 0, 0}},
    {"", {1, 0, UINT32_MAX, 50, 0, 0}},
    {"[]", {1, 0, UINT32_MAX, 51, 0, 0}},
    {MANIFEST(WATCH "," WATCH), {1, 0, 1, 53, 0, 0}},
    {MANIFEST(WATCH "," LOW), {1, 0, 1, 56, 0, 30}},
    {MANIFEST("{\"name\":\"late\",\"column\":0,\"helpers\":[],\"code\":\"" MOV EXIT EXIT "\"}"), {1, 0, 0, 56, 2, 35}},
    {"\xff", {4, 0, UINT32_MAX, 0, 0, 0}},
};

static int is_manifest_verdict(struct percobpf_manifest_verdict a, struct percobpf_manifest_verdict b) {
    return a.kind == b.kind && a.observers == b.observers && a.observer == b.observer && a.code == b.code && a.slot == b.slot &&
           a.slot_code == b.slot_code;
}

static void try_manifests(void) {
    for (size_t at = 0; at < sizeof MANIFESTS / sizeof *MANIFESTS; at++) {
        size_t count = strlen(MANIFESTS[at].text);
        struct percobpf_manifest_verdict verdict = percobpf_manifest(put(MANIFESTS[at].text, count), count);
        expect(is_manifest_verdict(verdict, MANIFESTS[at].verdict), "a manifest", at);
    }
    expect(percobpf_manifest(NULL, 0).code == 50, "a manifest of null", 0);
}

/* ---- runs */

/* Four words of the stack, the last at its lowest address; and a byte of what was read to that place. */
#define FOUR_WORDS "7a0af8ff01000000" "7a0af0ff02000000" "7a0ae8ff03000000" "7a0ae0ff04000000"
#define READ_BYTE "71a0e0ff00000000"
/* The row of the change, its column, and the first byte of its value. */
#define ROW "7910000000000000"
#define COLUMN "7910080000000000"
#define VALUE "7110300000000000"

static const struct run {
    const char *code;
    uint32_t profile, column;
    size_t replies;
    struct percobpf_reached reached;
} RUNS[] = {
    {MOV EXIT, 1, 3, 0, {.instructions = 2}},
    {MOV EXIT, 2, 15, 0, {.instructions = 2}},
    {START EXIT, 1, 3, 0, {.instructions = 2, .result = 9}},
    {ROW EXIT, 1, 3, 0, {.instructions = 2, .result = 7}},
    {COLUMN EXIT, 1, 3, 0, {.instructions = 2, .result = 3}},
    {VALUE EXIT, 1, 3, 0, {.instructions = 2, .result = 42}},
    /* an ask, and what is done after its reply; others aren't had */
    {READS EXIT, 1, 3, 0, {.kind = 5, .instructions = 4}},
    {READS EXIT, 1, 3, 1, {.instructions = 6, .replied = 1}},
    {READS READ_BYTE EXIT, 1, 3, 1, {.instructions = 7, .replied = 1, .result = 5}},
    {READS READS EXIT, 1, 3, 1, {.kind = 5, .instructions = 9, .replied = 1}},
    {READS READS EXIT, 1, 3, 2, {.instructions = 11, .replied = 2, .result = 1}},
    {READS EXIT, 1, 3, 3, {.instructions = 6, .replied = 1}},
    {MOV EXIT, 1, 3, 3, {.instructions = 2}},
    /* what is written, but for another result than 0 */
    {FOUR_WORDS WRITES EXIT, 1, 3, 0, {.instructions = 10, .write_count = 1, .writes = {{0, 0, 1, {[0] = 4, [8] = 3, [16] = 2, [24] = 1}}}}},
    {DELETES EXIT, 1, 3, 0, {.instructions = 4, .write_count = 1}},
    {DELETES "b700000001000000" EXIT, 1, 3, 0, {.instructions = 5, .result = 1}},
    {EXIT, 1, 3, 0, {.kind = 1, .code = 21}},
    {MOV EXIT EXIT, 1, 3, 0, {.kind = 1, .slot = 2, .code = 35}},
    {MOV EXIT, 3, 3, 0, {.kind = 3}},
    {MOV EXIT, 1, 16, 0, {.kind = 3}},
};

static const struct percobpf_reply REPLIES[] = {{1, {5}}, {0, {6}}, {1, {7}}};

/* The answer of a run that begins at 9. All members are compared: there is no padding between them. */
static int has_reached(const struct run *its, struct percobpf_reached wanted, struct percobpf_reached *reached) {
    uint8_t code[MOST];
    size_t count = bytes_of(its->code, code);
    struct percobpf_change change = {.row = 7, .column = its->column, .has_value = 1, .value = {42}, .start = 1, .commit = 2};
    const struct percobpf_reply *replies = put_as(1, REPLIES, its->replies * sizeof *REPLIES);
    *reached = percobpf_run(put(code, count), count, its->profile, 1, 15, put_as(2, &change, sizeof change), 9, replies, its->replies);
    return memcmp(reached, &wanted, sizeof wanted) == 0;
}

static void try_runs(void) {
    struct percobpf_reached reached;
    for (size_t at = 0; at < sizeof RUNS / sizeof *RUNS; at++) {
        expect(has_reached(&RUNS[at], RUNS[at].reached, &reached), "a run", at);
    }
    struct percobpf_change change = {.row = 7};
    expect(percobpf_run(NULL, 0, 1, 1, 15, &change, 9, NULL, 0).code == 10, "a run of null", 0);
}

/* ---- replays */

static const struct replay {
    const char *texts[TEXTS]; /* manifest, script and schedule */
    uint64_t clock;
    uint32_t kind;
    size_t place;
    const char *text;
} REPLAYS[] = {
    {{MANIFEST(""), "", ""}, 0, 0, 0, "quiet\n"},
    {{MANIFEST(WATCH), "put 7 0 2a\n", ""}, 0, 0, 0, "runs watch 0\nquiet\n"},
    {{MANIFEST(WATCH), "put 7 0 2a\n", "launch 1 change 1\nstep 1 5\n"}, 0, 0, 0, "cell 7 0 commit 2 value 2a\nruns watch 0\nmarks 1 locks 0\n"},
    {{MANIFEST(WATCH), "put 7 0 2a\n", "launch 1 change 1\nstep 1 5\nlaunch 1 run watch 7\nstep 1 99\n"}, 9, 0, 0,
     "cell 7 0 commit 11 value 2a\nruns watch 1\nquiet\n"},
    {{"[]", "put", "launch"}, 0, 1, 0, "manifest: code 51"},
    {{MANIFEST(WATCH), "\nput 7 0 2A\n", "launch"}, 0, 1, 0, "script: line 2 code 72"},
    {{MANIFEST(WATCH), "put 7 0 2a\n", "\n\nlaunch 1 change\n"}, 0, 1, 0, "schedule: line 3 code 90"},
    {{MANIFEST(WATCH), "put 7 0 2a\n", "step 1 4\nlaunch 1 change 2\n"}, 0, 1, 0, "event 4 code 63"},
    {{"\xff", "\xff", "\xff"}, 0, 4, 0, ""},
    {{MANIFEST(""), "\xff", "\xff"}, 0, 4, 1, ""},
    {{MANIFEST(""), "", "\xff"}, 0, 4, 2, ""},
};

static struct percobpf_text call_replay(const struct replay *its, char *out, size_t room) {
    const char *texts[TEXTS];
    size_t counts[TEXTS];
    for (int at = 0; at < TEXTS; at++) {
        counts[at] = strlen(its->texts[at]);
        texts[at] = put_as(at, its->texts[at], counts[at]);
    }
    return percobpf_replay(texts[0], counts[0], texts[1], counts[1], texts[2], counts[2], its->clock, out, room);
}

static void try_replays(void) {
    for (size_t at = 0; at < sizeof REPLAYS / sizeof *REPLAYS; at++) {
        const struct replay *its = &REPLAYS[at];
        size_t needed = strlen(its->text);
        for (size_t room = 0; room <= needed + 1; room++) {
            uint8_t *out = room_for(room);
            struct percobpf_text answer = call_replay(its, (char *)out, room);
            size_t fits = room < needed ? room : needed;
            expect(answer.kind == its->kind && !answer.code && answer.place == its->place && answer.needed == needed, "a replay", at);
            expect(!memcmp(out, its->text, fits) && are_canaries(out + fits, room - fits), "the buffer of a replay", at);
        }
    }
    struct percobpf_text answer = percobpf_replay(NULL, 0, NULL, 0, NULL, 0, 0, NULL, 0);
    expect(answer.kind == 1 && answer.needed == strlen("manifest: code 50"), "a replay of null", 0);
}

static void try_versions(void) {
    struct percobpf_versions its = percobpf_version();
    expect(its.interface == PERCOBPF_INTERFACE && its.profiles == 2 && its.records == 2 && its.helpers == 4, "the versions", 0);
    expect(strspn(percobpf_commit(), "0123456789abcdef") == 40, "the commit", 0);
}

/* ---- refused requests: that the call answers so, changes nothing and keeps nothing, until it meets no refused one */

static void refuse_each(const char *what, int (*call_is)(int is_refused), long least) {
    long at = 0;
    for (int ended = 0; !ended; at++) {
        long before = blocks;
        requests = 0;
        refused_at = at + 1;
        ended = call_is(0);
        refused_at = 0;
        expect(ended || call_is(1), what, (size_t)at);
        expect(blocks == before, "a block that is kept", (size_t)at);
    }
    expect(at > least, what, (size_t)at);
}

/* Each returns whether the answer is that of a call with ample memory; or, where it has just been refused, whether its last answer
 * was that of a refused one, and the same call is answered now. */
static int is_checked(int is_again) {
    static struct percobpf_verdict last;
    int was_refused = is_verdict(last, (struct percobpf_verdict){2, 0, 1});
    uint8_t code[MOST];
    size_t count = bytes_of(READS EXIT, code);
    last = percobpf_check(put(code, count), count, 1, 1, 1);
    return (!is_again || was_refused) && is_verdict(last, (struct percobpf_verdict){0, 6, 0});
}

static int is_text(int is_listing, int is_again, struct percobpf_text *last) {
    uint8_t code[MOST], *out = room_for(64);
    size_t count = bytes_of(MOV EXIT, code), text = strlen(TEXT), needed = is_listing ? text : count;
    int was_refused = last->kind == 2 && last->code == 1 && !last->place && !last->needed;
    *last = call(is_listing, is_listing ? put(code, count) : put(TEXT, text), is_listing ? count : text, 1, out, 64);
    size_t written = last->kind ? 0 : needed;
    expect(are_canaries(out + written, 64 - written), "the buffer of a refused call", (size_t)is_listing);
    return (!is_again || was_refused) && !last->kind && last->needed == needed;
}

static int is_assembled(int is_again) {
    static struct percobpf_text last;
    return is_text(0, is_again, &last);
}

static int is_listed(int is_again) {
    static struct percobpf_text last;
    return is_text(1, is_again, &last);
}

static int is_registered(int is_again) {
    static struct percobpf_manifest_verdict last;
    int was_refused = is_manifest_verdict(last, (struct percobpf_manifest_verdict){2, 0, UINT32_MAX, 1, 0, 0});
    const char *text = MANIFEST(WATCH);
    last = percobpf_manifest(put(text, strlen(text)), strlen(text));
    return (!is_again || was_refused) && is_manifest_verdict(last, MANIFESTS[1].verdict);
}

static int has_run(int is_again) {
    static struct percobpf_reached last;
    struct percobpf_reached refused = {.kind = 2, .code = 1};
    int was_refused = !memcmp(&last, &refused, sizeof refused);
    struct run its = {READS EXIT, 1, 3, 1, {.instructions = 6, .replied = 1}};
    return has_reached(&its, its.reached, &last) && (!is_again || was_refused);
}

static int is_replayed(int is_again) {
    static struct percobpf_text last;
    int was_refused = last.kind == 2 && last.code == 1 && !last.place && !last.needed;
    uint8_t *out = room_for(100);
    last = call_replay(&REPLAYS[3], (char *)out, 100);
    size_t needed = strlen(REPLAYS[3].text), written = last.kind ? 0 : needed;
    expect(are_canaries(out + written, 100 - written), "the buffer of a refused replay", 0);
    return (!is_again || was_refused) && !last.kind && last.needed == needed;
}

static long try_refused(void) {
    long before = met;
    refuse_each("a refused check", is_checked, 3);
    refuse_each("a refused asm", is_assembled, 3);
    refuse_each("a refused dis", is_listed, 3);
    refuse_each("a refused manifest", is_registered, 15);
    refuse_each("a refused run", has_run, 3);
    refuse_each("a refused replay", is_replayed, 20);
    return met - before;
}

/* ---- threads */

static atomic_int wrong;

static void *call_all(void *unused) {
    (void)unused;
    guard_all();
    uint8_t code[MOST];
    size_t count = bytes_of(READS EXIT, code);
    const char *manifest = MANIFEST(WATCH "," LOW);
    /* the deepest text that is read as JSON, which takes most of the stack */
    char nested[6 * DEEPEST + 1];
    for (int at = 0; at < DEEPEST; at++) {
        memcpy(nested + 5 * at, "{\"a\":", 5);
    }
    memset(nested + 5 * DEEPEST, '1', 1);
    memset(nested + 5 * DEEPEST + 1, '}', DEEPEST);
    wrong += percobpf_manifest(put(nested, sizeof nested), sizeof nested).code != 51;
    wrong += percobpf_replay(put(nested, sizeof nested), sizeof nested, NULL, 0, NULL, 0, 0, NULL, 0).needed != 17;
    struct percobpf_reached reached;
    for (int round = 0; round < ROUNDS; round++) {
        uint8_t *out = room_for(64);
        int holds = is_verdict(percobpf_check(put(code, count), count, 1, 1, 1), (struct percobpf_verdict){0, 6, 0});
        holds = holds && percobpf_asm(put(TEXT, strlen(TEXT)), strlen(TEXT), 1, out, 64).needed == 16 && out[8] == 0x95;
        holds = holds && percobpf_dis(put(out, 16), 16, 1, (char *)out, 64).needed == 17 && !memcmp(out, TEXT, 17);
        struct percobpf_manifest_verdict verdict = percobpf_manifest(put(manifest, strlen(manifest)), strlen(manifest));
        holds = holds && is_manifest_verdict(verdict, MANIFESTS[5].verdict) && has_reached(&RUNS[8], RUNS[8].reached, &reached);
        struct percobpf_text report = call_replay(&REPLAYS[3], room_for(100), 100);
        wrong += !(holds && !report.kind && report.needed == strlen(REPLAYS[3].text));
    }
    return NULL;
}

static void try_threads(void) {
    pthread_t threads[THREADS];
    pthread_attr_t little;
    pthread_attr_init(&little);
    pthread_attr_setstacksize(&little, STACK);
    for (int at = 0; at < THREADS; at++) {
        expect(!pthread_create(&threads[at], &little, call_all, NULL), "a thread", (size_t)at);
    }
    for (int at = 0; at < THREADS; at++) {
        pthread_join(threads[at], NULL);
    }
    expect(!wrong, "calls of threads", (size_t)wrong);
}

int main(void) {
    guard_all();
    try_check();
    try_texts();
    try_manifests();
    try_runs();
    try_replays();
    try_versions();
    long refused = try_refused();
    try_threads();
    printf("%d expectations, %ld of them of refused requests, %d wrong\n", met, refused, faults);
    return faults != 0;
}
