/* Measures how much stack each function of library/percobpf_api.h takes, on the texts and the bytes for which it takes most, and prints
 * where that is PERCOBPF_STACK_BYTES or more. Each call is made twice:
 * - in a thread with ample stack that was painted before: the lowest byte that has changed shows how far down the call went;
 * - in a thread whose stack has PERCOBPF_STACK_BYTES in all, the thread's own part included, above a page that may not be touched.
 * It prints one line for each function: how many calls there were, and how many bytes the one took that took most.
 */
#include "../library/percobpf_api.h"
#include "deep_texts.h"

#include <pthread.h>
#include <signal.h>
#include <sys/mman.h>
#include <sys/resource.h>
#include <sys/wait.h>
#include <unistd.h>

/* The painted stack has room for a call that breaks the promise. */
enum { PAINT = 0x5a, PAINTED = 512 << 10, GUARD = 1 << 16, TEXTS = 3 };

/* The code of a text that can't be read as JSON, and what is wanted of one that can: any other. */
enum { NO_JSON = 50, IS_JSON = -1 };

enum function { CHECK, ASM, DIS, MANIFEST, RUN, REPLAY, FUNCTIONS };

static const char *const NAMES[FUNCTIONS] = {"check", "asm", "dis", "manifest", "run", "replay"};

static size_t calls[FUNCTIONS], most[FUNCTIONS], faults;

/* ---- one call, and what it takes */

struct call {
    enum function function;
    struct text given[TEXTS]; /* manifest, script and schedule; of all others the first alone */
    uint32_t profile, kind;
    int code;
    uint32_t answered_kind;
    int answered_code;
    const char *top; /* where the call began */
};

static char out[1 << 22];

/* The code at the end of the line of a fault, of which `out` has so much. */
static int code_of_line(size_t needed) {
    out[needed < sizeof out ? needed : sizeof out - 1] = 0;
    const char *at = strstr(out, "code ");
    return at ? atoi(at + strlen("code ")) : 0;
}

static void answered(struct call *its, uint32_t kind, uint32_t code) {
    its->answered_kind = kind;
    its->answered_code = kind == PERCOBPF_KIND_REFUSED ? (int)code : 0;
}

static struct percobpf_reply replies[SLOTS];

static void run(struct call *its) {
    static const struct percobpf_change change = {.row = 7, .has_value = 1, .value = {42}, .start = 1, .commit = 2};
    struct percobpf_reached reached = percobpf_run((const uint8_t *)its->given[0].at, its->given[0].count, its->profile, 1,
        PERCOBPF_ALL_HELPERS, &change, 9, replies, SLOTS);
    answered(its, reached.kind, reached.code);
}

static void *make(void *of) {
    struct call *its = of;
    const struct text *given = its->given;
    const uint8_t *bytes = (const uint8_t *)given[0].at;
    its->top = __builtin_frame_address(0);
    if (its->function == CHECK) {
        struct percobpf_verdict verdict = percobpf_check(bytes, given[0].count, its->profile, 1, PERCOBPF_ALL_HELPERS);
        answered(its, verdict.kind, verdict.code);
    } else if (its->function == ASM) {
        struct percobpf_text text = percobpf_asm(given[0].at, given[0].count, its->profile, (uint8_t *)out, sizeof out);
        answered(its, text.kind, text.code);
    } else if (its->function == DIS) {
        struct percobpf_text text = percobpf_dis(bytes, given[0].count, its->profile, out, sizeof out);
        answered(its, text.kind, text.code);
    } else if (its->function == MANIFEST) {
        struct percobpf_manifest_verdict verdict = percobpf_manifest(given[0].at, given[0].count);
        answered(its, verdict.kind, verdict.code);
    } else if (its->function == RUN) {
        run(its);
    } else {
        struct percobpf_text text = percobpf_replay(given[0].at, given[0].count, given[1].at, given[1].count, given[2].at,
            given[2].count, 0, out, sizeof out);
        answered(its, text.kind, (uint32_t)code_of_line(text.kind ? text.needed : 0));
    }
    return NULL;
}

/* A stack of so many bytes, above a page that may not be touched. */
static char *stack_of(size_t size) {
    char *at = mmap(NULL, GUARD + size, PROT_READ | PROT_WRITE, MAP_PRIVATE | MAP_ANONYMOUS, -1, 0);
    if (at == MAP_FAILED || mprotect(at, GUARD, PROT_NONE)) {
        fail("a stack");
    }
    return at + GUARD;
}

static void make_on(struct call *its, char *stack, size_t size) {
    pthread_t thread;
    pthread_attr_t with;
    if (pthread_attr_init(&with) || pthread_attr_setstack(&with, stack, size) || pthread_create(&thread, &with, make, its) ||
        pthread_join(thread, NULL)) {
        fail("a thread");
    }
    pthread_attr_destroy(&with);
}

/* How many bytes of stack the call takes, and in `whole` how many its thread takes with it. */
static size_t taken_by(struct call *its, size_t *whole) {
    static char *stack;
    if (!stack) {
        stack = stack_of(PAINTED);
    }
    memset(stack, PAINT, PAINTED);
    make_on(its, stack, PAINTED);
    const char *lowest = stack;
    while (*lowest == PAINT) {
        lowest++;
    }
    *whole = (size_t)(stack + PAINTED - lowest);
    return (size_t)(its->top - lowest);
}

static int is_as_wanted(const struct call *its) {
    int is_code = its->code == IS_JSON ? its->answered_code != NO_JSON : its->answered_code == its->code;
    return its->answered_kind == its->kind && is_code;
}

/* Makes a call on both stacks. */
static void measure(struct call its, const char *what) {
    static char *stack;
    if (!stack) {
        stack = stack_of(PERCOBPF_STACK_BYTES);
    }
    size_t whole, taken = taken_by(&its, &whole);
    int holds = is_as_wanted(&its), is_enough = whole < PERCOBPF_STACK_BYTES;
    if (is_enough) {
        make_on(&its, stack, PERCOBPF_STACK_BYTES);
    }
    if (!holds || !is_as_wanted(&its) || !is_enough) {
        printf("wrong: %s of %s: %zu bytes of %zu, kind %u code %d, wanted %u and %d\n", NAMES[its.function], what, taken, whole,
            (unsigned)its.answered_kind, its.answered_code, (unsigned)its.kind, its.code);
        faults++;
    }
    calls[its.function]++;
    most[its.function] = taken > most[its.function] ? taken : most[its.function];
}

/* ---- manifests that are nested deep */

static const struct text NONE = {"", 0};

static void measure_manifest(struct text manifest, int code, const char *what) {
    uint32_t kind = code ? PERCOBPF_KIND_REFUSED : PERCOBPF_KIND_DONE;
    measure((struct call){.function = MANIFEST, .given = {manifest}, .kind = kind, .code = code}, what);
    measure((struct call){.function = REPLAY, .given = {manifest, NONE, NONE}, .kind = kind, .code = code}, what);
    next = room;
}

static void try_nested(const struct place *place, const struct nest *nest, const struct leaf *leaf) {
    char what[200];
    snprintf(what, sizeof what, "%s around %s, in place of %s", nest->name, leaf->name, place->name);
    measure_manifest(nested(place, nest, leaf, DEEPEST), leaf->is_json ? IS_JSON : NO_JSON, what);
}

static void try_all_nested(void) {
    for (size_t place = 0; place < COUNT(PLACES); place++) {
        for (size_t nest = 0; nest < COUNT(NESTS); nest++) {
            for (size_t leaf = 0; leaf < COUNT(LEAVES); leaf++) {
                try_nested(&PLACES[place], &NESTS[nest], &LEAVES[leaf]);
            }
            measure_manifest(nested(&PLACES[place], &NESTS[nest], LEAVES, DEEPEST + 1), NO_JSON, NESTS[nest].name);
            measure_manifest(nested(&PLACES[place], &NESTS[nest], LEAVES, 20 * DEEPEST), NO_JSON, NESTS[nest].name);
        }
    }
}

/* ---- programs of as many slots as one has */

/* What is assembled to a program, once more and with a fault in its last line. */
static void try_listing(struct text program, const char *what) {
    const char *begin = next;
    struct percobpf_text listing = percobpf_dis((const uint8_t *)program.at, program.count, 2, next, (size_t)(room + ROOM - next));
    next += listing.needed;
    measure((struct call){.function = ASM, .given = {since(begin)}, .profile = 2}, what);
    measure((struct call){.function = ASM, .given = {since(begin)}, .profile = 1, .kind = PERCOBPF_KIND_REFUSED, .code = 83}, what);
    add_text("foo r1\n");
    measure((struct call){.function = ASM, .given = {since(begin)}, .profile = 2, .kind = PERCOBPF_KIND_REFUSED, .code = 80}, what);
}

static void try_program(const struct shape *shape) {
    static const int NO_OPCODE = 12;
    struct text program = program_of(shape, 1), other = program_of(shape, 0);
    for (enum function function = CHECK; function <= RUN; function++) {
        if (function == CHECK || function == DIS || function == RUN) {
            measure((struct call){.function = function, .given = {program}, .profile = 2}, shape->name);
            measure((struct call){.function = function, .given = {other}, .profile = 2, .kind = PERCOBPF_KIND_REFUSED, .code = NO_OPCODE}, shape->name);
        }
    }
    try_listing(program, shape->name);
    next = room;
}

/* Texts that are no programs: one line with many of a piece, and the code of its fault. */
static void try_lines(void) {
    static const struct {
        const char *begin, *middle;
        int code;
    } LINES[] = {{"# ", "x", 84}, {"mov64 r0, ", "9", 82}, {"mov64 r0, ", " ", 81}, {"", "x", 80}, {"mov64 ", "r0, ", 81}, {"", "\n", 84}};
    for (size_t at = 0; at < COUNT(LINES); at++) {
        const char *begin = next;
        add_text(LINES[at].begin);
        add_times(LINES[at].middle, 1000000);
        measure((struct call){.function = ASM, .given = {since(begin)}, .profile = 1, .kind = PERCOBPF_KIND_REFUSED, .code = LINES[at].code}, LINES[at].begin);
        next = room;
    }
}

/* ---- manifests of many long programs, and replays of them */

/* How many events the run of a program of 4,096 slots has at most, with what is read and written; and how many changes there are. */
enum { RUN_EVENTS = 5200, MANY = 2000 };

static void try_replay(const struct shape *shape) {
    struct text program = program_of(shape, 1), manifest = manifest_of(program), script = script_of(2);
    struct text schedule = schedule_of(2, RUN_EVENTS);
    measure((struct call){.function = REPLAY, .given = {manifest, script, schedule}}, shape->name);
    struct text other = manifest_of(program_of(shape, 0));
    measure((struct call){.function = REPLAY, .given = {other, script, schedule}, .kind = PERCOBPF_KIND_REFUSED, .code = 56}, shape->name);
    measure_manifest(manifest, 0, shape->name);
}

static void try_long_texts(void) {
    struct text manifest = manifest_of(program_of(SHAPES, 1)), script = script_of(MANY), schedule = schedule_of(MANY, 9);
    measure((struct call){.function = REPLAY, .given = {manifest, script, schedule}}, "many changes");
    add_text("put\n");
    struct text other = since(schedule.at);
    measure((struct call){.function = REPLAY, .given = {manifest, script, other}, .kind = PERCOBPF_KIND_REFUSED, .code = 90}, "a long schedule");
    add_times("\n", 1000000);
    add_text("put");
    other = since(schedule.at);
    measure((struct call){.function = REPLAY, .given = {manifest, other, NONE}, .kind = PERCOBPF_KIND_REFUSED, .code = 70}, "a long script");
    next = room;
}

/* ---- that too little stack is met */

/* Whether a process ends by the signal of a wrong address if its thread's stack has too little for a manifest of nested objects. */
static int is_met(size_t size) {
    struct call its = {.function = MANIFEST, .given = {nested(PLACES, &NESTS[1], LEAVES, DEEPEST)}};
    pid_t child = fork();
    if (child == 0) {
        struct rlimit none = {0, 0};
        setrlimit(RLIMIT_CORE, &none);
        make_on(&its, stack_of(size), size);
        _exit(0);
    }
    int status = 0;
    if (child < 0 || waitpid(child, &status, 0) != child) {
        fail("a process");
    }
    next = room;
    return WIFSIGNALED(status) && WTERMSIG(status) == SIGSEGV;
}

int main(void) {
    try_all_nested();
    for (size_t at = 0; at < COUNT(SHAPES); at++) {
        try_program(&SHAPES[at]);
        try_replay(&SHAPES[at]);
    }
    try_lines();
    try_long_texts();
    for (enum function function = CHECK; function < FUNCTIONS; function++) {
        printf("%s: %zu calls, %zu bytes\n", NAMES[function], calls[function], most[function]);
    }
    if (!is_met(most[MANIFEST] / 2)) {
        printf("wrong: half of the stack is enough\n");
        faults++;
    }
    printf("promised %zu bytes, %zu wrong\n", (size_t)PERCOBPF_STACK_BYTES, faults);
    return faults != 0;
}
