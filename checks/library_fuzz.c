/* Turns programs and texts at random, and compares what the library for C answers with what the programs themselves print.
 *
 *     library_fuzz SEED COUNT PERCOBPF PERCOBPF_STORY FILE..
 *
 * The files are what is turned: programs (.bin), their texts (.s), manifests (.json), scripts (.txt) and schedules (.schedule).
 * Those of a replay that differ by their endings alone belong together. A try turns one of them in up to four ways, calls the library, and has the program do the same on files in the folder that this is
 * started in. What is printed has to be what the answer of the library amounts to, byte for byte, with the same status:
 *
 *     check     a verdict                                       percobpf check
 *     helpers   a verdict with some of the helpers, and that    percobpf replay, of a manifest with this observer
 *               of the manifest
 *     run       a run, with a reply to each ask                 percobpf_story trial
 *     dis, asm  a listing, and the bytes of a text              percobpf dis, percobpf asm
 *     manifest  the verdict on a manifest                       percobpf replay, without changes and events
 *     replay    a report, or the line of a fault                percobpf replay
 *
 * All that the library is given ends where no byte may be read, and a buffer where none may be written. The first difference is
 * printed, with the input in the folder, and ends this with status 1. Else it prints for each kind how many tries there were of each
 * outcome, such as `check done 12`, and each code of a refusal that was met, as `code 26 1`.
 */
#define _GNU_SOURCE
#include "../library/percobpf_api.h"

#include <fcntl.h>
#include <inttypes.h>
#include <spawn.h>
#include <stdarg.h>
#include <stdio.h>
#include <stdlib.h>
#include <string.h>
#include <sys/mman.h>
#include <sys/wait.h>
#include <unistd.h>

extern char **environ;

enum { MOST = 1 << 17, PRINTED = 1 << 20, SLOT = 8, VALUE = 32, CELLS = 4, WORDS = 40, CANARY = 0xa5 };

static _Noreturn void fail(const char *what) {
    perror(what);
    exit(2);
}

/* ---- chance: xorshift64* */

static uint64_t seed;

static uint64_t chance(void) {
    seed ^= seed >> 12;
    seed ^= seed << 25;
    seed ^= seed >> 27;
    return seed * UINT64_C(0x2545f4914f6cdd1d);
}

/* A number below another, which isn't 0. */
static size_t below(size_t most) { return (size_t)((chance() >> 16) % most); }

static int one_in(size_t many) { return below(many) == 0; }

/* ---- bytes */

struct bytes {
    size_t count;
    uint8_t at[MOST];
};

static void insert(struct bytes *its, size_t place, const uint8_t *from, size_t count) {
    if (its->count + count <= MOST) {
        memmove(its->at + place + count, its->at + place, its->count - place);
        memcpy(its->at + place, from, count);
        its->count += count;
    }
}

static void erase(struct bytes *its, size_t place, size_t count) {
    memmove(its->at + place, its->at + place + count, its->count - place - count);
    its->count -= count;
}

/* What is given to the library ends before a page that may not be read or written. */
struct guarded {
    uint8_t *end;
};

static struct guarded guarded(size_t size) {
    size_t page = (size_t)sysconf(_SC_PAGESIZE), whole = (size + page - 1) / page * page;
    uint8_t *at = mmap(NULL, whole + page, PROT_READ | PROT_WRITE, MAP_PRIVATE | MAP_ANONYMOUS, -1, 0);
    if (at == MAP_FAILED || mprotect(at + whole, page, PROT_NONE)) {
        fail("mmap");
    }
    return (struct guarded){at + whole};
}

static struct guarded places[4], room_place;

static const void *put(int which, const void *bytes, size_t count) { return memcpy(places[which].end - count, bytes, count); }

/* ---- the files that are turned */

enum sort { PROGRAM, TEXT, MANIFEST, SCRIPT, SCHEDULE, SORTS };

static const char *const ENDINGS[SORTS] = {".bin", ".s", ".json", ".txt", ".schedule"};

enum { FILES = 256 };

static struct bytes *known[SORTS][FILES];
/* Their paths, and of each how much stands before the ending. */
static const char *paths[SORTS][FILES];
static size_t stems[SORTS][FILES];
static size_t many[SORTS];

static void read_all(const char *path) {
    for (int sort = 0; sort < SORTS; sort++) {
        size_t ending = strlen(ENDINGS[sort]), name = strlen(path);
        if (name < ending || strcmp(path + name - ending, ENDINGS[sort]) != 0 || many[sort] == FILES) {
            continue;
        }
        struct bytes *its = malloc(sizeof *its);
        FILE *file = fopen(path, "rb");
        if (its == NULL || file == NULL) {
            fail(path);
        }
        its->count = fread(its->at, 1, MOST, file);
        fclose(file);
        /* A program with no slot has none to give to others. */
        if (sort == PROGRAM && its->count < SLOT) {
            free(its);
        } else {
            paths[sort][many[sort]] = path;
            stems[sort][many[sort]] = name - ending;
            known[sort][many[sort]++] = its;
        }
    }
}

static const struct bytes *some(enum sort sort) { return known[sort][below(many[sort])]; }

/* The file of a sort that belongs to a schedule, or some other where there is none. */
static const struct bytes *belonging(enum sort sort, size_t schedule) {
    for (size_t at = 0; at < many[sort]; at++) {
        size_t stem = stems[sort][at];
        if (stem == stems[SCHEDULE][schedule] && memcmp(paths[sort][at], paths[SCHEDULE][schedule], stem) == 0) {
            return known[sort][at];
        }
    }
    return some(sort);
}

/* ---- turning */

/* A part of a program: some slots of one, from the pool. */
static void turn_program(struct bytes *its) {
    size_t slots = its->count / SLOT, slot = slots ? below(slots) : 0;
    const struct bytes *other = some(PROGRAM);
    const uint8_t *from = other->at + below(other->count / SLOT) * SLOT;
    static const uint8_t NUMBERS[] = {0, 1, 7, 8, 15, 16, 31, 32, 63, 64, 127, 128, 248, 254, 255};
    switch (slots ? below(12) : 0) {
    case 0:
        insert(its, slot * SLOT, from, SLOT);
        break;
    case 1:
        erase(its, slot * SLOT, SLOT);
        break;
    case 2:
        memcpy(its->at + slot * SLOT, from, SLOT);
        break;
    case 3:
        its->at[slot * SLOT] = from[0];
        break;
    case 4:
        its->at[slot * SLOT + 1] = from[1];
        break;
    case 5:
        memcpy(its->at + slot * SLOT + 2, from + 2, SLOT - 2);
        break;
    case 6:
        its->at[below(its->count)] = NUMBERS[below(sizeof NUMBERS)];
        break;
    case 7: {
        uint8_t twice[SLOT];
        memcpy(twice, its->at + slot * SLOT, SLOT);
        insert(its, slot * SLOT, twice, SLOT);
        break;
    }
    case 8:
        its->at[below(its->count)] = (uint8_t)chance();
        break;
    default:
        its->at[below(its->count)] ^= (uint8_t)(1u << below(8));
    }
    if (one_in(64)) {
        its->count -= below(its->count < 20 ? its->count + 1 : 20);
    }
    if (one_in(64)) {
        /* As long as the longest program of a profile, give or take one slot: `mov64 r0, 0` leads to the program. */
        size_t wanted = (one_in(2) ? 511 : 4095) + below(3);
        while (its->count / SLOT < wanted) {
            uint8_t moves[64 * SLOT] = {0};
            size_t left = wanted - its->count / SLOT, now = left < 64 ? left : 64;
            for (size_t at = 0; at < now; at++) {
                moves[at * SLOT] = 0xb7;
            }
            insert(its, 0, moves, now * SLOT);
        }
    }
}

/* Where a line of a text begins and ends, with its newline. */
static void a_line(const struct bytes *its, size_t *from, size_t *to) {
    size_t at = its->count ? below(its->count) : 0;
    for (*from = at; *from > 0 && its->at[*from - 1] != '\n'; --*from) {
    }
    for (*to = at; *to < its->count && its->at[*to] != '\n'; ++*to) {
    }
    *to += *to < its->count;
}

static void turn_text(struct bytes *its, enum sort sort) {
    const struct bytes *other = some(sort);
    size_t at = its->count ? below(its->count) : 0, from, to;
    static const char SIGNS[] = "0123456789abcdefr[]{}+-,;:\"# \n";
    switch (its->count ? below(10) : 0) {
    case 0:
        a_line(other, &from, &to);
        insert(its, at, other->at + from, to - from);
        break;
    case 1:
        a_line(its, &from, &to);
        erase(its, from, to - from);
        break;
    case 2:
        a_line(its, &from, &to);
        a_line(other, &at, &to);
        insert(its, from, other->at + at, to - at);
        break;
    case 3:
        erase(its, at, 1);
        break;
    case 4:
        insert(its, at, &its->at[at], 1);
        break;
    case 5:
        its->at[at] ^= (uint8_t)(1u << below(8));
        break;
    case 6:
        its->at[at] = (uint8_t)SIGNS[below(sizeof SIGNS - 1)];
        break;
    case 7:
        insert(its, at, (const uint8_t *)&SIGNS[below(sizeof SIGNS - 1)], 1);
        break;
    case 8:
        /* A digit for a digit, near where this is. */
        while (at < its->count && (its->at[at] < '0' || its->at[at] > '9')) {
            at++;
        }
        if (at < its->count) {
            its->at[at] = (uint8_t)('0' + below(10));
        }
        break;
    default:
        its->at[at] = other->at[other->count ? below(other->count) : 0];
    }
}

/* A file, turned in up to four ways, or as it is. */
static struct bytes *turned_of(const struct bytes *from, enum sort sort, struct bytes *its) {
    its->count = from->count;
    memcpy(its->at, from->at, from->count);
    for (size_t ways = one_in(8) ? 0 : one_in(3) ? 1 + below(4) : 1; ways > 0; ways--) {
        if (sort == PROGRAM) {
            turn_program(its);
        } else {
            turn_text(its, sort);
        }
    }
    return its;
}

static struct bytes *turned(enum sort sort, struct bytes *its) { return turned_of(some(sort), sort, its); }

/* ---- what the programs print */

static const char *program, *story;
static int out_file, err_file;

struct printed {
    int status;
    size_t out_count, err_count;
    char out[PRINTED], err[PRINTED];
};

static struct printed *printed;

static void write_file(const char *name, const uint8_t *bytes, size_t count) {
    int file = open(name, O_WRONLY | O_CREAT, 0600);
    if (file < 0 || write(file, bytes, count) != (ssize_t)count || ftruncate(file, (off_t)count) || close(file)) {
        fail(name);
    }
}

static size_t read_back(int file, char *into) {
    ssize_t count = pread(file, into, PRINTED, 0);
    if (count < 0 || count == PRINTED || ftruncate(file, 0) || lseek(file, 0, SEEK_SET)) {
        fail("what a program printed");
    }
    return (size_t)count;
}

/* Runs a program with these words, and takes what it prints. */
static void have(const char *path, const char *const words[]) {
    posix_spawn_file_actions_t files;
    pid_t child;
    int status = 0;
    if (posix_spawn_file_actions_init(&files) || posix_spawn_file_actions_addopen(&files, 0, "/dev/null", O_RDONLY, 0) ||
        posix_spawn_file_actions_adddup2(&files, out_file, 1) || posix_spawn_file_actions_adddup2(&files, err_file, 2) ||
        posix_spawn(&child, path, &files, NULL, (char *const *)words, environ) || waitpid(child, &status, 0) != child) {
        fail(path);
    }
    posix_spawn_file_actions_destroy(&files);
    printed->status = WIFEXITED(status) ? WEXITSTATUS(status) : 128 + WTERMSIG(status);
    printed->out_count = read_back(out_file, printed->out);
    printed->err_count = read_back(err_file, printed->err);
}

/* ---- what the library's answer amounts to */

static struct {
    size_t count;
    char at[PRINTED];
} wanted;

static void say(const char *form, ...) __attribute__((format(printf, 1, 2)));

static void say(const char *form, ...) {
    va_list its;
    va_start(its, form);
    int more = vsnprintf(wanted.at + wanted.count, PRINTED - wanted.count, form, its);
    va_end(its);
    if (more < 0 || (size_t)more >= PRINTED - wanted.count) {
        fail("what is wanted");
    }
    wanted.count += (size_t)more;
}

static void say_bytes(const char *bytes, size_t count) {
    if (count >= PRINTED - wanted.count) {
        fail("what is wanted");
    }
    memcpy(wanted.at + wanted.count, bytes, count);
    wanted.count += count;
}

static const char *trying;
static uint64_t number;

/* The program printed this, on standard output where the status is to be 0 or `is_out`, else on standard error. */
static void compare(int status, int is_out) {
    const char *its = is_out ? printed->out : printed->err;
    size_t count = is_out ? printed->out_count : printed->err_count, other = is_out ? printed->err_count : printed->out_count;
    if (printed->status != status || other != 0 || count != wanted.count || memcmp(its, wanted.at, count) != 0) {
        printf("wrong: try %" PRIu64 " of %s: the library has (status %d)\n%.*s\nand the program (status %d)\n%.*s\n%.*s\n", number, trying, status,
            (int)wanted.count, wanted.at, printed->status, (int)printed->out_count, printed->out, (int)printed->err_count, printed->err);
        exit(1);
    }
}

static _Noreturn void wrong(const char *what) {
    printf("wrong: try %" PRIu64 " of %s: %s\n", number, trying, what);
    exit(1);
}

/* ---- outcomes */

enum { KINDS = 6 };

static const char *const KIND_NAMES[KINDS] = {"done", "refused", "no memory", "bad argument", "not text", "asks"};

static uint64_t met[16][KINDS];

/* Whether a refusal with this code was met. */
enum { CODES = 100 };

static int codes[CODES];

static void note_code(uint32_t code) {
    if (code < CODES) {
        codes[code] = 1;
    }
}

static void count(int which, uint32_t kind) {
    if (kind >= KINDS || kind == PERCOBPF_KIND_NO_MEMORY || kind == PERCOBPF_KIND_BAD_ARGUMENT) {
        wrong("an answer of a kind that there is no cause for");
    }
    met[which][kind]++;
}

/* ---- buffers */

/* A buffer with room for so many bytes, all of them canaries, which ends where no byte may be written. */
static uint8_t *room_for(size_t room) { return memset(room_place.end - room, CANARY, room); }

/* A room that is too small, fits, or has more. */
static size_t some_room(size_t needed) {
    switch (below(4)) {
    case 0:
        return below(needed + 1);
    case 1:
        return needed;
    case 2:
        return needed + 1 + below(100);
    default:
        return needed ? needed - 1 : 0;
    }
}

/* The buffer has as much of the whole as fits, and canaries after it. */
static void compare_room(const uint8_t *out, size_t room, const uint8_t *whole, size_t needed) {
    size_t fits = needed < room ? needed : room;
    if (memcmp(out, whole, fits) != 0) {
        wrong("another beginning where there is less room");
    }
    for (size_t at = fits; at < room; at++) {
        if (out[at] != CANARY) {
            wrong("a byte after the text was written");
        }
    }
}

static int is_same_text(struct percobpf_text a, struct percobpf_text b) {
    return a.kind == b.kind && a.code == b.code && a.place == b.place && a.needed == b.needed;
}

/* ---- the tries */

static struct bytes *given, *texts[3];

static char digit(uint64_t number) { return (char)('0' + number); }

static const char *const NUMBER_WORDS[] = {"0", "1", "2"};

static uint32_t profile, record;

static void choose_numbers(void) {
    profile = one_in(3) ? 1 : 2;
    record = one_in(3) ? 1 : 2;
}

static void try_check(void) {
    turned(PROGRAM, given);
    choose_numbers();
    struct percobpf_verdict verdict = percobpf_check(put(0, given->at, given->count), given->count, profile, record, 15);
    count(0, verdict.kind);
    note_code(verdict.code);
    if (verdict.kind == PERCOBPF_KIND_DONE) {
        say("accepted %" PRIu32 " slots\n", verdict.slot);
    } else {
        say("refused slot %" PRIu32 " code %" PRIu32 "\n", verdict.slot, verdict.code);
    }
    write_file("i", given->at, given->count);
    const char *const words[] = {"percobpf", "check", "i", "--profile", NUMBER_WORDS[profile], "--record", NUMBER_WORDS[record], NULL};
    have(program, words);
    compare(verdict.kind == PERCOBPF_KIND_DONE ? 0 : 1, 1);
}

/* The line of a manifest that is refused so. */
static void say_manifest(struct percobpf_manifest_verdict verdict) {
    if (verdict.kind == PERCOBPF_KIND_NOT_TEXT) {
        say("not text m\n");
        return;
    }
    say("manifest: ");
    if (verdict.observer != PERCOBPF_NO_OBSERVER) {
        say("observer %" PRIu32 " ", verdict.observer);
    }
    say("code %" PRIu32, verdict.code);
    if (verdict.code == 56) {
        say(" slot %" PRIu32 " code %" PRIu32, verdict.slot, verdict.slot_code);
    }
    say("\n");
}

/* How many observers the report of a replay without changes and events has: one line for each, and one that there is no work. */
static uint32_t observers_printed(void) {
    uint32_t lines = 0;
    for (size_t at = 0; at < printed->out_count; at++) {
        lines += printed->out[at] == '\n';
    }
    return lines - 1;
}

static void have_replay(const char *clock) {
    const char *const words[] = {"percobpf", "replay", "m", "s", "e", clock ? "--clock" : NULL, clock, NULL};
    have(program, words);
}

/* The program's replay of a manifest alone has to end as the library's verdict has it. */
static void compare_manifest(const uint8_t *text, size_t size, struct percobpf_manifest_verdict verdict) {
    write_file("m", text, size);
    write_file("s", text, 0);
    write_file("e", text, 0);
    have_replay(NULL);
    if (verdict.kind != PERCOBPF_KIND_DONE) {
        say_manifest(verdict);
        compare(1, 0);
    } else if (printed->status != 0 || observers_printed() != verdict.observers) {
        wrong("a manifest that the library accepts, with another number of observers");
    }
}

static void try_helpers(void) {
    turned(PROGRAM, given);
    choose_numbers();
    record = profile == 1 ? 1 : record;
    uint32_t helpers = one_in(2) ? 15 : (uint32_t)below(16);
    static char text[2 * MOST + 200];
    size_t size = (size_t)sprintf(text, "{\"profile\":%" PRIu32 ",\"observers\":[{\"name\":\"a\",\"column\":0,\"helpers\":[", profile);
    for (uint32_t its = 0, before = 0; its < 4; its++) {
        if (helpers >> its & 1) {
            size += (size_t)sprintf(text + size, "%s%c", before ? "," : "", digit(its + 1));
            before = 1;
        }
    }
    size += (size_t)sprintf(text + size, "],\"code\":\"");
    for (size_t at = 0; at < given->count; at++) {
        size += (size_t)sprintf(text + size, "%02x", given->at[at]);
    }
    size += (size_t)sprintf(text + size, profile == 2 ? "\",\"record\":%" PRIu32 "}]}" : "\"}]}", record);
    struct percobpf_verdict verdict = percobpf_check(put(0, given->at, given->count), given->count, profile, record, helpers);
    struct percobpf_manifest_verdict whole = percobpf_manifest(put(1, text, size), size);
    count(1, verdict.kind);
    if (verdict.kind == PERCOBPF_KIND_DONE ? whole.kind != PERCOBPF_KIND_DONE
                                           : whole.kind != PERCOBPF_KIND_REFUSED || whole.code != 56 || whole.observer != 0 ||
                                                 whole.slot != verdict.slot || whole.slot_code != verdict.code) {
        wrong("a program's verdict isn't that of its manifest");
    }
    compare_manifest((const uint8_t *)text, size, whole);
}

/* A value in hexadecimal digits, without the zero bytes at its end, but with one byte at least. */
static void say_value(const uint8_t *value) {
    size_t bytes = VALUE;
    while (bytes > 1 && value[bytes - 1] == 0) {
        bytes--;
    }
    say("value ");
    for (size_t at = 0; at < bytes; at++) {
        say("%02x", value[at]);
    }
}

struct held {
    uint64_t row;
    uint32_t column;
    uint8_t value[VALUE];
};

static void choose_value(uint8_t *value, char *digits) {
    size_t bytes = one_in(4) ? VALUE : 1 + below(4);
    memset(value, 0, VALUE);
    for (size_t at = 0; at < bytes; at++) {
        value[at] = one_in(4) ? 0 : (uint8_t)chance();
        sprintf(digits + 2 * at, "%02x", value[at]);
    }
}

/* The words of a trial, and the texts of those that are numbers and values. */
static const char *words[WORDS];
static char word_texts[4 * CELLS + 8][2 * VALUE + 1];
static size_t word_count, text_count;

static char *next_text(void) { return word_texts[text_count++]; }

static void add_word(const char *word) { words[word_count++] = word; }

static void add_number(uint64_t its) {
    char *text = next_text();
    sprintf(text, "%" PRIu64, its);
    add_word(text);
}

static void add_value(uint8_t *value) {
    char *text = next_text();
    choose_value(value, text);
    add_word(text);
}

static void choose_cell(struct held *its) {
    static const uint64_t ROWS[] = {0, 1, 7, 42, UINT64_MAX};
    its->row = ROWS[below(sizeof ROWS / sizeof *ROWS)];
    its->column = (uint32_t)below(16);
}

static void try_run(void) {
    struct held cells[1 + CELLS];
    size_t held = 1;
    turned(PROGRAM, given);
    choose_numbers();
    word_count = text_count = 0;
    add_word("percobpf_story");
    add_word("trial");
    add_word("i");
    choose_cell(&cells[0]);
    add_word("--row");
    add_number(cells[0].row);
    add_word("--column");
    add_number(cells[0].column);
    add_word("--value");
    add_value(cells[0].value);
    struct percobpf_change change = {.row = cells[0].row, .column = cells[0].column, .has_value = 1, .start = 1, .commit = 2};
    memcpy(change.value, cells[0].value, VALUE);
    uint64_t start = 3;
    if (one_in(2)) {
        add_word("--old");
        add_value(change.old);
        change.has_old = 1 + (uint32_t)below(3);
        change.start = 5;
        change.commit = 6;
        change.acknowledged = 3;
        start = 7;
    }
    for (size_t more = below(CELLS + 1); more > 0; more--, held++) {
        choose_cell(&cells[held]);
        cells[held].row = one_in(2) ? cells[0].row : cells[held].row;
        add_word("--cell");
        add_number(cells[held].row);
        add_number(cells[held].column);
        add_value(cells[held].value);
    }
    add_word("--profile");
    add_word(NUMBER_WORDS[profile]);
    add_word("--record");
    add_word(NUMBER_WORDS[record]);
    add_word(NULL);

    static struct percobpf_reply replies[MOST / SLOT];
    size_t asked = 0;
    struct percobpf_reached reached;
    for (;;) {
        const struct percobpf_reply *so_far = put(1, replies, asked * sizeof *replies);
        reached = percobpf_run(put(0, given->at, given->count), given->count, profile, record, 15, put(2, &change, sizeof change), start, so_far, asked);
        count(2, reached.kind);
        if (reached.kind != PERCOBPF_KIND_ASKS) {
            break;
        }
        if (reached.replied != asked) {
            wrong("a program asks that hasn't had all replies");
        }
        say("read %" PRIu64 " %" PRIu32 " -> ", reached.row, reached.column);
        struct percobpf_reply *reply = &replies[asked++];
        memset(reply, 0, sizeof *reply);
        for (size_t at = 0; at < held && !reply->has_value; at++) {
            if (cells[at].row == reached.row && cells[at].column == reached.column) {
                reply->has_value = 1;
                memcpy(reply->value, cells[at].value, VALUE);
            }
        }
        if (reply->has_value) {
            say_value(reply->value);
            say("\n");
        } else {
            say("absent\n");
        }
    }
    if (reached.kind == PERCOBPF_KIND_DONE) {
        if (reached.replied != asked) {
            wrong("a program ends that hasn't had all replies that it asked for");
        }
        for (uint32_t at = 0; at < reached.write_count; at++) {
            say("write %" PRIu64 " %" PRIu32 " ", reached.writes[at].row, reached.writes[at].column);
            if (reached.writes[at].has_value) {
                say_value(reached.writes[at].value);
                say("\n");
            } else {
                say("deleted\n");
            }
        }
        say("result %" PRIu64 "\ninstructions %" PRIu32 "\n", reached.result, reached.instructions);
        /* With more replies than it asks for it ends alike, and has had as many. */
        size_t more = asked + 1 + below(3);
        memset(&replies[asked], 1, (more - asked) * sizeof *replies);
        struct percobpf_reached again = percobpf_run(put(0, given->at, given->count), given->count, profile, record, 15, &change, start, put(1, replies, more * sizeof *replies), more);
        if (again.kind != reached.kind || again.replied != asked || again.result != reached.result || again.instructions != reached.instructions ||
            again.write_count != reached.write_count || memcmp(again.writes, reached.writes, sizeof again.writes) != 0) {
            wrong("a program ends otherwise where there are more replies");
        }
    } else {
        say("refused slot %" PRIu32 " code %" PRIu32 "\n", reached.slot, reached.code);
    }
    write_file("i", given->at, given->count);
    have(story, words);
    compare(reached.kind == PERCOBPF_KIND_DONE ? 0 : 1, 1);
}

static void try_dis(void) {
    turned(PROGRAM, given);
    choose_numbers();
    const uint8_t *code = put(0, given->at, given->count);
    struct percobpf_text measured = percobpf_dis(code, given->count, profile, NULL, 0);
    count(3, measured.kind);
    note_code(measured.code);
    uint8_t *whole = room_for(measured.needed);
    if (!is_same_text(measured, percobpf_dis(code, given->count, profile, (char *)whole, measured.needed))) {
        wrong("another answer where there is room");
    }
    if (measured.kind == PERCOBPF_KIND_DONE) {
        say_bytes((const char *)whole, measured.needed);
    } else {
        say("refused slot %zu code %" PRIu32 "\n", measured.place, measured.code);
    }
    size_t room = some_room(measured.needed);
    uint8_t *out = room_for(room);
    percobpf_dis(code, given->count, profile, (char *)out, room);
    compare_room(out, room, (const uint8_t *)wanted.at, measured.needed);
    write_file("i", given->at, given->count);
    const char *const its[] = {"percobpf", "dis", "i", "--profile", NUMBER_WORDS[profile], NULL};
    have(program, its);
    compare(measured.kind == PERCOBPF_KIND_DONE ? 0 : 1, 1);
}

static void try_asm(void) {
    static uint8_t bytes[PRINTED];
    turned(TEXT, given);
    choose_numbers();
    const char *text = put(0, given->at, given->count);
    struct percobpf_text measured = percobpf_asm(text, given->count, profile, NULL, 0);
    count(4, measured.kind);
    note_code(measured.code);
    uint8_t *whole = room_for(measured.needed);
    if (!is_same_text(measured, percobpf_asm(text, given->count, profile, whole, measured.needed))) {
        wrong("another answer where there is room");
    }
    memcpy(bytes, whole, measured.needed);
    size_t room = some_room(measured.needed);
    uint8_t *out = room_for(room);
    percobpf_asm(text, given->count, profile, out, room);
    compare_room(out, room, bytes, measured.needed);
    if (measured.kind == PERCOBPF_KIND_NOT_TEXT) {
        say("not text i\n");
    } else if (measured.kind == PERCOBPF_KIND_REFUSED) {
        say("line %zu code %" PRIu32 "\n", measured.place, measured.code);
    }
    write_file("i", given->at, given->count);
    unlink("o");
    const char *const its[] = {"percobpf", "asm", "i", "o", "--profile", NUMBER_WORDS[profile], NULL};
    have(program, its);
    compare(measured.kind == PERCOBPF_KIND_DONE ? 0 : 1, 0);
    int file = open("o", O_RDONLY);
    if ((file >= 0) != (measured.kind == PERCOBPF_KIND_DONE)) {
        wrong("bytes of a text that is refused, or none");
    }
    if (file >= 0) {
        if (read(file, wanted.at, PRINTED) != (ssize_t)measured.needed || memcmp(wanted.at, bytes, measured.needed) != 0 || close(file)) {
            wrong("other bytes of a text");
        }
    }
}

static void try_manifest(void) {
    turned(MANIFEST, given);
    struct percobpf_manifest_verdict verdict = percobpf_manifest(put(0, given->at, given->count), given->count);
    count(5, verdict.kind);
    note_code(verdict.code);
    compare_manifest(given->at, given->count, verdict);
}

static void try_replay(void) {
    static const enum sort SORT[3] = {MANIFEST, SCRIPT, SCHEDULE};
    static const char *const NAMES[3] = {"m", "s", "e"};
    static const char *const CLOCKS[] = {NULL, "0", "1", "7", "1000", "18446744073709551610", "18446744073709551615"};
    /* Texts that belong together, mostly. One of them is turned, or two; the others are as they are, so that more come to be replayed.
     */
    size_t schedule = below(many[SCHEDULE]);
    int first = (int)below(3), second = one_in(4) ? (int)below(3) : first, together = !one_in(8);
    for (int at = 0; at < 3; at++) {
        const struct bytes *its = at == 2 ? known[SCHEDULE][schedule] : together ? belonging(SORT[at], schedule) : some(SORT[at]);
        if (at == first || at == second) {
            turned_of(its, SORT[at], texts[at]);
        } else {
            texts[at]->count = its->count;
            memcpy(texts[at]->at, its->at, its->count);
        }
        write_file(NAMES[at], texts[at]->at, texts[at]->count);
    }
    const char *clock = CLOCKS[below(sizeof CLOCKS / sizeof *CLOCKS)];
    uint64_t last = clock ? strtoull(clock, NULL, 10) : 0;
    const char *m = put(0, texts[0]->at, texts[0]->count), *s = put(1, texts[1]->at, texts[1]->count), *e = put(2, texts[2]->at, texts[2]->count);
    size_t sizes[3] = {texts[0]->count, texts[1]->count, texts[2]->count};
    struct percobpf_text measured = percobpf_replay(m, sizes[0], s, sizes[1], e, sizes[2], last, NULL, 0);
    count(6, measured.kind);
    uint8_t *whole = room_for(measured.needed);
    if (!is_same_text(measured, percobpf_replay(m, sizes[0], s, sizes[1], e, sizes[2], last, (char *)whole, measured.needed))) {
        wrong("another answer where there is room");
    }
    say_bytes((const char *)whole, measured.needed);
    size_t room = some_room(measured.needed);
    uint8_t *out = room_for(room);
    percobpf_replay(m, sizes[0], s, sizes[1], e, sizes[2], last, (char *)out, room);
    compare_room(out, room, (const uint8_t *)wanted.at, measured.needed);
    if (measured.kind == PERCOBPF_KIND_NOT_TEXT) {
        say("not text %s\n", NAMES[measured.place % 3]);
    } else if (measured.kind == PERCOBPF_KIND_REFUSED) {
        say("\n");
    }
    have_replay(clock);
    compare(measured.kind == PERCOBPF_KIND_DONE ? 0 : 1, measured.kind == PERCOBPF_KIND_DONE);
}

static const struct {
    const char *name;
    void (*try_it)(void);
} TRIES[] = {
    {"check", try_check}, {"helpers", try_helpers}, {"run", try_run}, {"dis", try_dis}, {"asm", try_asm}, {"manifest", try_manifest}, {"replay", try_replay},
};

enum { ALL = sizeof TRIES / sizeof *TRIES };

int main(int argc, char **argv) {
    if (argc < 6) {
        return 2;
    }
    seed = strtoull(argv[1], NULL, 10) * UINT64_C(0x9e3779b97f4a7c15) + 1;
    uint64_t all = strtoull(argv[2], NULL, 10);
    program = argv[3];
    story = argv[4];
    for (int at = 5; at < argc; at++) {
        read_all(argv[at]);
    }
    for (int sort = 0; sort < SORTS; sort++) {
        if (many[sort] == 0) {
            fail(ENDINGS[sort]);
        }
    }
    out_file = memfd_create("out", MFD_CLOEXEC);
    err_file = memfd_create("err", MFD_CLOEXEC);
    printed = malloc(sizeof *printed);
    given = malloc(sizeof *given);
    for (int at = 0; at < 3; at++) {
        texts[at] = malloc(sizeof *texts[at]);
    }
    if (out_file < 0 || err_file < 0 || printed == NULL || given == NULL || texts[0] == NULL || texts[1] == NULL || texts[2] == NULL) {
        fail("library_fuzz");
    }
    for (int at = 0; at < 4; at++) {
        places[at] = guarded(4 * MOST);
    }
    room_place = guarded(PRINTED);
    for (number = 0; number < all; number++) {
        /* Verdicts and runs are half of the tries. */
        size_t which = number % 8 == 7 ? 2 : number % 8;
        trying = TRIES[which].name;
        wanted.count = 0;
        TRIES[which].try_it();
    }
    for (int which = 0; which < ALL; which++) {
        for (int kind = 0; kind < KINDS; kind++) {
            if (met[which][kind]) {
                printf("%s %s %" PRIu64 "\n", TRIES[which].name, KIND_NAMES[kind], met[which][kind]);
            }
        }
    }
    for (int code = 1; code < CODES; code++) {
        if (codes[code]) {
            printf("code %d 1\n", code);
        }
    }
    for (int sort = 0; sort < SORTS; sort++) {
        for (size_t at = 0; at < many[sort]; at++) {
            free(known[sort][at]);
        }
    }
    for (int at = 0; at < 3; at++) {
        free(texts[at]);
    }
    free(given);
    free(printed);
    return 0;
}
