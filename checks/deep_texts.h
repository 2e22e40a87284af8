/* The texts and the bytes for which the library for C takes most stack, for checks/c_stack.c: manifests that are nested as deep as JSON may
 * be, programs of as many slots as a program may have, and long scripts and schedules.
 */
#ifndef DEEP_TEXTS_H
#define DEEP_TEXTS_H

#include <stdio.h>
#include <stdlib.h>
#include <string.h>

/* How deep JSON may be nested; the other limits are those of docs/LIMITS.md. */
enum { DEEPEST = 127, SLOTS = 4096, SLOT = 8, OBSERVERS = 32, CELLS = 16 };

#define COUNT(of) (sizeof(of) / sizeof *(of))

static void fail(const char *what) {
    perror(what);
    exit(2);
}

/* ---- texts, one after the other in one room, which is used anew for each call */

enum { ROOM = 1 << 26 };

struct text {
    const char *at;
    size_t count;
};

static char room[ROOM], *next = room;

static void add(const char *piece, size_t count) {
    if (count > (size_t)(room + ROOM - next)) {
        fail("no room");
    }
    memcpy(next, piece, count);
    next += count;
}

static void add_text(const char *piece) { add(piece, strlen(piece)); }

static void add_times(const char *piece, size_t times) {
    for (size_t at = 0; at < times; at++) {
        add_text(piece);
    }
}

static void add_number(size_t number) {
    char digits[24];
    snprintf(digits, sizeof digits, "%zu", number);
    add_text(digits);
}

static struct text since(const char *begin) { return (struct text){begin, (size_t)(next - begin)}; }

/* ---- manifests that are nested deep */

/* Two kinds of levels that follow one another. */
static const struct nest {
    const char *name, *open[2], *close[2];
} NESTS[] = {
    {"arrays", {"[", "["}, {"]", "]"}},
    {"objects", {"{\"a\":", "{\"a\":"}, {"}", "}"}},
    {"arrays in objects", {"{\"a\":", "["}, {"}", "]"}},
    {"objects in arrays", {"[", "{\"a\":"}, {"]", "}"}},
    {"arrays with elements before", {"[1,\"x\",", "[null,"}, {"]", "]"}},
    {"objects with members before", {"{\"b\":1,\"c\":\"x\",\"a\":", "{\"b\":2.5,\"a\":"}, {"}", "}"}},
    {"objects with the same member after", {"{\"a\":", "{\"a\":"}, {",\"a\":1}", ",\"a\":\"x\"}"}},
    {"objects with an escape in the name", {"{\"\\u0061\\n\":", "{\"\\ud83d\\ude00\":"}, {"}", "}"}},
    {"objects with blanks", {" {\n\t\"a\" : ", " { \"a\"\r: "}, {" }\n", "\t}"}},
};

/* What stands at the deepest place: one piece, a second one so often, and a third one; without a second one, so many members, each with
 * its own name. What is nested within it is so much less around it. */
static const struct leaf {
    const char *name, *begin, *middle;
    size_t times;
    const char *end;
    size_t levels;
    int is_json;
} LEAVES[] = {
    {"a digit", "1", "", 0, "", 0, 1},
    {"a word", "true", "", 0, "", 0, 1},
    {"a number with an exponent", "-1.7976931348623157e308", "", 0, "", 0, 1},
    {"the number nearest to 0", "2.2250738585072011e-308", "", 0, "", 0, 1},
    {"a number half-way between two", "9007199254740993.", "0", 1000, "1", 0, 1},
    {"a long number", "1", "2345678901", 30, "", 0, 1},
    {"a long fraction", "0.", "0000000001", 1000, "", 0, 1},
    {"a number that is too large", "1", "0000000000", 1000, "", 0, 0},
    {"an exponent that is too large", "1e", "9", 1000, "", 0, 0},
    {"a long string", "\"", "0123456789", 10000, "\"", 0, 1},
    {"a string of escapes", "\"", "\\\"\\\\\\/\\b\\f\\n\\r\\t\\u00e4\\ud83d\\ude00", 1000, "\"", 0, 1},
    {"a string of other letters", "\"", "\xc3\xa4\xf0\x9f\x98\x80", 1000, "\"", 0, 1},
    {"a wrong escape", "\"", "\\u00e4", 1000, "\\ud83d\\u0041\"", 0, 0},
    {"a string without an end", "\"", "0123456789", 1000, "", 0, 0},
    {"a comma", ",", "", 0, "", 0, 0},
    {"a wrong letter", "x", "", 0, "", 0, 0},
    {"an array of many elements", "[1", ",{},[],\"\",2.5", 1000, "]", 2, 1},
    {"an object of many members", "{\"a\":1", NULL, 1000, "}", 2, 1},
    {"an object with the same member again and again", "{\"a\":1", ",\"a\":\"x\",\"b\":[]", 1000, "}", 2, 1},
    {"an object without its value", "{\"a\":1", ",\"a\":2", 100, ",\"a\"", 1, 0},
};

/* Where it stands in a manifest, and at what depth. */
static const struct place {
    const char *name, *begin, *end;
    size_t depth;
} PLACES[] = {
    {"the whole", "", "", 0},
    {"observers", "{\"profile\":1,\"observers\":", "}", 1},
    {"observers before the profile", "{\"observers\":", ",\"profile\":2}", 1},
    {"the profile", "{\"observers\":[],\"profile\":", "}", 1},
    {"another member", "{\"profile\":1,\"observers\":[],\"more\":", "}", 1},
    {"an observer", "{\"profile\":1,\"observers\":[", "]}", 2},
    {"a name", "{\"profile\":1,\"observers\":[{\"column\":0,\"helpers\":[],\"code\":\"\",\"name\":", "}]}", 3},
    {"helpers", "{\"profile\":1,\"observers\":[{\"name\":\"a\",\"column\":0,\"code\":\"\",\"helpers\":", "}]}", 3},
    {"a code", "{\"profile\":1,\"observers\":[{\"name\":\"a\",\"column\":0,\"helpers\":[],\"code\":", "}]}", 3},
};

static void add_leaf(const struct leaf *leaf) {
    add_text(leaf->begin);
    for (size_t at = 0; at < leaf->times; at++) {
        add_text(leaf->middle ? leaf->middle : ",\"");
        if (!leaf->middle) {
            add_number(at);
            add_text("\":{}");
        }
    }
    add_text(leaf->end);
}

/* A manifest that is nested so deep in all. */
static struct text nested(const struct place *place, const struct nest *nest, const struct leaf *leaf, size_t depth) {
    const char *begin = next;
    size_t levels = depth - place->depth - leaf->levels;
    add_text(place->begin);
    for (size_t at = 0; at < levels; at++) {
        add_text(nest->open[at % 2]);
    }
    add_leaf(leaf);
    for (size_t at = levels; at-- > 0;) {
        add_text(nest->close[at % 2]);
    }
    add_text(place->end);
    return since(begin);
}

/* ---- programs of as many slots as one has */

static void add_slot(unsigned code, unsigned registers, int offset, int number) {
    const char slot[SLOT] = {(char)code, (char)registers, (char)offset, (char)(offset >> 8), (char)number, (char)(number >> 8),
        (char)(number >> 16), (char)(number >> 24)};
    add(slot, SLOT);
}

enum { LAST = SLOTS - 1, WORDS = 64 };

static void add_move(int number) { add_slot(0xb7, 0, 0, number); }

/* Slots before the last one, each by its number. */
static void moves(int at) { add_move(at); }

static void jumps_to_the_end(int at) {
    if (at) {
        add_slot(0x15, 0, LAST - at - 1, at);
    } else {
        add_move(0);
    }
}

static void jumps_over_one(int at) {
    if (at % 2 && at < LAST - 1) {
        add_slot(0x15, 0, 1, at);
    } else {
        add_move(at);
    }
}

static void arithmetic(int at) {
    static const unsigned char CODES[] = {0x07, 0x17, 0x27, 0x37, 0x47, 0x57, 0x87, 0x97, 0xa7, 0x04, 0x14, 0x24, 0x34, 0x44, 0x54, 0x94};
    unsigned code = CODES[(size_t)at % sizeof CODES];
    if (at) {
        add_slot(code, 0, 0, code == 0x87 ? 0 : at);
    } else {
        add_move(0);
    }
}

/* Each word of the stack is stored, and then loaded into each register. */
static void stores_and_loads(int at) {
    int offset = -SLOT * (1 + at % WORDS);
    if (at / WORDS % 2) {
        add_slot(0x79, 0xa0 | (unsigned)at % 10, offset, 0);
    } else {
        add_slot(0x7a, 0x0a, offset, at);
    }
}

static void starts(int at) {
    (void)at;
    add_slot(0x85, 0, 0, 4);
}

static void wide_moves(int at) {
    if (at == 0) {
        add_move(0);
    } else if (at % 2) {
        add_slot(0x18, 1, 0, at);
    } else {
        add_slot(0, 0, 0, at);
    }
}

/* A cell of its own is read or written in each five slots, or deleted. */
static void accesses(int at, int helper) {
    static const unsigned char CODES[] = {0xb7, 0xb7, 0xbf, 0x07, 0x85}, REGISTERS[] = {1, 2, 0xa3, 3, 0};
    const int numbers[] = {at / CELLS / 5, at / 5 % CELLS, 0, -32, helper};
    add_slot(CODES[at % 5], REGISTERS[at % 5], 0, numbers[at % 5]);
}

static void reads(int at) { accesses(at, 1); }

static void deletes(int at) { accesses(at, 3); }

static void reads_and_writes(int at) { accesses(at, at < 5 * CELLS ? 1 : 2); }

static const struct shape {
    const char *name;
    void (*add_at)(int at);
} SHAPES[] = {
    {"moves", moves},
    {"jumps to the end", jumps_to_the_end},
    {"jumps over one", jumps_over_one},
    {"arithmetic", arithmetic},
    {"stores and loads", stores_and_loads},
    {"starts", starts},
    {"wide moves", wide_moves},
    {"reads", reads},
    {"deletes", deletes},
    {"reads and writes", reads_and_writes},
};

static struct text program_of(const struct shape *shape, int is_whole) {
    const char *begin = next;
    for (int at = 0; at < LAST; at++) {
        shape->add_at(at);
    }
    add_slot(is_whole ? 0x95 : 0x8f, 0, 0, 0);
    return since(begin);
}

/* ---- manifests of many long programs, scripts and schedules */

static void add_hexadecimal(struct text bytes) {
    for (size_t at = 0; at < bytes.count; at++) {
        char digits[3];
        snprintf(digits, sizeof digits, "%02x", (unsigned char)bytes.at[at]);
        add(digits, 2);
    }
}

/* A manifest of as many observers as it may have, each with this program. */
static struct text manifest_of(struct text program) {
    const char *begin = next;
    add_text("{\"profile\":2,\"observers\":[");
    for (size_t at = 0; at < OBSERVERS; at++) {
        add_text(at ? ",{\"name\":\"o" : "{\"name\":\"o");
        add_number(at);
        add_text("\",\"helpers\":[1,2,3,4],\"record\":1,\"column\":");
        add_number(at % CELLS);
        add_text(",\"code\":\"");
        add_hexadecimal(program);
        add_text("\"}");
    }
    add_text("]}");
    return since(begin);
}

/* So many changes of as many cells as a change may have, each of its own row. */
static struct text script_of(size_t changes) {
    const char *begin = next;
    for (size_t at = 0; at < changes * CELLS; at++) {
        add_text("put ");
        add_number(at / CELLS);
        add_text(" ");
        add_number(at % CELLS);
        add_text(at % CELLS < CELLS - 1 ? " 2a; " : " 2a\n");
    }
    return since(begin);
}

/* Each change is made by actor 1, and each observer is run on row 0 by an actor of its own, of which some crash. */
static struct text schedule_of(size_t changes, size_t steps_of_a_run) {
    const char *begin = next;
    char line[100];
    for (size_t at = 1; at <= changes; at++) {
        snprintf(line, sizeof line, "launch 1 change %zu\nstep 1 40\n", at);
        add_text(line);
    }
    for (size_t at = 0; at < OBSERVERS; at++) {
        snprintf(line, sizeof line, "launch %zu run o%zu 0\nstep %zu %zu\n", at + 2, at, at + 2, steps_of_a_run);
        add_text(line);
    }
    add_text("launch 63 change 1\nstep 63 9\ncrash 63\nsettle 0 0\nclear 0 0\nsweep 0 0\nsettle ack o1 0\nclear ack o1 0\n");
    return since(begin);
}

#endif
