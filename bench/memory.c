// Preloaded into a program, counts its requests for memory and the bytes that they hold, by the size asked for, and writes
// that to the file descriptor 9 at the end: a line `peak BYTES` of what was held together at most, and for each size, up to
// 4096, and for all above as size 0, `SIZE HELD BYTES`: how many requests, of how many bytes, were held at that peak.
//
// It counts the bytes asked for, and not what the C library adds. Each request carries its size in 16 bytes before it. The
// peak's table is noted anew each time that what is held passes it by 64 kB, so that it is exact to within that.
#define _GNU_SOURCE
#include <pthread.h>
#include <stddef.h>
#include <stdint.h>
#include <stdio.h>
#include <string.h>
#include <sys/syscall.h>
#include <unistd.h>

#define MOST_SIZE 4096
#define HEAD 16
#define PEAK_STEP 65536

void *__libc_malloc(size_t size);
void *__libc_realloc(void *old, size_t size);
void *__libc_memalign(size_t alignment, size_t size);
void __libc_free(void *old);

struct kind {
    long held;
    long bytes;
};

// What stands right before each room that is handed out.
struct head {
    size_t size;
    size_t before;
};

static pthread_mutex_t lock = PTHREAD_MUTEX_INITIALIZER;
static struct kind now[MOST_SIZE + 1], at_peak[MOST_SIZE + 1];
static long held, peak, noted;

// Counts `by` requests of a size more.
static void count(size_t size, long by) {
    pthread_mutex_lock(&lock);
    struct kind *kind = &now[size <= MOST_SIZE ? size : 0];
    kind->held += by;
    kind->bytes += by * (long)size;
    held += by * (long)size;
    if (held > peak) {
        peak = held;
    }
    if (held > noted + PEAK_STEP) {
        noted = held;
        memcpy(at_peak, now, sizeof now);
    }
    pthread_mutex_unlock(&lock);
}

static struct head *head_of(void *room) { return (struct head *)((char *)room - HEAD); }

// The room after the head that stands `before` bytes into what the library gave.
static void *hand_out(char *given, size_t before, size_t size) {
    if (given == NULL) {
        return NULL;
    }
    *head_of(given + before) = (struct head){size, before};
    count(size, 1);
    return given + before;
}

void *malloc(size_t size) {
    return size > SIZE_MAX - HEAD ? NULL : hand_out(__libc_malloc(size + HEAD), HEAD, size);
}

void *calloc(size_t many, size_t size) {
    size_t all;
    if (__builtin_mul_overflow(many, size, &all)) {
        return NULL;
    }
    void *room = malloc(all);
    return room == NULL ? NULL : memset(room, 0, all);
}

void *aligned_alloc(size_t alignment, size_t size) {
    size_t before = alignment < HEAD ? HEAD : alignment;
    return hand_out(__libc_memalign(before, size + before), before, size);
}

int posix_memalign(void **to, size_t alignment, size_t size) {
    *to = aligned_alloc(alignment, size);
    return *to == NULL ? 12 : 0;
}

void free(void *room) {
    if (room != NULL) {
        struct head *head = head_of(room);
        count(head->size, -1);
        __libc_free((char *)room - head->before);
    }
}

void *realloc(void *old, size_t size) {
    if (old == NULL) {
        return malloc(size);
    }
    struct head was = *head_of(old);
    if (was.before == HEAD) {
        char *given = __libc_realloc((char *)old - HEAD, size + HEAD);
        if (given == NULL) {
            return NULL;
        }
        count(was.size, -1);
        return hand_out(given, HEAD, size);
    }
    void *room = malloc(size);
    if (room != NULL) {
        memcpy(room, old, size < was.size ? size : was.size);
        free(old);
    }
    return room;
}

static void tell(void) {
    dprintf(9, "peak %ld\n", peak);
    for (size_t size = 0; size <= MOST_SIZE; size++) {
        if (at_peak[size].held > 0) {
            dprintf(9, "%zu %ld %ld\n", size, at_peak[size].held, at_peak[size].bytes);
        }
    }
}

// The program ends by this call, which runs no destructors.
void _exit(int status) {
    tell();
    for (;;) {
        syscall(SYS_exit_group, status);
    }
}
