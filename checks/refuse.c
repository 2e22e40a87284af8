// Preloaded into a program, refuses one of its requests for memory, or all from one on.
//
// REFUSE_AT names the request, counted from 1 at the program's start; requests are calls of malloc, calloc, realloc,
// aligned_alloc and posix_memalign. Where REFUSE_REST is 1, those after it are refused too. REFUSE_FD names an open file
// descriptor: `x` is written to it when the first request is refused, and `s` when the first is that gives a part of a block
// back, which the C library can refuse too. All other requests go to the C library.
#include <errno.h>
#include <malloc.h>
#include <stddef.h>
#include <stdlib.h>
#include <unistd.h>

void *__libc_malloc(size_t size);
void *__libc_calloc(size_t count, size_t size);
void *__libc_realloc(void *old, size_t size);
void *__libc_memalign(size_t alignment, size_t size);

static long met;

static long number_in(const char *name) {
    const char *text = getenv(name);
    return text ? atol(text) : 0;
}

// Whether this request is the one to refuse; of which kind it is, for the descriptor.
static int is_refused(char kind) {
    static long at = -1;
    static int told_more, told_less;
    if (at < 0) {
        at = number_in("REFUSE_AT");
    }
    if (at == 0) {
        return 0;
    }
    long now = __atomic_add_fetch(&met, 1, __ATOMIC_RELAXED);
    if (now < at || (now > at && number_in("REFUSE_REST") == 0)) {
        return 0;
    }
    int *told = kind == 's' ? &told_less : &told_more;
    if (!__atomic_exchange_n(told, 1, __ATOMIC_RELAXED) && write((int)number_in("REFUSE_FD"), &kind, 1) != 1) {
        abort();
    }
    return 1;
}

void *malloc(size_t size) {
    if (is_refused('x')) {
        errno = ENOMEM;
        return NULL;
    }
    return __libc_malloc(size);
}

void *calloc(size_t count, size_t size) {
    if (is_refused('x')) {
        errno = ENOMEM;
        return NULL;
    }
    return __libc_calloc(count, size);
}

void *realloc(void *old, size_t size) {
    if (is_refused(old != NULL && size <= malloc_usable_size(old) ? 's' : 'x')) {
        errno = ENOMEM;
        return NULL;
    }
    return __libc_realloc(old, size);
}

void *aligned_alloc(size_t alignment, size_t size) {
    if (is_refused('x')) {
        errno = ENOMEM;
        return NULL;
    }
    return __libc_memalign(alignment, size);
}

int posix_memalign(void **to, size_t alignment, size_t size) {
    void *memory = is_refused('x') ? NULL : __libc_memalign(alignment, size);
    if (memory == NULL) {
        return ENOMEM;
    }
    *to = memory;
    return 0;
}
