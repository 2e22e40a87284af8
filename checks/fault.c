// Preloaded into a program that keeps a log: fails, cuts short or stops at one of its calls that change a file or a folder.
//
// FAULT_AT names the call, counted from 1: those of pwrite, fdatasync, fsync and ftruncate on descriptors above 2, of open where it
// may make a file, of rename, of link and of unlink. FAULT_KIND is what happens there: `kill` (before it), `after` (after it), `torn` (half of
// a write, then killed), `short` (half is written, and returned; other calls fail or, on names, are made), `enospc` or `eio`.
//
// FAULT_TRACE names a file to which each call is written after it: `W AT HEX NAME`, `S 0 - NAME`, `T LENGTH - NAME`, and `R 0 FROM TO`,
// `L 0 FROM TO` or `U 0 - NAME` of a rename, a link or an unlink that was made. FAULT_MEANWHILE is a command that is run before the first lock is taken.
// FAULT_SWAP is a file: before a call that gives a new log to somebody, by its name or its descriptor, its name becomes a link to that.
// FAULT_GIVE is `fchown` or `fchmod`, of which each call for a new log fails then.
#define _GNU_SOURCE
#include <dlfcn.h>
#include <errno.h>
#include <fcntl.h>
#include <limits.h>
#include <signal.h>
#include <stdarg.h>
#include <stdio.h>
#include <stdlib.h>
#include <string.h>
#include <sys/stat.h>
#include <sys/types.h>
#include <unistd.h>

static long met;

static const char *kind_here(void) {
    const char *at = getenv("FAULT_AT");
    met++;
    return at && atol(at) == met ? getenv("FAULT_KIND") : "";
}

static void stop(void) { kill(getpid(), SIGKILL); }

static void write_line(const char *what, long at, const char *middle, const char *name) {
    const char *path = getenv("FAULT_TRACE");
    if (!path) return;
    FILE *f = fopen(path, "a");
    if (!f) abort();
    fprintf(f, "%s %ld %s %s\n", what, at, middle, name);
    fclose(f);
}

// Writes a line on a call by a descriptor.
static void trace(const char *what, long at, const unsigned char *bytes, size_t n, int fd) {
    if (!getenv("FAULT_TRACE")) return;
    char link[64], name[PATH_MAX + 1] = "", *hex = calloc(2 * n + 2, 1);
    snprintf(link, sizeof link, "/proc/self/fd/%d", fd);
    if (!hex || readlink(link, name, PATH_MAX) < 0) abort();
    hex[0] = '-';
    for (size_t i = 0; i < n; i++) sprintf(hex + 2 * i, "%02x", bytes[i]);
    write_line(what, at, hex, name);
    free(hex);
}

static ssize_t write_there(int fd, const void *buf, size_t n, off_t at) {
    ssize_t (*real)(int, const void *, size_t, off_t) = dlsym(RTLD_NEXT, "pwrite64");
    return real(fd, buf, n, at);
}

ssize_t pwrite(int fd, const void *buf, size_t n, off_t at) {
    if (fd <= 2) return write_there(fd, buf, n, at);
    const char *kind = kind_here();
    if (!strcmp(kind, "kill")) stop();
    if (!strcmp(kind, "enospc")) { errno = ENOSPC; return -1; }
    if (!strcmp(kind, "eio")) { errno = EIO; return -1; }
    if (!strcmp(kind, "short") && n > 1) n = n / 2;
    if (!strcmp(kind, "torn")) { write_there(fd, buf, n / 2, at); stop(); }
    ssize_t done = write_there(fd, buf, n, at);
    if (done > 0) trace("W", (long)at, buf, (size_t)done, fd);
    if (!strcmp(kind, "after")) stop();
    return done;
}

ssize_t pwrite64(int fd, const void *buf, size_t n, off_t at) { return pwrite(fd, buf, n, at); }

static int sync_there(int fd, const char *name) {
    int (*real)(int) = dlsym(RTLD_NEXT, name);
    const char *kind = kind_here();
    if (!strcmp(kind, "kill") || !strcmp(kind, "torn")) stop();
    if (!strcmp(kind, "enospc")) { errno = ENOSPC; return -1; }
    if (!strcmp(kind, "eio") || !strcmp(kind, "short")) { errno = EIO; return -1; }
    int done = real(fd);
    if (done == 0) trace("S", 0, NULL, 0, fd);
    if (!strcmp(kind, "after")) stop();
    return done;
}

int fdatasync(int fd) { return sync_there(fd, "fdatasync"); }
int fsync(int fd) { return sync_there(fd, "fsync"); }

int ftruncate(int fd, off_t length) {
    int (*real)(int, off_t) = dlsym(RTLD_NEXT, "ftruncate64");
    const char *kind = kind_here();
    if (!strcmp(kind, "kill") || !strcmp(kind, "torn")) stop();
    if (*kind && strcmp(kind, "after")) { errno = EIO; return -1; }
    int done = real(fd, length);
    if (done == 0) trace("T", (long)length, NULL, 0, fd);
    if (!strcmp(kind, "after")) stop();
    return done;
}
int ftruncate64(int fd, off_t length) { return ftruncate(fd, length); }

// Before a call by names: whether it fails there.
static int is_failed(const char *kind) {
    if (!strcmp(kind, "kill") || !strcmp(kind, "torn")) stop();
    errno = !strcmp(kind, "enospc") ? ENOSPC : EIO;
    return !strcmp(kind, "enospc") || !strcmp(kind, "eio");
}

static int open_there(const char *name, int flags, mode_t mode) {
    int (*real)(const char *, int, ...) = dlsym(RTLD_NEXT, "open64");
    if (!(flags & O_CREAT)) return real(name, flags);
    const char *kind = kind_here();
    if (is_failed(kind)) return -1;
    int fd = real(name, flags, mode);
    if (!strcmp(kind, "after")) stop();
    return fd;
}

int open(const char *name, int flags, ...) {
    va_list more;
    va_start(more, flags);
    mode_t mode = flags & O_CREAT ? va_arg(more, mode_t) : 0;
    va_end(more);
    return open_there(name, flags, mode);
}

int open64(const char *name, int flags, ...) {
    va_list more;
    va_start(more, flags);
    mode_t mode = flags & O_CREAT ? va_arg(more, mode_t) : 0;
    va_end(more);
    return open_there(name, flags, mode);
}

int rename(const char *from, const char *to) {
    int (*real)(const char *, const char *) = dlsym(RTLD_NEXT, "rename");
    const char *kind = kind_here();
    if (is_failed(kind)) return -1;
    int done = real(from, to);
    if (done == 0) write_line("R", 0, from, to);
    if (!strcmp(kind, "after")) stop();
    return done;
}

int link(const char *from, const char *to) {
    int (*real)(const char *, const char *) = dlsym(RTLD_NEXT, "link");
    const char *kind = kind_here();
    if (is_failed(kind)) return -1;
    int done = real(from, to);
    if (done == 0) write_line("L", 0, from, to);
    if (!strcmp(kind, "after")) stop();
    return done;
}

int unlink(const char *name) {
    int (*real)(const char *) = dlsym(RTLD_NEXT, "unlink");
    const char *kind = kind_here();
    if (is_failed(kind)) return -1;
    int done = real(name);
    if (done == 0) write_line("U", 0, "-", name);
    if (!strcmp(kind, "after")) stop();
    return done;
}

// Puts a link in the place of a new log.
static void swap(const char *name) {
    const char *victim = getenv("FAULT_SWAP");
    int (*real)(const char *) = dlsym(RTLD_NEXT, "unlink");
    if (!victim || !strstr(name, "new")) return;
    if (real(name) || symlink(victim, name)) abort();
}

// The name of an open file.
static const char *name_of(int fd, char name[PATH_MAX + 1]) {
    char link[64];
    snprintf(link, sizeof link, "/proc/self/fd/%d", fd);
    ssize_t length = readlink(link, name, PATH_MAX);
    name[length < 0 ? 0 : length] = 0;
    return name;
}

static void swap_of(int fd) {
    char name[PATH_MAX + 1];
    if (getenv("FAULT_SWAP") && *name_of(fd, name) && !strstr(name, " (deleted)")) swap(name);
}

int chown(const char *name, uid_t owner, gid_t group) {
    int (*real)(const char *, uid_t, gid_t) = dlsym(RTLD_NEXT, "chown");
    swap(name);
    return real(name, owner, group);
}

int chmod(const char *name, mode_t mode) {
    int (*real)(const char *, mode_t) = dlsym(RTLD_NEXT, "chmod");
    swap(name);
    return real(name, mode);
}

// Whether a call that gives a new log to somebody fails.
static int is_kept(const char *call, int fd) {
    const char *given = getenv("FAULT_GIVE"), *end = "~new";
    char name[PATH_MAX + 1];
    if (!given || strcmp(given, call) || strlen(name_of(fd, name)) < strlen(end)) return 0;
    errno = EIO;
    return !strcmp(name + strlen(name) - strlen(end), end);
}

int fchown(int fd, uid_t owner, gid_t group) {
    int (*real)(int, uid_t, gid_t) = dlsym(RTLD_NEXT, "fchown");
    if (is_kept("fchown", fd)) return -1;
    swap_of(fd);
    return real(fd, owner, group);
}

int fchmod(int fd, mode_t mode) {
    int (*real)(int, mode_t) = dlsym(RTLD_NEXT, "fchmod");
    if (is_kept("fchmod", fd)) return -1;
    swap_of(fd);
    return real(fd, mode);
}

int fcntl(int fd, int command, ...) {
    int (*real)(int, int, ...) = dlsym(RTLD_NEXT, "fcntl64");
    va_list more;
    va_start(more, command);
    void *given = va_arg(more, void *);
    va_end(more);
    const char *meanwhile = getenv("FAULT_MEANWHILE");
    if (command == F_OFD_SETLK && meanwhile) {
        char *own = strdup(meanwhile);
        unsetenv("FAULT_MEANWHILE");
        unsetenv("LD_PRELOAD");
        if (!own || system(own)) abort();
        free(own);
    }
    return real(fd, command, given);
}
int fcntl64(int fd, int command, ...) {
    va_list more;
    va_start(more, command);
    void *given = va_arg(more, void *);
    va_end(more);
    return fcntl(fd, command, given);
}
