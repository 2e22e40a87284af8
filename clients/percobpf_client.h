/* A client of percobpf_keep in C: starts the program, or reaches one behind clients/relay, sends it lines and reads its answers.
 *
 * An answer shows that a change is on the disk, committed, and seen by its observers. If the program or the relay ends before it answers,
 * or sends what is no answer, PERCOBPF_GONE is returned, by this call and by each after it: the change is made whole or not at all. A
 * client that has to know which writes a number of its own into a cell, with each change, and reads that cell when it is connected again.
 *
 * A client isn't to be used by two threads at once, and several clients may be. No memory is taken but the client's own, and that of the
 * C library for two files. Their descriptors are above those of the standard streams, also where the caller has closed some of these, and
 * are closed in each program that is executed. A process that was forked may close a client too: that ends nothing for the caller.
 * A program or a relay that has ended raises SIGPIPE where it is written to: ignore that signal. A signal that is handled wants
 * SA_RESTART, or the call that it interrupts returns PERCOBPF_GONE.
 */
#ifndef PERCOBPF_CLIENT_H
#define PERCOBPF_CLIENT_H

#include <stdint.h>
#include <stdio.h>
#include <sys/types.h>

enum percobpf_answer {
    PERCOBPF_MADE,    /* a change was made: its commit, and how many runs of observers followed */
    PERCOBPF_UNQUIET, /* a change was made: its commit; its observers haven't come to rest */
    PERCOBPF_UNMADE,  /* its condition didn't hold: the commit of the cell's newest write, 0 where it has none */
    PERCOBPF_REFUSED, /* a line was refused: its code in docs/CODES.md; with 77 the commit above which all writes are there */
    PERCOBPF_VALUE,   /* the newest write of a cell: its commit and its value */
    PERCOBPF_DELETED, /* the newest write of a cell deleted it: its commit */
    PERCOBPF_ABSENT,  /* a cell was never written */
    PERCOBPF_OTHER,   /* an answer of another kind, as a line, such as that to `compact` or `copy` */
    PERCOBPF_GONE,    /* the program ended, or the connection did, or what came is no answer */
    PERCOBPF_UNSENT   /* the line has a newline in it, and wasn't sent */
};

struct percobpf_client {
    FILE *lines, *answers;
    pid_t child;    /* 0 behind a relay */
    uint64_t found; /* how many changes the log had when the program was started */
    char line[256]; /* the last answer, without its newline; a longer one is none */
    int is_gone;    /* whether no more answers come */
    pid_t user;     /* the process that started or reached the program */
};

struct percobpf_result {
    enum percobpf_answer answer;
    uint64_t commit, runs;
    unsigned code;
    unsigned char value[32];
};

/* Starts the program over this log. It has made the log's changes again when this returns. 0, or -1. */
int percobpf_start(struct percobpf_client *client, const char *program, const char *manifest, const char *log);

/* Reaches a program behind clients/relay, at its unix socket. 0, or -1. */
int percobpf_connect(struct percobpf_client *client, const char *path);

/* Sends a line, and reads an answer of one line. A line with a newline in it would be two: PERCOBPF_UNSENT is returned. */
struct percobpf_result percobpf_ask(struct percobpf_client *client, const char *line);

/* Sends a line without reading its answer, and reads the next answer: for many lines at once. At most 256 may be unread. Sending returns
 * 0, or -1 where the line has a newline in it, of which nothing is sent, or where the other side has gone. */
int percobpf_send(struct percobpf_client *client, const char *line);
struct percobpf_result percobpf_read(struct percobpf_client *client);

/* Ends the input. The program keeps what it has and ends; its status, 0 behind a relay, or -1. */
int percobpf_close(struct percobpf_client *client);

#endif
