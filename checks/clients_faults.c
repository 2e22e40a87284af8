/* Uses the client in C as callers do that have little left, and prints a line for each step:
 *
 *   asked SOCKET LINE..            asks each line at a relay, and prints the answer's kind, its numbers and the bytes of its value
 *   two PROGRAM MANIFEST LOG LOG   two tables, of which the first is closed first
 *   forked PROGRAM MANIFEST LOG    a process that was forked closes the table too, and one lives on that doesn't; then the table is closed
 *   closed PROGRAM MANIFEST LOG DIGITS   the standard streams of these numbers are closed before
 *
 * A call that takes SECONDS or more ends it by SIGALRM. */
#include "../clients/percobpf_client.h"

#include <fcntl.h>
#include <inttypes.h>
#include <signal.h>
#include <string.h>
#include <sys/wait.h>
#include <unistd.h>

enum { SECONDS = 20, FAR = 100, FAILED = 1 };

static FILE *out;

static void show(struct percobpf_result result) {
    fprintf(out, "%d %" PRIu64 " %" PRIu64 " %u ", (int)result.answer, result.commit, result.runs, result.code);
    for (size_t at = 0; at < sizeof result.value; at++) {
        fprintf(out, "%02x", result.value[at]);
    }
    fputc('\n', out);
}

static int ask_all(char **words) {
    struct percobpf_client client;
    if (percobpf_connect(&client, words[0]) != 0) {
        return FAILED;
    }
    for (char **line = words + 1; *line != NULL; line++) {
        show(percobpf_ask(&client, *line));
    }
    return percobpf_close(&client);
}

static int use_two(char **words) {
    struct percobpf_client first, second;
    if (percobpf_start(&first, words[0], words[1], words[2]) != 0 || percobpf_start(&second, words[0], words[1], words[3]) != 0) {
        return FAILED;
    }
    show(percobpf_ask(&first, "put 7 0 2a"));
    fprintf(out, "first %d\n", percobpf_close(&first));
    show(percobpf_ask(&second, "put 7 0 2b"));
    fprintf(out, "second %d\n", percobpf_close(&second));
    return 0;
}

static int use_forked(char **words) {
    struct percobpf_client client;
    if (percobpf_start(&client, words[0], words[1], words[2]) != 0) {
        return FAILED;
    }
    show(percobpf_ask(&client, "put 7 0 2a"));
    percobpf_send(&client, "put 7 0 2b");
    pid_t closing = fork();
    if (closing == 0) {
        percobpf_close(&client);
        _exit(0);
    }
    waitpid(closing, NULL, 0);
    pid_t holding = fork();
    if (holding == 0) {
        pause();
        _exit(0);
    }
    show(percobpf_read(&client));
    fprintf(out, "closed %d\n", percobpf_close(&client));
    kill(holding, SIGKILL);
    waitpid(holding, NULL, 0);
    return 0;
}

static int use_closed(char **words) {
    struct percobpf_client client;
    for (const char *digit = words[3]; *digit != '\0'; digit++) {
        close(*digit - '0');
    }
    if (percobpf_start(&client, words[0], words[1], words[2]) != 0) {
        return FAILED;
    }
    show(percobpf_ask(&client, "put 7 0 2a"));
    fprintf(out, "closed %d\n", percobpf_close(&client));
    return 0;
}

int main(int count, char **words) {
    static const struct {
        const char *name;
        int (*use)(char **words);
    } uses[] = {{"asked", ask_all}, {"two", use_two}, {"forked", use_forked}, {"closed", use_closed}};
    out = fdopen(fcntl(STDOUT_FILENO, F_DUPFD_CLOEXEC, FAR), "w");
    signal(SIGPIPE, SIG_IGN);
    alarm(SECONDS);
    for (size_t at = 0; at < sizeof uses / sizeof *uses; at++) {
        if (count > 2 && strcmp(words[1], uses[at].name) == 0) {
            int status = uses[at].use(words + 2);
            return fclose(out) == 0 ? status : FAILED;
        }
    }
    return FAILED;
}
