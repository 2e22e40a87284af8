#include "percobpf_client.h"

#include <fcntl.h>
#include <signal.h>
#include <string.h>
#include <sys/socket.h>
#include <sys/un.h>
#include <sys/wait.h>
#include <unistd.h>

/* The answers by their shapes: each '#' is a number, '*' the digits of a value, and '@' a name. */
static const struct {
    const char *shape;
    enum percobpf_answer answer;
} answers[] = {
    {"made # runs #", PERCOBPF_MADE},
    {"made # unquiet", PERCOBPF_UNQUIET},
    {"unmade commit #", PERCOBPF_UNMADE},
    {"refused 77 #", PERCOBPF_REFUSED},
    {"refused #", PERCOBPF_REFUSED},
    {"value * commit #", PERCOBPF_VALUE},
    {"deleted commit #", PERCOBPF_DELETED},
    {"absent", PERCOBPF_ABSENT},
    {"compacted #", PERCOBPF_OTHER},
    {"copied #", PERCOBPF_OTHER},
    {"quiet", PERCOBPF_OTHER},
    {"marks # locks #", PERCOBPF_OTHER},
    {"begun", PERCOBPF_OTHER},
    {"ended", PERCOBPF_OTHER},
    {"end", PERCOBPF_OTHER},
    {"cell # # commit # value *", PERCOBPF_OTHER},
    {"cell # # commit # deleted", PERCOBPF_OTHER},
    {"runs @ #", PERCOBPF_OTHER},
    {"stats @ runs # nonzero # conflicts # asks # instructions #", PERCOBPF_OTHER},
    {"log #", PERCOBPF_OTHER},
    {"entries #", PERCOBPF_OTHER},
};

enum { MOST_NUMBERS = 5, VALUE_BYTES = 32, NAME_BYTES = 32, LOWEST_CODE = 10, HIGHEST_CODE = 99, COMPACTED_CODE = 77 };

/* What the parts of an answer are. */
struct parts {
    uint64_t numbers[MOST_NUMBERS];
    size_t count;
    unsigned char value[VALUE_BYTES];
};

static int is_digit(char it) {
    return it >= '0' && it <= '9';
}

/* Reads a number below 2^64 without zeros before it, and returns what follows it, or NULL. */
static const char *read_number(const char *at, uint64_t *number) {
    if (!is_digit(*at) || (at[0] == '0' && is_digit(at[1]))) {
        return NULL;
    }
    for (*number = 0; is_digit(*at); at++) {
        uint64_t digit = (uint64_t)(*at - '0');
        if (*number > (UINT64_MAX - digit) / 10) {
            return NULL;
        }
        *number = *number * 10 + digit;
    }
    return at;
}

/* The number that a hexadecimal digit stands for, or -1. */
static int read_digit(char it) {
    const char *digits = "0123456789abcdef", *found = it != '\0' ? strchr(digits, it) : NULL;
    return found != NULL ? (int)(found - digits) : -1;
}

/* Reads 1 to 32 bytes of two digits each, and returns what follows them, or NULL. */
static const char *read_value(const char *at, unsigned char value[VALUE_BYTES]) {
    size_t count = 0;
    for (; count < VALUE_BYTES && read_digit(at[0]) >= 0 && read_digit(at[1]) >= 0; count++, at += 2) {
        value[count] = (unsigned char)(read_digit(at[0]) * 16 + read_digit(at[1]));
    }
    return count > 0 && read_digit(*at) < 0 ? at : NULL;
}

/* Reads a name of 1 to 32 characters, and returns what follows it, or NULL. */
static const char *read_name(const char *at) {
    size_t length = strspn(at, "abcdefghijklmnopqrstuvwxyz0123456789-");
    return length > 0 && length <= NAME_BYTES ? at + length : NULL;
}

/* Whether a line has this shape, and its parts. */
static int has_shape(const char *line, const char *shape, struct parts *parts) {
    memset(parts, 0, sizeof *parts);
    for (; line != NULL && *shape != '\0'; shape++) {
        if (*shape == '#') {
            line = read_number(line, &parts->numbers[parts->count++]);
        } else if (*shape == '*') {
            line = read_value(line, parts->value);
        } else if (*shape == '@') {
            line = read_name(line);
        } else {
            line = *line == *shape ? line + 1 : NULL;
        }
    }
    return line != NULL && *line == '\0';
}

/* The result of an answer of this kind with these parts; GONE where its code is none. */
static struct percobpf_result result_of(enum percobpf_answer answer, const struct parts *parts, int is_compacted) {
    struct percobpf_result result = {.answer = answer};
    if (answer == PERCOBPF_REFUSED) {
        uint64_t code = is_compacted ? COMPACTED_CODE : parts->numbers[0];
        int is_code = code >= LOWEST_CODE && code <= HIGHEST_CODE && (is_compacted || code != COMPACTED_CODE);
        result.answer = is_code ? answer : PERCOBPF_GONE;
        result.code = is_code ? (unsigned)code : 0;
        result.commit = is_compacted ? parts->numbers[0] : 0;
    } else if (answer != PERCOBPF_OTHER) {
        result.commit = parts->numbers[0];
        result.runs = parts->numbers[1];
        memcpy(result.value, parts->value, sizeof result.value);
    }
    return result;
}

/* The result of an answer's line. */
static struct percobpf_result parse(const char *line) {
    struct percobpf_result gone = {.answer = PERCOBPF_GONE};
    struct parts parts;
    for (size_t at = 0; at < sizeof answers / sizeof *answers; at++) {
        if (has_shape(line, answers[at].shape, &parts)) {
            return result_of(answers[at].answer, &parts, strncmp(line, "refused 77 ", 11) == 0);
        }
    }
    return gone;
}

/* Lets nothing wait for the other side any longer. A program that was started here and sends what is no answer is killed. */
static void lose(struct percobpf_client *client, int is_unknown) {
    client->is_gone = 1;
    if (client->user == getpid()) {
        shutdown(fileno(client->lines), SHUT_RDWR);
        if (is_unknown && client->child > 0) {
            kill(client->child, SIGKILL);
        }
    }
}

/* Reads an answer into the client's line, without its newline. */
static int read_line(struct percobpf_client *client) {
    size_t length = 0;
    int byte;
    while ((byte = getc(client->answers)) != EOF && byte != '\n' && byte != '\0' && length < sizeof client->line - 1) {
        client->line[length++] = (char)byte;
    }
    client->line[length] = '\0';
    if (byte != '\n') {
        lose(client, byte != EOF);
    }
    return byte == '\n' ? 0 : -1;
}

/* Puts a descriptor above those of the standard streams, where no program that is started gets it. -1 where it can't. */
static int lift(int end) {
    int lifted = fcntl(end, F_DUPFD_CLOEXEC, STDERR_FILENO + 1);
    close(end);
    return lifted;
}

/* Two ends of a connection. A socket has an end even if a process that was forked meanwhile holds it too, and a pipe hasn't. */
static int connect_ends(int ends[2]) {
    int made[2];
    if (socketpair(AF_UNIX, SOCK_STREAM, 0, made) != 0) {
        return -1;
    }
    ends[0] = lift(made[0]);
    ends[1] = lift(made[1]);
    if (ends[0] >= 0 && ends[1] >= 0) {
        return 0;
    }
    ends[0] >= 0 ? close(ends[0]) : 0;
    ends[1] >= 0 ? close(ends[1]) : 0;
    return -1;
}

/* Makes files of two descriptors, which it closes where it can't. */
static int open_files(struct percobpf_client *client, int lines, int answers) {
    client->is_gone = 0;
    client->user = getpid();
    client->lines = fdopen(lines, "w");
    client->answers = fdopen(answers, "r");
    if (client->lines != NULL && client->answers != NULL) {
        return 0;
    }
    client->lines != NULL ? fclose(client->lines) : close(lines);
    client->answers != NULL ? fclose(client->answers) : close(answers);
    return -1;
}

/* In a process of its own: becomes the program, whose standard streams are these two and standard error, or nothing in its place. */
static void become(const char *program, const char *manifest, const char *log, int lines, int answers) {
    int nothing = open("/dev/null", O_RDWR);
    while (nothing >= 0 && nothing <= STDERR_FILENO) {
        nothing = open("/dev/null", O_RDWR);
    }
    close(nothing);
    dup2(lines, STDIN_FILENO);
    dup2(answers, STDOUT_FILENO);
    execl(program, program, manifest, log, (char *)NULL);
    _exit(127);
}

/* Reads the first line of a program that was started, and how many changes its log had. */
static int read_opened(struct percobpf_client *client) {
    struct parts parts;
    if (client->child < 0 || read_line(client) != 0) {
        return -1;
    }
    if (!has_shape(client->line, "open #", &parts)) {
        lose(client, 1);
        return -1;
    }
    client->found = parts.numbers[0];
    return 0;
}

int percobpf_start(struct percobpf_client *client, const char *program, const char *manifest, const char *log) {
    int lines[2], answers[2];
    if (connect_ends(lines) != 0) {
        return -1;
    }
    if (connect_ends(answers) != 0) {
        close(lines[0]);
        close(lines[1]);
        return -1;
    }
    client->child = fork();
    if (client->child == 0) {
        become(program, manifest, log, lines[1], answers[1]);
    }
    close(lines[1]);
    close(answers[1]);
    if (open_files(client, lines[0], answers[0]) != 0) {
        client->child > 0 ? waitpid(client->child, NULL, 0) : 0;
        return -1;
    }
    if (read_opened(client) != 0) {
        percobpf_close(client);
        return -1;
    }
    return 0;
}

int percobpf_connect(struct percobpf_client *client, const char *path) {
    struct sockaddr_un to = {.sun_family = AF_UNIX};
    if (strlen(path) >= sizeof to.sun_path) {
        return -1;
    }
    strcpy(to.sun_path, path);
    int made = socket(AF_UNIX, SOCK_STREAM, 0), end = made >= 0 ? lift(made) : -1;
    if (end < 0) {
        return -1;
    }
    int other = fcntl(end, F_DUPFD_CLOEXEC, STDERR_FILENO + 1);
    client->child = 0;
    client->found = 0;
    if (other < 0 || connect(end, (struct sockaddr *)&to, sizeof to) != 0) {
        close(end);
        if (other >= 0) {
            close(other);
        }
        return -1;
    }
    return open_files(client, end, other);
}

int percobpf_send(struct percobpf_client *client, const char *line) {
    if (strchr(line, '\n') != NULL || client->is_gone) {
        return -1;
    }
    if (fprintf(client->lines, "%s\n", line) < 0) {
        lose(client, 0);
        return -1;
    }
    return 0;
}

struct percobpf_result percobpf_read(struct percobpf_client *client) {
    struct percobpf_result result = {.answer = PERCOBPF_GONE};
    if (client->is_gone) {
        return result;
    }
    if (fflush(client->lines) != 0) {
        lose(client, 0);
        return result;
    }
    if (read_line(client) == 0) {
        result = parse(client->line);
        if (result.answer == PERCOBPF_GONE) {
            lose(client, 1);
        }
    }
    return result;
}

struct percobpf_result percobpf_ask(struct percobpf_client *client, const char *line) {
    struct percobpf_result result = {.answer = strchr(line, '\n') != NULL ? PERCOBPF_UNSENT : PERCOBPF_GONE};
    return percobpf_send(client, line) == 0 ? percobpf_read(client) : result;
}

int percobpf_close(struct percobpf_client *client) {
    int status = 0;
    if (client->user == getpid()) {
        fflush(client->lines);
        shutdown(fileno(client->lines), SHUT_WR);
    } else {
        /* what waits there to be sent is the caller's */
        close(fileno(client->lines));
    }
    fclose(client->lines);
    fclose(client->answers);
    if (client->child > 0 && waitpid(client->child, &status, 0) == client->child) {
        return WIFEXITED(status) ? WEXITSTATUS(status) : -1;
    }
    return client->child > 0 ? -1 : 0;
}
