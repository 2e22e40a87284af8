/* Makes changes and asks questions by the client in C, and prints a line for each answer: with three words, the program, a manifest and
 * a log, it starts the program; with one, it reaches a relay at that socket. The lines after three words are sent in place of its own. */
#include "../clients/percobpf_client.h"

#include <inttypes.h>
#include <signal.h>

enum { MANY = 200 };

static void show(struct percobpf_result result) {
    printf("%d commit %" PRIu64 " runs %" PRIu64 " code %u first %02x\n", result.answer, result.commit, result.runs, result.code,
           result.value[0]);
}

int main(int count, char **words) {
    struct percobpf_client client;
    signal(SIGPIPE, SIG_IGN);
    int failed = count >= 4 ? percobpf_start(&client, words[1], words[2], words[3]) : percobpf_connect(&client, words[1]);
    if (failed) {
        puts("not started");
        return 1;
    }
    for (int at = 4; at < count; at++) {
        show(percobpf_ask(&client, words[at]));
    }
    if (count > 4) {
        return percobpf_close(&client);
    }
    const char *lines[] = {"put 7 0 2a", "get 7 1", "del 7 0", "get 7 0", "get 7 1", "get 8 1", "put 7 16 2a", "if 7 0 9; put 7 0 2a"};
    for (size_t at = 0; at < sizeof lines / sizeof *lines; at++) {
        show(percobpf_ask(&client, lines[at]));
    }
    for (int number = 0; number < MANY; number++) {
        percobpf_send(&client, "put 9 0 01");
    }
    int made = 0;
    for (int number = 0; number < MANY; number++) {
        made += percobpf_read(&client).answer == PERCOBPF_MADE;
    }
    printf("%d made, status %d\n", made, percobpf_close(&client));
    return 0;
}
