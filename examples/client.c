/* Talks to the bench over pipes, as flight code can: writes A5h to chip 1 at 010h, polls it, reads the byte back.
 *
 *     cc -o client examples/client.c && ./client [PATH OF THE BENCH]
 *
 * Flush each line, or the bench waits for it; read its answer before the next. Exit status: 0 if A5h came back, else 1.
 */
#define _POSIX_C_SOURCE 200809L
#include <signal.h>
#include <stdio.h>
#include <stdlib.h>
#include <sys/wait.h>
#include <unistd.h>

enum { START = 0x01, STOP = 0x02, SEND = 0x03, READ = 0x04, CYCLE_OVER = 0x07 }; /* kinds of events */
enum { NONE = 0x00, CHIP = 0x01, THE_LAST = 0x01 };                             /* values of them */
enum { FOR_WRITING = 0xA2, FOR_READING = 0xA3, HIGH = 0x00, LOW = 0x10, BYTE = 0xA5 };
enum { DONE = 0x00, ACKNOWLEDGED = 0x01 };

static FILE *to_bench, *from_bench;

static void start_bench(const char *path) {
    int there[2], back[2]; /* [0] is the end to read from, [1] the end to write to */
    pid_t bench = -1;
    if (pipe(there) == 0 && pipe(back) == 0) bench = fork();
    if (bench == 0) {
        dup2(there[0], STDIN_FILENO);
        dup2(back[1], STDOUT_FILENO);
        close(there[0]), close(there[1]), close(back[0]), close(back[1]);
        execlp(path, path, (char *)NULL);
        perror(path);
        _exit(1);
    }
    if (bench < 0 || !(to_bench = fdopen(there[1], "w")) || !(from_bench = fdopen(back[0], "r"))) {
        perror("client");
        exit(1);
    }
    close(there[0]), close(back[1]); /* or neither sees that the other is gone */
    signal(SIGPIPE, SIG_IGN);        /* a bench that is gone shows as a missing answer */
}

/* Closing its input ends the bench; then it is waited for. */
static int bench_ends_well(void) {
    int status;
    fclose(to_bench);
    return wait(&status) > 0 && WIFEXITED(status) && WEXITSTATUS(status) == 0;
}

/* Sends an event and returns the reply. The answer is kind and value again, a status, and the reply. */
static unsigned ask(unsigned kind, unsigned value) {
    char line[16] = "";
    unsigned its_kind, its_value, status, reply;
    fprintf(to_bench, "%02X%02X\n", kind, value);
    fflush(to_bench);
    if (!fgets(line, sizeof line, from_bench) ||
        sscanf(line, "%2x%2x%2x%2x", &its_kind, &its_value, &status, &reply) != 4 || its_kind != kind ||
        its_value != value || status != DONE) {
        fprintf(stderr, "client: %02X%02X is answered %s", kind, value, *line ? line : "with nothing\n");
        bench_ends_well();
        exit(1);
    }
    return reply;
}

int main(int argc, char **argv) {
    start_bench(argc > 1 ? argv[1] : "./bench");
    ask(START, NONE), ask(SEND, FOR_WRITING), ask(SEND, HIGH), ask(SEND, LOW), ask(SEND, BYTE), ask(STOP, NONE);
    while (ask(START, NONE), ask(SEND, FOR_WRITING) != ACKNOWLEDGED) /* 02 while the chip is busy */
        ask(CYCLE_OVER, CHIP); /* the bench has no clock, and is told */
    ask(SEND, HIGH), ask(SEND, LOW), ask(START, NONE), ask(SEND, FOR_READING);
    unsigned value = ask(READ, THE_LAST);
    ask(STOP, NONE);
    printf("%02X\n", value);
    return bench_ends_well() && value == BYTE ? 0 : 1;
}
