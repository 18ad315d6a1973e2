/* Runs a command once, its input from a file and its output to nowhere, and prints its processor time
 * (its own and the system's for it) and its time on the clock, in nanoseconds, and its largest resident
 * memory in kB. The processor's time does not count the wait for a core that others are using.
 *
 *     measure INPUT COMMAND [WORD ..]
 */
#define _DEFAULT_SOURCE
#include <fcntl.h>
#include <stdio.h>
#include <sys/resource.h>
#include <sys/time.h>
#include <sys/wait.h>
#include <time.h>
#include <unistd.h>

enum { FAILED = 1, USAGE = 2, CANNOT_START = 127 };

static long long now(void)
{
    struct timespec time;
    clock_gettime(CLOCK_MONOTONIC, &time);
    return time.tv_sec * 1000000000LL + time.tv_nsec;
}

static long long nanoseconds(struct timeval time)
{
    return time.tv_sec * 1000000000LL + time.tv_usec * 1000LL;
}

static void become(const char *input, char **command)
{
    int from = open(input, O_RDONLY);
    int to = open("/dev/null", O_WRONLY);

    if (from >= 0 && to >= 0 && dup2(from, STDIN_FILENO) >= 0 && dup2(to, STDOUT_FILENO) >= 0) {
        close(from);
        close(to);
        execv(command[0], command);
    }
    perror(command[0]);
    _exit(CANNOT_START);
}

int main(int argc, char **argv)
{
    if (argc < 3) {
        fputs("measure: expected INPUT COMMAND [WORD ..]\n", stderr);
        return USAGE;
    }
    long long began = now();
    pid_t child = fork();
    if (child == 0)
        become(argv[1], argv + 2);

    int status;
    struct rusage usage;
    if (child < 0 || wait4(child, &status, 0, &usage) != child) {
        perror("measure");
        return FAILED;
    }
    long long took = now() - began;
    if (!WIFEXITED(status) || WEXITSTATUS(status) != 0) {
        fprintf(stderr, "measure: %s did not end well\n", argv[2]);
        return FAILED;
    }
    long long worked = nanoseconds(usage.ru_utime) + nanoseconds(usage.ru_stime);
    printf("%lld %lld %ld\n", worked, took, usage.ru_maxrss);
    return 0;
}
