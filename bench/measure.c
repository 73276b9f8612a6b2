// Runs a command with its output thrown away, and prints its status, its wall time in seconds and its peak memory in kB.
// A small program of its own, because a process that was forked from a large one is counted with the other's memory.
#include <fcntl.h>
#include <stdio.h>
#include <sys/resource.h>
#include <sys/wait.h>
#include <time.h>
#include <unistd.h>

static double now(void) {
    struct timespec at;
    clock_gettime(CLOCK_MONOTONIC, &at);
    return at.tv_sec + at.tv_nsec / 1e9;
}

int main(int count, char **words) {
    if (count < 2) return 2;
    double start = now();
    pid_t child = fork();
    if (child < 0) return 2;
    if (child == 0) {
        dup2(open("/dev/null", O_WRONLY), 1);
        execv(words[1], words + 1);
        _exit(127);
    }
    int status = 0;
    struct rusage used;
    if (wait4(child, &status, 0, &used) < 0) return 2;
    printf("%d %.6f %ld\n", WIFEXITED(status) ? WEXITSTATUS(status) : -1, now() - start, used.ru_maxrss);
    return 0;
}
