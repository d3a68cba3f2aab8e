/* Runs a program once, and prints how long it took in nanoseconds, its peak memory in bytes and its status.

       spawn OUTPUT PROGRAM WORD..

   PROGRAM is a path, and OUTPUT the file that its standard output goes to. The status is 128 and the signal's number for a
   program that was killed. A small program starts it, since the peak that the system tells is never below that of whoever
   did. */
#include <fcntl.h>
#include <spawn.h>
#include <stdio.h>
#include <sys/resource.h>
#include <sys/wait.h>
#include <time.h>

extern char **environ;

static long long now(void) {
    struct timespec time;
    clock_gettime(CLOCK_MONOTONIC, &time);
    return time.tv_sec * 1000000000ll + time.tv_nsec;
}

int main(int argc, char **argv) {
    if (argc < 3) {
        fputs("usage: spawn OUTPUT PROGRAM WORD..\n", stderr);
        return 2;
    }
    posix_spawn_file_actions_t actions;
    posix_spawn_file_actions_init(&actions);
    posix_spawn_file_actions_addopen(&actions, 1, argv[1], O_WRONLY | O_CREAT | O_TRUNC, 0666);
    pid_t child;
    int status;
    struct rusage usage;
    long long begin = now();
    if (posix_spawn(&child, argv[2], &actions, NULL, argv + 2, environ) != 0 || wait4(child, &status, 0, &usage) != child) {
        perror(argv[2]);
        return 1;
    }
    long long took = now() - begin;
    printf("%lld %lld %d\n", took, usage.ru_maxrss * 1024ll, WIFEXITED(status) ? WEXITSTATUS(status) : 128 + WTERMSIG(status));
    return 0;
}
