/* The time of a program that is started again and again: replay_time RUNS INPUT COMMAND...   prints nanoseconds for each run.
   A shell would add more to each run than the program takes. The output is thrown away. */
#include <fcntl.h>
#include <spawn.h>
#include <stdint.h>
#include <stdio.h>
#include <stdlib.h>
#include <sys/wait.h>
#include <time.h>

extern char **environ;

static uint64_t now(void) {
    struct timespec t;
    clock_gettime(CLOCK_MONOTONIC, &t);
    return (uint64_t)t.tv_sec * 1000000000 + (uint64_t)t.tv_nsec;
}

int main(int argc, char **argv) {
    int runs = argc > 3 ? atoi(argv[1]) : 0;
    if (runs < 1) {
        fputs("usage: replay_time RUNS INPUT COMMAND...\n", stderr);
        return 2;
    }
    posix_spawn_file_actions_t files;
    posix_spawn_file_actions_init(&files);
    posix_spawn_file_actions_addopen(&files, 0, argv[2], O_RDONLY, 0);
    posix_spawn_file_actions_addopen(&files, 1, "/dev/null", O_WRONLY, 0);
    uint64_t begin = now();
    for (int i = 0; i < runs; i++) {
        pid_t child;
        int status;
        if (posix_spawn(&child, argv[3], &files, NULL, argv + 3, environ) != 0 || waitpid(child, &status, 0) != child || status != 0) {
            fprintf(stderr, "replay_time: %s does not run\n", argv[3]);
            return 1;
        }
    }
    printf("%llu\n", (unsigned long long)((now() - begin) / (uint64_t)runs));
    return 0;
}
