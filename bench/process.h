// The best time of a command, from its start to its end, of many rounds; `in` and `out` stand for its standard input and output where they are given.
#include <fcntl.h>
#include <spawn.h>
#include <stdio.h>
#include <stdlib.h>
#include <sys/wait.h>

static double process(char *const arguments[], const char *in, const char *out) {
    extern char **environ;
    posix_spawn_file_actions_t files;
    double best = 1e18;
    posix_spawn_file_actions_init(&files);
    if (in) posix_spawn_file_actions_addopen(&files, 0, in, O_RDONLY, 0);
    if (out) posix_spawn_file_actions_addopen(&files, 1, out, O_WRONLY | O_CREAT | O_TRUNC, 0600);
    for (int round = 0; round < 40; round++) {
        pid_t child;
        int status;
        double start = now();
        if (posix_spawnp(&child, arguments[0], &files, 0, arguments, environ) || waitpid(child, &status, 0) < 0 || status) {
            printf("%s failed\n", arguments[0]);
            exit(1);
        }
        double took = now() - start;
        if (took < best) best = took;
    }
    posix_spawn_file_actions_destroy(&files);
    return best;
}
