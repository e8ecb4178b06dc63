/* Runs a command, and prints the seconds of the clock and of the processors that it took, and the most memory that it had in KB.
 * Linux counts in that what the process had before the command was started in it: here this program, of about a megabyte.
 *
 *   measured OUT COMMAND..         with the command's standard output in the file OUT; its exit status has to be 0
 *   measured --any OUT COMMAND..   with any exit status, which is printed too
 */
#define _DEFAULT_SOURCE
#include <errno.h>
#include <fcntl.h>
#include <spawn.h>
#include <stdbool.h>
#include <stdio.h>
#include <string.h>
#include <sys/resource.h>
#include <sys/wait.h>
#include <time.h>
#include <unistd.h>

extern char **environ;

static double seconds_now(void) {
    struct timespec now;
    clock_gettime(CLOCK_MONOTONIC, &now);
    return (double)now.tv_sec + (double)now.tv_nsec / 1e9;
}

static double seconds_of(struct timeval time) {
    return (double)time.tv_sec + (double)time.tv_usec / 1e6;
}

int main(int count, char **words) {
    const bool any = count > 1 && strcmp(words[1], "--any") == 0;
    words += any;
    count -= any;
    if (count < 3) {
        fprintf(stderr, "usage: measured [--any] OUT COMMAND..\n");
        return 2;
    }
    posix_spawn_file_actions_t actions;
    posix_spawn_file_actions_init(&actions);
    posix_spawn_file_actions_addopen(&actions, STDOUT_FILENO, words[1], O_WRONLY | O_CREAT | O_TRUNC, 0666);
    pid_t child;
    double begun = seconds_now();
    int fault = posix_spawnp(&child, words[2], &actions, NULL, words + 2, environ);
    if (fault != 0) {
        fprintf(stderr, "%s: %s\n", words[2], strerror(fault));
        return 2;
    }
    int status;
    struct rusage used;
    if (wait4(child, &status, 0, &used) != child) {
        fprintf(stderr, "wait4: %s\n", strerror(errno));
        return 2;
    }
    double wall = seconds_now() - begun;
    if (!WIFEXITED(status) || (!any && WEXITSTATUS(status) != 0)) {
        fprintf(stderr, "%s ended with status %#x\n", words[2], (unsigned)status);
        return 1;
    }
    printf("%.6f %.6f %ld", wall, seconds_of(used.ru_utime) + seconds_of(used.ru_stime), used.ru_maxrss);
    if (any) printf(" %d", WEXITSTATUS(status));
    printf("\n");
    return 0;
}
