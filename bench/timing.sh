# Sourced by the scripts beside it: what commands cost, one beside the other. `runs` is how many runs are timed, `folder` a
# folder of the script's own. It needs cc.

cat >"$folder/alternate.c" <<'C'
#define _GNU_SOURCE
#include <fcntl.h>
#include <spawn.h>
#include <stdio.h>
#include <stdlib.h>
#include <string.h>
#include <sys/resource.h>
#include <sys/wait.h>

enum { MOST_COMMANDS = 8 };
extern char **environ;

static struct command { char *name, **words, **environment; double *seconds, *ratios; long peak; } commands[MOST_COMMANDS];

static double in_seconds(struct timeval time) { return time.tv_sec + time.tv_usec / 1e6; }

/* The environment, with a setting NAME=VALUE before all others. */
static char **environment_with(char *setting) {
    int count = 0;
    while (environ[count]) count++;
    char **own = calloc(count + 2, sizeof *own);
    own[0] = setting;
    memcpy(own + 1, environ, count * sizeof *own);
    return own;
}

static void run(struct command *command, int round) {
    posix_spawn_file_actions_t files;
    posix_spawn_file_actions_init(&files);
    posix_spawn_file_actions_addopen(&files, 1, "/dev/null", O_WRONLY, 0);
    pid_t pid;
    int status;
    struct rusage used;
    if (posix_spawnp(&pid, command->words[0], &files, NULL, command->words, command->environment) != 0 ||
        wait4(pid, &status, 0, &used) != pid || status != 0) {
        fprintf(stderr, "%s didn't end with status 0\n", command->name);
        exit(1);
    }
    command->seconds[round] = in_seconds(used.ru_utime) + in_seconds(used.ru_stime);
    if (used.ru_maxrss > command->peak) command->peak = used.ru_maxrss;
}

static int compare(const void *a, const void *b) {
    double x = *(const double *)a, y = *(const double *)b;
    return (x > y) - (x < y);
}

static double median(double *numbers, int count) {
    qsort(numbers, count, sizeof *numbers, compare);
    return (numbers[(count - 1) / 2] + numbers[count / 2]) / 2;
}

/* RUNS, and then for each command `--`, its name and its words */
int main(int count, char **args) {
    int runs = atoi(args[1]), known = 0;
    for (int i = 2; i < count; i++) {
        if (strcmp(args[i], "--")) continue;
        args[i] = NULL;
        char **words = args + i + 2, **environment = environ;
        if (strchr(words[0], '=')) environment = environment_with(*words++);
        commands[known++] = (struct command){args[i + 1], words, environment, calloc(runs, 8), calloc(runs, 8), 0};
    }
    /* Back and forth, since what ran before decides what memory the machine has at hand. */
    for (int round = 0; round < runs; round++)
        for (int i = 0; i < known; i++) run(commands + (round % 2 ? known - 1 - i : i), round);
    for (int i = 0; i < known; i++)
        for (int round = 0; round < runs; round++)
            commands[i].ratios[round] = commands[0].seconds[round] / commands[i].seconds[round];
    for (int i = 0; i < known; i++) {
        struct command *command = commands + i;
        printf("%-14s %10.2f ms %10ld KiB", command->name, median(command->seconds, runs) * 1000, command->peak);
        if (i > 0) printf("   %s is %.2f of it", commands[0].name, median(command->ratios, runs));
        putchar('\n');
    }
}
C
cc -O2 -Wall -Werror -o "$folder/alternate" "$folder/alternate.c"

# How the script `crashway` starts the program: with large pages for its memory.
large_pages=GLIBC_TUNABLES=glibc.malloc.hugetlb=1

# alternate -- NAME [SETTING] WORDS.. -- NAME [SETTING] WORDS.. ..: runs the commands in turn, each with what SETTING adds to the
# environment, and says for each the median of its processor time, its peak memory, and the median ratio of the first one's
# time to its own in the same round.
alternate() { "$folder/alternate" "$runs" "$@"; }
