/*
 * The time of a call of libdexkit beside that of a process that does the same:
 *
 *     speed DEXKIT ROUNDS FILE..
 *
 * Each line has the microseconds of a check of the first file, and of a merge of all files, by a call, by the program
 * DEXKIT, and by a process that does nothing; the least of five series of ROUNDS each, on the clock.
 *
 *     cc -O2 -I LIBRARY/include tests/library/speed.c LIBRARY/lib/libdexkit.a -o speed
 */
#define _GNU_SOURCE
#include "dexkit.h"

#include <fcntl.h>
#include <spawn.h>
#include <stdio.h>
#include <stdlib.h>
#include <sys/wait.h>
#include <time.h>

extern char **environ;

enum { SERIES = 5 };

static dexkit_bytes *files;
static size_t count;
static char **command;

static dexkit_bytes load(const char *name) {
    FILE *stream = fopen(name, "rb");
    if (!stream) exit(2);
    fseek(stream, 0, SEEK_END);
    size_t len = (size_t)ftell(stream);
    uint8_t *bytes = malloc(len + 1);
    rewind(stream);
    if (fread(bytes, 1, len, stream) != len) exit(2);
    fclose(stream);
    return (dexkit_bytes){bytes, len};
}

static void check(void) {
    size_t classes;
    if (dexkit_check(files->bytes, files->len, &classes, NULL)) exit(1);
}

static void merge(void) {
    dexkit_buffer out;
    if (dexkit_merge(files, count, NULL, 0, 0, &out, NULL)) exit(1);
    dexkit_buffer_free(&out);
}

static void run_command(void) {
    posix_spawn_file_actions_t actions;
    pid_t child;
    int status;
    posix_spawn_file_actions_init(&actions);
    posix_spawn_file_actions_addopen(&actions, 1, "/dev/null", O_WRONLY, 0);
    if (posix_spawnp(&child, command[0], &actions, NULL, command, environ) || waitpid(child, &status, 0) < 0 || status)
        exit(1);
    posix_spawn_file_actions_destroy(&actions);
}

static double now(void) {
    struct timespec time;
    clock_gettime(CLOCK_MONOTONIC, &time);
    return (double)time.tv_sec * 1e6 + (double)time.tv_nsec / 1e3;
}

/* The microseconds of a round, the least of some series. */
static double least(void (*work)(void), int rounds) {
    double best = 0;
    for (int series = 0; series < SERIES; series++) {
        double start = now();
        for (int i = 0; i < rounds; i++) work();
        double each = (now() - start) / rounds;
        if (!series || each < best) best = each;
    }
    return best;
}

int main(int argc, char **argv) {
    if (argc < 4) return 2;
    int rounds = atoi(argv[2]);
    count = (size_t)argc - 3;
    files = calloc(count, sizeof *files);
    for (size_t i = 0; i < count; i++) files[i] = load(argv[i + 3]);

    char *nothing[] = {"/bin/true", NULL};
    char *checked[] = {argv[1], "check", argv[3], NULL};
    char **merged = calloc(count + 5, sizeof *merged);
    char *words[] = {argv[1], "merge", "--out", "/dev/null"};
    for (size_t i = 0; i < count + 4; i++) merged[i] = i < 4 ? words[i] : argv[i - 1];

    command = nothing;
    double start = least(run_command, rounds);
    command = checked;
    printf("check of %zu bytes: %.1f by a call, %.1f by the program, %.1f by a process that does nothing\n", files->len,
           least(check, rounds * 100), least(run_command, rounds), start);
    command = merged;
    printf("merge of %zu files: %.1f by a call, %.1f by the program\n", count, least(merge, rounds),
           least(run_command, rounds));
    return 0;
}
