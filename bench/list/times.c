/*
 * times LIST C_LIST ROUNDS [TUNABLES]: runs both programs on bundles of at
 * most 65,535 bytes. They must print the same. A run lasts from the start of
 * the process to its end; the best of so many rounds is printed. If libc's
 * tunables for a run under callgrind are given, its instructions are too.
 */
#include "bundles.h"

#include <fcntl.h>
#include <stdbool.h>
#include <stdio.h>
#include <stdlib.h>
#include <sys/wait.h>
#include <time.h>
#include <unistd.h>

/* ---- Runs, with a file as standard input ---- */

static char *tunables;

static void start_program(const char *program, const char *input, const char *output, bool counted)
{
    int in = open(input, O_RDONLY);
    int out = open(output, O_WRONLY | O_CREAT | O_TRUNC, 0666);
    int quiet = open("/dev/null", O_WRONLY);

    if (in < 0 || out < 0 || quiet < 0 || dup2(in, 0) < 0 || dup2(out, 1) < 0)
        _exit(1);
    if (!counted) {
        execl(program, program, (char *)NULL);
    } else if (dup2(quiet, 2) >= 0) {
        setenv("GLIBC_TUNABLES", tunables, 1);
        execlp("valgrind", "valgrind", "--tool=callgrind",
               "--callgrind-out-file=counted_list", program, (char *)NULL);
    }
    _exit(1);
}

/* Gives the milliseconds that the run took. */
static double run(const char *program, const char *input, const char *output, bool counted)
{
    struct timespec start, end;
    int status;

    clock_gettime(CLOCK_MONOTONIC, &start);
    pid_t child = fork();
    if (child == 0)
        start_program(program, input, output, counted);
    if (child < 0 || waitpid(child, &status, 0) != child || status != 0) {
        fprintf(stderr, "%s does not run\n", program);
        exit(1);
    }
    clock_gettime(CLOCK_MONOTONIC, &end);
    return (double)(end.tv_sec - start.tv_sec) * 1e3 +
           (double)(end.tv_nsec - start.tv_nsec) / 1e6;
}

/* Thousands of instructions of a run. */
static double count(const char *program, const char *input)
{
    char line[400];
    double counted = 0;

    run(program, input, "/dev/null", true);
    FILE *file = fopen("counted_list", "r");
    while (file && counted == 0 && fgets(line, sizeof line, file))
        sscanf(line, "totals: %lf", &counted);
    if (counted == 0) {
        fprintf(stderr, "%s: no count\n", program);
        exit(1);
    }
    fclose(file);
    return counted / 1e3;
}

/* ---- The bundles ---- */

enum { PROVED, IN_C, PROGRAMS };

typedef struct {
    const char *name;
    size_t (*fill)(void);
    const char *file; /* which it stands in */
    size_t size;
    double best[PROGRAMS]; /* 0 before the first round */
} Row;

static Row rows[] = {
    {"empty: the start of a process", no_frames, "bundle_empty", 0, {0, 0}},
    {"short frames, each handed", each_handed, "bundle_short", 0, {0, 0}},
    {"short frames of version 1, each handed", each_of_version_1, "bundle_old", 0, {0, 0}},
    {"frames of 63 entries, each handed", long_handed, "bundle_long", 0, {0, 0}},
    {"32 short frames wait, in turns", in_turns, "bundle_turns", 0, {0, 0}},
    {"32 short frames wait, others refused", all_wait, "bundle_wait", 0, {0, 0}},
    {"the same short frame again", one_again, "bundle_again", 0, {0, 0}}
};

enum { ROWS = sizeof rows / sizeof rows[0] };

/* Writes the bundle to its file; both programs have to print the same text for it. */
static void start_row(Row *row, char **programs)
{
    FILE *file = fopen(row->file, "wb");

    row->size = row->fill();
    if (!file || fwrite(bundle, 1, row->size, file) != row->size || fclose(file) != 0)
        exit(1);
    run(programs[PROVED], row->file, "printed", false);
    run(programs[IN_C], row->file, "printed_by_c", false);
    if (system("cmp printed printed_by_c") != 0) {
        printf("%s: they print different texts\n", row->name);
        exit(1);
    }
}

/* One round of a row. A row's rounds lie apart, so that a slow while spoils few. */
static void time_row(Row *row, char **programs)
{
    for (int k = 0; k < PROGRAMS; k++) {
        double time = run(programs[k], row->file, "/dev/null", false);
        if (row->best[k] == 0 || time < row->best[k])
            row->best[k] = time;
    }
}

static void print_row(const Row *row, char **programs)
{
    printf("%-38s%8zu%9.2f%9.2f%9.2f", row->name, row->size, row->best[PROVED],
           row->best[IN_C], row->best[PROVED] / row->best[IN_C]);
    if (tunables) {
        double proved = count(programs[PROVED], row->file);
        double c = count(programs[IN_C], row->file);
        printf("%15.0f%9.0f%9.2f", proved, c, proved / c);
    }
    printf("\n");
    fflush(stdout);
}

int main(int argc, char **argv)
{
    if (argc != 4 && argc != 5)
        return 2;
    char **programs = argv + 1;
    int rounds = atoi(argv[3]);
    tunables = argc == 5 && argv[4][0] != 0 ? argv[4] : NULL;

    for (int i = 0; i < ROWS; i++)
        start_row(&rows[i], programs);
    for (int round = 0; round < rounds; round++) {
        for (int i = 0; i < ROWS; i++)
            time_row(&rows[i], programs);
    }
    printf("%-46s%27s%s\n", "list, a whole process", "ms, best of the rounds",
           tunables ? "        thousands of instructions" : "");
    printf("%-38s%8s%9s%9s%9s%s\n", "bundle", "bytes", "proved", "C", "ratio",
           tunables ? "         proved        C    ratio" : "");
    for (int i = 0; i < ROWS; i++)
        print_row(&rows[i], programs);
    return 0;
}
