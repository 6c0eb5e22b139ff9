// Two programs in turn on the same arguments: checks that they print the same, then prints the median wall time of each whole process and the ratio.
// usage: race RUNS PROGRAM OTHER ARGUMENT..
#define _POSIX_C_SOURCE 200809L
#include "../tests/programs.h"
#include <stdio.h>
#include <stdlib.h>
#include <string.h>
#include <time.h>

enum { MOST_RUNS = 1000 };

static double milliseconds(void)
{
    struct timespec now;
    clock_gettime(CLOCK_MONOTONIC, &now);
    return 1e3 * (double)now.tv_sec + 1e-6 * (double)now.tv_nsec;
}

// Runs the program that stands at the beginning of the list, which NULL ends.
static double time_program(char *const *program, struct printed *printed)
{
    double start = milliseconds();
    run_program(program, NULL, printed);
    return milliseconds() - start;
}

static int ascending(const void *a, const void *b)
{
    double x = *(const double *)a, y = *(const double *)b;
    return (x > y) - (x < y);
}

static double median(double *times, unsigned runs)
{
    qsort(times, runs, sizeof *times, ascending);
    return (times[(runs - 1) / 2] + times[runs / 2]) / 2;
}

static void require_same(const struct printed *a, const struct printed *b, const char *argument)
{
    if (a->len == b->len && a->signal == 0 && b->signal == 0 && memcmp(a->text, b->text, a->len) == 0) return;
    printf("the two programs differ on %s\n", argument);
    exit(1);
}

static unsigned count_lines(const struct printed *printed)
{
    unsigned lines = 0;
    for (size_t i = 0; i < printed->len; i++) lines += printed->text[i] == '\n';
    return lines;
}

int main(int count, char **arguments)
{
    static double times[2][MOST_RUNS];
    static struct printed printed[2];
    unsigned runs = count > 1 ? (unsigned)strtoul(arguments[1], NULL, 10) : 0;
    if (count < 5 || runs == 0 || runs > MOST_RUNS) {
        fprintf(stderr, "usage: race RUNS PROGRAM OTHER ARGUMENT..\n");
        return 2;
    }
    char *names[2] = {arguments[2], arguments[3]};
    for (unsigned i = 0; i < runs; i++) {
        for (unsigned k = 0; k < 2; k++) {
            arguments[3] = names[k];
            times[k][i] = time_program(arguments + 3, &printed[k]);
        }
        require_same(&printed[0], &printed[1], arguments[4]);
    }
    double first = median(times[0], runs), second = median(times[1], runs);
    printf("%s: %u lines, %u runs each, milliseconds for the whole process, median\n", arguments[4], count_lines(&printed[0]), runs);
    printf("%10.3f  %s\n%10.3f  %s\n%10.2f  ratio of the second to the first; over 1: the first is faster\n", first, names[0], second, names[1], second / first);
    return 0;
}
