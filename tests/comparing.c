#define _POSIX_C_SOURCE 200809L
#include "comparing.h"
#include "programs.h"
#include <stdlib.h>
#include <string.h>

enum { CLASS_ROOM = 64, REFUSAL_ROOM = 256, MOST_SHOWN = 4096, ERROR_ROOM = 16384, MOST_ERROR_LINES = 2 };

uint64_t first_seed = 1;
char call[8192];
const char *wanted_errors = "";

struct random random_for(unsigned class, unsigned i)
{
    uint64_t first = (first_seed * 64 + class) << 32 | i;
    return (struct random){first, first};
}

// ---- Counts

static struct { const char *name; unsigned long runs, lines; } classes[CLASS_ROOM];
static unsigned long refused[REFUSAL_ROOM], all_lines;

static void count_run(const char *class, unsigned long lines)
{
    unsigned i = 0;
    while (i < CLASS_ROOM - 1 && classes[i].name && strcmp(classes[i].name, class) != 0) i++;
    classes[i].name = class;
    classes[i].runs++;
    classes[i].lines += lines;
    all_lines += lines;
}

unsigned long lines_compared(void)
{
    return all_lines;
}

void count_refused(unsigned refusal)
{
    if (refusal < REFUSAL_ROOM) refused[refusal]++;
}

unsigned long times_refused(unsigned refusal)
{
    return refused[refusal];
}

void print_classes(void)
{
    printf("%-52s %8s %8s\n", "", "runs", "lines");
    for (unsigned i = 0; i < CLASS_ROOM && classes[i].name; i++) printf("%-52s %8lu %8lu\n", classes[i].name, classes[i].runs, classes[i].lines);
}

void print_verdict(void)
{
    printf("refusals met:");
    for (unsigned i = 1; i < REFUSAL_ROOM; i++)
        if (refused[i]) printf(" %u: %lu", i, refused[i]);
    printf("\n%lu passed, 0 failed\n", all_lines);
}

// ---- Comparing

void fail_trial(const struct trial *t, const char *why)
{
    printf("DIFFERENT: %s: %s\nclass: %s\nseed: %llu\n%s (%zu bytes):", call, why, t->class, (unsigned long long)t->seed, t->sort, t->len);
    for (size_t i = 0; i < t->len && i < MOST_SHOWN; i++) printf(" %02x", t->bytes[i]);
    printf("%s\n%lu passed, 1 failed\n", t->len > MOST_SHOWN ? " .." : "", all_lines);
    exit(1);
}

void require(int met, const char *what)
{
    if (met) return;
    printf("never met: %s\n0 passed, 1 failed\n", what);
    exit(1);
}

static size_t line_length(const char *text)
{
    const char *end = strchr(text, '\n');
    return end ? (size_t)(end - text) + 1 : strlen(text);
}

static void fail_line(const struct trial *t, unsigned long number, const char *want, const char *got, int signal)
{
    static char why[4096];
    if (!*want) want = "nothing";
    if (!*got) got = signal ? "nothing, as a signal ended the program" : "nothing";
    snprintf(why, sizeof why, "line %lu: expected %.*s, got %.*s", number, (int)strcspn(want, "\n"), want, (int)strcspn(got, "\n"), got);
    fail_trial(t, why);
}

// Every line and what is behind the last; the line that differs is said. Answers how many lines there are.
static unsigned long compare_lines(const struct trial *t, const char *want, const struct printed *printed, line_note *note)
{
    const char *got = printed->text;
    unsigned long lines = 0;
    while (*want || *got) {
        size_t want_len = line_length(want), got_len = line_length(got);
        lines++;
        if (want_len != got_len || memcmp(want, got, want_len) != 0) fail_line(t, lines, want, got, printed->signal);
        note(want, want_len);
        want += want_len;
        got += got_len;
    }
    if (got != printed->text + printed->len) fail_trial(t, "a zero byte is printed");
    if (printed->signal) fail_trial(t, "the program is ended by a signal");
    return lines;
}

// What went to standard error.
static const char *read_errors(void)
{
    static char text[ERROR_ROOM];
    FILE *file = fopen(errors_file, "rb");
    text[file ? fread(text, 1, sizeof text - 1, file) : 0] = 0;
    if (file) fclose(file);
    return text;
}

// Whether a line of a short text begins as it should, or there is no line and should be none.
static int errors_are_right(const char *got)
{
    unsigned lines = 0, found = 0;
    for (; *got; got += line_length(got)) {
        lines++;
        found += strncmp(got, wanted_errors, strlen(wanted_errors)) == 0;
    }
    return *wanted_errors ? found > 0 && lines <= MOST_ERROR_LINES : lines == 0;
}

// Answers how many lines of standard error were looked for.
static unsigned long compare_errors(const struct trial *t)
{
    static char why[4096];
    if (!errors_file) return 0;
    const char *got = read_errors(), *want = *wanted_errors ? wanted_errors : "nothing", *shown = *got ? got : "nothing";
    snprintf(why, sizeof why, "standard error: expected %.*s, got %.*s", (int)strcspn(want, "\n"), want, (int)strcspn(shown, "\n"), shown);
    if (!errors_are_right(got)) fail_trial(t, why);
    return *wanted_errors != 0;
}

// The model's text, as it is made.
static struct { char *bytes; size_t len; } model;

FILE *begin_model(void)
{
    FILE *out = open_memstream(&model.bytes, &model.len);
    if (!out) exit(2);
    return out;
}

void finish_trial(const struct trial *t, FILE *out, char *const *arguments, const char *input, line_note *note)
{
    static struct printed printed;
    fclose(out);
    run_program(arguments, input, &printed);
    unsigned long lines = compare_lines(t, model.bytes, &printed, note);
    count_run(t->class, lines + compare_errors(t));
    free(model.bytes);
}

void write_trial(const struct trial *t, const char *path)
{
    FILE *file = fopen(path, "wb");
    if (!file || fwrite(t->bytes, 1, t->len, file) != t->len || fclose(file) != 0) {
        perror(path);
        exit(2);
    }
}
