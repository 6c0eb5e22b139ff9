// Compares what a program prints about a file with what the model prints, line by line, and counts what was compared.
#ifndef COMPARING_H
#define COMPARING_H

#include "generate.h"
#include <stdio.h>

// The seed of a whole comparison, and the random numbers for a class of cases and one case of it.
extern uint64_t first_seed;
struct random random_for(unsigned class, unsigned i);

// A file on trial: where it comes from, what a report calls it, and its bytes.
struct trial {
    const char *class;
    uint64_t seed;
    const char *sort;
    const uint8_t *bytes;
    size_t len;
};

// What a report says of a run: the program with its arguments.
extern char call[8192];

// Writes the file of a trial.
void write_trial(const struct trial *t, const char *path);

// Where the model prints what it expects. The program then runs as the arguments and the input say, and each line is compared. One in which both agree is
// noted.
FILE *begin_model(void);
typedef void line_note(const char *line, size_t len);
void finish_trial(const struct trial *t, FILE *model, char *const *arguments, const char *input, line_note *note);

// Standard error is looked at where it goes to a file (errors_file, programs.h): it is to be empty where this text is, and else to be one or two lines of
// which one begins with the text.
extern const char *wanted_errors;

// Reports a difference, or that the cases never showed what they had to show; ends the comparison.
void fail_trial(const struct trial *t, const char *why);
void require(int met, const char *what);

// How many lines were compared; how often each refusal was met.
unsigned long lines_compared(void);
void count_refused(unsigned refusal);
unsigned long times_refused(unsigned refusal);

// The counts by class; the refusals met, and the last line of a comparison without a difference.
void print_classes(void);
void print_verdict(void);

#endif
