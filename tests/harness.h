// One case given to the model and to the library: every byte of both answers is compared, and all that must stay.
#ifndef HARNESS_H
#define HARNESS_H

#include <stddef.h>
#include <stdint.h>

struct slice { const uint8_t *bytes; size_t len; };

// How buffers are placed: up against unmapped memory at the end or at the start; empty ones as NULL or as a pointer to unmapped memory.
enum { AT_END = 0, AT_START = 1, EMPTY_IS_NULL = 2 };

// A case. The refusal that it must earn is want, or ANY where only the model knows.
enum { ANY = -1 };
struct job {
    const char *name;
    uint64_t seed;
    struct slice form, words, ends, masks;
    size_t trace_len;
    unsigned placing;
    int want;
};

// The calls that model and library have in common.
typedef uint64_t run_call(const uint8_t *, size_t, const uint8_t *, size_t, const uint8_t *, size_t, const uint8_t *, size_t, uint8_t *, size_t);

// Parts of a run's answer.
unsigned refusal_in(uint64_t answer);
unsigned ending_in(uint64_t answer);
unsigned cycles_in(uint64_t answer);
unsigned records_in(uint64_t answer);

// Makes the memory for the cases; ends the program with a report when a call touches memory that it must not.
void open_harness(void);

// Gives a case to both; ends the program with a report at the first difference. Answers what both said, and lends the model's trace.
uint64_t compare(const struct job *job, const uint8_t **trace);

// Around each call: names the case that a report has to show when the call touches memory that it must not, or does not end in time. A call has 120 seconds,
// or as many as the environment's CALL_SECONDS says; the time begins anew with each call, so a test may run for as long as it likes.
void watch(const struct job *job);
void end_watch(void);

// From now on a line of progress is printed every ten seconds.
void show_progress(void);

// Reports a case as failed and ends the program.
void fail(const struct job *job, const char *why);

// Counts a passed check of a class; how often each refusal and ending was met; prints all counts by class.
void count_passed(const char *name);
unsigned times_refused(unsigned refusal);
void print_counts(void);

// Writes numbers as bytes, 4 each, most significant first; answers them as a slice.
struct slice as_bytes(const uint32_t *numbers, size_t count, uint8_t *bytes);

#endif
