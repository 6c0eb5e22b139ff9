// Buffers lie between unmapped pages, the trace is filled with a pattern, and a case that differs is printed so that it can be done again.
#define _GNU_SOURCE
#include "harness.h"
#include "model.h"
#include "../include/whemdrosk.h"
#include <signal.h>
#include <stdio.h>
#include <stdlib.h>
#include <string.h>
#include <sys/mman.h>
#include <time.h>
#include <unistd.h>

enum { INPUT_ROOM = 9 << 20, TRACE_ROOM = 40 << 20, MARGIN = 256, CLASS_ROOM = 64, CALL_SECONDS = 120, PROGRESS_SECONDS = 10 };

// Memory with an unmapped page before and after it.
struct arena { uint8_t *start, *end; };

static struct arena forms, words, ends, masks, traces, model_traces;
static const struct job *current;
static unsigned call_seconds = CALL_SECONDS;
static struct { const char *name; unsigned long passed; } classes[CLASS_ROOM];
static unsigned long total, refused[256], endings[2];
static time_t began, said;

unsigned refusal_in(uint64_t answer)
{
    return (unsigned)(answer >> 56);
}

unsigned ending_in(uint64_t answer)
{
    return (unsigned)(answer >> 55 & 1);
}

unsigned cycles_in(uint64_t answer)
{
    return (unsigned)(answer >> 29 & 0x3ffffff);
}

unsigned records_in(uint64_t answer)
{
    return (unsigned)(answer & 0x1fffffff);
}

struct slice as_bytes(const uint32_t *numbers, size_t count, uint8_t *bytes)
{
    for (size_t i = 0; i < 4 * count; i++) bytes[i] = (uint8_t)(numbers[i / 4] >> (24 - i % 4 * 8));
    return (struct slice){bytes, 4 * count};
}

// ---- Counting and reporting

// A line of progress where the last one is PROGRESS_SECONDS old. The clock is looked at once in 64 cases.
static void say_progress(const char *name)
{
    if (said == 0 || total % 64 != 0) return;
    time_t now = time(NULL);
    if (now - said < PROGRESS_SECONDS) return;
    said = now;
    printf("%ld s: %lu cases agree, now at: %s\n", (long)(now - began), total, name);
    fflush(stdout);
}

void show_progress(void)
{
    began = said = time(NULL);
}

void count_passed(const char *name)
{
    unsigned i = 0;
    while (i < CLASS_ROOM - 1 && classes[i].name && strcmp(classes[i].name, name) != 0) i++;
    classes[i].name = name;
    classes[i].passed++;
    total++;
    say_progress(name);
}

unsigned times_refused(unsigned refusal)
{
    return (unsigned)refused[refusal];
}

void print_counts(void)
{
    for (unsigned i = 0; i < CLASS_ROOM && classes[i].name; i++) printf("%-44s %8lu\n", classes[i].name, classes[i].passed);
    printf("refusals met:");
    for (unsigned i = 1; i < 256; i++)
        if (refused[i]) printf(" %u: %lu", i, refused[i]);
    printf("\nruns with ending 0: %lu, with ending 1: %lu\n%lu passed, 0 failed\n", endings[0], endings[1], total);
}

static void print_slice(const char *name, struct slice s)
{
    printf("%s (%zu bytes):", name, s.len);
    for (size_t i = 0; i < s.len && i < 2048; i++) printf(" %02x", s.bytes[i]);
    puts(s.len > 2048 ? " .." : "");
}

void fail(const struct job *job, const char *why)
{
    printf("DIFFERENT: %s\nclass: %s\nseed: %llu\n", why, job->name, (unsigned long long)job->seed);
    print_slice("form", job->form);
    print_slice("words", job->words);
    print_slice("ends", job->ends);
    print_slice("masks", job->masks);
    printf("trace: %zu bytes, placing %u\n%lu passed, 1 failed\n", job->trace_len, job->placing, total);
    fflush(stdout);
    _exit(1);
}

void watch(const struct job *job)
{
    current = job;
    alarm(call_seconds);
}

void end_watch(void)
{
    alarm(0);
}

static void stopped(int number)
{
    fail(current, number == SIGALRM ? "a call does not end" : "a call touches memory outside its buffers");
}

static void fail_answers(const struct job *job, const char *call, uint64_t model, uint64_t library)
{
    char why[200];
    const char *form = "%s: the model says refusal %u, ending %u, cycles %u, records %u; the library %u, %u, %u, %u";
    snprintf(why, sizeof why, form, call, refusal_in(model), ending_in(model), cycles_in(model), records_in(model), refusal_in(library),
             ending_in(library), cycles_in(library), records_in(library));
    fail(job, why);
}

// ---- Memory

static struct arena open_arena(size_t room)
{
    size_t page = (size_t)sysconf(_SC_PAGESIZE), size = (room + page - 1) / page * page;
    uint8_t *at = mmap(NULL, size + 2 * page, PROT_NONE, MAP_PRIVATE | MAP_ANONYMOUS | MAP_NORESERVE, -1, 0);
    if (at == MAP_FAILED || mprotect(at + page, size, PROT_READ | PROT_WRITE) != 0) {
        perror("memory for the tests");
        exit(2);
    }
    return (struct arena){at + page, at + page + size};
}

void open_harness(void)
{
    struct sigaction action = {.sa_handler = stopped};
    sigaction(SIGSEGV, &action, NULL);
    sigaction(SIGBUS, &action, NULL);
    sigaction(SIGALRM, &action, NULL);
    if (getenv("CALL_SECONDS")) call_seconds = (unsigned)strtoul(getenv("CALL_SECONDS"), NULL, 10);
    forms = open_arena(INPUT_ROOM);
    words = open_arena(INPUT_ROOM);
    ends = open_arena(INPUT_ROOM);
    masks = open_arena(INPUT_ROOM);
    traces = open_arena(TRACE_ROOM);
    model_traces = open_arena(TRACE_ROOM);
}

// Where a buffer of some length lies in an arena; an empty one begins where the mapped bytes end.
static uint8_t *place(const struct arena *arena, size_t len, unsigned placing)
{
    if (len == 0 && placing & EMPTY_IS_NULL) return NULL;
    return len > 0 && placing & AT_START ? arena->start : arena->end - len;
}

static struct slice lend(const struct arena *arena, struct slice from, unsigned placing)
{
    uint8_t *at = place(arena, from.len, placing);
    if (from.len > 0) memcpy(at, from.bytes, from.len);
    return (struct slice){at, from.len};
}

// Fills a trace and a margin on its open side with a pattern; lends the filled part.
static struct slice fill(const struct arena *arena, size_t len, unsigned placing, uint8_t pattern)
{
    uint8_t *first = placing & AT_START ? arena->start : arena->end - len - MARGIN;
    memset(first, pattern, len + MARGIN);
    return (struct slice){first, len + MARGIN};
}

static int same(struct slice a, struct slice b)
{
    return a.len == b.len && (a.len == 0 || memcmp(a.bytes, b.bytes, a.len) == 0);
}

// ---- One case

// One call of a run, watched: reports show the case as it was made.
static uint64_t call(run_call *run, const struct job *job, const struct job *lent, uint8_t *trace)
{
    watch(job);
    uint64_t answer = run(lent->form.bytes, lent->form.len, lent->words.bytes, lent->words.len, lent->ends.bytes, lent->ends.len,
                          lent->masks.bytes, lent->masks.len, trace, lent->trace_len);
    end_watch();
    return answer;
}

static uint32_t call_check(uint32_t (*check)(const uint8_t *, size_t), const struct job *job, const struct job *lent)
{
    watch(job);
    uint32_t refusal = check(lent->form.bytes, lent->form.len);
    end_watch();
    return refusal;
}

// Calls the library on the lent buffers and compares with what the model said and wrote.
static void compare_library(const struct job *job, const struct job *lent, uint64_t answer, struct slice written, uint8_t pattern)
{
    struct slice filled = fill(&traces, job->trace_len, job->placing, pattern);
    uint64_t got = call(whemdrosk_run, job, lent, place(&traces, job->trace_len, job->placing));
    if (got != answer) fail_answers(job, "run", answer, got);
    if (!same(written, filled)) fail(job, "run: the traces, or bytes around them that must stay, differ");
    uint64_t check = call_check(model_check, job, lent), library = call_check(whemdrosk_check, job, lent);
    if (library != check) fail_answers(job, "check", check << 56, library << 56);
    if (check != 0 && check != refusal_in(answer)) fail(job, "check and run refuse the form by different numbers");
    if (!same(lent->form, job->form) || !same(lent->words, job->words) || !same(lent->ends, job->ends) || !same(lent->masks, job->masks))
        fail(job, "a call changed a buffer that it may only read");
}

uint64_t compare(const struct job *job, const uint8_t **trace)
{
    struct job lent = *job;
    uint8_t pattern = (uint8_t)(0x5b + 37 * total);
    lent.form = lend(&forms, job->form, job->placing);
    lent.words = lend(&words, job->words, job->placing);
    lent.ends = lend(&ends, job->ends, job->placing);
    lent.masks = lend(&masks, job->masks, job->placing);
    struct slice written = fill(&model_traces, job->trace_len, job->placing, pattern);
    uint8_t *model_trace = place(&model_traces, job->trace_len, job->placing);
    uint64_t answer = call(model_run, job, &lent, model_trace);
    for (int again = 0; again <= (total % 8 == 0); again++) compare_library(job, &lent, answer, written, pattern);
    if (job->want != ANY && refusal_in(answer) != (unsigned)job->want) fail(job, "both give another refusal than the case was made for");
    refused[refusal_in(answer)] += 1;
    if (refusal_in(answer) == 0) endings[ending_in(answer)]++;
    if (trace) *trace = model_trace;
    count_passed(job->name);
    return answer;
}
