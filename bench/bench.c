// Plain C and the library in turn on the same nets: checks that they write the same bytes, then prints million cycles per second and the ratio.
#define _POSIX_C_SOURCE 200809L
#include "plain.h"
#include "../include/whemdrosk.h"
#include "../tests/generate.h"
#include <stdio.h>
#include <stdlib.h>
#include <string.h>
#include <time.h>

enum { CYCLES = 4000, ROUNDS = 150, CHECK_CALLS = 2000, SOURCES = 32, TRACE = CYCLES * 128 * 8 };

typedef uint64_t run_call(const uint8_t *, size_t, const uint8_t *, size_t, const uint8_t *, size_t, const uint8_t *, size_t, uint8_t *, size_t);
typedef uint32_t check_call(const uint8_t *, size_t);

static struct form form;
static uint8_t words[4 * SOURCES * CYCLES], ends[4 * SOURCES], masks[8 * CYCLES], traces[2][TRACE];
static unsigned sources;

// ---- Nets: parts of 8 blocks each, their channels counted from 0

// Source, data buffer, fork into an operator with constant and a control buffer, operator, data buffer, sink.
static const struct drawn diamond[8] = {
    {SOURCE, 0, 0, {0}},   {DATA, 0, 0, {0, 1}},        {FORK, 2, 0, {1, 2, 3}}, {CONSTANT, 0, 5, {2, 4}},
    {CONTROL, 0, 0, {3, 5}}, {OPERATOR, 0, 0, {4, 5, 6}}, {DATA, 0, 0, {6, 7}},    {SINK, 0, 0, {7}},
};

// Two sources merged, a data buffer on either side, and a demux that tells them apart again.
static const struct drawn shared[8] = {
    {SOURCE, 0, 0, {0}}, {SOURCE, 0, 0, {1}}, {MERGE, 2, 0, {0, 1, 2, 3}}, {DATA, 0, 0, {2, 4}},
    {DATA, 0, 0, {3, 5}}, {DEMUX, 2, 0, {5, 4, 6, 7}}, {SINK, 0, 0, {6}}, {SINK, 0, 0, {7}},
};

// A running sum through a full data buffer and a control buffer, compared with 1000.
static const struct drawn running[8] = {
    {SOURCE, 0, 0, {0}}, {OPERATOR, 0, 0, {0, 1, 2}}, {FORK, 2, 0, {2, 3, 4}}, {CONTROL, 0, 0, {3, 5}},
    {FULL_DATA, 0, 0, {5, 1}}, {CONSTANT, 3, 1000, {4, 6}}, {DATA, 0, 0, {6, 7}}, {SINK, 0, 0, {7}},
};

// A mux of two sources by the words of a third, forked to a sink and through a data buffer to another.
static const struct drawn chosen[8] = {
    {SOURCE, 0, 0, {0}}, {SOURCE, 0, 0, {1}}, {SOURCE, 0, 0, {2}}, {MUX, 2, 0, {0, 1, 2, 3}},
    {FORK, 2, 0, {3, 4, 5}}, {DATA, 0, 0, {4, 6}}, {SINK, 0, 0, {5}}, {SINK, 0, 0, {6}},
};

static void add_part(struct draft *d, const struct drawn *part)
{
    unsigned base = d->channels;
    for (unsigned b = 0; b < 8; b++) {
        unsigned ports[PORT_ROOM], count = inputs_of(part[b].kind, part[b].m) + outputs_of(part[b].kind, part[b].m);
        for (unsigned i = 0; i < count; i++) {
            ports[i] = base + part[b].port[i];
            if (ports[i] >= d->channels) d->channels = ports[i] + 1;
        }
        add_drawn(d, part[b].kind, part[b].m, part[b].value, ports);
    }
}

static void make_net(unsigned blocks)
{
    static const struct drawn *const parts[4] = {diamond, shared, running, chosen};
    static struct draft d;
    d.blocks = d.channels = 0;
    for (unsigned i = 0; i < blocks / 8; i++) add_part(&d, parts[i % 4]);
    write_form(&d, &form);
    sources = count_kind(&d, SOURCE);
}

// A source, control buffers in a row against the order of their numbers, and a sink: the longest way to an order.
static void make_row(void)
{
    static struct draft d;
    d.blocks = d.channels = 0;
    add_drawn(&d, SINK, 0, 0, (unsigned[]){62});
    for (unsigned i = 62; i > 0; i--) add_drawn(&d, CONTROL, 0, 0, (unsigned[]){i - 1, i});
    add_drawn(&d, SOURCE, 0, 0, (unsigned[]){0});
    d.channels = 63;
    write_form(&d, &form);
}

// A word for each cycle and source, all 0 or 1, as some of them select; masks all set or at random.
static void make_streams(int full)
{
    struct random r = {7, 7};
    for (unsigned i = 0; i < sources * CYCLES; i++) whemdrosk_put(words + 4 * i, below(&r, 2));
    for (unsigned k = 0; k < sources; k++) whemdrosk_put(ends + 4 * k, (k + 1) * CYCLES);
    for (unsigned i = 0; i < 2 * CYCLES; i++) whemdrosk_put(masks + 4 * i, full ? 0xffffffff : random_bits(&r));
}

// ---- Measuring

static double seconds(void)
{
    struct timespec now;
    clock_gettime(CLOCK_MONOTONIC, &now);
    return (double)now.tv_sec + 1e-9 * (double)now.tv_nsec;
}

static uint64_t call(run_call *run, uint8_t *trace)
{
    return run(form.bytes, form.len, words, (size_t)4 * sources * CYCLES, ends, 4 * sources, masks, sizeof masks, trace, TRACE);
}

static double time_run(run_call *run, uint8_t *trace)
{
    double start = seconds();
    call(run, trace);
    return seconds() - start;
}

static void require_same(void)
{
    memset(traces, 0x5a, sizeof traces);
    uint64_t plain = call(plain_run, traces[0]), library = call(whemdrosk_run, traces[1]);
    if (plain == library && WHEMDROSK_REFUSAL(plain) == 0 && memcmp(traces[0], traces[1], TRACE) == 0) return;
    printf("plain C and the library differ on a net of %u blocks\n", form.bytes[2]);
    exit(1);
}

static void measure_run(unsigned blocks, int full)
{
    double plain = 1e9, library = 1e9;
    make_net(blocks);
    make_streams(full);
    require_same();
    uint32_t records = WHEMDROSK_RECORDS(call(plain_run, traces[0]));
    for (unsigned i = 0; i < ROUNDS; i++) {
        double p = time_run(plain_run, traces[0]), l = time_run(whemdrosk_run, traces[1]);
        plain = p < plain ? p : plain;
        library = l < library ? l : library;
    }
    printf("%6u  %-8s %12.1f %12.2f %12.2f %8.2f\n", blocks, full ? "all set" : "random", (double)records / CYCLES, CYCLES / plain * 1e-6,
           CYCLES / library * 1e-6, plain / library);
}

static double time_check(check_call *check)
{
    double best = 1e9;
    uint32_t refused = 0;
    for (unsigned i = 0; i < ROUNDS / 10; i++) {
        double start = seconds();
        for (unsigned k = 0; k < CHECK_CALLS; k++) refused |= check(form.bytes, form.len);
        double took = (seconds() - start) / CHECK_CALLS;
        best = took < best ? took : best;
    }
    if (refused) {
        printf("a net of %u blocks is refused\n", form.bytes[2]);
        exit(1);
    }
    return best * 1e6;
}

static void measure_check(const char *name)
{
    double plain = time_check(plain_check), library = time_check(whemdrosk_check);
    printf("%-24s %20.2f %12.2f %8.2f\n", name, plain, library, plain / library);
}

int main(void)
{
    printf("million cycles per second, %u cycles a call, best of %u calls each; a ratio over 1: the library is faster\n", CYCLES, ROUNDS);
    printf("blocks  masks      deliveries      plain C      library    ratio\n                   in a cycle\n");
    for (unsigned blocks = 8; blocks <= 64; blocks *= 2)
        for (int full = 1; full >= 0; full--) measure_run(blocks, full);
    printf("\nmicroseconds for one check of a form\n%-24s %20s %12s %8s\n", "", "plain C", "library", "ratio");
    for (unsigned blocks = 8; blocks <= 64; blocks *= 2) {
        char name[40];
        snprintf(name, sizeof name, "%u blocks", blocks);
        make_net(blocks);
        measure_check(name);
    }
    make_row();
    measure_check("64 in a row, backwards");
    return 0;
}
