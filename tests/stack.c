// How much stack the two calls use: each runs on a stack of its own that was painted before, and the lowest byte that lost its paint says how deep the call went.
// Prints the most that was met, a line for each call: its name and its bytes, the return address among them.
#define _XOPEN_SOURCE 700
#include "generate.h"
#include "spoil.h"
#include "../include/whemdrosk.h"
#include <stdio.h>
#include <stdlib.h>
#include <string.h>
#include <ucontext.h>

enum { STACK = 1 << 18, PAINT = 0x5c, NETS = 400, LONGEST = 50, CYCLES = 40, RETURN_ADDRESS = 8 };

typedef uint32_t check_call(const uint8_t *, size_t);
typedef uint64_t run_call(const uint8_t *, size_t, const uint8_t *, size_t, const uint8_t *, size_t, const uint8_t *, size_t, uint8_t *, size_t);

static struct draft draft;
static struct form form;
static uint32_t words[32 * LONGEST], ends[32], masks[2 * CYCLES];
static uint8_t word_bytes[sizeof words], end_bytes[sizeof ends], mask_bytes[sizeof masks], trace[8 * 128 * CYCLES];
static size_t word_count, source_count, trace_len;

static unsigned char stack[STACK];
static ucontext_t outside, inside;
static volatile uint64_t answer;

// ---- The calls, and calls in their place that do nothing: what lies between the two is the call's own

static uint32_t no_check(const uint8_t *bytes, size_t len)
{
    (void)bytes, (void)len;
    return 0;
}

static uint64_t no_run(const uint8_t *f, size_t fl, const uint8_t *w, size_t wl, const uint8_t *e, size_t el, const uint8_t *m, size_t ml, uint8_t *t, size_t tl)
{
    (void)f, (void)fl, (void)w, (void)wl, (void)e, (void)el, (void)m, (void)ml, (void)t, (void)tl;
    return 0;
}

static check_call *volatile check;
static run_call *volatile run;

static void call_check(void)
{
    answer = check(form.bytes, form.len);
}

static void call_run(void)
{
    answer = run(form.bytes, form.len, word_bytes, 4 * word_count, end_bytes, 4 * source_count, mask_bytes, sizeof mask_bytes, trace, trace_len);
}

// ---- Painting

static size_t depth_of(void (*work)(void))
{
    memset(stack, PAINT, sizeof stack);
    if (getcontext(&inside) != 0) exit(1);
    inside.uc_stack.ss_sp = stack;
    inside.uc_stack.ss_size = sizeof stack;
    inside.uc_link = &outside;
    makecontext(&inside, work, 0);
    if (swapcontext(&outside, &inside) != 0) exit(1);
    size_t painted = 0;
    while (painted < sizeof stack && stack[painted] == PAINT) painted++;
    return sizeof stack - painted;
}

static void deepen(size_t *most, void (*work)(void), size_t nothing)
{
    size_t depth = depth_of(work) - nothing + RETURN_ADDRESS;
    if (depth > *most) *most = depth;
}

// ---- Nets

static void put_all(const uint32_t *numbers, size_t count, uint8_t *bytes)
{
    for (size_t i = 0; i < count; i++) whemdrosk_put(bytes + 4 * i, numbers[i]);
}

// Mostly full nets; every fourth form is spoilt, and every fourth trace is too short.
static void draw_case(unsigned i)
{
    struct random r = {i, i};
    struct wish wish = {{i % 3 ? 64 : 2 + below(&r, 62), 128, 32, 32}, below(&r, 6), i % 5 != 0, i % 2 ? ~0u : patterns_of_channels()};
    draw(&r, &wish, &draft);
    write_form(&draft, &form);
    word_count = draw_streams(&r, &draft, LONGEST, words, ends);
    source_count = count_kind(&draft, SOURCE);
    draw_masks(&r, below(&r, MASK_WAYS), CYCLES, masks);
    put_all(words, word_count, word_bytes);
    put_all(ends, source_count, end_bytes);
    put_all(masks, 2 * CYCLES, mask_bytes);
    trace_len = i % 4 == 1 ? below(&r, sizeof trace) : sizeof trace;
    if (i % 4 == 2) spoil_form(&r, &draft, &form, 1 + (int)below(&r, 5));
}

int main(void)
{
    size_t check_most = 0, run_most = 0, refused = 0;
    check = no_check;
    run = no_run;
    draw_case(0);
    const size_t no_check_depth = depth_of(call_check), no_run_depth = depth_of(call_run);
    check = whemdrosk_check;
    run = whemdrosk_run;
    // once outside, so that nothing is left to be loaded or bound
    call_check();
    call_run();
    for (unsigned i = 0; i < NETS; i++) {
        draw_case(i);
        deepen(&check_most, call_check, no_check_depth);
        refused += answer != 0;
        deepen(&run_most, call_run, no_run_depth);
    }
    if (refused == 0 || refused == NETS) {
        printf("%zu of %d nets are refused, which does not try both sorts\n", refused, NETS);
        return 1;
    }
    printf("whemdrosk_check %zu\nwhemdrosk_run %zu\n", check_most, run_most);
    return 0;
}
