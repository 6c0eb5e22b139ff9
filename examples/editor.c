// How an editor uses the library: it stores the net that is drawn, says in words what is wrong with it, and runs it once it is mended.
// With whemdrosk.h and libwhemdrosk.a beside it (make lib puts both into build/):
//     gcc -std=c99 editor.c libwhemdrosk.a -o editor && ./editor
// From the top of the tree, where examples/editor.out has what it prints:
//     gcc -std=c99 -Ibuild examples/editor.c build/libwhemdrosk.a -o build/editor && build/editor
#include "whemdrosk.h"
#include <stdio.h>
#include <stdlib.h>
#include <string.h>

#if WHEMDROSK_VERSION_MAJOR != 1
#error "this editor knows version 1 of the library"
#endif

enum { BLOCKS = 4, CYCLES = 6, WORDS = 4, NUMBER = 4, FIRST_RECORDS = 4 };

// A block as the editor keeps it: the channels of its ports, inputs first.
struct block {
    uint32_t kind, m, value, count, ports[WHEMDROSK_PORT_LIMIT];
};

// What was drawn: a source, a fork of two, two sinks. The second sink hangs on the first one's channel by mistake.
static struct block drawing[BLOCKS] = {
    {WHEMDROSK_SOURCE, 0, 0, 1, {0}},
    {WHEMDROSK_FORK, 2, 0, 3, {0, 1, 2}},
    {WHEMDROSK_SINK, 0, 0, 1, {1}},
    {WHEMDROSK_SINK, 0, 0, 1, {1}},
};

// Stores the drawing; answers the length of its form, or 0 where it cannot be written.
static size_t store(struct whemdrosk_form *form)
{
    whemdrosk_form_begin(form);
    for (size_t b = 0; b < BLOCKS; b++) {
        const struct block *block = &drawing[b];
        whemdrosk_form_block(form, block->kind, block->m, block->value, block->ports, block->count);
    }
    return whemdrosk_form_end(form);
}

// Stores and checks the drawing, and tells its user what is wrong; answers whether it is accepted.
static int judge(const char *title, struct whemdrosk_form *form, size_t *form_len)
{
    *form_len = store(form);
    uint32_t refusal = *form_len ? whemdrosk_check(form->bytes, *form_len) : form->refusal;
    printf("%s: %u, %s\n", title, refusal, whemdrosk_reason(refusal));
    return refusal == WHEMDROSK_ACCEPTED;
}

// Runs a form over the words 10, 20, 30, 40; the second sink is not ready from the second cycle to the fourth.
static uint64_t run(const struct whemdrosk_form *form, size_t form_len, uint8_t *trace, size_t trace_len)
{
    static const uint32_t numbers[WORDS] = {10, 20, 30, 40};
    uint8_t words[WORDS * NUMBER], ends[NUMBER], masks[CYCLES * 2 * NUMBER];
    for (size_t i = 0; i < WORDS; i++) whemdrosk_put(words + NUMBER * i, numbers[i]);
    whemdrosk_put(ends, WORDS);
    memset(masks, 0xff, sizeof masks);
    for (size_t cycle = 1; cycle <= 3; cycle++) whemdrosk_put(masks + (2 * cycle + 1) * NUMBER, 1);
    return whemdrosk_run(form->bytes, form_len, words, sizeof words, ends, sizeof ends, masks, sizeof masks, trace, trace_len);
}

static void print_ending(uint64_t answer, size_t trace_len)
{
    printf("a trace of %u bytes: ending %u after %u cycles, %u records\n", (unsigned)trace_len, WHEMDROSK_ENDING(answer), WHEMDROSK_CYCLES(answer),
           WHEMDROSK_RECORDS(answer));
}

static void print_deliveries(uint64_t answer, const uint8_t *trace)
{
    for (size_t i = 0; i < WHEMDROSK_RECORDS(answer); i++)
        printf("%u %u %u\n", whemdrosk_cycle_of(trace, i), whemdrosk_channel_of(trace, i), whemdrosk_word_of(trace, i));
    printf("end %u\n", WHEMDROSK_CYCLES(answer));
}

// Runs a form with ever longer traces until all cycles are done. The first trace is too short on purpose; the longest always fits.
static int run_whole(const struct whemdrosk_form *form, size_t form_len)
{
    const size_t most = WHEMDROSK_TRACE_BYTES(CYCLES, form->channels);
    for (size_t len = FIRST_RECORDS * WHEMDROSK_RECORD_BYTES;; len = 2 * len < most ? 2 * len : most) {
        uint8_t *trace = (uint8_t *)malloc(len);
        if (!trace) return 1;
        uint64_t answer = run(form, form_len, trace, len);
        uint32_t refusal = WHEMDROSK_REFUSAL(answer), ending = WHEMDROSK_ENDING(answer);
        if (refusal) printf("run: %u, %s\n", refusal, whemdrosk_reason(refusal));
        else print_ending(answer, len);
        if (!refusal && !ending) print_deliveries(answer, trace);
        free(trace);
        if (refusal || !ending) return refusal != 0;
    }
}

int main(void)
{
    struct whemdrosk_form form;
    size_t form_len;
    judge("as drawn", &form, &form_len);
    drawing[1].m = 9;
    judge("with a fork of 9", &form, &form_len);
    drawing[1].m = 2;
    drawing[3].ports[0] = 2;
    return !judge("mended", &form, &form_len) || run_whole(&form, form_len);
}
