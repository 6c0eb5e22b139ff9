// The header's own code against the library and the tests' way of writing forms: the form writer, the reasons, the limits, the size of a trace that always fits.
// usage: formwriter [NETS]     The header is the whemdrosk.h that the compiler is pointed at, so that broken copies can be tried.
#include "whemdrosk.h"
#include "generate.h"
#include <stdio.h>
#include <stdlib.h>
#include <string.h>

// What document 01 says, so that the header's figures are held to something else than themselves.
enum { MOST_BLOCKS = 64, MOST_CHANNELS = 128, MOST_PER_SORT = 32, MOST_WAYS = 8, MOST_PORTS = 10, LONGEST_FORM = 628, MOST_CYCLES = 1048576, HEAD_BITS = 32, RECORD = 8 };
enum { GUARD = 64, GUARD_BYTE = 0xa5, DRAWS = 20000, LONGEST = 50, CYCLES = 40, SENTENCE = 100 };

static unsigned long passed;

static void expect(int holds, const char *class, const char *what, unsigned long at)
{
    passed++;
    if (holds) return;
    printf("DIFFERENT: %s (%lu)\nclass: %s\n", what, at, class);
    exit(1);
}

// ---- A form between guards

struct guarded { uint8_t before[GUARD]; struct whemdrosk_form form; uint8_t after[GUARD]; };

static void guard(struct guarded *g)
{
    memset(g, GUARD_BYTE, sizeof *g);
}

static int intact(const struct guarded *g)
{
    unsigned changed = 0;
    for (unsigned i = 0; i < GUARD; i++) changed += g->before[i] != GUARD_BYTE || g->after[i] != GUARD_BYTE;
    return changed == 0;
}

// ---- Accepted nets: the same bytes as the tests write

static void add_all(const struct draft *d, struct whemdrosk_form *form)
{
    for (unsigned b = 0; b < d->blocks; b++) {
        const struct drawn *block = &d->block[b];
        whemdrosk_form_block(form, block->kind, block->m, block->value, block->port, inputs_of(block->kind, block->m) + outputs_of(block->kind, block->m));
    }
}

static void compare_draft(const struct draft *d, unsigned long at)
{
    static struct guarded g;
    static struct form want;
    const char *class = "accepted nets";
    write_form(d, &want);
    guard(&g);
    whemdrosk_form_begin(&g.form);
    add_all(d, &g.form);
    expect(whemdrosk_form_end(&g.form) == want.len, class, "the form has another length", at);
    expect(memcmp(g.form.bytes, want.bytes, sizeof g.form.bytes) == 0, class, "the form has other bytes, or not zeros behind it", at);
    expect(intact(&g), class, "bytes outside the form are written", at);
    expect(whemdrosk_check(g.form.bytes, want.len) == 0, class, "the form is not accepted", at);
}

static void count_ways(const struct draft *d, unsigned met[KINDS][MOST_WAYS + 1])
{
    for (unsigned b = 0; b < d->blocks; b++) met[d->block[b].kind][d->block[b].m]++;
}

// Every kind with every m that it may have is to be met.
static void expect_all_met(unsigned met[KINDS][MOST_WAYS + 1])
{
    for (unsigned i = 0; i < KINDS * (MOST_WAYS + 1); i++) {
        unsigned kind = i / (MOST_WAYS + 1), m = i % (MOST_WAYS + 1);
        int may = kind == OPERATOR || kind == CONSTANT ? m < 4 : kind >= FORK && kind <= MERGE ? m >= 2 : m == 0;
        expect(!may || met[kind][m] > 0, "accepted nets", "a kind with some m was not met", i);
    }
}

static void try_accepted(unsigned long nets)
{
    static struct draft d;
    unsigned met[KINDS][MOST_WAYS + 1] = {{0}};
    for (unsigned long i = 0; i < nets; i++) {
        struct random r = {i, i};
        struct wish wish = {{2 + below(&r, MOST_BLOCKS - 1), MOST_CHANNELS, MOST_PER_SORT, MOST_PER_SORT}, below(&r, 6), 1, i % 2 ? ~0u : patterns_of_channels()};
        draw(&r, &wish, &d);
        compare_draft(&d, i);
        count_ways(&d, met);
    }
    expect_all_met(met);
}

// ---- Any arguments: written as the reference writes them, or refused as the header says

struct reference { uint8_t bytes[FORM_ROOM]; size_t end; uint32_t blocks, channels, refusal; };
struct arguments { uint32_t kind, m, value, count, *ports; };

static uint32_t highest(const uint32_t *ports, uint32_t count)
{
    uint32_t most = 0;
    for (uint32_t i = 0; i < count; i++) most = ports[i] > most ? ports[i] : most;
    return most;
}

static uint32_t refusal_by_page(const struct reference *ref, const struct arguments *a)
{
    if (ref->blocks == MOST_BLOCKS) return 3;
    if (a->kind >= KINDS) return 4;
    if (a->m > MOST_WAYS || a->count != inputs_of(a->kind, a->m) + outputs_of(a->kind, a->m)) return 5;
    return highest(a->ports, a->count) >= MOST_CHANNELS ? 3 : 0;
}

static void put_reference(struct reference *ref, unsigned width, uint32_t field)
{
    set_bits(ref->bytes, ref->end, width, field);
    ref->end += width;
}

static void add_reference(struct reference *ref, const struct arguments *a)
{
    if (ref->refusal == 0) ref->refusal = refusal_by_page(ref, a);
    if (ref->refusal != 0) return;
    put_reference(ref, 8, a->kind << 4 | a->m);
    if (a->kind == CONSTANT || a->kind == FULL_DATA) put_reference(ref, 32, a->value);
    for (uint32_t i = 0; i < a->count; i++) put_reference(ref, 7, a->ports[i]);
    ref->blocks++;
    if (highest(a->ports, a->count) + 1 > ref->channels) ref->channels = highest(a->ports, a->count) + 1;
}

// Mostly a number below the limit, else one at it or just above it, or any.
static uint32_t some_number(struct random *r, uint32_t limit, uint32_t odd)
{
    if (!chance(r, odd)) return below(r, limit);
    return chance(r, 2) ? limit + below(r, 3) : random_bits(r);
}

// Where the number of ports is wrong they have no room at all, so that reading one is seen under sanitizers. The ports are to be freed.
static struct arguments some_arguments(struct random *r, uint32_t odd)
{
    struct arguments a = {some_number(r, KINDS, odd), some_number(r, MOST_WAYS + 1, odd), random_bits(r), 0, NULL};
    uint32_t right = a.kind < KINDS && a.m <= 15 ? inputs_of(a.kind, a.m) + outputs_of(a.kind, a.m) : below(r, MOST_PORTS);
    a.count = !chance(r, odd) ? right : chance(r, 2) ? right + 1 - 2 * below(r, 2) : random_bits(r);
    size_t room = a.count == right ? right : 0;
    a.ports = malloc(room * sizeof *a.ports + 1);
    if (!a.ports) exit(2);
    for (size_t i = 0; i < room; i++) a.ports[i] = some_number(r, MOST_CHANNELS, 10 * odd);
    return a;
}

static void compare_reference(struct guarded *g, struct reference *ref, unsigned long at)
{
    const char *class = "any arguments";
    const struct whemdrosk_form *form = &g->form;
    expect(intact(g), class, "bytes outside the form are written", at);
    expect(form->refusal == ref->refusal, class, "another refusal than the header says", at);
    expect(form->bits == ref->end && form->blocks == ref->blocks && form->channels == ref->channels, class, "other numbers than the header says", at);
    expect(memcmp(form->bytes, ref->bytes, sizeof form->bytes) == 0, class, "other bytes than document 01 says", at);
    size_t want = ref->refusal ? 0 : (ref->end + 7) / 8;
    expect(whemdrosk_form_end(&g->form) == want && whemdrosk_form_end(&g->form) == want, class, "end answers another length", at);
    set_bits(ref->bytes, 0, HEAD_BITS, 1u << 28 | ref->blocks << 8 | ref->channels);
    expect(want == 0 || memcmp(form->bytes, ref->bytes, sizeof form->bytes) == 0, class, "another head than document 01 says", at);
    expect(intact(g), class, "end writes outside the form", at);
}

// One form of up to 70 blocks; in most an odd number is rare, so that many blocks are written before it.
static uint32_t try_any(unsigned long at)
{
    static struct guarded g;
    static struct reference ref;
    struct random r = {at, at};
    uint32_t blocks = below(&r, MOST_BLOCKS + 7), odd = at % 4 == 0 ? 4 : at % 4 == 1 ? 100000 : 200;
    guard(&g);
    memset(&ref, 0, sizeof ref);
    ref.end = HEAD_BITS;
    whemdrosk_form_begin(&g.form);
    for (uint32_t b = 0; b < blocks; b++) {
        struct arguments a = some_arguments(&r, odd);
        add_reference(&ref, &a);
        expect(whemdrosk_form_block(&g.form, a.kind, a.m, a.value, a.ports, a.count) == ref.refusal, "any arguments", "a block answers another refusal", at);
        free(a.ports);
    }
    compare_reference(&g, &ref, at);
    return ref.refusal;
}

static void try_arguments(unsigned long forms)
{
    unsigned long met[6] = {0};
    for (unsigned long i = 0; i < forms; i++) met[try_any(i)]++;
    expect(met[0] > 0 && met[3] > 0 && met[4] > 0 && met[5] > 0, "any arguments", "a refusal was not met", 0);
}

// A form that was never begun, its place near the last byte or anywhere: the writer stays inside, and stops at the last bit.
static void try_not_begun(unsigned long forms)
{
    static struct guarded g;
    const uint32_t ports[2] = {0x7f, 0x7f};
    for (unsigned long i = 0; i < forms; i++) {
        struct random r = {i, i};
        guard(&g);
        uint32_t bits = chance(&r, 4) ? random_bits(&r) : 8 * LONGEST_FORM - below(&r, 60), want = bits + 54 < 8 * LONGEST_FORM ? bits + 54 : 8 * LONGEST_FORM;
        g.form.bits = bits;
        g.form.blocks = g.form.refusal = 0;
        whemdrosk_form_block(&g.form, CONSTANT, 0, ~0u, ports, 2);
        whemdrosk_form_end(&g.form);
        expect(intact(&g), "a form that was not begun", "bytes outside the form are written", i);
        expect(bits > 8 * LONGEST_FORM ? g.form.bits == bits : g.form.bits == want, "a form that was not begun", "the writer passes the last byte", i);
    }
}

// ---- The longest form: 64 muxes, demuxes and merges of 8

static void add_longest(struct whemdrosk_form *form)
{
    static const unsigned kinds[3] = {MUX, DEMUX, MERGE};
    for (unsigned b = 0; b < MOST_BLOCKS; b++) {
        uint32_t ports[MOST_PORTS];
        for (unsigned i = 0; i < MOST_PORTS; i++) ports[i] = (b * MOST_PORTS + i) % MOST_CHANNELS;
        whemdrosk_form_block(form, kinds[b % 3], MOST_WAYS, 0, ports, MOST_PORTS);
    }
}

static void try_longest(void)
{
    static struct guarded g;
    const char *class = "the longest form";
    const uint32_t port = 0;
    guard(&g);
    whemdrosk_form_begin(&g.form);
    add_longest(&g.form);
    size_t len = whemdrosk_form_end(&g.form);
    expect(len == LONGEST_FORM && len == WHEMDROSK_FORM_LIMIT && sizeof g.form.bytes == LONGEST_FORM, class, "its length is another one", len);
    uint8_t longer[LONGEST_FORM + 1] = {0};
    memcpy(longer, g.form.bytes, LONGEST_FORM);
    expect(whemdrosk_check(longer, LONGEST_FORM) == 8, class, "it is not read through", len);
    expect(whemdrosk_check(longer, LONGEST_FORM + 1) == 7 && whemdrosk_check(longer, LONGEST_FORM - 1) == 1, class, "one byte more or less is not refused", len);
    expect(whemdrosk_form_block(&g.form, SOURCE, 0, 0, &port, 1) == 3 && whemdrosk_form_end(&g.form) == 0, class, "a 65th block is written", len);
    expect(intact(&g), class, "bytes outside the form are written", len);
}

// ---- Reasons

// A word of each sentence that no other has; none where the number has no sentence of its own.
static const char *const keys[] = {"nothing", "cut short", "edition", "number of blocks", "unknown kind", "out of range", "does not have", "too long", "exactly one input",
                                   "sources, or", "data buffer", "control buffer", NULL, NULL, "ends are", "masks", "cycles", NULL};
enum { REASONS = sizeof keys / sizeof keys[0] };

static void expect_sentence(uint32_t refusal)
{
    const char *sentence = whemdrosk_reason(refusal), *class = "reasons";
    size_t len = strlen(sentence);
    expect(len > 0 && len < SENTENCE && sentence[len - 1] != '.' && !strpbrk(sentence, "\"'`\\\n"), class, "a sentence is not as the header has them", refusal);
    for (uint32_t k = 0; k < REASONS; k++)
        expect(!keys[k] || (strstr(sentence, keys[k]) != NULL) == (k == refusal), class, "a sentence says what another one says", 100 * refusal + k);
}

static void try_reasons(void)
{
    const char *other = whemdrosk_reason(~0u);
    for (uint32_t refusal = 0; refusal < 300; refusal++) {
        expect_sentence(refusal);
        int own = refusal < REASONS && keys[refusal];
        expect(own == (strcmp(whemdrosk_reason(refusal), other) != 0), "reasons", "a number has a sentence of its own, or has none", refusal);
    }
}

// ---- Limits: at the limit a net is accepted, one above it is refused

struct edge { const char *name; unsigned limit, sort; uint32_t patterns, refusal; };
enum { BY_BLOCKS, BY_CHANNELS, BY_SOURCES, BY_SINKS };

static unsigned number_of(const struct draft *d, unsigned sort)
{
    return sort == BY_BLOCKS ? d->blocks : sort == BY_CHANNELS ? d->channels : count_kind(d, sort == BY_SOURCES ? SOURCE : SINK);
}

// Draws until a net has exactly so many of a sort, and no more than document 01's numbers of the others.
static void draw_exactly(const struct edge *edge, unsigned want, struct draft *d)
{
    struct limits limits = {edge->sort == BY_BLOCKS ? want : MOST_BLOCKS, edge->sort == BY_CHANNELS ? want : MOST_CHANNELS,
                            edge->sort == BY_SOURCES ? want : MOST_PER_SORT, edge->sort == BY_SINKS ? want : MOST_PER_SORT};
    struct wish wish = {limits, 0, 1, edge->patterns};
    for (unsigned i = 0; i < DRAWS; i++) {
        struct random r = {i, i};
        draw(&r, &wish, d);
        if (number_of(d, edge->sort) == want) return;
    }
    expect(0, "limits", edge->name, want);
}

static void try_edge(const struct edge *edge)
{
    static struct draft d;
    static struct form form;
    draw_exactly(edge, edge->limit, &d);
    write_form(&d, &form);
    expect(whemdrosk_check(form.bytes, form.len) == 0, "limits", edge->name, edge->limit);
    draw_exactly(edge, edge->limit + 1, &d);
    write_form(&d, &form);
    expect(whemdrosk_check(form.bytes, form.len) == edge->refusal, "limits", edge->name, edge->limit + 1);
}

static void try_edges(void)
{
    const struct edge edges[] = {
        {"blocks at and above the limit", WHEMDROSK_BLOCK_LIMIT, BY_BLOCKS, ~0u, 3},
        {"channels at and above the limit", WHEMDROSK_CHANNEL_LIMIT, BY_CHANNELS, patterns_of_channels(), 3},
        {"sources at and above the limit", WHEMDROSK_SOURCE_LIMIT, BY_SOURCES, patterns_of_sources(), 9},
        {"sinks at and above the limit", WHEMDROSK_SINK_LIMIT, BY_SINKS, patterns_of_sinks(), 9},
    };
    for (unsigned i = 0; i < sizeof edges / sizeof edges[0]; i++) try_edge(&edges[i]);
}

// A source, a fork of so many ways and its sinks.
static uint32_t refusal_of_fork(unsigned ways)
{
    static struct draft d;
    static struct form form;
    d.blocks = 0;
    d.channels = ways + 1;
    add_drawn(&d, SOURCE, 0, 0, (unsigned[]){0});
    add_drawn(&d, FORK, ways, 0, (unsigned[]){0, 1, 2, 3, 4, 5, 6, 7, 8, 9});
    for (unsigned c = 1; c <= ways; c++) add_drawn(&d, SINK, 0, 0, &c);
    write_form(&d, &form);
    return whemdrosk_check(form.bytes, form.len);
}

// The port counts are those of the tests, and the most that they come to is the limit.
static void try_ports(void)
{
    uint32_t most = 0;
    for (unsigned i = 0; i < KINDS * (MOST_WAYS + 1); i++) {
        uint32_t kind = i / (MOST_WAYS + 1), m = i % (MOST_WAYS + 1), ins = whemdrosk_inputs(kind, m), outs = whemdrosk_outputs(kind, m);
        expect(ins == inputs_of(kind, m) && outs == outputs_of(kind, m), "limits", "a block has other ports", i);
        if (ins + outs > most) most = ins + outs;
    }
    expect(most == WHEMDROSK_PORT_LIMIT, "limits", "the most ports of a block", most);
    expect(whemdrosk_inputs(KINDS, 2) == 0 && whemdrosk_outputs(KINDS, 2) == 0, "limits", "a kind above 10 has ports", KINDS);
    expect(refusal_of_fork(WHEMDROSK_WAY_LIMIT) == 0 && refusal_of_fork(WHEMDROSK_WAY_LIMIT + 1) == 5, "limits", "ways at and above the limit", WHEMDROSK_WAY_LIMIT);
}

// ---- Runs

// A form of so many sources, each joined to its own sink.
static size_t write_pairs(unsigned pairs, struct whemdrosk_form *form)
{
    whemdrosk_form_begin(form);
    for (uint32_t c = 0; c < pairs; c++) {
        whemdrosk_form_block(form, WHEMDROSK_SOURCE, 0, 0, &c, 1);
        whemdrosk_form_block(form, WHEMDROSK_SINK, 0, 0, &c, 1);
    }
    return whemdrosk_form_end(form);
}

static void try_cycles(void)
{
    struct whemdrosk_form form;
    const uint8_t ends[4] = {0};
    const size_t len = write_pairs(1, &form), masks_len = 8 * (size_t)WHEMDROSK_CYCLE_LIMIT;
    uint8_t *masks = calloc(masks_len + 8, 1);
    if (!masks) exit(2);
    uint64_t all = whemdrosk_run(form.bytes, len, NULL, 0, ends, sizeof ends, masks, masks_len, NULL, 0);
    uint64_t more = whemdrosk_run(form.bytes, len, NULL, 0, ends, sizeof ends, masks, masks_len + 8, NULL, 0);
    expect(all == (uint64_t)MOST_CYCLES << 29, "limits", "cycles at the limit", WHEMDROSK_CYCLES(all));
    expect(more == (uint64_t)16 << 56, "limits", "cycles above the limit", WHEMDROSK_REFUSAL(more));
    free(masks);
}

struct scene { struct draft draft; struct form form; uint8_t words[4 * 32 * LONGEST], ends[4 * 32], masks[8 * CYCLES]; size_t words_len, ends_len, cycles; };

static void put_all(const uint32_t *numbers, size_t count, uint8_t *bytes)
{
    for (size_t i = 0; i < count; i++) whemdrosk_put(bytes + 4 * i, numbers[i]);
}

static void draw_scene(unsigned long at, struct scene *s)
{
    static uint32_t words[32 * LONGEST], ends[32], masks[2 * CYCLES];
    struct random r = {at, at};
    struct wish wish = {{2 + below(&r, MOST_BLOCKS - 1), MOST_CHANNELS, MOST_PER_SORT, MOST_PER_SORT}, below(&r, 6), 1, ~0u};
    draw(&r, &wish, &s->draft);
    write_form(&s->draft, &s->form);
    s->cycles = below(&r, CYCLES + 1);
    s->words_len = 4 * draw_streams(&r, &s->draft, LONGEST, words, ends);
    s->ends_len = 4 * count_kind(&s->draft, SOURCE);
    draw_masks(&r, below(&r, MASK_WAYS), s->cycles, masks);
    put_all(words, s->words_len / 4, s->words);
    put_all(ends, s->ends_len / 4, s->ends);
    put_all(masks, 2 * s->cycles, s->masks);
}

static uint64_t run_scene(const struct scene *s, uint8_t *trace, size_t trace_len)
{
    return whemdrosk_run(s->form.bytes, s->form.len, s->words, s->words_len, s->ends, s->ends_len, s->masks, 8 * s->cycles, trace, trace_len);
}

static size_t records_before(const uint8_t *trace, size_t records, uint32_t cycle)
{
    size_t count = 0;
    while (count < records && whemdrosk_cycle_of(trace, count) < cycle) count++;
    return count;
}

// A trace of the macro's size is long enough; a shorter one holds the same records, all those of the cycles that it says it has done.
static void try_traces(unsigned long nets)
{
    static struct scene s;
    static uint8_t trace[RECORD * MOST_CHANNELS * CYCLES], shorter[sizeof trace];
    for (unsigned long i = 0; i < nets; i++) {
        struct random r = {i, i};
        draw_scene(i, &s);
        size_t len = WHEMDROSK_TRACE_BYTES(s.cycles, s.draft.channels);
        expect(len == RECORD * s.cycles * s.draft.channels, "traces", "the macro gives another size", i);
        uint64_t answer = run_scene(&s, trace, len), first = run_scene(&s, shorter, below(&r, (uint32_t)len + 1));
        expect(WHEMDROSK_REFUSAL(answer) == 0 && WHEMDROSK_ENDING(answer) == 0 && WHEMDROSK_CYCLES(answer) == s.cycles, "traces", "a trace of that size does not fit", i);
        expect(memcmp(trace, shorter, RECORD * (size_t)WHEMDROSK_RECORDS(first)) == 0, "traces", "a shorter trace has other records", i);
        size_t before = records_before(trace, WHEMDROSK_RECORDS(answer), WHEMDROSK_CYCLES(first));
        expect(before == WHEMDROSK_RECORDS(first), "traces", "a shorter trace has not all records of its cycles", i);
    }
}

// Every channel delivers in every cycle, so that a byte less is too short.
static void try_full_trace(void)
{
    static uint8_t words[4 * MOST_PER_SORT * CYCLES], ends[4 * MOST_PER_SORT], masks[8 * CYCLES], trace[WHEMDROSK_TRACE_BYTES(CYCLES, MOST_PER_SORT)];
    struct whemdrosk_form form;
    size_t len = write_pairs(MOST_PER_SORT, &form);
    memset(masks, 0xff, sizeof masks);
    for (uint32_t k = 0; k < MOST_PER_SORT; k++) whemdrosk_put(ends + 4 * k, (k + 1) * CYCLES);
    uint64_t all = whemdrosk_run(form.bytes, len, words, sizeof words, ends, sizeof ends, masks, sizeof masks, trace, sizeof trace);
    uint64_t less = whemdrosk_run(form.bytes, len, words, sizeof words, ends, sizeof ends, masks, sizeof masks, trace, sizeof trace - 1);
    expect(WHEMDROSK_ENDING(all) == 0 && WHEMDROSK_RECORDS(all) * RECORD == sizeof trace, "traces", "a full trace does not fit", WHEMDROSK_RECORDS(all));
    expect(WHEMDROSK_ENDING(less) == 1 && WHEMDROSK_CYCLES(less) == CYCLES - 1, "traces", "a trace that is a byte too short fits", WHEMDROSK_CYCLES(less));
}

static void try_figures(void)
{
    char version[32];
    snprintf(version, sizeof version, "%d.%d.%d", WHEMDROSK_VERSION_MAJOR, WHEMDROSK_VERSION_MINOR, WHEMDROSK_VERSION_PATCH);
    expect(strcmp(version, WHEMDROSK_VERSION) == 0, "figures", "the version and its numbers differ", WHEMDROSK_VERSION_MINOR);
    expect(WHEMDROSK_TRACE_BYTES(WHEMDROSK_CYCLE_LIMIT, WHEMDROSK_CHANNEL_LIMIT) == (size_t)1 << 30, "figures", "the largest trace is not 1 GiB", 0);
    expect(WHEMDROSK_FORM_LIMIT * 8 == HEAD_BITS + WHEMDROSK_BLOCK_LIMIT * (8 + 7 * WHEMDROSK_PORT_LIMIT), "figures", "the longest form by its fields", 0);
}

int main(int count, char **arguments)
{
    unsigned long nets = count > 1 ? strtoul(arguments[1], NULL, 10) : 2000;
    try_accepted(nets);
    try_arguments(5 * nets);
    try_not_begun(nets);
    try_longest();
    try_reasons();
    try_ports();
    try_edges();
    try_traces(nets / 4);
    try_full_trace();
    try_cycles();
    try_figures();
    printf("the header's own code: %lu comparisons agree\n", passed);
    return 0;
}
