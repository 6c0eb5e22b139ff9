// Compares the library with the model: cases by hand, random nets, damaged forms, bad streams and masks, traces too short, limits.
// usage: differential [EXAMPLES [SEED [NETS [random|soak]]]] (random: without the cases by hand and the examples; soak: all, with a line of progress every ten
// seconds)
#include "generate.h"
#include "golden.h"
#include "harness.h"
#include "model.h"
#include "spoil.h"
#include "../include/whemdrosk.h"
#include <pthread.h>
#include <stdio.h>
#include <stdlib.h>
#include <string.h>

enum { NETS = 50000, DAMAGES = 600, LEAST_REFUSALS = 300, WORD_ROOM = 32 * 256, CYCLE_ROOM = 1024, LIMIT = 1048576 };

static uint64_t first_seed = 1;

// One net with streams and masks, as numbers and as bytes.
struct scene {
    struct draft draft;
    struct form form;
    uint32_t words[WORD_ROOM], ends[32], masks[2 * CYCLE_ROOM];
    uint8_t word_bytes[4 * WORD_ROOM], end_bytes[4 * 32], mask_bytes[8 * CYCLE_ROOM];
    struct job job;
};

static const struct wish any_net = {{64, 128, 32, 32}, 0, 1, ~0u};

static struct random random_for(unsigned class, unsigned i)
{
    uint64_t first = (first_seed * 64 + class) << 32 | i;
    return (struct random){first, first};
}

// ---- Scenes

static void set_job(struct scene *s, struct random *r, const char *name, size_t words, unsigned longest)
{
    size_t cycles = chance(r, 40) ? 0 : 1 + below(r, longest);
    draw_masks(r, below(r, MASK_WAYS), cycles, s->masks);
    s->job = (struct job){.name = name, .seed = r->first, .placing = below(r, 4), .want = 0};
    s->job.form = (struct slice){s->form.bytes, s->form.len};
    s->job.words = as_bytes(s->words, words, s->word_bytes);
    s->job.ends = as_bytes(s->ends, count_kind(&s->draft, SOURCE), s->end_bytes);
    s->job.masks = as_bytes(s->masks, 2 * cycles, s->mask_bytes);
    s->job.trace_len = 8 * cycles * s->draft.channels;
}

static void draw_scene(struct scene *s, struct random *r, const struct wish *wish, const char *name, unsigned longest)
{
    draw(r, wish, &s->draft);
    write_form(&s->draft, &s->form);
    size_t words = draw_streams(r, &s->draft, chance(r, 3) ? 200 : 30, s->words, s->ends);
    if (chance(r, 8)) words += below(r, 4);
    set_job(s, r, name, words, longest);
}

// Small nets, middling ones and full ones; half of them with ends of channels swapped.
static struct wish some_wish(struct random *r)
{
    struct wish wish = any_net;
    wish.limits.blocks = chance(r, 3) ? 2 + below(r, 12) : chance(r, 2) ? 2 + below(r, 62) : 64;
    if (chance(r, 4)) wish.patterns = patterns_of_channels();
    wish.swaps = chance(r, 2) ? 0 : chance(r, 3) ? below(r, 40) : 1 + below(r, 4);
    return wish;
}

// ---- Accepted nets

// What the accepted nets were like: words delivered into each kind, select words past the last port among them, and how many nets were of some sort.
static unsigned long into[KINDS], past_the_last[KINDS], of_64_blocks, of_128_channels, with_loops, that_delivered;

static int is_routing(unsigned kind)
{
    return kind == MUX || kind == DEMUX;
}

static void take_notes(const struct scene *s, uint64_t answer, const uint8_t *trace)
{
    const struct draft *d = &s->draft;
    for (size_t i = 0; i < records_in(answer); i++) {
        const struct place *to = &d->to[whemdrosk_channel_of(trace, i)];
        const struct drawn *b = &d->block[to->block];
        into[b->kind]++;
        past_the_last[b->kind] += is_routing(b->kind) && to->port == 0 && whemdrosk_word_of(trace, i) >= b->m;
    }
    struct draft bare = *d;
    for (unsigned b = 0; b < d->blocks; b++)
        if (d->block[b].kind >= DATA) bare.block[b].kind = CONSTANT;
    with_loops += refusal_of_loops(&bare) != 0;
    of_64_blocks += d->blocks == 64;
    of_128_channels += d->channels == 128;
    that_delivered += records_in(answer) > 0;
}

static void try_nets(unsigned nets)
{
    static struct scene s;
    for (unsigned i = 0; i < nets; i++) {
        struct random r = random_for(1, i);
        struct wish wish = some_wish(&r);
        const uint8_t *trace;
        draw_scene(&s, &r, &wish, "accepted nets", chance(&r, 50) ? CYCLE_ROOM : 60);
        if (chance(&r, 8)) s.job.trace_len = below(&r, (uint32_t)s.job.trace_len + 1);
        uint64_t answer = compare(&s.job, &trace);
        take_notes(&s, answer, trace);
    }
}

static void print_notes(void)
{
    static const char *const names[KINDS] = {"source", "sinks", "operators", "operators with constant", "forks", "muxes", "demuxes", "merges",
                                             "data buffers", "full data buffers", "control buffers"};
    printf("accepted nets of 64 blocks: %lu, of 128 channels: %lu, with loops: %lu, that delivered: %lu\nwords delivered into", of_64_blocks,
           of_128_channels, with_loops, that_delivered);
    for (unsigned kind = SINK; kind < KINDS; kind++) printf(" %s: %lu%s", names[kind], into[kind], kind + 1 < KINDS ? "," : "\n");
    printf("select words past the last port: muxes: %lu, demuxes: %lu\n", past_the_last[MUX], past_the_last[DEMUX]);
}

// ---- Damaged forms: an accepted form with one field spoilt, so that the refusal is known

// Spoils a scene's accepted form so that it earns a refusal from 1 to 8.
static void spoil_scene(struct scene *s, struct random *r, int refusal)
{
    spoil_form(r, &s->draft, &s->form, refusal);
    s->job.form.len = s->form.len;
    s->job.want = refusal;
}

static void try_spoilt_forms(void)
{
    static struct scene s;
    for (int refusal = 1; refusal <= 8; refusal++)
        for (unsigned i = 0; i < DAMAGES; i++) {
            struct random r = random_for(1 + (unsigned)refusal, i);
            struct wish wish = some_wish(&r);
            if (refusal == 6) wish.limits.channels = 127;
            if (refusal == 8 && wish.limits.blocks < 6) wish.limits.blocks = 6;
            do draw_scene(&s, &r, &wish, "forms with one field spoilt", 20);
            while (refusal == 8 && s.draft.channels < 2);
            spoil_scene(&s, &r, refusal);
            compare(&s.job, NULL);
        }
}

// Over 32 sources or sinks.
static void try_many_sources(void)
{
    static struct scene s;
    for (unsigned i = 0; i < DAMAGES; i++) {
        struct random r = random_for(10, i);
        struct wish wish = {{64, 128, 64, 64}, 0, chance(&r, 2), i % 2 ? patterns_of_sources() : patterns_of_sinks()};
        do draw(&r, &wish, &s.draft);
        while (count_kind(&s.draft, SOURCE) <= 32 && count_kind(&s.draft, SINK) <= 32);
        write_form(&s.draft, &s.form);
        memset(s.ends, 0, sizeof s.ends);
        s.job = (struct job){.name = "over 32 sources or sinks", .seed = r.first, .form = {s.form.bytes, s.form.len}, .placing = i % 4, .want = 9};
        compare(&s.job, NULL);
    }
}

// Loops as they fall: ends of channels swapped without a repair, or a buffer made one of the other sort.
static void try_loops(void)
{
    static struct scene s;
    for (unsigned i = 0; i < 4 * DAMAGES; i++) {
        struct random r = random_for(11, i);
        struct wish wish = some_wish(&r);
        wish.repaired = i % 2;
        wish.swaps = below(&r, 6);
        draw_scene(&s, &r, &wish, "loops that may lack a buffer", 20);
        for (unsigned b = 0; i % 2 && b < s.draft.blocks; b++)
            if ((s.draft.block[b].kind == DATA || s.draft.block[b].kind == CONTROL) && chance(&r, 3)) s.draft.block[b].kind ^= DATA ^ CONTROL;
        write_form(&s.draft, &s.form);
        s.job.want = (int)refusal_of_loops(&s.draft);
        compare(&s.job, NULL);
    }
}

// Forms with some bits turned over, and bytes at random behind a good header: only the model knows the refusal.
static void try_noise(void)
{
    static struct scene s;
    for (unsigned i = 0; i < 6 * DAMAGES; i++) {
        struct random r = random_for(12, i);
        struct wish wish = some_wish(&r);
        draw_scene(&s, &r, &wish, i % 2 ? "forms with bits turned over" : "forms of random bytes", 20);
        if (i % 2) {
            for (unsigned flips = 1 + below(&r, 3); flips > 0; flips--) s.form.bytes[below(&r, (uint32_t)s.form.len)] ^= (uint8_t)(1 << below(&r, 8));
        } else {
            s.job.form.len = below(&r, 640);
            for (size_t at = chance(&r, 4) ? 0 : 4; at < FORM_ROOM; at++) s.form.bytes[at] = (uint8_t)(chance(&r, 3) ? random_bits(&r) : 0);
        }
        s.job.want = ANY;
        compare(&s.job, NULL);
    }
}

// ---- Bad streams and masks

static void spoil_streams(struct scene *s, struct random *r, unsigned way)
{
    uint32_t sources = (uint32_t)(s->job.ends.len / 4), words = (uint32_t)(s->job.words.len / 4);
    uint8_t *ends = s->end_bytes;
    switch (way) {
    case 0: s->job.words.len += 1 + below(r, 3); break;
    case 1: s->job.ends.len += 1 + below(r, 3); break;
    case 2: s->job.ends.len += 4; break;
    case 3: s->job.ends.len -= 4; break;
    case 4: whemdrosk_put(ends + 4 * (sources - 1), words + 1); break;
    case 5: whemdrosk_put(ends + 4 * below(r, sources), 0xffffffff); break;
    default: whemdrosk_put(ends, sources == 1 ? words + 1 : whemdrosk_get(ends + 4 * (sources - 1)) + 1); break;
    }
}

static void spoil_masks(struct scene *s, struct random *r)
{
    if (chance(r, 2)) s->job.masks.len += 1 + below(r, 3);
    else s->job.masks.len += 4;
}

// Streams and masks spoilt each alone and together, on good and on spoilt forms: the number that is checked first is answered.
static void try_bad_streams(void)
{
    static struct scene s;
    for (unsigned i = 0; i < 10 * DAMAGES; i++) {
        struct random r = random_for(13, i);
        struct wish wish = some_wish(&r);
        do draw_scene(&s, &r, &wish, "streams and masks spoilt", 60);
        while (s.job.ends.len == 0 || s.job.ends.len == sizeof s.end_bytes || s.job.words.len + 4 > sizeof s.word_bytes);
        memset(s.word_bytes + s.job.words.len, 0, 4);
        memset(s.end_bytes + s.job.ends.len, 0xff, 4);
        memset(s.mask_bytes + s.job.masks.len, 0xff, 8);
        if (i % 4 != 0) spoil_masks(&s, &r);
        if (i % 4 != 1) spoil_streams(&s, &r, i / 4 % 7);
        s.job.want = i % 4 == 1 ? 15 : 14;
        if (i % 16 == 3) spoil_scene(&s, &r, 1 + (int)below(&r, 5));
        compare(&s.job, NULL);
    }
}

// Words after the last end, and the same end for several sources, are good.
static void try_good_ends(void)
{
    static struct scene s;
    for (unsigned i = 0; i < DAMAGES; i++) {
        struct random r = random_for(14, i);
        struct wish wish = some_wish(&r);
        draw_scene(&s, &r, &wish, "equal ends and words left over", 60);
        size_t sources = s.job.ends.len / 4;
        for (size_t k = 0; k + 1 < sources; k++)
            if (chance(&r, 2)) memcpy(s.end_bytes + 4 * (k + 1), s.end_bytes + 4 * k, 4);
        compare(&s.job, NULL);
    }
}

// ---- Traces, sizes, limits

// Every length near the need, near a cut somewhere in the middle, and near 0.
static void try_traces(void)
{
    static struct scene s;
    for (unsigned i = 0; i < DAMAGES / 4; i++) {
        struct random r = random_for(15, i);
        struct wish wish = some_wish(&r);
        do draw_scene(&s, &r, &wish, "traces too short or just long enough", 40);
        while (records_in(compare(&s.job, NULL)) < 4);
        size_t need = 8 * (size_t)records_in(compare(&s.job, NULL)), middle = 8 * (size_t)below(&r, (uint32_t)(need / 8));
        const size_t near[3] = {need, middle, 0};
        for (unsigned k = 0; k < 3; k++)
            for (size_t len = near[k] > 20 ? near[k] - 20 : 0; len <= near[k] + 20; len++) {
                s.job.trace_len = len;
                s.job.placing = (unsigned)len % 4;
                unsigned ending = ending_in(compare(&s.job, NULL));
                if (ending != (len < need)) fail(&s.job, "the ending does not tell whether the trace was long enough");
            }
    }
}

// Every length from nothing to more than is needed, for runs with few records.
static void try_every_length(void)
{
    static struct scene s;
    for (unsigned i = 0; i < DAMAGES / 10; i++) {
        struct random r = random_for(21, i);
        struct wish wish = some_wish(&r);
        size_t need;
        do {
            draw_scene(&s, &r, &wish, "traces of every length", 12);
            need = 8 * (size_t)records_in(compare(&s.job, NULL));
        } while (need < 32 || need > 1600);
        for (size_t len = 0; len <= need + 8; len++) {
            s.job.trace_len = len;
            s.job.placing = i % 4;
            unsigned ending = ending_in(compare(&s.job, NULL));
            if (ending != (len < need)) fail(&s.job, "the ending does not tell whether the trace was long enough");
        }
    }
}

// Forms from nothing to 100,000 bytes; the longest that can be read through has 628.
static void try_form_sizes(void)
{
    static uint8_t bytes[100000];
    static const unsigned kinds[3] = {MUX, DEMUX, MERGE};
    const struct { size_t len; int want; } sizes[] = {{0, 1}, {1, 1}, {3, 1}, {4, 1}, {627, 1}, {628, 8}, {629, 7}, {100000, 7}};
    size_t at = 32;
    set_bits(bytes, 0, 32, 0x10004080);
    for (unsigned b = 0; b < 64; b++, at += 78) {
        set_bits(bytes, at, 8, kinds[b % 3] << 4 | 8);
        for (unsigned i = 0; i < 10; i++) set_bits(bytes, at + 8 + 7 * i, 7, b * 10 + i);
    }
    for (unsigned i = 0; i < 8; i++)
        for (unsigned placing = 0; placing < 4; placing++) {
            struct job job = {.name = "forms of many sizes", .form = {bytes, sizes[i].len}, .placing = placing, .want = sizes[i].want};
            compare(&job, NULL);
        }
}

// Sources joined to sinks, and one control buffer too many where the number is odd: 64 blocks pass, 65 earn 3.
static void try_block_counts(void)
{
    static struct scene s;
    struct random r = random_for(16, 0);
    for (unsigned blocks = 60; blocks <= 68; blocks++) {
        s.draft.blocks = s.draft.channels = 0;
        for (unsigned c = 0; c < blocks / 2; c++) {
            add_drawn(&s.draft, SOURCE, 0, 0, &c);
            add_drawn(&s.draft, SINK, 0, 0, &c);
            s.draft.channels++;
        }
        if (blocks % 2) add_drawn(&s.draft, CONTROL, 0, 0, (unsigned[]){0, 0});
        write_form(&s.draft, &s.form);
        struct job job = {.name = "60 to 68 blocks", .form = {s.form.bytes, s.form.len}, .want = blocks > 64 ? 3 : blocks % 2 ? 8 : 14};
        compare(&job, NULL);
        if (blocks % 2 || blocks > 64) continue;
        memset(s.ends, 0, sizeof s.ends);
        set_job(&s, &r, "60 to 68 blocks", 0, 10);
        compare(&s.job, NULL);
    }
}

// One channel that 257 output ports and 257 input ports name, which counts of 8 bits would take for one of each; and numbers around it.
static void try_crowded_channels(void)
{
    static const unsigned zeros[PORT_ROOM] = {0};
    static struct draft d;
    static struct form form;
    for (unsigned forks = 26; forks <= 32; forks++)
        for (unsigned sinks = 0; sinks <= 6; sinks++) {
            d.blocks = 0;
            d.channels = 1;
            for (unsigned b = 0; b < forks; b++) add_drawn(&d, FORK, 8, 0, zeros);
            for (unsigned b = 0; b < 25; b++) add_drawn(&d, MUX, 8, 0, zeros);
            for (unsigned b = 0; b < sinks; b++) add_drawn(&d, SINK, 0, 0, zeros);
            write_form(&d, &form);
            struct job job = {.name = "channels named by hundreds of ports", .form = {form.bytes, form.len}, .want = 8};
            compare(&job, NULL);
        }
}

// Lists some cycles for a ring that always turns and for a source joined to a sink.
static void try_cycles(const uint8_t *masks, size_t len, int want)
{
    static struct draft ring, pair;
    static struct form forms[2];
    static const uint8_t zero[4] = {0};
    ring.blocks = pair.blocks = 0;
    ring.channels = 2;
    pair.channels = 1;
    add_drawn(&ring, FULL_DATA, 0, 3, (unsigned[]){0, 1});
    add_drawn(&ring, CONTROL, 0, 0, (unsigned[]){1, 0});
    add_drawn(&pair, SOURCE, 0, 0, (unsigned[]){0});
    add_drawn(&pair, SINK, 0, 0, (unsigned[]){0});
    write_form(&ring, &forms[0]);
    write_form(&pair, &forms[1]);
    struct job job = {.name = "the limit of cycles", .form = {forms[0].bytes, forms[0].len}, .masks = {masks, len}, .want = want};
    job.trace_len = want ? 64 : 2 * len;
    uint64_t answer = compare(&job, NULL);
    if (!want && (cycles_in(answer) != len / 8 || records_in(answer) != len / 4)) fail(&job, "cycles are missing");
    job = (struct job){.name = "the limit of cycles", .form = {forms[1].bytes, forms[1].len}, .masks = {masks, len}, .want = 14};
    compare(&job, NULL);
    job.words = job.ends = (struct slice){zero, 4};
    job.want = want;
    compare(&job, NULL);
}

// Exactly as many cycles as are allowed, one more, and more with other faults that are checked earlier.
static void try_cycle_limit(void)
{
    static uint8_t masks[8 * (LIMIT + 2)];
    const struct { size_t len; int want; } lengths[] = {
        {8 * LIMIT - 8, 0}, {8 * LIMIT, 0}, {8 * LIMIT + 8, 16}, {8 * LIMIT + 4, 15}, {8 * LIMIT + 1, 15}, {8 * LIMIT + 9, 15}, {8 * LIMIT + 16, 16}};
    for (unsigned i = 0; i < 7; i++) try_cycles(masks, lengths[i].len, lengths[i].want);
}

// Slices of length 0 in every place, as NULL and as a pointer to unmapped memory.
static void try_empty_slices(void)
{
    static struct scene s;
    for (unsigned i = 0; i < 8 * 32; i++) {
        struct random r = random_for(17, i / 32);
        draw_scene(&s, &r, &any_net, "empty slices", 10);
        if (i & 1) s.job.form.len = 0;
        if (i & 2) s.job.words.len = 0;
        if (i & 4) s.job.ends.len = 0;
        if (i & 8) s.job.masks.len = 0;
        if (i & 16) s.job.trace_len = 0;
        s.job.want = ANY;
        s.job.placing = i / 32 % 4;
        compare(&s.job, NULL);
    }
}

// ---- Examples

static struct slice read_file(const char *folder, const char *name, uint8_t *bytes, size_t room)
{
    char path[1024];
    snprintf(path, sizeof path, "%s/%s", folder, name);
    FILE *file = fopen(path, "rb");
    if (!file) {
        perror(path);
        exit(2);
    }
    size_t len = fread(bytes, 1, room, file);
    fclose(file);
    return (struct slice){bytes, len};
}

// The words that sink 0 took, which enter by some channel, as text.
static void words_on(uint64_t answer, const uint8_t *trace, unsigned channel, char *text, size_t room)
{
    size_t at = 0;
    text[0] = 0;
    for (size_t i = 0; i < records_in(answer) && at + 16 < room; i++)
        if (whemdrosk_channel_of(trace, i) == channel) at += (size_t)snprintf(text + at, room - at, "%u ", whemdrosk_word_of(trace, i));
}

// The gcd network over the paper's words, 100, 56 and 45, 49, 3, and over some more; its results leave by channel 2.
static void try_gcd(const char *folder)
{
    static uint8_t form[FORM_ROOM], bytes[3][8 * CYCLE_ROOM];
    static const uint32_t words[] = {100, 56, 1071, 17, 4, 45, 49, 462, 5, 4, 3}, ends[] = {5, 11};
    uint32_t masks[2 * CYCLE_ROOM];
    char text[200];
    struct job job = {.name = "the gcd network", .form = read_file(folder, "gcd.form", form, sizeof form), .trace_len = 4 << 20, .want = 0};
    job.words = as_bytes(words, 11, bytes[0]);
    job.ends = as_bytes(ends, 2, bytes[1]);
    for (unsigned way = 0; way < MASK_WAYS; way++) {
        struct random r = random_for(18, way);
        const uint8_t *trace;
        draw_masks(&r, way, CYCLE_ROOM, masks);
        job.masks = as_bytes(masks, 2 * CYCLE_ROOM, bytes[2]);
        uint64_t answer = compare(&job, &trace);
        words_on(answer, trace, 2, text, sizeof text);
        if (strcmp(text, "5 7 21 1 4 ") != 0) fail(&job, text);
    }
}

// Every example over 1, 2, 3 for each source and over random masks.
static void try_examples(const char *folder)
{
    enum { EXAMPLES = 10, SOURCES = 32 };
    static const struct { const char *name; unsigned sources; } examples[EXAMPLES] = {
        {"add5.form", 1}, {"fork.form", 1}, {"gcd.form", 2}, {"shared.form", 2}, {"pipeline.form", 1}, {"stalled.form", 2},
        {"last.form", 5}, {"nine.form", 9}, {"most.form", SOURCES}, {"fifty.form", 1}};
    static uint8_t form[FORM_ROOM], bytes[3][8 * 64];
    uint32_t words[3 * SOURCES], ends[SOURCES], masks[2 * 64];
    for (unsigned k = 0; k < 3 * SOURCES; k++) words[k] = k % 3 + 1;
    for (unsigned k = 0; k < SOURCES; k++) ends[k] = 3 * k + 3;
    for (unsigned i = 0; i < EXAMPLES * 200; i++) {
        struct random r = random_for(19, i);
        struct job job = {.name = "examples", .seed = r.first, .trace_len = 8192, .placing = i % 4, .want = 0};
        job.form = read_file(folder, examples[i % EXAMPLES].name, form, sizeof form);
        job.words = as_bytes(words, 3 * SOURCES, bytes[0]);
        job.ends = as_bytes(ends, examples[i % EXAMPLES].sources, bytes[1]);
        draw_masks(&r, i / EXAMPLES % MASK_WAYS, 64, masks);
        job.masks = as_bytes(masks, 2 * 64, bytes[2]);
        compare(&job, NULL);
    }
    try_gcd(folder);
}

// ---- Threads

enum { THREADS = 4, THREAD_NETS = 40, THREAD_ROUNDS = 50, THREAD_TRACE = 65536 };
static struct scene scenes[THREAD_NETS];
static struct { uint64_t answer; uint8_t trace[THREAD_TRACE]; } wanted[THREAD_NETS];

static uint64_t run_scene(run_call *run, const struct job *job, uint8_t *trace)
{
    return run(job->form.bytes, job->form.len, job->words.bytes, job->words.len, job->ends.bytes, job->ends.len, job->masks.bytes, job->masks.len,
               trace, THREAD_TRACE);
}

// Runs the scenes again and again; answers the first that differs, or none.
static void *run_scenes(void *start)
{
    uint8_t *trace = malloc(THREAD_TRACE);
    for (size_t i = 0; i < THREAD_ROUNDS * THREAD_NETS; i++) {
        size_t k = (i + (size_t)start) % THREAD_NETS;
        memset(trace, 0, THREAD_TRACE);
        watch(&scenes[0].job);
        uint64_t answer = run_scene(whemdrosk_run, &scenes[k].job, trace);
        if (answer != wanted[k].answer || memcmp(trace, wanted[k].trace, THREAD_TRACE) != 0) return &scenes[k].job;
    }
    free(trace);
    return NULL;
}

static void try_threads(void)
{
    pthread_t threads[THREADS];
    for (unsigned k = 0; k < THREAD_NETS; k++) {
        struct random r = random_for(20, k);
        struct wish wish = some_wish(&r);
        draw_scene(&scenes[k], &r, &wish, "several threads at once", 60);
        wanted[k].answer = run_scene(model_run, &scenes[k].job, wanted[k].trace);
    }
    for (size_t i = 0; i < THREADS; i++) pthread_create(&threads[i], NULL, run_scenes, (void *)(i * (THREAD_NETS / THREADS)));
    for (size_t i = 0; i < THREADS; i++) {
        void *different;
        pthread_join(threads[i], &different);
        if (different) fail(different, "one thread among several gets another answer");
    }
    end_watch();
    for (unsigned k = 0; k < THREADS * THREAD_ROUNDS * THREAD_NETS; k++) count_passed("several threads at once");
}

// ---- All of it

static void require_refusals(void)
{
    for (unsigned refusal = 1; refusal <= 16; refusal++) {
        if (refusal == 12 || refusal == 13 || times_refused(refusal) >= (refusal == 16 ? 4 : LEAST_REFUSALS)) continue;
        printf("refusal %u was met only %u times\n0 passed, 1 failed\n", refusal, times_refused(refusal));
        exit(1);
    }
}

// The random nets tell a wrong rule for select words past the last port, from a thousand nets on.
static void require_selects(unsigned nets)
{
    if (nets < 1000 || (past_the_last[MUX] >= nets / 5 && past_the_last[DEMUX] >= nets / 5)) return;
    printf("too few select words past the last port: muxes %lu, demuxes %lu\n0 passed, 1 failed\n", past_the_last[MUX], past_the_last[DEMUX]);
    exit(1);
}

int main(int count, char **arguments)
{
    const char *folder = count > 1 ? arguments[1] : "../examples";
    unsigned nets = count > 3 ? (unsigned)strtoul(arguments[3], NULL, 10) : NETS;
    int by_hand = count <= 4 || strcmp(arguments[4], "random") != 0;
    if (count > 4 && strcmp(arguments[4], "soak") == 0) show_progress();
    if (count > 2) first_seed = strtoull(arguments[2], NULL, 10);
    open_harness();
    if (by_hand) try_goldens();
    if (by_hand) try_examples(folder);
    try_form_sizes();
    try_block_counts();
    try_crowded_channels();
    try_empty_slices();
    try_spoilt_forms();
    try_many_sources();
    try_loops();
    try_noise();
    try_bad_streams();
    try_good_ends();
    try_traces();
    try_every_length();
    try_nets(nets);
    try_cycle_limit();
    try_threads();
    require_refusals();
    require_selects(nets);
    print_notes();
    print_counts();
    return 0;
}
