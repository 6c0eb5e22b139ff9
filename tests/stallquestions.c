#include "stallquestions.h"
#include "stallscenes.h"
#include <string.h>

// Wrong questions in one case; the stride with which they go through the wrong texts, so that all sorts are met early.
enum { WRONGS = 16, STRIDE = 19 };

static struct question question;

// ---- A question as it is meant

// What is asked of a scene's net: the row of masks that the two lists begin with, how many masks each list has, where 0 is no list, whether their last ones go
// on, how many streams are typed, and whether lists that come later replace others; cycle and channel as they are typed.
struct plan {
    unsigned row, offers, readies, streams;
    int offer_goes_on, ready_goes_on, replaced;
    char cycle[64], channel[64];
};

static void set_cycle(struct plan *p, uint32_t cycle)
{
    snprintf(p->cycle, sizeof p->cycle, "%u", cycle);
}

static void set_channel(struct plan *p, uint32_t channel)
{
    snprintf(p->channel, sizeof p->channel, "%u", channel);
}

// As many streams as there are sources, lists of some masks, some cycle, some channel.
static struct plan draw_plan(const struct scene *s, struct random *r)
{
    struct plan p = {.row = below(r, BAYS), .offers = below(r, 30), .readies = below(r, 30), .streams = (unsigned)s->end_count};
    p.offer_goes_on = chance(r, 2);
    p.ready_goes_on = chance(r, 2);
    p.replaced = chance(r, 8);
    set_cycle(&p, below(r, 40));
    set_channel(&p, below(r, s->draft.channels));
    return p;
}

// ---- Typing it

static void type_masks(const char *name, const uint32_t *masks, unsigned count, int goes_on)
{
    if (count == 0) return;
    next_argument(&question);
    type(&question, "%s=", name);
    for (unsigned i = 0; i < count; i++) type(&question, i ? ",%u" : "%u", masks[2 * i]);
    if (goes_on) type(&question, "..");
}

static void type_both_masks(const struct scene *s, const struct plan *p, unsigned row, int offer)
{
    if (offer) type_masks("offer", s->masks[row % BAYS], p->offers, p->offer_goes_on);
    else type_masks("ready", s->masks[row % BAYS] + 1, p->readies, p->ready_goes_on);
}

// The words of a source; beyond the sources those of the last.
static void type_stream(const struct scene *s, unsigned k)
{
    unsigned source = k < s->end_count ? k : (unsigned)s->end_count - 1;
    uint32_t from = source > 0 ? s->ends[source - 1] : 0;
    next_argument(&question);
    for (uint32_t i = from; i < s->ends[source]; i++) type(&question, i > from ? ",%u" : "%u", s->words[i]);
}

// The streams in order, the lists of masks anywhere among them.
static void type_further(const struct scene *s, struct random *r, const struct plan *p)
{
    unsigned offer_at = below(r, p->streams + 1), ready_at = below(r, p->streams + 1);
    for (int offer = 0; p->replaced && offer < 2; offer++) type_both_masks(s, p, p->row + 1, offer);
    for (unsigned k = 0; k <= p->streams; k++) {
        if (k == offer_at) type_both_masks(s, p, p->row, 1);
        if (k == ready_at) type_both_masks(s, p, p->row, 0);
        if (k < p->streams) type_stream(s, k);
    }
}

static void type_first(unsigned file, const struct plan *p)
{
    begin_question(&question);
    name_form(&question, file);
    next_argument(&question);
    type(&question, "%s", p->cycle);
    next_argument(&question);
    type(&question, "%s", p->channel);
}

static void ask_plan(const struct scene *s, struct random *r, const struct plan *p)
{
    type_first(GOOD_FILE, p);
    type_further(s, r, p);
    ask(s, &question);
}

// The same for some channels.
static void ask_some_channels(const struct scene *s, struct random *r, struct plan *p, unsigned count)
{
    for (unsigned n = 0; n < count; n++) {
        set_channel(p, below(r, s->draft.channels));
        ask_plan(s, r, p);
    }
}

// ---- Good questions

void ask_in_full(struct scene *s, struct random *r, unsigned i)
{
    struct plan p = draw_plan(s, r);
    (void)i;
    ask_some_channels(s, r, &p, 3);
}

void ask_by_default(struct scene *s, struct random *r, unsigned i)
{
    struct plan p = draw_plan(s, r);
    p.streams = 0;
    if (i % 2) set_cycle(&p, below(r, 8));
    ask_some_channels(s, r, &p, 3);
}

// Some or no bits in the masks that go on, and many cycles.
void ask_in_a_stall(struct scene *s, struct random *r, unsigned i)
{
    struct plan p = draw_plan(s, r);
    uint32_t *masks = s->masks[p.row];
    if (p.offers > 0 && i % 3 != 0) masks[2 * (p.offers - 1)] = chance(r, 2) ? 0 : random_bits(r);
    if (p.readies > 0 && i % 3 != 1) masks[2 * p.readies - 1] = chance(r, 2) ? 0 : random_bits(r);
    p.offer_goes_on = p.ready_goes_on = 1;
    set_cycle(&p, chance(r, 4) ? 256 + below(r, 6) : 10 + below(r, 60));
    ask_some_channels(s, r, &p, 4);
}

// At the last mask, at the first cycle behind it, one more; with and without dots.
void ask_near_the_end(struct scene *s, struct random *r, unsigned i)
{
    struct plan p = draw_plan(s, r);
    unsigned last = (i % 2 ? p.offers : p.readies) + 1;
    p.offer_goes_on = i >> 1 & 1;
    p.ready_goes_on = i >> 2 & 1;
    for (unsigned n = 0; n < 4; n++) {
        set_cycle(&p, last > 2 ? last - 2 + n : n);
        ask_some_channels(s, r, &p, 1);
    }
}

// ---- Refusals

void ask_other_streams(struct scene *s, struct random *r, unsigned i)
{
    struct plan p = draw_plan(s, r);
    unsigned all = p.streams;
    p.streams = ONE_OF(r, 1, all - 1, all, all + 1, all + 1 + below(r, 9), MOST_STREAMS);
    if (i % 4 == 0) snprintf(p.channel, sizeof p.channel, "%u", s->draft.channels + below(r, 3));
    ask_plan(s, r, &p);
}

// A number of no channel, in some ways one that is longer than any register.
enum { CHANNEL_WAYS = 4 };

static void set_no_channel(struct plan *p, const struct scene *s, struct random *r, unsigned way)
{
    unsigned some = below(r, s->draft.channels);
    switch (way) {
    case 0: snprintf(p->channel, sizeof p->channel, "%llu", (1ull << ONE_OF(r, 32, 40, 63)) + some); break;
    case 1: snprintf(p->channel, sizeof p->channel, "18446744073709551%u", 616 + some); break;
    case 2: snprintf(p->channel, sizeof p->channel, "%u", draw_no_channel(r, &s->draft)); break;
    default: snprintf(p->channel, sizeof p->channel, "%u", s->draft.channels + below(r, 2)); break;
    }
}

void ask_other_channels(struct scene *s, struct random *r, unsigned i)
{
    struct plan p = draw_plan(s, r);
    (void)i;
    for (unsigned way = 0; way < CHANNEL_WAYS; way++) {
        set_no_channel(&p, s, r, way);
        ask_plan(s, r, &p);
    }
}

// A cycle past the limit, in some ways one whose last 32 or 64 bits are a small number.
enum { CYCLE_WAYS = 4 };

static void set_no_cycle(struct plan *p, struct random *r, unsigned way)
{
    switch (way) {
    case 0: snprintf(p->cycle, sizeof p->cycle, "%llu", (1ull << ONE_OF(r, 32, 33, 63)) + below(r, 9)); break;
    case 1: snprintf(p->cycle, sizeof p->cycle, "1844674407370955161%u", 6 + below(r, 4)); break;
    case 2: snprintf(p->cycle, sizeof p->cycle, "%u%020u", 1 + below(r, 9), below(r, 9)); break;
    default: set_cycle(p, ALLOWANCE + 1 + (chance(r, 2) ? 0 : below(r, 3000000))); break;
    }
}

void ask_other_cycles(struct scene *s, struct random *r, unsigned i)
{
    struct plan p = draw_plan(s, r);
    (void)i;
    for (unsigned way = 0; way < CYCLE_WAYS; way++) {
        set_no_cycle(&p, r, way);
        ask_plan(s, r, &p);
    }
}

// Streams, channel and cycle, each right or wrong.
void ask_several_faults(struct scene *s, struct random *r, unsigned i)
{
    struct plan p = draw_plan(s, r);
    if (i & 1) p.streams += 1 + below(r, 3);
    if (i & 2) set_no_channel(&p, s, r, below(r, CHANNEL_WAYS));
    if (i & 4) set_no_cycle(&p, r, below(r, CYCLE_WAYS));
    ask_plan(s, r, &p);
}

// The streams may be wrong too, or none.
void ask_refused_forms(struct scene *s, struct random *r, unsigned i)
{
    struct plan p = draw_plan(s, r);
    p.streams = i % 2 ? 0 : below(r, 4);
    if (chance(r, 2)) set_no_channel(&p, s, r, below(r, CHANNEL_WAYS));
    if (chance(r, 3)) set_no_cycle(&p, r, below(r, CYCLE_WAYS));
    ask_plan(s, r, &p);
}

// ---- Numbers as they are typed

// Zeros before a number do not alter it.
static void type_padded(struct random *r, uint32_t number)
{
    type(&question, "%0*u", 1 + (int)ONE_OF(r, 0, 1, 4, 11, 25, 60), number);
}

void ask_typed_oddly(struct scene *s, struct random *r, unsigned i)
{
    uint32_t from = 0, cycle = below(r, 12), channel = below(r, s->draft.channels);
    (void)i;
    begin_question(&question);
    name_form(&question, GOOD_FILE);
    next_argument(&question);
    type_padded(r, cycle);
    next_argument(&question);
    type_padded(r, channel);
    next_argument(&question);
    type(&question, chance(r, 2) ? "offer=" : "ready=");
    type_padded(r, random_bits(r));
    type(&question, ",");
    type_padded(r, ONE_OF(r, 0, 0xffffffff));
    if (chance(r, 2)) type(&question, "..");
    for (unsigned k = 0; k < s->end_count; from = s->ends[k++]) {
        next_argument(&question);
        for (uint32_t n = from; n < s->ends[k]; n++) {
            if (n > from) type(&question, ",");
            type_padded(r, s->words[n]);
        }
    }
    ask(s, &question);
}

// ---- Wrong arguments

// What is no number; a number that is no word; what is no list of words, no stream, no list of masks.
static const char *const no_numbers[] = {
    "x", "-1", "+1", " 1", "1 ", "1x", "0x1", "1.0", "1e3", ":1", "1/", "1_0", "\357\274\225", "\331\243", "\377", "1\377", "--", "1\n", "12 7", "a", "1-",
    "1.", "."};
static const char *const no_words[] = {
    "4294967296", "4294967297", "99999999999", "18446744073709551616", "18446744073709551617", "100000000000000000000000000000000"};
static const char *const no_lists[] = {",", "1,", ",1", "1,,2", "1;2", "1, 2", "1 2", "1,x", "1,2,4294967296", "1,-2", "1,2,", "4294967296,1", "1\t2"};
static const char *const no_streams[] = {
    "1..", "..", "1,2..", "offer", "ready", "offers=1", "Offer=1", "READY=1", "ready:1", "=1", "offer 1", "-offer=1", " ready=1"};
static const char *const no_masks[] = {"1...", "1..2", "1..,2", "1,2.", "1. .", "1,..2", "1,2..x", "1..1..", "1.. "};

#define COUNT(list) (sizeof(list) / sizeof(list)[0])
enum { NUMBERS = COUNT(no_numbers), WORDS = COUNT(no_words), LISTS = COUNT(no_lists), STREAMS = COUNT(no_streams), MASK_LISTS = COUNT(no_masks) };

// The wrong text of a number, from those that are wrong for a stream, or for a list of masks.
static const char *wrong_text(unsigned n, int masks)
{
    n %= NUMBERS + WORDS + LISTS + (masks ? MASK_LISTS : STREAMS);
    if (n < NUMBERS) return no_numbers[n];
    if (n < NUMBERS + WORDS) return no_words[n - NUMBERS];
    if (n < NUMBERS + WORDS + LISTS) return no_lists[n - NUMBERS - WORDS];
    n -= NUMBERS + WORDS + LISTS;
    return masks ? no_masks[n] : no_streams[n];
}

enum { WRONG_CYCLE, WRONG_CHANNEL, WRONG_STREAM, WRONG_MASKS, WRONG_PLACES };

static void type_wrong(struct random *r, unsigned place, unsigned n)
{
    if (place < WRONG_STREAM) return;
    next_argument(&question);
    if (place == WRONG_MASKS) type(&question, chance(r, 2) ? "offer=" : "ready=");
    type(&question, "%s", wrong_text(n, place == WRONG_MASKS));
}

// Each wrong text in turn in each place, before the further arguments, which are right, or behind them.
static void ask_wrong(struct scene *s, struct random *r, unsigned place, unsigned n)
{
    struct plan p = draw_plan(s, r);
    int before = chance(r, 2);
    const char *bad = n % (NUMBERS + 1) < NUMBERS ? no_numbers[n % (NUMBERS + 1)] : "";
    if (place == WRONG_CYCLE) snprintf(p.cycle, sizeof p.cycle, "%s", bad);
    if (place == WRONG_CHANNEL) snprintf(p.channel, sizeof p.channel, "%s", bad);
    type_first(GOOD_FILE, &p);
    if (before) type_wrong(r, place, n);
    type_further(s, r, &p);
    if (!before) type_wrong(r, place, n);
    ask(s, &question);
}

void ask_wrongly(struct scene *s, struct random *r, unsigned i)
{
    for (unsigned n = WRONGS * i; n < WRONGS * (i + 1); n++) ask_wrong(s, r, n % WRONG_PLACES, n / WRONG_PLACES * STRIDE);
}

// Fewer than three arguments; a name of no file, with all arguments or too few.
void ask_without_file(struct scene *s, struct random *r, unsigned i)
{
    struct plan p = draw_plan(s, r);
    type_first(i % 2 ? GOOD_FILE : NO_FILE + i / 2 % (FILE_SORTS - NO_FILE), &p);
    if (i % 2) question.count = i / 2 % 3;
    else if (chance(r, 2)) type_further(s, r, &p);
    ask(s, &question);
}

// ---- Many words, masks and streams

// Words, or masks, of which the last one is the only one that is not 0.
static void type_many(unsigned count)
{
    for (unsigned n = 0; n < count; n++) type(&question, n ? ",%u" : "%u", n + 1 == count ? 0xffffffff : 0);
}

// As many as are taken, or one more: words in one stream or in two; masks of either list; streams.
void ask_with_many(struct scene *s, struct random *r, unsigned i)
{
    struct plan p = draw_plan(s, r);
    unsigned more = i % 2, first = 1 + below(r, MOST_TYPED - 1);
    p.streams = (unsigned)s->end_count;
    p.offers = p.readies = 1 + below(r, 3);
    if (i / 2 % 4 == 1) set_cycle(&p, MOST_TYPED - 1 + below(r, 2));
    type_first(GOOD_FILE, &p);
    switch (i / 2 % 4) {
    case 0:
        next_argument(&question);
        type_many(first);
        next_argument(&question);
        type_many(MOST_TYPED + more - first);
        break;
    case 1:
        next_argument(&question);
        type(&question, chance(r, 2) ? "offer=" : "ready=");
        type_many(MOST_TYPED + more);
        for (unsigned k = 0; k < p.streams; k++) type_stream(s, k);
        break;
    case 2:
        next_argument(&question);
        type_many(MOST_TYPED + more);
        for (unsigned k = 1; k < p.streams; k++) next_argument(&question);
        break;
    default:
        for (unsigned k = 0; k < MOST_STREAMS + more; k++) next_argument(&question);
        break;
    }
    ask(s, &question);
}
