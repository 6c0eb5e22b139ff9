// Compares the programs netdiff and difftry with the model: traces that are changed in one place, traces of several blocks, those of two runs of a net, lists that
// are too short, broken traces, wrong arguments.
// usage: diffing NETDIFF DIFFTRY SCRATCH [SEED [NETS [random]]] (cases for difftry are written to the file SCRATCH, traces for netdiff to SCRATCH.first and
// SCRATCH.second; those for which an answer differs stay there; random: without the cases by hand)
#include "diffasks.h"
#include "diffgolden.h"
#include <stdlib.h>

// How many rounds of all classes there are, and how many show all that has to be met.
enum { NETS = 50, FEWEST_NETS = 24 };

// ---- Both programs

// The channel of the last change as a rule; another one of the pair; one that is 64 away; any.
static unsigned draw_channel(const struct pair *p, struct random *r)
{
    unsigned other = p->channel[below(r, p->count)], any = below(r, CHANNELS);
    return ONE_OF(r, p->channel[0], p->channel[0], p->channel[0], other, other, (other + 64) % CHANNELS, any);
}

static uint32_t words_in(const struct pair *p, unsigned k, unsigned channel)
{
    return (uint32_t)words_on(p->trace[k].bytes, p->trace[k].len, channel);
}

// Lists that have room for the words of one channel.
static void try_channel(const struct pair *p, struct random *r, unsigned channel)
{
    if (!have_room(p)) return;
    begin_case(p);
    for (unsigned k = 0; k < 2; k++) {
        uint32_t words = words_in(p, k, channel), more = words + below(r, 9);
        set_list(k, channel, ONE_OF(r, words, words + 1, more, more, MOST_LISTED));
    }
    try_case(p);
}

static void ask_both(struct pair *p, struct random *r, unsigned i)
{
    unsigned channel = draw_channel(p, r);
    write_traces(p);
    if (i % 3 == 0) ask_all(p);
    else ask_channel(p, channel);
    try_channel(p, r, channel);
}

// All channels of a long pair take longer.
static void ask_long(struct pair *p, struct random *r, unsigned i)
{
    write_traces(p);
    if (i % 5 == 0) ask_all(p);
    else ask_channel(p, draw_channel(p, r));
}

// ---- Two runs of a net

// Pairs of runs; channels on which both runs of a pair have words, and the words that are laid beside each other; pairs with a difference.
static struct { unsigned long pairs, channels, words, differ; } plain, merging;

static unsigned long lay_runs(struct pair *p, struct random *r)
{
    unsigned long before = times_different();
    write_traces(p);
    ask_all(p);
    try_channel(p, r, p->channel[0]);
    return times_different() - before;
}

// Without merges no channel may differ.
static void lay_plain_runs(struct pair *p, struct random *r, unsigned i)
{
    struct trial trial = trial_of(p);
    (void)i;
    if (lay_runs(p, r) > 0) fail_trial(&trial, "two runs of one net without merges over the same streams differ");
    plain.pairs++;
    for (unsigned c = 0; c < p->count; c++) {
        uint32_t first = words_in(p, 0, c), second = words_in(p, 1, c);
        plain.channels += first > 0 && second > 0;
        plain.words += first < second ? first : second;
    }
}

// With merges some do.
static void lay_merging_runs(struct pair *p, struct random *r, unsigned i)
{
    (void)i;
    merging.differ += lay_runs(p, r) > 0;
    merging.pairs++;
}

// ---- Traces that are no whole records

// Some bytes more, or some of the last record missing.
static void break_trace(struct recording *t, struct random *r)
{
    size_t bytes = 1 + below(r, RECORD_BYTES - 1);
    int cut = t->len >= RECORD_BYTES && chance(r, 2);
    if (cut) t->len -= bytes;
    for (size_t n = 0; !cut && n < bytes; n++) t->bytes[t->len++] = (uint8_t)below(r, 256);
}

static void ask_broken(struct pair *p, struct random *r, unsigned i)
{
    unsigned broken = 1 + i % 3;
    for (unsigned k = 0; k < 2; k++)
        if (broken >> k & 1) break_trace(&p->trace[k], r);
    ask_both(p, r, i / 3);
}

// ---- Wrong arguments and files

// Channels as they may be typed, and what is none: too great by little, by 2^8, 2^32 and 2^64; with signs, spaces, letters, other digits; no digit at all.
static const char *const odd_channels[] = {
    "128", "129", "191", "255", "256", "300", "999", "1000", "4294967296", "4294967297", "18446744073709551616", "18446744073709551617", "000128", "00000256",
    "-1", "-0", "+5", "+0", "5x", "x5", " 5", "5 ", "5\n", "", " ", "5.0", "0x5", "0X7f", "1e1", "5,6", "5/", ":5", "1_0", "\357\274\225", "\331\243", "\377",
    "5\3775", "channel", "--", "12 7", "340282366920938463463374607431768211456"};
enum { ODD_CHANNELS = sizeof odd_channels / sizeof odd_channels[0] };

static void type_channel(struct random *r, unsigned channel, char *typed)
{
    unsigned long long shift = ONE_OF(r, 7, 8, 16, 32), times = 1 + below(r, 9);
    switch (below(r, 8)) {
    case 0: snprintf(typed, NAME_ROOM, "%u", channel); break;
    case 1:
    case 2: snprintf(typed, NAME_ROOM, "%0*u", 2 + (int)below(r, 40), channel); break;
    case 3: snprintf(typed, NAME_ROOM, "%llu", channel + (times << shift)); break;
    case 4: snprintf(typed, NAME_ROOM, "18446744073709551%u", 616 + channel); break;
    default: snprintf(typed, NAME_ROOM, "%s", odd_channels[below(r, ODD_CHANNELS)]); break;
    }
}

static void ask_typed(struct pair *p, struct random *r, unsigned i)
{
    static char typed[NAME_ROOM];
    struct question q = question_of(p, typed);
    if (i % 2) snprintf(typed, sizeof typed, "%s", odd_channels[i / 2 % ODD_CHANNELS]);
    else type_channel(r, draw_channel(p, r), typed);
    write_traces(p);
    ask(p, &q);
}

// Every number of arguments with every sort of file, at times the same one twice, and channels of all sorts.
static void ask_wrongly(struct pair *p, struct random *r, unsigned i)
{
    static char typed[NAME_ROOM];
    unsigned sorts[2];
    snprintf(typed, sizeof typed, "%u", draw_channel(p, r));
    if (chance(r, 3)) type_channel(r, draw_channel(p, r), typed);
    for (unsigned k = 0; k < 2; k++) {
        sorts[k] = ONE_OF(r, GOOD_TRACE, GOOD_TRACE, BROKEN_TRACE, BROKEN_TRACE, NO_FILE, DIRECTORY, BENEATH_A_FILE, NO_NAME);
        if (sorts[k] == BROKEN_TRACE) break_trace(&p->trace[k], r);
    }
    struct question q = question_of(p, typed);
    for (unsigned k = 0; k < 2; k++) give_file(&q, k, sorts[k]);
    if (chance(r, 8)) q.trace[1] = q.trace[0];
    q.arguments = i % 16 <= MOST_ARGUMENTS ? i % 16 : 2 + i % 2;
    write_traces(p);
    ask(p, &q);
}

// ---- Cases for difftry alone

// Lists that are about as long as there are words, each by itself; at times of two channels.
static void try_rooms(struct pair *p, struct random *r, unsigned i)
{
    unsigned channel = draw_channel(p, r);
    (void)i;
    begin_case(p);
    for (unsigned k = 0; k < 2; k++) {
        uint32_t words = words_in(p, k, channel), less = words > 0 ? words - 1 : 0, any = below(r, MOST_LISTED);
        set_list(k, channel, ONE_OF(r, words, words, words + 1, less, less, 0, 1, any, MOST_LISTED - 1, MOST_LISTED, MOST_LISTED + 1, 0x10000, 0xffffffff));
        if (chance(r, 4)) channel = draw_channel(p, r);
    }
    try_case(p);
}

// Channels of a byte, of which the upper half have no words, and numbers of which the last byte counts.
static void try_channels(struct pair *p, struct random *r, unsigned i)
{
    (void)i;
    begin_case(p);
    for (unsigned k = 0; k < 2; k++) {
        uint32_t channel = p->channel[0], any = below(r, 256), higher = 256 * (1 + random_bits(r) % 0xffffff), words = words_in(p, k, channel);
        uint32_t room = ONE_OF(r, words, 0, MOST_LISTED);
        set_list(k, ONE_OF(r, channel, channel + CHANNELS, any, channel + higher, channel + CHANNELS + higher, 128, 255), room);
    }
    try_case(p);
}

// Each trace whole or not, each list long enough or not.
static void try_faults(struct pair *p, struct random *r, unsigned i)
{
    unsigned channel = p->channel[0];
    for (unsigned k = 0; k < 2; k++)
        if (i >> k & 1) break_trace(&p->trace[k], r);
    begin_case(p);
    for (unsigned k = 0; k < 2; k++) {
        uint32_t words = words_in(p, k, channel);
        set_list(k, channel, i >> (2 + k) & 1 && words > 0 ? below(r, words) : words + below(r, 3));
    }
    try_case(p);
}

// The header ends early; the traces do; a number is too great, so great that the sum goes round at 2^32, both go round together; bytes behind the traces, up to
// all the room; a byte more than there is room for, or many.
enum { SHORT_HEADER, SHORT_TRACES, BIG_FIRST, BIG_SECOND, BIG_BOTH, A_TAIL, ALL_ROOM, ONE_TOO_MANY, FAR_TOO_MANY, FILE_FAULTS };

static void lengthen(struct random *r, size_t len)
{
    while (on_trial.len < len) on_trial.at[on_trial.len++] = (uint8_t)below(r, 256);
}

static void spoil_case(struct random *r, unsigned fault)
{
    uint32_t traces = (uint32_t)on_trial.len - CASE_HEADER, some = random_bits(r);
    switch (fault) {
    case SHORT_HEADER: on_trial.len = below(r, CASE_HEADER); break;
    case SHORT_TRACES: on_trial.len -= traces == 0 || chance(r, 2) ? 1 : 1 + below(r, traces); break;
    case BIG_FIRST: set_number(BYTES_NUMBER, ONE_OF(r, traces + 1, 0x10000, 0x7fffffff, 0x80000000, 0xffffffe8, 0xffffffff)); break;
    case BIG_SECOND: set_number(NUMBERS + BYTES_NUMBER, ONE_OF(r, traces + 1, 0x10000, 0x7fffffff, 0x80000000, 0xffffffe8, 0xffffffff)); break;
    case BIG_BOTH:
        set_number(BYTES_NUMBER, 0x80000000 | some);
        set_number(NUMBERS + BYTES_NUMBER, ONE_OF(r, 0, traces, traces / 2) - (0x80000000 | some));
        break;
    case A_TAIL: lengthen(r, on_trial.len + 1 + below(r, 40)); break;
    case ALL_ROOM: lengthen(r, CASE_ROOM); break;
    case ONE_TOO_MANY: lengthen(r, CASE_ROOM + 1); break;
    default: lengthen(r, CASE_ROOM + 2 + below(r, 8000)); break;
    }
}

static void try_no_case(struct pair *p, struct random *r, unsigned i)
{
    unsigned channel = draw_channel(p, r);
    begin_case(p);
    for (unsigned k = 0; k < 2; k++) set_list(k, channel, words_in(p, k, channel) + below(r, 3));
    spoil_case(r, i % FILE_FAULTS);
    try_case(p);
}

static void try_roomy(struct pair *p, struct random *r, unsigned i)
{
    unsigned channel = draw_channel(p, r);
    (void)i;
    begin_case(p);
    for (unsigned k = 0; k < 2; k++) set_list(k, channel, words_in(p, k, channel) + below(r, 3));
    try_case(p);
}

// ---- All of it

// Two traces, what is changed in one of them, and what is asked of them; and how many cases there are in each round.
static const struct { const char *name; pair_rule *draw, *change, *ask; unsigned times; } classes[] = {
    {"the same records", draw_short, change_nothing, ask_both, 1},
    {"a beginning of the other", draw_short, cut_records, ask_both, 1},
    {"one word changed", draw_short, change_word, ask_both, 2},
    {"one record dropped", draw_short, drop_record, ask_both, 1},
    {"one record doubled", draw_short, double_record, ask_both, 1},
    {"two words exchanged", draw_short, exchange_words, ask_both, 1},
    {"the same words in another order of channels", draw_short, change_order, ask_both, 1},
    {"other cycles", draw_short, change_cycles, ask_both, 1},
    {"several changes", draw_short, change_some, ask_both, 2},
    {"other records", draw_short, draw_others, ask_both, 1},
    {"runs of nets without merges", draw_plain_runs, change_nothing, lay_plain_runs, 2},
    {"runs of nets with merges", draw_merging_runs, change_nothing, lay_merging_runs, 1},
    {"long: one channel alone", draw_alone, change_any, ask_long, 1},
    {"long: channels among each other", draw_mixed, change_any, ask_long, 1},
    {"long: one trace ahead by over a block", draw_ahead, change_any, ask_long, 1},
    {"long: one word in a block", draw_sparse, change_any, ask_long, 1},
    {"long: words up to a block's end", draw_to_a_block, change_any, ask_long, 1},
    {"long: a difference at a block's edge", draw_alone, change_at_edge, ask_long, 1},
    {"long: one trace shorter by blocks", draw_mixed, cut_blocks, ask_long, 1},
    {"no whole records", draw_short, change_some, ask_broken, 1},
    {"long: no whole records", draw_alone, change_any, ask_broken, 1},
    {"channels as they are typed", draw_short, change_some, ask_typed, 6},
    {"wrong arguments and files", draw_short, change_some, ask_wrongly, 8},
    {"lists about as long as the words", draw_short, change_some, try_rooms, 3},
    {"about 256 words", draw_listed, change_some, try_rooms, 1},
    {"channels of a byte", draw_short, change_some, try_channels, 2},
    {"broken traces and short lists", draw_short, change_some, try_faults, 3},
    {"files that are no case, or hardly one", draw_short, change_some, try_no_case, 1},
    {"cases of all the room", draw_roomy, change_nothing, try_roomy, 1},
};

static void try_class(unsigned class, unsigned i)
{
    static struct pair p;
    struct random r = random_for(1 + class, i);
    p.class = classes[class].name;
    p.seed = r.first;
    classes[class].draw(&p, &r, i);
    classes[class].change(&p, &r, i);
    classes[class].ask(&p, &r, i);
}

// The next cases of every class, so that what only one class shows is met early.
static void try_classes(unsigned round)
{
    for (unsigned class = 0; class < sizeof classes / sizeof classes[0]; class++)
        for (unsigned n = 0; n < classes[class].times; n++) try_class(class, round * classes[class].times + n);
}

static void print_runs(void)
{
    printf("runs without merges: %lu pairs, %lu channels with words in both, %lu words laid beside each other, no difference\n", plain.pairs, plain.channels,
           plain.words);
    printf("runs with merges: %lu pairs, %lu of them with a difference\n", merging.pairs, merging.differ);
}

// What the cases have to show, from some rounds on.
static void require_notes(void)
{
    require_asked();
    require(plain.words > 0, "words of two runs without merges");
    require(merging.differ > 0, "two runs with merges that differ");
}

int main(int count, char **arguments)
{
    if (count < 4) {
        fprintf(stderr, "usage: diffing NETDIFF DIFFTRY SCRATCH [SEED [NETS [random]]]\n");
        return 2;
    }
    begin_asking(arguments[1], arguments[2], arguments[3]);
    if (count > 4) first_seed = strtoull(arguments[4], NULL, 10);
    unsigned nets = count > 5 ? (unsigned)strtoul(arguments[5], NULL, 10) : NETS;
    if (count <= 6) try_by_hand();
    for (unsigned net = 0; net < nets; net++) try_classes(net);
    if (nets >= FEWEST_NETS) require_notes();
    print_asked();
    print_runs();
    print_classes();
    print_verdict();
    end_asking();
    return 0;
}
