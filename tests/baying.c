// Compares the program baytry with the model: four bays stepped in many orders and in turn, bays that are spoilt, the allowance of each, faults together,
// refused forms; and a bay among others with the same bay alone.
// usage: baying BAYTRY CASE [SEED [NETS [random]]] (cases are written to the file CASE; one for which an answer differs stays there; random: without the cases
// by hand)
#define _POSIX_C_SOURCE 200809L
#include "bayalone.h"
#include "bayscenes.h"
#include "bayturns.h"
#include "comparing.h"
#include <stdlib.h>
#include <string.h>

// How many nets there are for each class, and how many show all that has to be met; in every so many cases one bay is tried alone.
enum { NETS = 100, FEWEST_NETS = 12, ALONE_EVERY = 4 };

static char *baytry, *case_file;

// ---- Comparing

// Steps and deliveries in the lines of the model's, by bay.
static unsigned long steps[BAYS], deliveries[BAYS], fresh_refused, no_cases;

// Calls of next, by the bay that they name or BAYS for none, and by refusal.
enum { LAST_REFUSAL = NO_BAY };
static unsigned long named[BAYS + 1][LAST_REFUSAL + 1];

// The case whose lines are compared.
static const struct scene *on_trial;

static unsigned long equal_signs(const char *line, size_t len)
{
    unsigned long count = 0;
    for (size_t i = 0; i < len; i++) count += line[i] == '=';
    return count;
}

static struct trial trial_of(const struct scene *s)
{
    return (struct trial){s->class, s->seed, "case", s->bytes, s->len};
}

static void note_call(unsigned bay, unsigned refusal)
{
    struct trial trial = trial_of(on_trial);
    const char *fault = fault_of_call(bay, refusal);
    named[bay][refusal]++;
    if (fault) fail_trial(&trial, fault);
}

static void note_step(unsigned bay, unsigned refusal, unsigned long delivered)
{
    count_refused(refusal);
    if (refusal) return;
    steps[bay]++;
    deliveries[bay] += delivered;
}

static void note_line(const char *line, size_t len)
{
    unsigned bay, refusal;
    keep_line(line, len);
    if (sscanf(line, "bay %u: refusal %u", &bay, &refusal) == 2) note_step(bay, refusal, equal_signs(line, len));
    else if (sscanf(line, "next bay %u: refusal %u", &bay, &refusal) == 2) {
        note_call(bay, refusal);
        note_step(bay, refusal, equal_signs(line, len));
    } else if (sscanf(line, "next no bay: refusal %u", &refusal) == 1) {
        note_call(BAYS, refusal);
        count_refused(refusal);
    } else if (sscanf(line, "load %u", &refusal) == 1) count_refused(refusal);
    else if (sscanf(line, "fresh %u", &refusal) == 1) fresh_refused += refusal != 0;
    else no_cases += *line == 'b';
}

static void compare_case(const struct scene *s)
{
    struct trial trial = trial_of(s);
    FILE *out = begin_model();
    print_case(out, s->bytes, s->len);
    on_trial = s;
    begin_waiting(s);
    begin_lines();
    write_trial(&trial, case_file);
    snprintf(call, sizeof call, "baytry %s", case_file);
    finish_trial(&trial, out, (char *[]){baytry, case_file, NULL}, NULL, note_line);
}

// A bay's lines in the case that was compared last, and in the case that leaves this bay alone.
static unsigned long alone_steps;

static void compare_alone(const struct scene *s, unsigned bay)
{
    static struct scene alone;
    struct trial trial = trial_of(s);
    char *among = strdup(lines_of(bay));
    leave_alone(s, bay, &alone);
    compare_case(&alone);
    if (strcmp(among, lines_of(bay)) != 0) fail_trial(&trial, "a bay's lines depend on other bays");
    for (const char *at = among; (at = strstr(at, ": refusal 0")); at++) alone_steps++;
    free(among);
}

// ---- Good steps

// All bays alike, or one of them more often.
static void in_random_order(struct scene *s, struct random *r, unsigned i)
{
    unsigned often = below(r, BAYS), count = chance(r, 2) ? commands_left(s) : below(r, commands_left(s) + 1);
    for (unsigned n = 0; n < count; n++) step(s, i % 3 == 0 && chance(r, 2) ? often : below(r, BAYS));
}

// Some steps of one bay, then some of another.
static void in_bursts(struct scene *s, struct random *r, unsigned i)
{
    while (commands_left(s) > 0) {
        unsigned bay = below(r, BAYS), count = 1 + below(r, i % 2 ? 6 : 40);
        for (unsigned n = 0; n < count; n++) step(s, bay);
    }
}

// Offers, readiness or both are taken from some cycles of a bay.
static void stall(struct scene *s, unsigned bay, unsigned way, size_t from, size_t to)
{
    for (size_t c = from; c < to; c++) {
        if (way != 1) s->masks[bay][2 * c] = 0;
        if (way != 0) s->masks[bay][2 * c + 1] = 0;
    }
}

// One bay is stalled while the others go on; from some cycle on it goes on itself, and another one is stalled.
static void with_a_stall(struct scene *s, struct random *r, unsigned i)
{
    unsigned bay = below(r, BAYS), other = (bay + 1 + below(r, BAYS - 1)) % BAYS;
    size_t change = 5 + below(r, 40);
    stall(s, bay, i % 3, 0, change);
    stall(s, other, below(r, 3), change, MASK_CYCLES);
    step_some(s, r, commands_left(s));
}

// Every bay has the same masks, so that all deliver the same, each in its own time.
static void with_the_same_masks(struct scene *s, struct random *r, unsigned i)
{
    for (unsigned k = 1; k < BAYS; k++) memcpy(s->masks[k], s->masks[0], sizeof s->masks[0]);
    if (i % 2) in_bursts(s, r, i);
    else step_some(s, r, commands_left(s));
}

// One bay alone, which uses up its streams; then a step of each.
static void one_alone(struct scene *s, struct random *r, unsigned i)
{
    unsigned count = below(r, commands_left(s));
    for (unsigned n = 0; n < count; n++) step(s, i % BAYS);
    step_each(s);
}

// ---- Numbers of no bay, and numbers of no command

static void with_no_bays(struct scene *s, struct random *r, unsigned i)
{
    unsigned bays[LAST_STEP + 1];
    (void)i;
    shuffle(r, LAST_STEP + 1, bays);
    for (unsigned n = 0; n <= LAST_STEP; n++) {
        step(s, bays[n]);
        if (chance(r, 8)) step(s, below(r, BAYS));
    }
}

// Numbers whose last byte or last two bytes are a command, and those that stand behind the commands.
static uint32_t no_command(struct random *r)
{
    switch (below(r, 5)) {
    case 0: return NO_COMMAND;
    case 1: return NO_COMMAND + below(r, 16);
    case 2: return 256 * (2 + below(r, 254)) + below(r, BAYS);
    case 3: return 65536 * (1 + below(r, 65535)) + (chance(r, 2) ? below(r, BAYS) : FRESH_RECORD + below(r, NO_COMMAND - FRESH_RECORD));
    default: return 0x80000000 | random_bits(r);
    }
}

static void with_no_commands(struct scene *s, struct random *r, unsigned i)
{
    (void)i;
    give_all_masks(s);
    while (commands_left(s) > 0) {
        add(s, no_command(r), below(r, 70), random_bits(r));
        step_some(s, r, below(r, 3));
        if (chance(r, 3)) call_next(s, r, ALL_BAYS);
    }
}

// ---- Records that are spoilt

// After each change, steps of the bay that it is in and of others; then both registers are 0, which is in shape for every kind.
static void with_registers_set(struct scene *s, struct random *r, unsigned i)
{
    (void)i;
    step_some(s, r, below(r, 20));
    while (commands_left(s) > 0) {
        unsigned bay = below(r, BAYS), block = spoil_registers(s, r, bay);
        if (chance(r, 2)) step(s, bay);
        step_some(s, r, 1 + below(r, 3));
        set_registers(s, r, bay, block, 0, 0);
        step(s, below(r, BAYS));
    }
}

static void with_counts_set(struct scene *s, struct random *r, unsigned i)
{
    static const uint32_t none[BAYS] = {0};
    for (unsigned n = i; commands_left(s) > 0; n++) {
        step_some(s, r, below(r, 6));
        spoil_counts(s, r, n % COUNT_FAULTS);
        if (chance(r, 4)) step_each(s);
        else step_some(s, r, 1 + below(r, 3));
        if (chance(r, 2)) add(s, FRESH_RECORD, 0, 0);
        else set_counts(s, none);
    }
}

// ---- The allowance

// Some cycles are left to some bays, and more steps follow than that: of one bay, or of any; at times a number of no bay is among them.
static void near_the_allowance(struct scene *s, struct random *r, unsigned i)
{
    while (commands_left(s) > 0) {
        unsigned left = below(r, i % 2 ? 3 : 8), bay = below(r, BAYS), alone = chance(r, 3);
        if (!chance(r, 3)) add(s, FRESH_RECORD, 0, 0);
        step_some(s, r, below(r, 4));
        leave_cycles(s, r, left);
        for (unsigned n = 0; n < (alone ? left + 3 : 2 * left + 8); n++) {
            step(s, alone ? bay : below(r, BAYS));
            if (chance(r, 12)) step(s, BAYS + below(r, 252));
        }
    }
}

// ---- Several faults at once

enum { WITH_NO_BAY = 1, WITH_BAD_NET = 2, WITH_BAD_STATE = 4, WITH_ALLOWANCE_USED = 8, SETS_OF_FAULTS = 16 };

// Steps with a set of faults, of the bay that is spoilt and of another.
static void add_faults(struct scene *s, struct random *r, unsigned faults)
{
    unsigned bay = below(r, BAYS), other = (bay + 1 + below(r, BAYS - 1)) % BAYS, none = BAYS + below(r, chance(r, 2) ? 4 : 252);
    add(s, FRESH_RECORD, 0, 0);
    step(s, below(r, BAYS));
    if (faults & WITH_ALLOWANCE_USED) leave_cycles(s, r, 0);
    if (faults & WITH_BAD_STATE) spoil_bay(s, r, bay);
    if (faults & WITH_BAD_NET) add(s, SET_CHANNELS, other_channels(r, &s->draft), 0);
    step(s, faults & WITH_NO_BAY ? none : bay);
    step(s, faults & WITH_NO_BAY ? none : other);
    add(s, SET_CHANNELS, s->draft.channels, 0);
}

static void with_several_faults(struct scene *s, struct random *r, unsigned i)
{
    unsigned order[SETS_OF_FAULTS];
    (void)i;
    shuffle(r, SETS_OF_FAULTS, order);
    for (unsigned n = 0; n < SETS_OF_FAULTS; n++) add_faults(s, r, order[n]);
    step_some(s, r, below(r, 10));
}

// ---- Nets that are refused, and fresh records

// The zero net is refused whatever is set; what is set stays in the record until a fresh one is asked for.
static void with_all_set(struct scene *s, struct random *r, unsigned i)
{
    for (unsigned n = 0; n < 12; n++) {
        step_some(s, r, 1 + below(r, 2));
        if (chance(r, 2)) step(s, BAYS + below(r, 252));
        if (chance(r, 4)) add(s, SET_CHANNELS, s->draft.channels, 0);
        if (chance(r, 4)) spoil_counts(s, r, below(r, COUNT_FAULTS));
        if (chance(r, 4)) set_registers(s, r, below(r, BAYS), below(r, 64), random_bits(r), below(r, 256));
        if (chance(r, i % 2 ? 6 : 60)) add(s, FRESH_RECORD, 0, 0);
    }
}

// The channel count is another one for some steps, and then the net's own again, at times with 256 more.
static void with_channels_set(struct scene *s, struct random *r, unsigned i)
{
    while (commands_left(s) > 0) {
        step_some(s, r, below(r, 12));
        add(s, SET_CHANNELS, other_channels(r, &s->draft) + 256 * (chance(r, 4) ? below(r, 1000) : 0), 0);
        step_some(s, r, 1 + below(r, 2));
        if (chance(r, i % 2 ? 2 : 8)) add(s, FRESH_RECORD, 0, 0);
        if (chance(r, 6)) step(s, BAYS + below(r, 252));
        add(s, SET_CHANNELS, s->draft.channels + 256 * (chance(r, 4) ? below(r, 1000) : 0), 0);
    }
}

static void with_fresh_records(struct scene *s, struct random *r, unsigned i)
{
    while (commands_left(s) > 0) {
        step_some(s, r, below(r, 20));
        if (i % 2 && chance(r, 3)) spoil_counts(s, r, below(r, COUNT_FAULTS));
        add(s, FRESH_RECORD, 0, 0);
    }
}

// ---- Files that are no case

static void set_number(struct scene *s, unsigned i, uint32_t number)
{
    set_bits(s->bytes, 32 * i, 32, number);
}

// Ends within the header or the parts; a header that promises too much, or so much that sizes go round at 2^32; a rest that is no command, in a file that
// is short or has all its room; nothing but zeros.
enum { SHORT_HEADER, SHORT_PARTS, EXACT_PARTS, BIG_FORM, BIG_WORDS, BIG_ENDS, A_REST, ALL_ROOM, ZEROS, FILE_FAULTS };

static void spoil_file(struct scene *s, struct random *r, unsigned i)
{
    size_t parts = s->len;
    step_some(s, r, 1 + below(r, 5));
    switch (i % FILE_FAULTS) {
    case SHORT_HEADER: s->len = below(r, HEADER_BYTES); break;
    case SHORT_PARTS: s->len = chance(r, 2) ? parts - 1 : HEADER_BYTES + below(r, (uint32_t)parts - HEADER_BYTES); break;
    case EXACT_PARTS: s->len = parts; break;
    case BIG_FORM: set_number(s, 0, ONE_OF(r, CASE_ROOM, 0xffffffff, 0xfffffff4, 0xfffffff0, 0x80000000, (uint32_t)s->len - HEADER_BYTES + 1)); break;
    case BIG_WORDS: set_number(s, 1, ONE_OF(r, MOST_WORDS + 1, 0x40000000, 0x80000000, 0xffffffff, MOST_WORDS)); break;
    case BIG_ENDS: set_number(s, 2, ONE_OF(r, MOST_ENDS + 1, 0x40000000, 0x80000000, 0xffffffff, MOST_ENDS)); break;
    case A_REST: s->len -= 1 + below(r, COMMAND_BYTES - 1); break;
    case ALL_ROOM:
        step_some(s, r, commands_left(s));
        while (s->len < CASE_ROOM) s->bytes[s->len++] = 0;
        break;
    default: memset(s->bytes, 0, s->len); break;
    }
}

// ---- Cases by hand, for the model itself

// Commands: a step with all masks set; all masks set for later calls of next, of one bay and of all; such a call over the one end that there is.
#define STEP(bay) {bay, ~0u, ~0u}
#define MASKS(bay) {SET_MASKS + bay, ~0u, ~0u}
#define ALL_MASKS MASKS(0), MASKS(1), MASKS(2), MASKS(3)
#define CALL(want) {NEXT, want, 1}

// netrun's net: source, data buffer, add 5, sink. A source whose word a fork copies, so that a merge has it on both inputs; sinks for its two outputs.
static const struct drawn netrun[] = {{SOURCE, 0, 0, {0}}, {DATA, 0, 0, {0, 1}}, {CONSTANT, 0, 5, {1, 2}}, {SINK, 0, 0, {2}}};
static const struct drawn doubled[] = {{SOURCE, 0, 0, {0}}, {FORK, 2, 0, {0, 1, 2}}, {MERGE, 2, 0, {1, 2, 3, 4}}, {SINK, 0, 0, {3}}, {SINK, 0, 0, {4}}};

// A net that is known, with the words 1, 2, 3; three numbers for each command; and what is printed.
struct known {
    const struct drawn *block;
    unsigned blocks, channels, count;
    uint32_t commands[18][3];
    const char *text;
};

static const struct known by_hand[] = {
    // Two bays, each with its own words; no fifth bay.
    {netrun, 4, 3, 7, {STEP(0), STEP(0), STEP(2), STEP(0), {1, 0, ~0u}, STEP(4), STEP(2)},
     "load 0\nfresh 0\nbay 0: refusal 0 0=1\nbay 0: refusal 0 0=2 1=1 2=6\nbay 2: refusal 0 0=1\nbay 0: refusal 0 0=3 1=2 2=7\nbay 1: refusal 0\n"
     "bay 4: refusal 21\nbay 2: refusal 0 0=2 1=1 2=6\nturn 0\n"
     "state 0 count 3 0=3/0 1=3/1\nstate 1 count 1\nstate 2 count 2 0=2/0 1=2/1\nstate 3 count 0\n"},
    // A bay that has one cycle left gets it and no more, and the others go on, though all counts together are far above the allowance; one above it earns 13.
    {netrun, 4, 3, 9, {{SET_COUNT + 1, ALLOWANCE, 0}, {SET_COUNT + 3, ALLOWANCE - 1, 0}, STEP(3), STEP(3), STEP(1), STEP(0), {SET_COUNT + 3, ALLOWANCE + 1, 0},
      STEP(3), STEP(0)},
     "load 0\nfresh 0\nbay 3: refusal 0 0=1\nbay 3: refusal 16\nbay 1: refusal 16\nbay 0: refusal 0 0=1\nbay 3: refusal 13\nbay 0: refusal 0 0=2 1=1 2=6\n"
     "turn 0\nstate 0 count 2 0=2/0 1=2/1\nstate 1 count 1048576\nstate 2 count 0\nstate 3 count 1048577 0=1/0 1=1/1\n"},
    // What is wrong in one bay is refused there and in no other; the number of the bay comes before the net, the net before the state.
    {netrun, 4, 3, 14, {{SET_WORD + 2, 1, 9}, STEP(0), STEP(2), {SET_MARKS + 2, 1, 1}, STEP(2), {SET_MARKS + 1, 4, 1}, STEP(0), STEP(1), {SET_CHANNELS, 2, 0},
      STEP(1), STEP(255), {SET_CHANNELS, 3, 0}, {SET_MARKS + 1, 4, 0}, STEP(1)},
     "load 0\nfresh 0\nbay 0: refusal 0 0=1\nbay 2: refusal 13\nbay 2: refusal 0 0=1 1=9 2=14\nbay 0: refusal 0 0=2 1=1 2=6\nbay 1: refusal 13\n"
     "bay 1: refusal 12\nbay 255: refusal 21\nbay 1: refusal 0 0=1\nturn 0\n"
     "state 0 count 2 0=2/0 1=2/1\nstate 1 count 1 0=1/0 1=1/1\nstate 2 count 1 0=1/0 1=1/1\nstate 3 count 0\n"},
    // Without masks nothing moves, but it counts; with a ready mask alone a word that is held goes on.
    {netrun, 4, 3, 6, {{3, 0, 0}, {3, ~0u, 0}, {3, ~0u, 0}, {3, 0, 0}, {3, 0, 1}, {3, 0, 1}},
     "load 0\nfresh 0\nbay 3: refusal 0\nbay 3: refusal 0 0=1\nbay 3: refusal 0\nbay 3: refusal 0\nbay 3: refusal 0 0=2 1=1 2=6\nbay 3: refusal 0 1=2 2=7\n"
     "turn 0\nstate 0 count 0\nstate 1 count 0\nstate 2 count 0\nstate 3 count 6 0=2/0\n"},
    // The shape of forks and merges: marks 3 of a fork of 2; winner 3 of 2, then marks 3; winner 2 whose report has gone; marks 2 of a fork of 2; marks without
    // a winner. A source's position may be any number.
    {doubled, 5, 5, 17, {{SET_MARKS, 1, 3}, STEP(0), {SET_MARKS, 1, 0}, {SET_WORD, 2, 3}, STEP(0), {SET_WORD, 2, 2}, {SET_MARKS, 2, 3}, STEP(0),
      {SET_MARKS, 2, 2}, STEP(0), {SET_MARKS + 1, 1, 2}, STEP(1), {SET_MARKS + 3, 2, 1}, STEP(3), {SET_MARKS + 3, 2, 0}, {SET_WORD + 3, 0, 77}, STEP(3)},
     "load 0\nfresh 0\nbay 0: refusal 13\nbay 0: refusal 13\nbay 0: refusal 13\nbay 0: refusal 0 2=1 3=1\nbay 1: refusal 0 0=1 1=1 3=1 4=0\n"
     "bay 3: refusal 13\nbay 3: refusal 0\nturn 0\nstate 0 count 1 0=0/1 1=0/2\nstate 1 count 1 0=1/0\nstate 2 count 0\nstate 3 count 1 0=77/0\n"},
    // All four want: they are served in turn, each with its own masks. Bay 0 offers only, bay 1 takes only, bay 3 does neither until it gets masks.
    {netrun, 4, 3, 12, {{SET_MASKS, 1, 0}, {SET_MASKS + 1, 0, 1}, MASKS(2), CALL(15), CALL(15), CALL(15), CALL(15), CALL(15), CALL(15), CALL(15), MASKS(3),
      CALL(15)},
     "load 0\nfresh 0\nnext bay 0: refusal 0 0=1\nnext bay 1: refusal 0\nnext bay 2: refusal 0 0=1\nnext bay 3: refusal 0\nnext bay 0: refusal 0\n"
     "next bay 1: refusal 0\nnext bay 2: refusal 0 0=2 1=1 2=6\nnext bay 3: refusal 0 0=1\nturn 0\n"
     "state 0 count 2 0=1/1 1=1/1\nstate 1 count 2\nstate 2 count 2 0=2/0 1=2/1\nstate 3 count 2 0=1/0 1=1/1\n"},
    // All but bay 2 want, and bay 1 finds no ends: it is served with 14, and comes again when the others have been served.
    {netrun, 4, 3, 9, {ALL_MASKS, CALL(11), {NEXT, 11, 0}, CALL(11), CALL(11), CALL(11)},
     "load 0\nfresh 0\nnext bay 0: refusal 0 0=1\nnext bay 1: refusal 14\nnext bay 3: refusal 0 0=1\nnext bay 0: refusal 0 0=2 1=1 2=6\n"
     "next bay 1: refusal 0 0=1\nturn 2\nstate 0 count 2 0=2/0 1=2/1\nstate 1 count 1 0=1/0 1=1/1\nstate 2 count 0\nstate 3 count 1 0=1/0 1=1/1\n"},
    // A turn of 7: masks that name none of the four are no fault, others are, and so is a step. A turn of 258 is one of 2.
    {netrun, 4, 3, 14, {ALL_MASKS, {SET_TURN, 7, 0}, CALL(0), CALL(0x80000010), CALL(1), {NEXT, 15, 0}, STEP(3), STEP(4), {SET_TURN, 258, 0}, CALL(0),
      CALL(0xf5)},
     "load 0\nfresh 0\nnext no bay: refusal 0\nnext no bay: refusal 0\nnext no bay: refusal 13\nnext no bay: refusal 13\nbay 3: refusal 13\n"
     "bay 4: refusal 21\nnext no bay: refusal 0\nnext bay 2: refusal 0 0=1\nturn 3\n"
     "state 0 count 0\nstate 1 count 0\nstate 2 count 1 0=1/0 1=1/1\nstate 3 count 0\n"},
    // The same with a net that is spoilt: the turn comes before the net in a call, and behind it in a step. From a turn within the four bays each call earns 12
    // and moves it.
    {netrun, 4, 3, 14, {ALL_MASKS, {SET_CHANNELS, 2, 0}, {SET_TURN, 7, 0}, CALL(15), STEP(0), CALL(16), {SET_TURN, 3, 0}, CALL(15), CALL(14),
      {SET_CHANNELS, 3, 0}, CALL(15)},
     "load 0\nfresh 0\nnext no bay: refusal 13\nbay 0: refusal 12\nnext no bay: refusal 0\nnext bay 3: refusal 12\nnext bay 1: refusal 12\n"
     "next bay 2: refusal 0 0=1\nturn 3\nstate 0 count 0\nstate 1 count 0\nstate 2 count 1 0=1/0 1=1/1\nstate 3 count 0\n"},
    // Steps outside leave the turn, refused or not; a fresh record begins with bay 0 again, and the masks stay. From turn 3 the bays below are asked in turn.
    {netrun, 4, 3, 14, {ALL_MASKS, CALL(15), STEP(1), STEP(1), STEP(7), STEP(3), CALL(15), {FRESH_RECORD, 0, 0}, CALL(15), CALL(4), CALL(3)},
     "load 0\nfresh 0\nnext bay 0: refusal 0 0=1\nbay 1: refusal 0 0=1\nbay 1: refusal 0 0=2 1=1 2=6\nbay 7: refusal 21\nbay 3: refusal 0 0=1\n"
     "next bay 1: refusal 0 0=3 1=2 2=7\nfresh 0\nnext bay 0: refusal 0 0=1\nnext bay 2: refusal 0 0=1\nnext bay 0: refusal 0 0=2 1=1 2=6\n"
     "turn 1\nstate 0 count 2 0=2/0 1=2/1\nstate 1 count 0\nstate 2 count 1 0=1/0 1=1/1\nstate 3 count 0\n"},
    // What is wrong in bay 2 is refused in bay 2 alone, which has had its turn; so is a bay that has used its cycles, and the others go on.
    {netrun, 4, 3, 15, {ALL_MASKS, {SET_WORD + 2, 1, 9}, CALL(15), CALL(4), CALL(0), {SET_WORD + 2, 1, 0}, CALL(15), {SET_COUNT + 1, ALLOWANCE, 0}, CALL(15),
      CALL(15), CALL(15), STEP(1)},
     "load 0\nfresh 0\nnext bay 0: refusal 0 0=1\nnext bay 2: refusal 13\nnext no bay: refusal 0\nnext bay 3: refusal 0 0=1\n"
     "next bay 0: refusal 0 0=2 1=1 2=6\nnext bay 1: refusal 16\nnext bay 2: refusal 0 0=1\nbay 1: refusal 16\nturn 3\n"
     "state 0 count 2 0=2/0 1=2/1\nstate 1 count 1048576\nstate 2 count 1 0=1/0 1=1/1\nstate 3 count 1 0=1/0 1=1/1\n"},
};

static void compare_by_hand(const struct scene *s, const struct known *known)
{
    struct trial trial = trial_of(s);
    static char text[4096];
    FILE *out = fmemopen(text, sizeof text, "w");
    print_case(out, s->bytes, s->len);
    fclose(out);
    snprintf(call, sizeof call, "the model");
    if (strcmp(text, known->text) != 0) fail_trial(&trial, "it differs from the case by hand");
    compare_case(s);
}

static void write_known(struct scene *s, const struct known *known)
{
    s->draft.blocks = 0;
    s->draft.channels = known->channels;
    for (unsigned b = 0; b < known->blocks; b++) add_drawn(&s->draft, known->block[b].kind, known->block[b].m, known->block[b].value, known->block[b].port);
    write_form(&s->draft, &s->form);
    begin_case(s);
    for (unsigned n = 0; n < known->count; n++) put_numbers(s, known->commands[n], 3);
}

static void try_by_hand(void)
{
    static struct scene s = {.class = "by hand", .words = {1, 2, 3}, .ends = {3}, .word_count = 3, .end_count = 1};
    for (unsigned i = 0; i < sizeof by_hand / sizeof by_hand[0]; i++) {
        write_known(&s, &by_hand[i]);
        compare_by_hand(&s, &by_hand[i]);
    }
}

// ---- All of it

// The net with its streams, then the commands; and how many cases there are for each of the nets asked for.
static const struct { const char *name; scene_rule *net, *commands; unsigned times; } classes[] = {
    {"bays in random order", draw_small, in_random_order, 3},
    {"bays in bursts", draw_small, in_bursts, 1},
    {"one bay stalled, the others going on", draw_small, with_a_stall, 2},
    {"the same masks for every bay", draw_small, with_the_same_masks, 1},
    {"one bay alone", draw_small, one_alone, 1},
    {"numbers of no bay", draw_small, with_no_bays, 1},
    {"numbers of no command", draw_small, with_no_commands, 1},
    {"ends that do not fit", draw_bad_ends, in_random_order, 1},
    {"registers in shape and out of it", draw_small, with_registers_set, 2},
    {"registers of nets with merges", draw_merging, with_registers_set, 1},
    {"registers of large nets", draw_large, with_registers_set, 1},
    {"counts in range and out of it", draw_small, with_counts_set, 2},
    {"near the allowance", draw_small, near_the_allowance, 2},
    {"several faults at once", draw_any_ends, with_several_faults, 2},
    {"refused forms", draw_refused, with_all_set, 1},
    {"channel counts changed and set back", draw_small, with_channels_set, 1},
    {"fresh records in the middle", draw_small, with_fresh_records, 1},
    {"nets of 64 blocks or almost", draw_large, in_random_order, 1},
    {"files that are no case, or hardly one", draw_small, spoil_file, 1},
    {"calls in turn", draw_small, in_turn, 3},
    {"one bay wanting in every call", draw_small, with_one_waiting, 2},
    {"every turn with every mask", draw_small, with_every_turn, 1},
    {"masks that name no bay", draw_small, with_empty_masks, 1},
    {"turns beyond the four bays", draw_small, with_turns_beyond, 2},
    {"calls refused in turn", draw_small, with_refused_calls, 3},
    {"calls over some of the ends", draw_any_ends, over_some_ends, 1},
    {"several faults at once in a call", draw_any_ends, with_faults_in_turn, 2},
    {"fresh records between calls", draw_small, with_fresh_turns, 1},
    {"refused forms, in turn", draw_refused, with_turns_beyond, 1},
    {"nets of 64 blocks or almost, in turn", draw_large, in_turn, 1},
};

// The refusals that a bay may be served with.
enum { SERVED_REFUSALS = 4 };
static const unsigned served_refusals[SERVED_REFUSALS] = {BAD_NET, BAD_STATE, BAD_ENDS, ALLOWANCE_USED};

// What the nets were like.
static unsigned long of_kind[KINDS], of_64_blocks;

static void note_net(const struct draft *d)
{
    for (unsigned b = 0; b < d->blocks; b++) of_kind[d->block[b].kind]++;
    of_64_blocks += d->blocks == 64;
}

static void try_case(unsigned class, unsigned i)
{
    static struct scene s;
    struct random r = random_for(1 + class, i);
    s.class = classes[class].name;
    s.seed = r.first;
    classes[class].net(&s, &r, i);
    note_net(&s.draft);
    begin_case(&s);
    classes[class].commands(&s, &r, i);
    compare_case(&s);
    if (i % ALONE_EVERY == 0 && classes[class].commands != spoil_file) compare_alone(&s, below(&r, BAYS));
}

// The next cases of every class, so that what only one class shows is met early.
static void try_classes(unsigned net)
{
    for (unsigned class = 0; class < sizeof classes / sizeof classes[0]; class++)
        for (unsigned n = 0; n < classes[class].times; n++) try_case(class, net * classes[class].times + n);
}

static unsigned long calls_refused(unsigned refusal)
{
    unsigned long count = 0;
    for (unsigned k = 0; k < BAYS; k++) count += named[k][refusal];
    return count;
}

static void print_notes(void)
{
    for (unsigned k = 0; k < BAYS; k++)
        printf("bay %u: %lu steps, %lu of them in turn, %lu words delivered\n", k, steps[k], named[k][0], deliveries[k]);
    printf("calls that name no bay: %lu, from a turn beyond the bays: %lu; bays served in their fourth call: %lu; served and refused", named[BAYS][0],
           named[BAYS][BAD_STATE], served_fourth());
    for (unsigned i = 0; i < SERVED_REFUSALS; i++)
        printf(" %u: %lu%s", served_refusals[i], calls_refused(served_refusals[i]), i + 1 < SERVED_REFUSALS ? "," : "\n");
    printf("steps of bays that are the same alone: %lu\n", alone_steps);
    printf("fresh records refused: %lu, files that are no case: %lu, nets of 64 blocks: %lu\nblocks of kind", fresh_refused, no_cases, of_64_blocks);
    for (unsigned kind = 0; kind < KINDS; kind++) printf(" %u: %lu%s", kind, of_kind[kind], kind + 1 < KINDS ? "," : "\n");
}

static void require_refusals(void)
{
    static const unsigned wanted[] = {1, 2, 3, 4, 5, 6, 7, 8, 9, 10, 11, BAD_NET, BAD_STATE, BAD_ENDS, ALLOWANCE_USED, NO_BAY};
    char what[40];
    for (unsigned i = 0; i < sizeof wanted / sizeof wanted[0]; i++) {
        snprintf(what, sizeof what, "refusal %u", wanted[i]);
        require(times_refused(wanted[i]) > 0, what);
    }
}

static void require_calls(void)
{
    for (unsigned k = 0; k < BAYS; k++) require(named[k][0] > 0, "a step of each bay in turn");
    for (unsigned i = 0; i < SERVED_REFUSALS; i++) require(calls_refused(served_refusals[i]) > 0, "a refusal of a bay that is served");
    require(named[BAYS][0] > 0, "a mask that names no bay");
    require(named[BAYS][BAD_STATE] > 0, "a turn beyond the four bays");
    require(served_fourth() > 0, "a bay that is served in the fourth call");
}

// What the cases have to show, from 12 nets for each class on.
static void require_notes(void)
{
    require_refusals();
    require_calls();
    for (unsigned k = 0; k < BAYS; k++) require(deliveries[k] > 0, "a delivery in each bay");
    for (unsigned kind = 0; kind < KINDS; kind++) require(of_kind[kind] > 0, "a kind of block");
    require(alone_steps > 0, "a step that is the same alone");
    require(fresh_refused > 0, "a fresh record that is refused");
    require(no_cases > 0, "a file that is no case");
    require(of_64_blocks > 0, "a net of 64 blocks");
}

int main(int count, char **arguments)
{
    if (count < 3) {
        fprintf(stderr, "usage: baying BAYTRY CASE [SEED [NETS [random]]]\n");
        return 2;
    }
    baytry = arguments[1];
    case_file = arguments[2];
    if (count > 3) first_seed = strtoull(arguments[3], NULL, 10);
    unsigned nets = count > 4 ? (unsigned)strtoul(arguments[4], NULL, 10) : NETS;
    if (count <= 5) try_by_hand();
    for (unsigned net = 0; net < nets; net++) try_classes(net);
    if (nets >= FEWEST_NETS) require_notes();
    print_notes();
    print_classes();
    print_verdict();
    remove(case_file);
    return 0;
}
