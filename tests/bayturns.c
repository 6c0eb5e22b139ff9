#include "bayturns.h"
#include <string.h>

// ---- Good calls

// Some calls in which any bays want a cycle.
static void call_some(struct scene *s, struct random *r, unsigned count)
{
    for (unsigned n = 0; n < count; n++) call_next(s, r, draw_want(r, WANT_ANY, 0) | draw_beyond(r));
}

// The bays want in one way; now and then a bay has other masks, or makes a step outside.
void in_turn(struct scene *s, struct random *r, unsigned i)
{
    unsigned bay = below(r, BAYS), outside = ONE_OF(r, 2, 5, 30);
    give_all_masks(s);
    while (commands_left(s) > 0) {
        if (chance(r, 3)) give_masks(s, below(r, BAYS));
        if (chance(r, outside)) step(s, below(r, BAYS));
        call_next(s, r, draw_want(r, i % WANT_WAYS, bay) | draw_beyond(r));
    }
}

// From some turn on a bay wants in every call, while the others come and go, or all want as it does.
void with_one_waiting(struct scene *s, struct random *r, unsigned i)
{
    (void)i;
    give_all_masks(s);
    while (commands_left(s) > 0) {
        unsigned bay = below(r, BAYS), way = chance(r, 3) ? WANT_ALL : WANT_ALWAYS;
        if (chance(r, 2)) set_turn(s, r, below(r, BAYS));
        for (unsigned n = 4 + below(r, 9); n > 0; n--) {
            call_next(s, r, draw_want(r, way, bay) | draw_beyond(r));
            if (chance(r, 6)) step(s, below(r, BAYS));
        }
        give_masks(s, below(r, BAYS));
    }
}

// In some order; where the turn has moved to is shown by a call in which all want.
void with_every_turn(struct scene *s, struct random *r, unsigned i)
{
    enum { PAIRS = BAYS * (ALL_BAYS + 1) };
    unsigned order[PAIRS];
    (void)i;
    give_all_masks(s);
    shuffle(r, PAIRS, order);
    for (unsigned n = 0; n < PAIRS; n++) {
        set_turn(s, r, order[n] % BAYS);
        call_next(s, r, order[n] / BAYS | draw_beyond(r));
        call_next(s, r, ALL_BAYS);
    }
}

// ---- Calls that name no bay

static void set_channels(struct scene *s, uint32_t channels)
{
    add(s, SET_CHANNELS, channels, 0);
}

// Whatever the net, the record, the turn and the ends are, nothing changes: the calls behind them show it.
void with_empty_masks(struct scene *s, struct random *r, unsigned i)
{
    (void)i;
    give_all_masks(s);
    while (commands_left(s) > 0) {
        call_some(s, r, below(r, 4));
        if (chance(r, 3)) set_turn(s, r, draw_turn_beyond(r));
        if (chance(r, 4)) set_channels(s, other_channels(r, &s->draft));
        if (chance(r, 6)) spoil_counts(s, r, below(r, COUNT_FAULTS));
        for (unsigned n = 1 + below(r, 3); n > 0; n--) call_next_over(s, draw_beyond(r), below(r, (uint32_t)s->end_count + 2));
        call_next(s, r, ALL_BAYS);
        set_channels(s, s->draft.channels);
        if (chance(r, 3)) add(s, FRESH_RECORD, 0, 0);
        else if (chance(r, 2)) set_turn(s, r, below(r, BAYS));
        call_next(s, r, ALL_BAYS);
    }
}

// A call or a step of any sort.
static void call_or_step(struct scene *s, struct random *r)
{
    switch (below(r, 6)) {
    case 0: step(s, BAYS + below(r, 252)); break;
    case 1:
    case 2: step(s, below(r, BAYS)); break;
    case 3: call_next(s, r, draw_beyond(r)); break;
    default: call_some(s, r, 1); break;
    }
}

// At times the net is spoilt as well. The turn stays beyond the four bays until it is set, or a fresh record comes.
void with_turns_beyond(struct scene *s, struct random *r, unsigned i)
{
    (void)i;
    give_all_masks(s);
    while (commands_left(s) > 0) {
        call_some(s, r, below(r, 4));
        set_turn(s, r, draw_turn_beyond(r));
        if (chance(r, 3)) set_channels(s, other_channels(r, &s->draft));
        for (unsigned n = 1 + below(r, 4); n > 0; n--) call_or_step(s, r);
        set_channels(s, s->draft.channels);
        call_or_step(s, r);
        if (chance(r, 6)) add(s, FRESH_RECORD, 0, 0);
        else set_turn(s, r, below(r, BAYS));
    }
}

// ---- Calls whose step is refused

// Calls over no more than some ends; steps between them.
static void call_refused(struct scene *s, struct random *r, uint32_t lent)
{
    for (unsigned n = 1 + below(r, 5); n > 0; n--) {
        call_next_over(s, draw_want(r, WANT_ANY, 0) | draw_beyond(r), lent);
        if (chance(r, 5)) step(s, below(r, BAYS));
    }
}

enum { OF_NET, OF_ENDS, OF_REGISTERS, OF_COUNTS, OF_ALLOWANCE, REFUSAL_WAYS };

// Calls that are refused in one way, or nearly; then what was spoilt is made good, and the turn is where they left it.
static void refuse_calls(struct scene *s, struct random *r, unsigned way)
{
    static const uint32_t none[BAYS] = {0};
    unsigned bay = below(r, BAYS), block = 0;
    if (way == OF_NET) set_channels(s, other_channels(r, &s->draft));
    if (way == OF_REGISTERS) block = spoil_registers(s, r, bay);
    if (way == OF_COUNTS) spoil_counts(s, r, below(r, COUNT_FAULTS));
    if (way == OF_ALLOWANCE) leave_cycles(s, r, below(r, 4));
    call_refused(s, r, way == OF_ENDS ? below(r, (uint32_t)s->end_count) : ~0u);
    if (way == OF_NET) set_channels(s, s->draft.channels);
    if (way == OF_REGISTERS) set_registers(s, r, bay, block, 0, 0);
    if (way == OF_COUNTS || way == OF_ALLOWANCE) set_counts(s, none);
}

void with_refused_calls(struct scene *s, struct random *r, unsigned i)
{
    give_all_masks(s);
    for (unsigned n = i; commands_left(s) > 0; n++) {
        if (chance(r, 3)) give_masks(s, below(r, BAYS));
        refuse_calls(s, r, n % REFUSAL_WAYS);
        call_some(s, r, 1 + below(r, 4));
    }
}

// Where there are too few ends, too many, or as many as there are sources; there may be too many in the file itself.
void over_some_ends(struct scene *s, struct random *r, unsigned i)
{
    (void)i;
    give_all_masks(s);
    while (commands_left(s) > 0) {
        uint32_t want = draw_want(r, WANT_ANY, 0) | draw_beyond(r), all = (uint32_t)s->end_count, some = below(r, all + 2);
        call_next_over(s, want, ONE_OF(r, some, all - 1, all, count_kind(&s->draft, SOURCE)));
        if (chance(r, 5)) give_masks(s, below(r, BAYS));
        if (chance(r, 5)) step(s, below(r, BAYS));
    }
}

// ---- Several faults at once

enum { EMPTY_MASK = 1, TURN_BEYOND = 2, SPOILT_NET = 4, SPOILT_BAYS = 8, ENDS_TOO_FEW = 16, ALL_CYCLES_USED = 32, SETS_OF_FAULTS = 64 };

// One bay is spoilt, or most of them.
static void spoil_bays(struct scene *s, struct random *r)
{
    unsigned some = below(r, BAYS), most = chance(r, 2);
    for (unsigned k = 0; k < BAYS; k++)
        if (k == some || (most && !chance(r, 4))) spoil_bay(s, r, k);
}

// A call and a step with a set of faults, and what the turn is then.
static void add_faults(struct scene *s, struct random *r, unsigned faults)
{
    add(s, FRESH_RECORD, 0, 0);
    call_next(s, r, 1u << below(r, BAYS));
    if (faults & ALL_CYCLES_USED) leave_cycles(s, r, 0);
    if (faults & SPOILT_BAYS) spoil_bays(s, r);
    if (faults & SPOILT_NET) set_channels(s, other_channels(r, &s->draft));
    if (faults & TURN_BEYOND) set_turn(s, r, draw_turn_beyond(r));
    uint32_t want = faults & EMPTY_MASK ? 0 : 1 + below(r, ALL_BAYS);
    call_next_over(s, want | draw_beyond(r), faults & ENDS_TOO_FEW ? below(r, (uint32_t)s->end_count) : ~0u);
    step(s, chance(r, 6) ? BAYS + below(r, 252) : below(r, BAYS));
    if (faults & SPOILT_NET) set_channels(s, s->draft.channels);
    call_next(s, r, ALL_BAYS);
}

// As many of the sets as have room.
void with_faults_in_turn(struct scene *s, struct random *r, unsigned i)
{
    unsigned order[SETS_OF_FAULTS];
    (void)i;
    give_all_masks(s);
    shuffle(r, SETS_OF_FAULTS, order);
    for (unsigned n = 0; n < SETS_OF_FAULTS; n++) add_faults(s, r, order[n]);
}

// ---- Fresh records

// A fresh record begins with bay 0 again, also where it was refused for its net; the masks stay.
void with_fresh_turns(struct scene *s, struct random *r, unsigned i)
{
    give_all_masks(s);
    while (commands_left(s) > 0) {
        unsigned refused = chance(r, 4);
        call_some(s, r, below(r, 8));
        if (i % 2 && chance(r, 3)) set_turn(s, r, draw_turn_beyond(r));
        if (refused) set_channels(s, other_channels(r, &s->draft));
        add(s, FRESH_RECORD, 0, 0);
        if (refused && chance(r, 2)) call_some(s, r, 1);
        if (refused) set_channels(s, s->draft.channels);
        if (chance(r, 3)) call_next(s, r, ALL_BAYS);
    }
}

// ---- What the request says of every call

// The case whose calls are followed, how far its commands are read, and in how many calls each bay has now wanted a cycle without being served.
static struct { const struct scene *scene; size_t at; unsigned calls[BAYS]; } waiting;
static unsigned long in_the_fourth;

static void wait_anew(void)
{
    memset(waiting.calls, 0, sizeof waiting.calls);
}

void begin_waiting(const struct scene *s)
{
    waiting.scene = s;
    waiting.at = s->commands_at;
    wait_anew();
}

unsigned long served_fourth(void)
{
    return in_the_fourth;
}

// The bays that want a cycle in the next call of the case. Where the turn is set before it, all waiting begins anew.
static uint32_t want_of_call(void)
{
    while (waiting.at + COMMAND_BYTES <= waiting.scene->len) {
        uint32_t command = number_of(waiting.scene, waiting.at, 0), want = number_of(waiting.scene, waiting.at, 1);
        waiting.at += COMMAND_BYTES;
        if (command == NEXT) return want & ALL_BAYS;
        if (command == FRESH_RECORD || command == SET_TURN) wait_anew();
    }
    return 0;
}

// One more call, in which a bay was served: another one that wanted it in this and the three before it has waited too long.
static const char *fault_of_waiting(uint32_t want, unsigned bay)
{
    const char *fault = NULL;
    for (unsigned k = 0; k < BAYS; k++) {
        unsigned calls = want >> k & 1 ? waiting.calls[k] + 1 : 0;
        if (k != bay && calls >= BAYS) fault = "a bay that wants a cycle in every call is not served in 4";
        in_the_fourth += k == bay && calls == BAYS;
        waiting.calls[k] = k == bay ? 0 : calls;
    }
    return fault;
}

const char *fault_of_call(unsigned bay, unsigned refusal)
{
    uint32_t want = want_of_call();
    if (bay < BAYS) return want >> bay & 1 ? fault_of_waiting(want, bay) : "a bay is served that does not want a cycle";
    wait_anew();
    return refusal == (want ? BAD_STATE : 0) ? NULL : "no bay is named, and the refusal is not the one for that";
}
