// The program baytry made from the model, to try the tests without it; with -D one thing is broken on purpose. It takes the name of a case.
#include "bays.c"
#include <errno.h>

// ---- The shape of a state

// Makes good what the shape test is not to see in a block's registers.
static void forgive(const struct block *b, struct reg *r)
{
    (void)b, (void)r;
#ifdef FORK_ALL_GONE_PASSED
    if (b->kind == FORK && r->marks == (1u << b->m) - 1) r->marks = 0;
#endif
#ifdef FORK_WORD_PASSED
    if (b->kind == FORK) r->word = 0;
#endif
#ifdef WINNER_PAST_THE_LAST_PASSED
    if (b->kind == MERGE && r->word == b->m + 1) r->word = 1;
#endif
#ifdef BOTH_SIDES_GONE_PASSED
    if (b->kind == MERGE && r->marks == 3) r->marks = 0;
#endif
#ifdef MARKS_WITHOUT_WINNER_PASSED
    if (b->kind == MERGE && r->word == 0 && r->marks < 3) r->marks = 0;
#endif
#ifdef WORD_IN_EMPTY_BUFFER_PASSED
    if (b->kind >= DATA && r->marks == 0) r->word = 0;
#endif
#ifdef FULL_MARK_OF_2_PASSED
    if (b->kind >= DATA && r->marks == 2) r->marks = 1;
#endif
#ifdef HELD_MARK_OF_2_PASSED
    if (b->kind == SOURCE && r->marks == 2) r->marks = 1;
#endif
#ifdef UNNAMED_REGISTERS_PASSED
    if (b->kind != SOURCE && (b->kind < FORK || b->kind == MUX || b->kind == DEMUX)) *r = (struct reg){0, 0};
#endif
}

static int broken_state_is_bad(const struct net *net, struct state state)
{
    for (uint32_t b = 0; b < net->blocks; b++) forgive(&net->block[b], &state.reg[b]);
#ifdef ENTRIES_BEYOND_PASSED
    memset(&state.reg[net->blocks], 0, (REGISTERS - net->blocks) * sizeof state.reg[0]);
#endif
#ifdef POSITION_PAST_THE_WORDS_REFUSED
    // No stream has so many words, but a position is any number.
    for (uint32_t b = 0; b < net->blocks; b++)
        if (net->block[b].kind == SOURCE && state.reg[b].word > MOST_WORDS) return 1;
#endif
#ifdef COUNT_ABOVE_PASSED
    // Such a count is left to the allowance.
    if (state.count > ALLOWANCE) state.count = ALLOWANCE;
#endif
    return !state_in_shape(net, &state);
}

// Whether a state is looked at when a bay makes a step.
static int is_looked_at(unsigned k, uint32_t bay)
{
#ifdef EVERY_SHAPE_LOOKED_AT
    (void)k, (void)bay;
    return 1;
#elif defined NEXT_SHAPE_LOOKED_AT
    return k == bay || k == (bay + 1) % BAYS;
#elif defined FIRST_BAY_SHAPE_ONLY
    (void)bay;
    return k == 0;
#elif defined LAST_BAY_SHAPE_PASSED
    return k == bay && k < BAYS - 1;
#else
    return k == bay;
#endif
}

static uint64_t sum_of_counts(const struct record *record)
{
    uint64_t sum = 0;
    for (unsigned k = 0; k < BAYS; k++) sum += record->state[k].count;
    return sum;
}

static int broken_bay_is_bad(const struct net *net, const struct record *record, uint32_t bay)
{
    for (unsigned k = 0; k < BAYS; k++)
        if (is_looked_at(k, bay) && broken_state_is_bad(net, record->state[k])) return 1;
#ifdef SUM_ABOVE_REFUSED
    return sum_of_counts(record) > ALLOWANCE;
#else
    return 0;
#endif
}

// ---- Refusals in some order

// The turn as it is taken.
static uint32_t taken_turn(const struct record *record)
{
#ifdef TURN_MODULO_4
    return record->turn % BAYS;
#elif defined TURN_MODULO_8
    return record->turn % 8;
#elif defined TURN_OF_4_PASSED
    return record->turn == BAYS ? 0 : record->turn;
#elif defined TURN_BEYOND_IS_0
    return record->turn >= BAYS ? 0 : record->turn;
#else
    return record->turn;
#endif
}

static int no_such_bay(uint32_t bay)
{
#ifdef LAST_BAY_MISSING
    return bay >= BAYS - 1;
#elif defined BAY_MODULO_4
    (void)bay;
    return 0;
#elif defined FIVE_BAYS
    return bay > BAYS;
#else
    return bay >= BAYS;
#endif
}

static int allowance_is_used(const struct record *record, uint32_t bay)
{
    (void)bay, (void)sum_of_counts;
#ifdef ALLOWANCE_BY_SUM
    return sum_of_counts(record) >= ALLOWANCE;
#elif defined ALLOWANCE_OF_BAY_0
    return record->state[0].count >= ALLOWANCE;
#elif defined ALLOWANCE_OF_ANY_BAY
    uint32_t most = 0;
    for (unsigned k = 0; k < BAYS; k++) most = record->state[k].count > most ? record->state[k].count : most;
    return most >= ALLOWANCE;
#elif defined ALLOWANCE_ONE_LESS
    return record->state[bay].count >= ALLOWANCE - 1;
#elif defined ALLOWANCE_ONE_MORE
    return record->state[bay].count > ALLOWANCE;
#else
    return record->state[bay].count >= ALLOWANCE;
#endif
}

// The turn earns the number of the bay's state, but may be looked at in another place.
enum { BAD_TURN = 113 };

static const uint32_t order[] = {
#ifdef BAY_AFTER_NET
    BAD_NET, NO_BAY, BAD_TURN, BAD_STATE, BAD_ENDS, ALLOWANCE_USED
#elif defined BAY_LAST
    BAD_NET, BAD_TURN, BAD_STATE, BAD_ENDS, ALLOWANCE_USED, NO_BAY
#elif defined STATE_BEFORE_NET
    NO_BAY, BAD_TURN, BAD_STATE, BAD_NET, BAD_ENDS, ALLOWANCE_USED
#elif defined ENDS_BEFORE_STATE
    NO_BAY, BAD_NET, BAD_ENDS, BAD_TURN, BAD_STATE, ALLOWANCE_USED
#elif defined ALLOWANCE_BEFORE_ENDS
    NO_BAY, BAD_NET, BAD_TURN, BAD_STATE, ALLOWANCE_USED, BAD_ENDS
#elif defined ALLOWANCE_BEFORE_STATE
    NO_BAY, BAD_NET, ALLOWANCE_USED, BAD_TURN, BAD_STATE, BAD_ENDS
#elif defined TURN_BEFORE_BAY
    BAD_TURN, NO_BAY, BAD_NET, BAD_STATE, BAD_ENDS, ALLOWANCE_USED
#elif defined TURN_BEFORE_NET
    NO_BAY, BAD_TURN, BAD_NET, BAD_STATE, BAD_ENDS, ALLOWANCE_USED
#elif defined TURN_AFTER_ENDS
    NO_BAY, BAD_NET, BAD_STATE, BAD_ENDS, BAD_TURN, ALLOWANCE_USED
#elif defined TURN_AFTER_ALLOWANCE
    NO_BAY, BAD_NET, BAD_STATE, BAD_ENDS, ALLOWANCE_USED, BAD_TURN
#elif defined TURN_NOT_SEEN_IN_A_STEP
    NO_BAY, BAD_NET, BAD_STATE, BAD_ENDS, ALLOWANCE_USED
#else
    NO_BAY, BAD_NET, BAD_TURN, BAD_STATE, BAD_ENDS, ALLOWANCE_USED
#endif
};

static int earns(struct depot *d, uint32_t bay, uint32_t refusal)
{
    uint32_t own = bay % BAYS;
    switch (refusal) {
    case NO_BAY: return no_such_bay(bay);
    case BAD_NET: return net_is_bad(d);
    case BAD_TURN: return taken_turn(&d->record) >= BAYS;
    case BAD_STATE: return broken_bay_is_bad(&d->circuit.net, &d->record, own);
    case BAD_ENDS: return ends_are_bad(d);
    default: return allowance_is_used(&d->record, own);
    }
}

static uint32_t broken_refusal(struct depot *d, uint32_t bay)
{
    for (unsigned i = 0; i < sizeof order / sizeof order[0]; i++)
        if (earns(d, bay, order[i])) return order[i] == BAD_TURN ? BAD_STATE : order[i];
    return 0;
}

// ---- Steps

// What is broken about a step that was refused.
static void after_refusal(struct depot *d, uint32_t bay, uint32_t refusal, uint32_t offer, uint32_t ready, struct given *given)
{
    (void)d, (void)bay, (void)refusal, (void)offer, (void)ready, (void)given;
#ifdef REFUSED_STEP_COUNTS
    // A step that is refused for its ends is counted.
    if (refusal == BAD_ENDS) d->record.state[bay].count++;
#endif
#ifdef REFUSED_STEP_MOVES
    // A step that is refused for the allowance moves words, and is not counted.
    if (refusal == ALLOWANCE_USED) {
        struct given unseen;
        step_state(&d->circuit, &d->record.state[bay], offer, ready, &unseen);
        d->record.state[bay].count--;
    }
#endif
#ifdef REFUSED_DELIVERS
    // A step that is refused for the allowance says what it would have delivered.
    if (refusal == ALLOWANCE_USED) {
        struct state state = d->record.state[bay];
        step_state(&d->circuit, &state, offer, ready, given);
    }
#endif
#ifdef REFUSED_RECORD_IS_ZERO
    memset(&d->record, 0, sizeof d->record);
#endif
}

// What is broken about a step that was made.
static void after_step(struct depot *d, uint32_t bay, uint32_t offer, uint32_t ready, struct given *given)
{
    struct state *state = d->record.state;
    (void)bay, (void)offer, (void)ready, (void)given, (void)state;
#ifdef OTHER_BAY_MOVES
    struct given unseen;
    struct state *other = &state[(bay + 1) % BAYS];
    if (state_in_shape(&d->circuit.net, other)) step_state(&d->circuit, other, offer, ready, &unseen), other->count--;
#endif
#ifdef ONE_STATE_FOR_ALL
    for (unsigned k = 0; k < BAYS; k++) memcpy(state[k].reg, state[bay].reg, sizeof state[k].reg);
#endif
#ifdef STREAMS_SHARED
    // A word that one bay's source has given is gone for all bays.
    for (uint32_t i = 0; i < BAYS * d->circuit.net.blocks; i++)
        if (d->circuit.net.block[i / BAYS].kind == SOURCE) state[i % BAYS].reg[i / BAYS].word = state[bay].reg[i / BAYS].word;
#endif
#ifdef COUNT_NOT_RAISED
    state[bay].count--;
#endif
#ifdef COUNTED_IN_BAY_0
    state[bay].count--;
    state[0].count++;
#endif
#ifdef COUNTED_IN_EVERY_BAY
    for (unsigned k = 0; k < BAYS; k++) state[k].count += k != bay;
#endif
#ifdef DELIVERIES_STAY
    // What the step before delivered stays where nothing is delivered now.
    static struct given last;
    for (uint32_t c = 0; c < CHANNELS; c++)
        if (!given->mark[c]) given->mark[c] = last.mark[c], given->word[c] = last.word[c];
    last = *given;
#endif
}

// The masks that a step takes.
static void take_masks(uint32_t *offer, uint32_t *ready)
{
    (void)offer, (void)ready;
#ifdef OFFER_OF_THE_STEP_BEFORE
    static uint32_t last = 0xffffffff;
    uint32_t now = *offer;
    *offer = last;
    last = now;
#endif
#ifdef MASKS_CHANGED_ROUND
    uint32_t kept = *offer;
    *offer = *ready;
    *ready = kept;
#endif
}

// A state that should not have passed is brought to where a cycle can be worked out.
static void keep_winners(const struct net *net, struct state *state)
{
    for (uint32_t b = 0; b < net->blocks; b++)
        if (net->block[b].kind == MERGE) state->reg[b].word %= net->block[b].m + 1;
}

static uint32_t broken_step(struct depot *d, uint32_t bay, uint32_t offer, uint32_t ready, struct given *given)
{
    uint32_t refusal = broken_refusal(d, bay), own = bay % BAYS;
    if (refusal) {
        after_refusal(d, own, refusal, offer, ready, given);
        return refusal;
    }
    take_masks(&offer, &ready);
    keep_winners(&d->circuit.net, &d->record.state[own]);
    step_state(&d->circuit, &d->record.state[own], offer, ready, given);
    after_step(d, own, offer, ready, given);
    return 0;
}

#include "standturns.c"

// ---- Fresh records

static uint32_t broken_fresh(struct depot *d)
{
    const struct record before = d->record;
    uint32_t refusal = fresh_bays(d);
    (void)before;
#ifdef FRESH_KEEPS_COUNTS
    if (!refusal)
        for (unsigned k = 0; k < BAYS; k++) d->record.state[k].count = before.state[k].count;
#endif
#ifdef FRESH_MISSES_THE_LAST_BAY
    d->record.state[BAYS - 1] = before.state[BAYS - 1];
#endif
#ifdef FULL_BUFFERS_IN_BAY_0_ONLY
    memset(&d->record.state[1], 0, (BAYS - 1) * sizeof d->record.state[1]);
#endif
#ifdef REFUSED_FRESH_KEEPS_RECORD
    if (refusal) d->record = before;
#endif
#ifdef FRESH_BEGINS_WITH_BAY_1
    if (!refusal) d->record.turn = 1;
#endif
#ifdef FRESH_KEEPS_TURN
    if (!refusal) d->record.turn = before.turn;
#endif
#ifdef REFUSED_FRESH_KEEPS_TURN
    if (refusal) d->record.turn = before.turn;
#endif
    return refusal;
}

// ---- The program

static void print_file(FILE *file)
{
    static uint8_t bytes[CASE_ROOM];
    print_case(stdout, bytes, fread(bytes, 1, sizeof bytes, file));
    fclose(file);
}

int main(int count, char **arguments)
{
    FILE *file = count > 1 ? fopen(arguments[1], "rb") : NULL;
    calls.fresh = broken_fresh;
    calls.step = broken_step_outside;
    calls.next = broken_next;
    if (file) print_file(file);
    else fprintf(stderr, "cannot read %s: %s\n", count > 1 ? arguments[1] : "a case", strerror(errno));
    return 0;
}
