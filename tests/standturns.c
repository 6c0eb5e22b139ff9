// Whose cycle is next, in the stand-ins of baytry: a part of standbays.c, behind its steps.

// ---- Steps outside of next

static uint32_t broken_step_outside(struct depot *d, uint32_t bay, uint32_t offer, uint32_t ready, struct given *given)
{
    uint32_t refusal = broken_step(d, bay, offer, ready, given);
#ifdef STEP_MOVES_TURN
    if (refusal == 0) d->record.turn = (bay + 1) % BAYS;
#elif defined REFUSED_STEP_MOVES_TURN
    if (refusal != 0) d->record.turn = (bay + 1) % BAYS;
#elif defined STEP_IN_ITS_TURN_MOVES_IT
    if (refusal == 0 && bay == d->record.turn) d->record.turn = (bay + 1) % BAYS;
#elif defined STEP_FORGETS_TURN
    if (refusal == 0) d->record.turn = 0;
#elif defined STEP_MAKES_TURN_GOOD
    if (d->record.turn >= BAYS) d->record.turn = 0;
#endif
    return refusal;
}

// ---- The search for the bay

// The mask as it is taken.
static uint32_t taken_want(uint32_t want)
{
#ifdef BITS_BEYOND_GO_ROUND
    // Bit 4 is bay 0 again, and so on.
    for (unsigned bit = BAYS; bit < 32; bit++) want |= (want >> bit & 1) << bit % BAYS;
#elif defined WANT_FROM_THE_OTHER_END
    want = (want & 1) << 3 | (want & 2) << 1 | (want >> 1 & 2) | (want >> 3 & 1);
#elif defined WANT_OF_THREE
    want &= 7;
#elif defined EMPTY_MEANS_ALL
    if (names_no_bay(want)) want = 15;
#elif defined FIVE_BITS_WANT
    return want % 32;
#elif defined BITS_BEYOND_NOT_EMPTY
    return want;
#endif
    return want % (1u << BAYS);
}

// The bay that is asked after so many others; a number of no bay is none of them.
static uint32_t asked(uint32_t turn, uint32_t n)
{
#ifdef SEARCH_FROM_BAY_0
    (void)turn;
    return n;
#elif defined SEARCH_FROM_THE_LAST_SERVED
    return (turn + BAYS - 1 + n) % BAYS;
#elif defined SEARCH_BEHIND_THE_TURN
    return (turn + 1 + n) % BAYS;
#elif defined SEARCH_DOWNWARDS
    return (turn + BAYS - n) % BAYS;
#elif defined SEARCH_NOT_ROUND
    return turn + n < BAYS ? turn + n : BAYS;
#elif defined SEARCH_OF_THREE
    return n < BAYS - 1 ? (turn + n) % BAYS : BAYS;
#elif defined FIVE_BITS_WANT
    return (turn + n) % (BAYS + 1);
#else
    return (turn + n) % BAYS;
#endif
}

// The bay that is served, or BAYS for none.
static uint32_t broken_search(uint32_t turn, uint32_t want)
{
#ifdef TURN_SERVED_UNASKED
    return turn;
#endif
    for (uint32_t n = 0; n <= BAYS; n++)
        if (want >> asked(turn, n) & 1) return asked(turn, n);
    return BAYS;
}

// ---- The bay that is served

// Where the turn is after a bay was served.
static uint32_t moved_turn(uint32_t turn, uint32_t bay, uint32_t refusal)
{
    (void)turn, (void)refusal;
#ifdef TURN_NOT_MOVED
    return turn;
#elif defined TURN_IS_THE_LAST_SERVED
    return bay;
#elif defined TURN_STOPS_AT_3
    return bay < BAYS - 1 ? bay + 1 : bay;
#elif defined TURN_RUNS_TO_4
    return bay + 1;
#elif defined TURN_MOVES_BY_ONE
    return (turn + 1) % BAYS;
#elif defined TURN_PASSES_ONE_OVER
    return (bay + 2) % BAYS;
#elif defined REFUSED_KEEPS_TURN
    if (refusal) return turn;
#elif defined REFUSED_BY_NET_KEEPS_TURN
    if (refusal == BAD_NET) return turn;
#elif defined REFUSED_BY_STATE_KEEPS_TURN
    if (refusal == BAD_STATE) return turn;
#elif defined REFUSED_BY_ENDS_KEEPS_TURN
    if (refusal == BAD_ENDS) return turn;
#elif defined REFUSED_BY_ALLOWANCE_KEEPS_TURN
    if (refusal == ALLOWANCE_USED) return turn;
#elif defined REFUSED_TURNS_TO_0
    if (refusal) return 0;
#endif
    return (bay + 1) % BAYS;
}

// Where the offer and the ready mask of a bay lie among all masks.
static uint32_t offer_at(uint32_t turn, uint32_t bay)
{
    (void)turn, (void)bay;
#if defined NEXT_MASKS_OF_BAY_0 || defined NEXT_OFFER_OF_BAY_0
    return 0;
#elif defined NEXT_MASKS_OF_THE_TURN
    return 2 * turn;
#elif defined NEXT_MASKS_OF_THE_BAY_BEHIND
    return 2 * ((bay + 1) % BAYS);
#elif defined NEXT_MASKS_CHANGED_ROUND
    return 2 * bay + 1;
#elif defined NEXT_MASKS_IN_TWO_HALVES
    return bay;
#else
    return 2 * bay;
#endif
}

static uint32_t ready_at(uint32_t turn, uint32_t bay)
{
    (void)turn, (void)bay;
#ifdef NEXT_READY_OF_BAY_0
    return 1;
#elif defined NEXT_OFFER_OF_BAY_0
    return 2 * bay + 1;
#elif defined NEXT_MASKS_CHANGED_ROUND
    return 2 * bay;
#elif defined NEXT_MASKS_IN_TWO_HALVES
    return BAYS + bay;
#else
    return offer_at(turn, bay) + 1;
#endif
}

// What is broken about the record and the answer when the bay that is served is refused.
static struct served after_refused_call(struct depot *d, uint32_t want, uint32_t bay, uint32_t refusal)
{
    struct state *state = &d->record.state[bay % BAYS];
    (void)want, (void)state;
#ifdef REFUSED_CALL_COUNTS
    if (refusal == BAD_ENDS) state->count++;
#elif defined REFUSED_CALL_MOVES
    struct given unseen;
    if (refusal == ALLOWANCE_USED) step_state(&d->circuit, state, ~0u, ~0u, &unseen), state->count--;
#elif defined REFUSED_CALL_CLEARS_RECORD
    memset(d->record.state, 0, sizeof d->record.state);
#elif defined REFUSED_CALL_CLEARS_BAY
    if (refusal == BAD_STATE) memset(state, 0, sizeof *state);
#elif defined REFUSED_CALL_NOT_REPORTED
    refusal = 0;
#elif defined REFUSED_CALL_NAMES_NO_BAY
    bay = BAYS;
#elif defined REFUSED_CALL_PASSED_ON
    bay = broken_search((bay + 1) % BAYS, want);
    d->record.turn = (bay + 1) % BAYS;
#endif
    return (struct served){bay, refusal};
}

// What is broken when a bay was stepped in its turn.
static uint32_t after_call(struct depot *d, uint32_t turn, uint32_t want, uint32_t bay, struct given *given)
{
    (void)d, (void)turn, (void)want, (void)given;
#ifdef NEXT_DELIVERS_NOTHING
    memset(given, 0, sizeof *given);
#elif defined NEXT_NOT_COUNTED
    d->record.state[bay].count--;
#elif defined NEXT_NAMES_THE_TURN
    return turn;
#elif defined NEXT_STEPS_ALL_THAT_WANT
    struct given unseen;
    for (uint32_t k = 0; k < BAYS; k++)
        if (k != bay && want >> k & 1) broken_step(d, k, d->masks[2 * k], d->masks[2 * k + 1], &unseen);
#endif
    return bay;
}

// A call in which the turn is not refused.
static struct served serve(struct depot *d, uint32_t want, struct given *given)
{
    uint32_t turn = taken_turn(&d->record) % BAYS, bay = broken_search(turn, want), stepped = bay;
#ifdef FIVE_BITS_WANT
    // The fifth bay earns what a step of it does.
    if (bay == BAYS) return (struct served){BAYS, NO_BAY};
#endif
    if (bay == BAYS) return (struct served){BAYS, 0};
#ifdef NEXT_STEPS_THE_TURN
    stepped = turn;
#endif
    uint32_t refusal = broken_step(d, stepped, d->masks[offer_at(turn, bay)], d->masks[ready_at(turn, bay)], given);
    d->record.turn = moved_turn(turn, bay, refusal);
    return refusal ? after_refused_call(d, want, bay, refusal) : (struct served){after_call(d, turn, want, bay, given), 0};
}

// ---- Calls that name no bay

// Whether some bay's state is out of shape, of a net that is not spoilt.
static int some_state_is_bad(struct depot *d)
{
    for (unsigned k = 0; k < BAYS && !net_is_bad(d); k++)
        if (!state_in_shape(&d->circuit.net, &d->record.state[k])) return 1;
    return 0;
}

// What is tested before the empty mask.
static uint32_t refused_before_all(struct depot *d, uint32_t want)
{
    (void)d, (void)want, (void)some_state_is_bad;
#ifdef BITS_BEYOND_REFUSED
    if (want >> BAYS) return NO_BAY;
#elif defined EMPTY_EARNS_21
    if (names_no_bay(want)) return NO_BAY;
#elif defined EMPTY_AFTER_TURN
    if (d->record.turn >= BAYS) return BAD_STATE;
#elif defined EMPTY_AFTER_NET
    if (names_no_bay(want) && net_is_bad(d)) return BAD_NET;
#elif defined EMPTY_AFTER_STATES
    if (names_no_bay(want) && some_state_is_bad(d)) return BAD_STATE;
#endif
    return 0;
}

// What is broken about a call that names no bay.
static struct served after_empty(struct depot *d, struct given *given)
{
    uint32_t turn = d->record.turn % BAYS;
    (void)turn, (void)given;
#ifdef EMPTY_MOVES_TURN
    if (d->record.turn < BAYS) d->record.turn = (turn + 1) % BAYS;
#elif defined EMPTY_MAKES_TURN_GOOD
    d->record.turn = turn;
#elif defined EMPTY_NAMES_BAY_0
    return (struct served){0, 0};
#elif defined EMPTY_STEPS_THE_TURN
    struct given unseen;
    broken_step(d, turn, d->masks[2 * turn], d->masks[2 * turn + 1], &unseen);
#elif defined EMPTY_DELIVERS
    struct state state = d->record.state[turn];
    if (broken_refusal(d, turn) == 0) step_state(&d->circuit, &state, d->masks[2 * turn], d->masks[2 * turn + 1], given);
#endif
    return (struct served){BAYS, 0};
}

// What is broken about a call from a turn beyond the four bays.
static struct served after_turn_beyond(struct depot *d, uint32_t want)
{
    struct record *record = &d->record;
    (void)record, (void)want;
#ifdef TURN_BEYOND_NAMES_BAY
    return (struct served){broken_search(0, want), BAD_STATE};
#elif defined TURN_BEYOND_EARNS_21
    return (struct served){BAYS, NO_BAY};
#elif defined TURN_BEYOND_NOT_REPORTED
    return (struct served){BAYS, 0};
#elif defined TURN_BEYOND_AFTER_NET
    if (net_is_bad(d)) return (struct served){BAYS, BAD_NET};
#elif defined TURN_BEYOND_LEFT_TO_THE_STEP
    return serve(d, want, &(struct given){{0}, {0}});
#elif defined TURN_BEYOND_MADE_GOOD
    record->turn = 0;
#elif defined TURN_BEYOND_MOVES
    record->turn = (record->turn + 1) % 256;
#elif defined TURN_BEYOND_COUNTS
    record->state[0].count++;
#elif defined TURN_BEYOND_CLEARS_RECORD
    memset(record, 0, sizeof *record);
#endif
    return (struct served){BAYS, BAD_STATE};
}

// What is tested before a bay is looked for, though it should be served and refused.
static uint32_t refused_before_search(struct depot *d)
{
    (void)d;
#ifdef NET_BEFORE_THE_SEARCH
    if (net_is_bad(d)) return BAD_NET;
#elif defined STATES_BEFORE_THE_SEARCH
    if (some_state_is_bad(d)) return BAD_STATE;
#elif defined ENDS_BEFORE_THE_SEARCH
    if (broken_refusal(d, 0) == BAD_ENDS) return BAD_ENDS;
#elif defined ALLOWANCE_BEFORE_THE_SEARCH
    if (broken_refusal(d, 0) == ALLOWANCE_USED) return ALLOWANCE_USED;
#endif
    return 0;
}

// ---- The call

static struct served broken_next(struct depot *d, uint32_t all, struct given *given)
{
    uint32_t want = taken_want(all), refusal = refused_before_all(d, all);
    if (refusal) return (struct served){BAYS, refusal};
    if (want == 0) return after_empty(d, given);
    if (taken_turn(&d->record) >= BAYS) return after_turn_beyond(d, want);
    refusal = refused_before_search(d);
    return refusal ? (struct served){BAYS, refusal} : serve(d, want, given);
}
