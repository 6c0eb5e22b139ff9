// Four bays on one net: each bay's step is the model's cycle on a state of its own, and of the record only that state and the turn are looked at. A call of
// next steps the bay whose turn it is.
#include "bays.h"
#include "model.c"

enum { REGISTERS = 64, CHANNELS = 128 };

struct state { uint32_t count; struct reg reg[REGISTERS]; };

// The turn is the bay that the next call of next asks first.
struct record { struct state state[BAYS]; uint32_t turn; };

// What a step gave out on each channel.
struct given { uint32_t mark[CHANNELS], word[CHANNELS]; };

// The bay that a call of next named, or BAYS for none, and its refusal.
struct served { uint32_t bay, refusal; };

// The net as it was loaded, with its refusal; how many channels the net value names now; the streams; the record; every bay's masks, offer then ready.
struct depot {
    struct circuit circuit;
    uint32_t refusal, channels, word_count, end_count;
    struct record record;
    uint32_t masks[2 * BAYS];
};

// ---- Refusals

// A net that was loaded is spoilt by any other count of channels: by a lower one a port names none, by a higher one a channel has no port.
static int net_is_bad(const struct depot *d)
{
    return d->refusal != 0 || d->channels != d->circuit.net.channels;
}

// Whether a block's registers are in shape, by its kind.
static int block_in_shape(const struct block *b, const struct reg *r)
{
    switch (b->kind) {
    case SOURCE: return r->marks <= 1;
    case FORK: return r->word == 0 && r->marks < (1u << b->m) - 1;
    case MERGE: return r->word <= b->m && r->marks <= 2 && (r->word > 0 || r->marks == 0);
    case DATA:
    case FULL_DATA:
    case CONTROL: return r->marks == 1 || (r->marks == 0 && r->word == 0);
    default: return r->word == 0 && r->marks == 0;
    }
}

static int state_in_shape(const struct net *net, const struct state *state)
{
    for (uint32_t b = 0; b < REGISTERS; b++) {
        const struct reg *r = &state->reg[b];
        if (b < net->blocks ? !block_in_shape(&net->block[b], r) : r->word != 0 || r->marks != 0) return 0;
    }
    return state->count <= CYCLE_LIMIT;
}

static int turn_is_bad(const struct record *record)
{
    return record->turn >= BAYS;
}

static int ends_are_bad(struct depot *d)
{
    struct circuit *s = &d->circuit;
    return refuse_streams(&s->net, 4 * (size_t)d->word_count, s->ends, 4 * (size_t)d->end_count) != 0;
}

static uint32_t refusal_of_step(struct depot *d, uint32_t bay)
{
    if (bay >= BAYS) return NO_BAY;
    if (net_is_bad(d)) return BAD_NET;
    if (turn_is_bad(&d->record) || !state_in_shape(&d->circuit.net, &d->record.state[bay])) return BAD_STATE;
    if (ends_are_bad(d)) return BAD_ENDS;
    return d->record.state[bay].count == ALLOWANCE ? ALLOWANCE_USED : 0;
}

// ---- The three calls

static uint32_t fresh_bays(struct depot *d)
{
    memset(&d->record, 0, sizeof d->record);
    if (net_is_bad(d)) return BAD_NET;
    make_fresh(&d->circuit);
    for (unsigned k = 0; k < BAYS; k++) memcpy(d->record.state[k].reg, d->circuit.reg, sizeof d->circuit.reg);
    return 0;
}

// One cycle of a state that is in shape.
static void step_state(struct circuit *s, struct state *state, uint32_t offer, uint32_t ready, struct given *given)
{
    memcpy(s->reg, state->reg, sizeof s->reg);
    s->offers = offer;
    s->takes = ready;
    work_out_signals(s);
    for (uint32_t c = 0; c < s->net.channels; c++) {
        given->mark[c] = delivers(&s->wire[c]);
        given->word[c] = given->mark[c] ? s->wire[c].word : 0;
    }
    work_out_registers(s);
    memcpy(state->reg, s->reg, sizeof s->reg);
    state->count++;
}

static uint32_t step_bay(struct depot *d, uint32_t bay, uint32_t offer, uint32_t ready, struct given *given)
{
    uint32_t refusal = refusal_of_step(d, bay);
    if (refusal) return refusal;
    step_state(&d->circuit, &d->record.state[bay], offer, ready, given);
    return 0;
}

// Whether a mask of wanting bays names none of the four; bits beyond them are ignored.
static int names_no_bay(uint32_t want)
{
    return want % (1u << BAYS) == 0;
}

// The first bay from the turn on, going round, that wants a cycle; one of them does.
static uint32_t first_wanting(uint32_t turn, uint32_t want)
{
    uint32_t bay = turn;
    while ((want >> bay & 1) == 0) bay = (bay + 1) % BAYS;
    return bay;
}

static struct served next(struct depot *d, uint32_t want, struct given *given)
{
    if (names_no_bay(want)) return (struct served){BAYS, 0};
    if (turn_is_bad(&d->record)) return (struct served){BAYS, BAD_STATE};
    uint32_t bay = first_wanting(d->record.turn, want);
    uint32_t refusal = step_bay(d, bay, d->masks[2 * bay], d->masks[2 * bay + 1], given);
    d->record.turn = (bay + 1) % BAYS;
    return (struct served){bay, refusal};
}

// The calls that a case makes: a stand-in has others here.
static struct {
    uint32_t (*fresh)(struct depot *);
    uint32_t (*step)(struct depot *, uint32_t, uint32_t, uint32_t, struct given *);
    struct served (*next)(struct depot *, uint32_t, struct given *);
} calls = {fresh_bays, step_bay, next};

// ---- A case

// The end of a line: the refusal and what was delivered.
static void print_answer(FILE *out, uint32_t refusal, const struct given *given)
{
    fprintf(out, "refusal %u", refusal);
    for (uint32_t c = 0; c < CHANNELS; c++)
        if (given->mark[c]) fprintf(out, " %u=%u", c, given->word[c]);
    putc('\n', out);
}

static void print_step(FILE *out, struct depot *d, uint32_t bay, uint32_t offer, uint32_t ready)
{
    struct given given = {{0}, {0}};
    uint32_t refusal = calls.step(d, bay, offer, ready, &given);
    fprintf(out, "bay %u: ", bay);
    print_answer(out, refusal, &given);
}

// A call of next over the first ends, or over all of them where there are not so many.
static void print_next(FILE *out, struct depot *d, uint32_t want, uint32_t lent)
{
    struct given given = {{0}, {0}};
    uint32_t all = d->end_count;
    if (lent < all) d->end_count = lent;
    struct served served = calls.next(d, want, &given);
    d->end_count = all;
    if (served.bay < BAYS) fprintf(out, "next bay %u: ", served.bay);
    else fprintf(out, "next no bay: ");
    print_answer(out, served.refusal, &given);
}

// Sets a part of one bay's state.
static void set_state(struct record *record, uint32_t command, uint32_t a, uint32_t b)
{
    struct state *state = &record->state[command % BAYS];
    if (command < SET_WORD) state->count = a;
    else if (command < SET_MARKS) state->reg[a % REGISTERS].word = b;
    else state->reg[a % REGISTERS].marks = b % 256;
}

// Sets one bay's masks for later calls of next.
static void set_masks(struct depot *d, uint32_t bay, uint32_t offer, uint32_t ready)
{
    d->masks[2 * bay] = offer;
    d->masks[2 * bay + 1] = ready;
}

static void print_command(FILE *out, struct depot *d, uint32_t command, uint32_t a, uint32_t b)
{
    if (command <= LAST_STEP) print_step(out, d, command, a, b);
    else if (command == FRESH_RECORD) fprintf(out, "fresh %u\n", calls.fresh(d));
    else if (command == SET_CHANNELS) d->channels = a % 256;
    else if (command == NEXT) print_next(out, d, a, b);
    else if (command == SET_TURN) d->record.turn = a % 256;
    else if (command < SET_MASKS) set_state(&d->record, command, a, b);
    else if (command < NO_COMMAND) set_masks(d, command - SET_MASKS, a, b);
}

static void print_state(FILE *out, const struct record *record, unsigned k)
{
    const struct state *state = &record->state[k];
    fprintf(out, "state %u count %u", k, state->count);
    for (unsigned b = 0; b < REGISTERS; b++)
        if (state->reg[b].word || state->reg[b].marks) fprintf(out, " %u=%u/%u", b, state->reg[b].word, state->reg[b].marks);
    putc('\n', out);
}

// Takes the form and the streams out of a case; answers where its commands begin, or 0 where it is no case.
static size_t open_case(struct depot *d, const uint8_t *bytes, size_t len)
{
    memset(d, 0, sizeof *d);
    if (len < HEADER_BYTES) return 0;
    uint32_t form_len = number_at(bytes, 0), words = number_at(bytes, 1), ends = number_at(bytes, 2);
    if (words > MOST_WORDS || ends > MOST_ENDS || form_len > len) return 0;
    size_t words_at = HEADER_BYTES + (size_t)form_len, ends_at = words_at + 4 * (size_t)words, commands_at = ends_at + 4 * (size_t)ends;
    if (commands_at > len) return 0;
    d->refusal = load(bytes + HEADER_BYTES, form_len, &d->circuit.net);
    if (d->refusal) memset(&d->circuit.net, 0, sizeof d->circuit.net);
    d->channels = d->circuit.net.channels;
    d->circuit.words = bytes + words_at;
    d->circuit.ends = bytes + ends_at;
    d->word_count = words;
    d->end_count = ends;
    return commands_at;
}

void print_case(FILE *out, const uint8_t *bytes, size_t len)
{
    static struct depot d;
    size_t at = open_case(&d, bytes, len);
    if (at == 0) {
        fprintf(out, "bad case\n");
        return;
    }
    fprintf(out, "load %u\nfresh %u\n", d.refusal, calls.fresh(&d));
    for (; len - at >= COMMAND_BYTES; at += COMMAND_BYTES)
        print_command(out, &d, number_at(bytes + at, 0), number_at(bytes + at, 1), number_at(bytes + at, 2));
    fprintf(out, "turn %u\n", d.record.turn);
    for (unsigned k = 0; k < BAYS; k++) print_state(out, &d.record, k);
}
