// The programs netstall and stalltry made from the model, to try the tests without them; with -D one thing is broken on purpose.
// It is netstall or stalltry by the name that it is called by, and takes the same arguments.
#define _POSIX_C_SOURCE 200809L
#include "stalls.c"
#include <errno.h>
#include <stdlib.h>

// ---- What a block hands on

// The port that a select word names, or m for none.
static uint32_t broken_selected(struct circuit *s, const struct block *b)
{
    uint32_t word = in(s, b, 0)->word;
#ifdef OLD_SELECT
    return word < b->m ? word : b->m;
#elif defined SELECT_WRAPS
    return word % b->m;
#elif defined SELECT_PAST_THE_LAST_IS_0
    return word < b->m ? word : 0;
#else
    (void)word;
    return selected(s, b);
#endif
}

static uint32_t broken_winner(struct circuit *s, const struct block *b, const struct reg *r)
{
#ifdef MERGE_IGNORES_RECORD
    struct reg none = {0, 0};
    (void)r;
    return winner_of(s, b, &none);
#elif defined MERGE_WINNER_FROM_0
    return winner_of(s, b, r) + 1;
#elif defined MERGE_WITHOUT_WINNER_NEEDS_THE_FIRST
    uint32_t winner = winner_of(s, b, r);
    return winner ? winner : 1;
#else
    return winner_of(s, b, r);
#endif
}

static int broken_needs(struct circuit *s, const struct block *b, const struct reg *r, uint32_t input)
{
#ifdef MUX_NEEDS_ALL
    if (b->kind == MUX) return 1;
#elif defined MUX_WITHOUT_SELECT
    if (b->kind == MUX && input == 0) return 0;
#elif defined MUX_NEEDS_SELECT_ONLY
    if (b->kind == MUX) return input == 0;
#elif defined MERGE_NEEDS_ALL
    if (b->kind == MERGE) return 1;
#elif defined MERGE_NEEDS_NONE
    if (b->kind == MERGE) return 0;
#elif defined MERGE_NEEDS_ALL_WITHOUT_WINNER
    if (b->kind == MERGE && winner_of(s, b, r) == 0) return 1;
#elif defined DEMUX_WITHOUT_SELECT
    if (b->kind == DEMUX && input == 0) return 0;
#elif defined DEMUX_WITHOUT_DATA
    if (b->kind == DEMUX && input == 1) return 0;
#elif defined OPERATOR_NEEDS_THE_FIRST
    if (b->kind == OPERATOR) return input == 0;
#elif defined FORK_NEEDS_NOTHING
    if (b->kind == FORK) return 0;
#endif
    if (b->kind == MUX) return input == 0 || input == 1 + broken_selected(s, b);
    if (b->kind == MERGE) return input + 1 == broken_winner(s, b, r);
    return 1;
}

// Whether the question is handed to an output.
static int takes_output(struct circuit *s, const struct block *b, uint32_t output)
{
    const struct wire *w = out(s, b, output);
    int looks = b->kind != DEMUX || output == broken_selected(s, b);
#ifdef DEMUX_LOOKS_AT_THE_FIRST
    looks = b->kind != DEMUX || output == 0;
#elif defined DEMUX_TAKES_THE_UNSELECTED
    if (b->kind == DEMUX) return !w->ready;
#elif defined OUTPUT_READY_NOT_LOOKED_AT
    return looks && w->valid;
#elif defined OUTPUT_NOT_VALID_TAKEN
    return looks && !w->ready;
#elif defined ONLY_THE_FIRST_OUTPUT
    if (output > 0) return 0;
#elif defined REPORT_NOT_LOOKED_AT
    if (b->kind == MERGE && output == 1) return 0;
#elif defined OUTPUTS_NOT_LOOKED_AT
    return 0;
#endif
    return looks && w->valid && !w->ready;
}

static uint32_t broken_handed_on(struct circuit *s, uint32_t block)
{
    const struct block *b = &s->net.block[block];
    for (uint32_t n = 0; n < b->ins; n++) {
        uint32_t i = n;
#ifdef LAST_INPUT_FIRST
        i = b->ins - 1 - n;
#elif defined DATA_BEFORE_SELECT
        if (b->kind == MUX || b->kind == DEMUX) i = b->ins - 1 - n;
#endif
        if (broken_needs(s, b, &s->reg[block], i) && !in(s, b, i)->valid) return b->in[i];
    }
    for (uint32_t n = 0; n < b->outs; n++) {
        uint32_t i = n;
#ifdef LAST_OUTPUT_FIRST
        i = b->outs - 1 - n;
#endif
        if (takes_output(s, b, i)) return b->out[i];
    }
    return NO_FURTHER;
}

// ---- Where a chain goes and ends

static uint32_t broken_asked_by(const struct circuit *s, uint32_t channel)
{
    const struct wire *w = &s->wire[channel];
    (void)w;
#ifdef READINESS_ASKED_FOR_A_WORD
    return s->net.reader[channel];
#elif defined WORD_ASKED_FOR_READINESS
    return producer_of(&s->net, channel);
#elif defined READINESS_LOOKED_AT_FIRST
    return w->ready ? producer_of(&s->net, channel) : s->net.reader[channel];
#else
    return asked_by(s, channel);
#endif
}

static uint32_t broken_ending_at(const struct circuit *s, uint32_t block, int for_a_word)
{
    const struct block *b = &s->net.block[block];
    uint32_t ending = ending_at(b, for_a_word);
    (void)s;
#ifdef FULL_DATA_ENDS
    if (is_data(b->kind)) return EMPTY_DATA;
#elif defined EMPTY_CONTROL_ENDS
    if (is_control(b->kind)) return FULL_CONTROL;
#elif defined FULL_CONTROL_HANDS_ON
    if (is_control(b->kind)) return EMPTY_CHAIN;
#elif defined EMPTY_DATA_HANDS_ON
    if (is_data(b->kind)) return EMPTY_CHAIN;
#elif defined FULL_AT_START_HANDS_ON
    if (b->kind == FULL_DATA) return EMPTY_CHAIN;
#elif defined ENDINGS_EXCHANGED
    return ending == IDLE_SOURCE ? UNREADY_SINK : ending == UNREADY_SINK ? IDLE_SOURCE : ending;
#elif defined BUFFERS_EXCHANGED
    return ending == EMPTY_DATA ? FULL_CONTROL : ending == FULL_CONTROL ? EMPTY_DATA : ending;
#elif defined SPENT_SOURCE_IS_NO_RULE
    uint32_t start = b->number > 0 ? number_at(s->ends, b->number - 1) : 0;
    if (b->kind == SOURCE && s->reg[block].word >= number_at(s->ends, b->number) - start) return NO_RULE;
#elif defined SOURCES_AND_SINKS_ARE_NO_RULE
    if (b->kind <= SINK) return EMPTY_CHAIN;
#endif
    return ending;
}

// The block of an ending as it is named.
static uint32_t named_block(const struct circuit *s, uint32_t block, uint32_t channel)
{
    (void)s, (void)channel, (void)block;
#ifdef CHANNEL_FOR_BLOCK
    return channel;
#elif defined NUMBER_FOR_BLOCK
    return s->net.block[block].number;
#elif defined OTHER_SIDE_NAMED
    // The block on the other side of the last channel.
    return s->wire[channel].valid ? producer_of(&s->net, channel) : s->net.reader[channel];
#else
    return block;
#endif
}

static uint32_t broken_ask_on(struct circuit *s, struct chain *chain, uint32_t channel)
{
    int for_a_word = !s->wire[channel].valid;
    uint32_t block = broken_asked_by(s, channel), ending = broken_ending_at(s, block, for_a_word);
    uint32_t further = ending == EMPTY_CHAIN ? broken_handed_on(s, block) : NO_FURTHER;
    chain->channel[chain->count] = channel;
    chain->lacks_word[chain->count++] = for_a_word;
    if (further == NO_FURTHER) end_chain(chain, ending == EMPTY_CHAIN ? NO_RULE : ending, named_block(s, block, channel));
    return further;
}

static int broken_stands_in(const struct chain *chain, uint32_t channel)
{
    (void)channel;
#ifdef CIRCLE_ONLY_AT_THE_BEGINNING
    return chain->count == CHANNELS || (chain->count > 0 && chain->channel[0] == channel);
#elif defined CIRCLE_ONLY_AT_THE_LAST
    return chain->count == CHANNELS || (chain->count > 0 && chain->channel[chain->count - 1] == channel);
#elif defined CIRCLE_NOT_AT_THE_BEGINNING
    return chain->count == CHANNELS || (chain->count > 0 && chain->channel[0] != channel && stands_in(chain, channel));
#elif defined CIRCLE_WHEN_ALL_ARE_MET
    return chain->count == CHANNELS;
#else
    return stands_in(chain, channel);
#endif
}

// The circle at a channel that is met again.
static void end_in_circle(const struct circuit *s, struct chain *chain, uint32_t channel)
{
    (void)s, (void)channel;
#ifdef CIRCLE_LISTED_TWICE
    if (chain->count < CHANNELS) {
        chain->lacks_word[chain->count] = !s->wire[channel].valid;
        chain->channel[chain->count++] = channel;
    }
#elif defined CIRCLE_NAMES_THE_BEGINNING
    channel = chain->channel[0];
#elif defined CIRCLE_NAMES_THE_LAST
    channel = chain->channel[chain->count - 1];
#elif defined BLOCK_FOR_CHANNEL
    channel = asked_by(s, channel);
#endif
#ifdef CIRCLE_IS_NO_RULE
    end_chain(chain, NO_RULE, asked_by(s, chain->channel[chain->count - 1]));
#else
    end_chain(chain, CIRCLE, channel);
#endif
}

static void broken_walk(struct circuit *s, struct chain *chain, uint32_t channel)
{
    while (channel != NO_FURTHER && !broken_stands_in(chain, channel)) channel = broken_ask_on(s, chain, channel);
    if (channel != NO_FURTHER) end_in_circle(s, chain, channel);
}

// ---- Refusals

static const uint32_t refusal_order[] = {
#ifdef CHANNEL_BEFORE_ENDS
    BAD_NET, BAD_STATE, NO_CHANNEL, BAD_ENDS
#elif defined CHANNEL_BEFORE_STATE
    BAD_NET, NO_CHANNEL, BAD_STATE, BAD_ENDS
#elif defined CHANNEL_BEFORE_NET
    NO_CHANNEL, BAD_NET, BAD_STATE, BAD_ENDS
#elif defined STATE_BEFORE_NET
    BAD_STATE, BAD_NET, BAD_ENDS, NO_CHANNEL
#elif defined ENDS_BEFORE_STATE
    BAD_NET, BAD_ENDS, BAD_STATE, NO_CHANNEL
#elif defined ENDS_BEFORE_NET
    BAD_ENDS, BAD_NET, BAD_STATE, NO_CHANNEL
#elif defined COUNT_REFUSED
    BAD_NET, BAD_STATE, BAD_ENDS, ALLOWANCE_USED, NO_CHANNEL
#elif defined COUNT_REFUSED_LAST
    BAD_NET, BAD_STATE, BAD_ENDS, NO_CHANNEL, ALLOWANCE_USED
#elif defined NET_NOT_LOOKED_AT
    BAD_STATE, BAD_ENDS, NO_CHANNEL
#elif defined STATE_NOT_LOOKED_AT
    BAD_NET, BAD_ENDS, NO_CHANNEL
#elif defined ENDS_NOT_LOOKED_AT
    BAD_NET, BAD_STATE, NO_CHANNEL
#elif defined CHANNEL_NOT_LOOKED_AT
    BAD_NET, BAD_STATE, BAD_ENDS
#else
    BAD_NET, BAD_STATE, BAD_ENDS, NO_CHANNEL
#endif
};

static int no_such_channel(const struct depot *d, uint32_t channel)
{
#ifdef ONE_CHANNEL_TOO_MANY
    return channel > d->channels;
#elif defined ONE_CHANNEL_TOO_FEW
    return channel + 1 >= d->channels;
#elif defined CHANNELS_UP_TO_127
    (void)d;
    return channel >= CHANNELS;
#else
    return channel >= d->channels;
#endif
}

static int earns(struct depot *d, uint32_t channel, uint32_t refusal)
{
    const struct state *state = &d->record.state[0];
    switch (refusal) {
    case BAD_NET: return net_is_bad(d);
    case BAD_STATE: return !state_in_shape(&d->circuit.net, state);
    case BAD_ENDS: return ends_are_bad(d);
    case NO_CHANNEL: return no_such_channel(d, channel);
    default: return state->count >= ALLOWANCE;
    }
}

static uint32_t broken_refusal(struct depot *d, uint32_t channel)
{
    for (unsigned i = 0; i < sizeof refusal_order / sizeof refusal_order[0]; i++)
        if (earns(d, channel, refusal_order[i])) return refusal_order[i];
    return 0;
}

// ---- The question

// What should not have passed is brought to where a cycle can be worked out; false where that cannot be.
static int make_workable(struct depot *d, struct state *state)
{
    const struct net *net = &d->circuit.net;
    for (uint32_t b = 0; b < net->blocks; b++)
        if (net->block[b].kind == MERGE) state->reg[b].word %= net->block[b].m + 1;
    return net->blocks > 0 && !ends_are_bad(d);
}

static void broken_cycle(struct depot *d, struct state state, uint32_t offer, uint32_t ready)
{
    struct given given;
    (void)given;
#ifdef SIGNALS_OF_THE_NEXT_CYCLE
    step_state(&d->circuit, &state, offer, ready, &given);
#elif defined SIGNALS_OF_FRESH
    make_fresh(&d->circuit);
    memcpy(state.reg, d->circuit.reg, sizeof state.reg);
#elif defined MASKS_EXCHANGED
    uint32_t kept = offer;
    offer = ready;
    ready = kept;
#elif defined OFFER_MASK_NOT_SEEN
    offer = 0xffffffff;
#elif defined READY_MASK_NOT_SEEN
    ready = 0xffffffff;
#elif defined HELD_NOT_SEEN
    for (uint32_t b = 0; b < d->circuit.net.blocks; b++)
        if (d->circuit.net.block[b].kind == SOURCE) state.reg[b].marks = 0;
#elif defined FORK_MARKS_NOT_SEEN
    for (uint32_t b = 0; b < d->circuit.net.blocks; b++)
        if (d->circuit.net.block[b].kind == FORK) state.reg[b].marks = 0;
#endif
    show_cycle(&d->circuit, &state, offer, ready);
}

// What is broken about a chain, once it is found.
static void spoil_chain(struct chain *chain, uint32_t channel)
{
    uint32_t last = chain->count - 1;
    (void)last, (void)channel;
#ifdef EMPTY_CHAIN_WITH_ITS_CHANNEL
    if (chain->count == 0) chain->channel[chain->count++] = channel;
#elif defined EMPTY_CHAIN_IS_NO_RULE
    if (chain->count == 0) chain->ending = NO_RULE;
#elif defined EMPTY_CHAIN_AT_ITS_CHANNEL
    if (chain->count == 0) chain->at = channel;
#elif defined FIRST_CHANNEL_LEFT_OUT
    if (chain->count > 0) memmove(chain->channel, chain->channel + 1, last * sizeof chain->channel[0]);
    if (chain->count > 0) memmove(chain->lacks_word, chain->lacks_word + 1, last * sizeof chain->lacks_word[0]), chain->count--;
#elif defined LAST_CHANNEL_LEFT_OUT
    if (chain->count > 0) chain->count--;
#elif defined CHAIN_OF_32_AT_MOST
    if (chain->count > 32) chain->count = 32;
#elif defined CHAIN_BACKWARDS
    struct chain kept = *chain;
    for (uint32_t i = 0; i < chain->count; i++) chain->channel[i] = kept.channel[last - i], chain->lacks_word[i] = kept.lacks_word[last - i];
#elif defined CHAIN_ASCENDING
    for (uint32_t i = 1; i < chain->count; i++)
        for (uint32_t j = i; j > 0 && chain->channel[j - 1] > chain->channel[j]; j--) {
            uint32_t kept = chain->channel[j], lacks = chain->lacks_word[j];
            chain->channel[j] = chain->channel[j - 1], chain->lacks_word[j] = chain->lacks_word[j - 1];
            chain->channel[j - 1] = kept, chain->lacks_word[j - 1] = lacks;
        }
#elif defined V_FOR_R
    for (uint32_t i = 0; i < chain->count; i++) chain->lacks_word[i] = !chain->lacks_word[i];
#elif defined FIRST_LETTER_FOR_ALL
    for (uint32_t i = 1; i < chain->count; i++) chain->lacks_word[i] = chain->lacks_word[0];
#endif
}

static struct chain broken_follow(struct depot *d, uint32_t offer, uint32_t ready, uint32_t channel)
{
#ifdef CHANNEL_IN_A_BYTE
    channel %= 256;
#elif defined CHANNEL_IN_7_BITS
    channel %= CHANNELS;
#endif
    struct chain chain = {.refusal = broken_refusal(d, channel)};
    struct state state = d->record.state[0];
    if (chain.refusal || channel >= CHANNELS || !make_workable(d, &state)) return chain;
    broken_cycle(d, state, offer, ready);
    if (channel < d->circuit.net.channels && !delivers(&d->circuit.wire[channel])) broken_walk(&d->circuit, &chain, channel);
    spoil_chain(&chain, channel);
#ifdef QUESTION_IS_A_STEP
    step_once(d, offer, ready);
#elif defined QUESTION_COUNTS
    d->record.state[0].count++;
#endif
    return chain;
}

#include "standtyped.c"

// ---- The programs

// Some bytes of a file; answers whether it can be read.
static int read_bytes(const char *name, uint8_t *bytes, size_t room, size_t *len)
{
    FILE *file = fopen(name, "rb");
    *len = file ? fread(bytes, 1, room, file) : 0;
    int can_be_read = file && !ferror(file);
    if (file) fclose(file);
    return can_be_read;
}

static void run_netstall(unsigned count, char **arguments)
{
    static uint8_t form[8192];
    struct typed typed = {.count = count, .argument = arguments, .form = form};
    typed.can_be_read = count > 0 && read_bytes(arguments[0], form, sizeof form, &typed.form_len);
    broken_netstall(&typed);
}

static void run_stalltry(const char *name)
{
    static uint8_t bytes[2 * CASE_ROOM];
    size_t len, room = CASE_ROOM;
#ifdef LONGER_CASE_READ
    room = sizeof bytes;
#endif
    stall_calls.follow = broken_follow;
    if (read_bytes(name, bytes, room, &len)) print_stalltry(stdout, bytes, len);
    else fprintf(stderr, "cannot read %s: %s\n", name, strerror(errno));
}

int main(int count, char **arguments)
{
    const char *slash = strrchr(arguments[0], '/'), *name = slash ? slash + 1 : arguments[0];
    if (strcmp(name, "stalltry") == 0) run_stalltry(count > 1 ? arguments[1] : "a case");
    else run_netstall((unsigned)count - 1, arguments + 1);
    return 0;
}
