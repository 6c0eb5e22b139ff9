// Following a stall, by the request's words one after the other, over the signals of the model's cycle. There is one net with one state, that of bay 0. Then what
// the two programs print.
#include "stalls.h"
#include "bays.c"

// The channels in order, for each whether it lacks V (else R), how the chain ends, and the block or, for a circle, the channel where it does.
struct chain { uint32_t refusal, count, channel[CHANNELS], lacks_word[CHANNELS], ending, at; };

enum { NO_FURTHER = CHANNELS };

// ---- Following a stall

static uint32_t producer_of(const struct net *net, uint32_t channel)
{
    for (uint32_t b = 0; b < net->blocks; b++)
        for (uint32_t i = 0; i < net->block[b].outs; i++)
            if (net->block[b].out[i] == channel) return b;
    return net->blocks;
}

// A channel that lacks V asks its producer, one that has V but lacks R its consumer.
static uint32_t asked_by(const struct circuit *s, uint32_t channel)
{
    return s->wire[channel].valid ? s->net.reader[channel] : producer_of(&s->net, channel);
}

// A merge's winner, whether its input is V or not: the recorded one, else the lowest-numbered V input; 0 where there is none.
static uint32_t winner_of(struct circuit *s, const struct block *b, const struct reg *r)
{
    for (uint32_t i = 0; r->word == 0 && i < b->m; i++)
        if (in(s, b, i)->valid) return i + 1;
    return r->word;
}

static int needs(struct circuit *s, const struct block *b, const struct reg *r, uint32_t input)
{
    if (b->kind == MUX) return input == 0 || input == 1 + selected(s, b);
    if (b->kind == MERGE) return input + 1 == winner_of(s, b, r);
    return 1;
}

static int looks_at(struct circuit *s, const struct block *b, uint32_t output)
{
    return b->kind != DEMUX || output == selected(s, b);
}

// The channel that a block hands the question to, if a rule names one.
static uint32_t handed_on(struct circuit *s, uint32_t block)
{
    const struct block *b = &s->net.block[block];
    for (uint32_t i = 0; i < b->ins; i++)
        if (needs(s, b, &s->reg[block], i) && !in(s, b, i)->valid) return b->in[i];
    for (uint32_t i = 0; i < b->outs; i++)
        if (looks_at(s, b, i) && out(s, b, i)->valid && !out(s, b, i)->ready) return b->out[i];
    return NO_FURTHER;
}

// How a chain ends at a block that is asked for a word or else for readiness; EMPTY_CHAIN where it does not end there.
static uint32_t ending_at(const struct block *b, int for_a_word)
{
    if (b->kind == SOURCE) return IDLE_SOURCE;
    if (b->kind == SINK) return UNREADY_SINK;
    if (is_data(b->kind) && for_a_word) return EMPTY_DATA;
    if (is_control(b->kind) && !for_a_word) return FULL_CONTROL;
    return EMPTY_CHAIN;
}

static int stands_in(const struct chain *chain, uint32_t channel)
{
    for (uint32_t i = 0; i < chain->count; i++)
        if (chain->channel[i] == channel) return 1;
    return 0;
}

static void end_chain(struct chain *chain, uint32_t ending, uint32_t at)
{
    chain->ending = ending;
    chain->at = at;
}

// Adds a channel to the chain and asks on; answers the channel that the question is handed to, or NO_FURTHER where the chain has ended.
static uint32_t ask_on(struct circuit *s, struct chain *chain, uint32_t channel)
{
    int for_a_word = !s->wire[channel].valid;
    uint32_t block = asked_by(s, channel), ending = ending_at(&s->net.block[block], for_a_word), further = handed_on(s, block);
    chain->channel[chain->count] = channel;
    chain->lacks_word[chain->count++] = for_a_word;
    if (ending != EMPTY_CHAIN) end_chain(chain, ending, block);
    else if (further == NO_FURTHER) end_chain(chain, NO_RULE, block);
    return ending != EMPTY_CHAIN ? NO_FURTHER : further;
}

static void walk(struct circuit *s, struct chain *chain, uint32_t channel)
{
    while (channel != NO_FURTHER && !stands_in(chain, channel)) channel = ask_on(s, chain, channel);
    if (channel != NO_FURTHER) end_chain(chain, CIRCLE, channel);
}

static uint32_t refusal_of_question(struct depot *d, uint32_t channel)
{
    if (net_is_bad(d)) return BAD_NET;
    if (!state_in_shape(&d->circuit.net, &d->record.state[0])) return BAD_STATE;
    if (ends_are_bad(d)) return BAD_ENDS;
    return channel >= d->channels ? NO_CHANNEL : 0;
}

// The signals of the cycle that a step would work from a state.
static void show_cycle(struct circuit *s, const struct state *state, uint32_t offer, uint32_t ready)
{
    memcpy(s->reg, state->reg, sizeof s->reg);
    s->offers = offer;
    s->takes = ready;
    work_out_signals(s);
}

static struct chain follow(struct depot *d, uint32_t offer, uint32_t ready, uint32_t channel)
{
    struct chain chain = {.refusal = refusal_of_question(d, channel)};
    if (chain.refusal) return chain;
    show_cycle(&d->circuit, &d->record.state[0], offer, ready);
    if (!delivers(&d->circuit.wire[channel])) walk(&d->circuit, &chain, channel);
    return chain;
}

// ---- What has to hold of every chain

static const char *fault;

static int is_port_of(const struct block *b, uint32_t channel)
{
    for (uint32_t i = 0; i < b->ins; i++)
        if (b->in[i] == channel) return 1;
    for (uint32_t i = 0; i < b->outs; i++)
        if (b->out[i] == channel) return 1;
    return 0;
}

static uint32_t block_behind(const struct net *net, const struct chain *chain, uint32_t i)
{
    return chain->lacks_word[i] ? producer_of(net, chain->channel[i]) : net->reader[chain->channel[i]];
}

// By the deliveries of the step itself, which knows nothing of chains; the channel after one is at the block that this one asks.
static void look_at_chain(struct depot *d, uint32_t offer, uint32_t ready, uint32_t channel, const struct chain *chain)
{
    const struct net *net = &d->circuit.net;
    struct state state = d->record.state[0];
    struct given given = {{0}, {0}};
    uint32_t seen[CHANNELS] = {0}, last = chain->count - 1;
    step_state(&d->circuit, &state, offer, ready, &given);
    if ((chain->count == 0) != (given.mark[channel] == 1)) fault = "a chain is empty and its channel does not deliver, or the other way round";
    for (uint32_t i = 0; i < chain->count; i++) {
        if (seen[chain->channel[i]]++) fault = "a channel is in a chain twice";
        if (given.mark[chain->channel[i]]) fault = "a channel of a chain delivers";
        if (i > 0 && !is_port_of(&net->block[block_behind(net, chain, i - 1)], chain->channel[i])) fault = "a chain is torn";
    }
    if (chain->count == 0) return;
    if (chain->channel[0] != channel) fault = "a chain begins elsewhere";
    if (chain->ending == CIRCLE ? !seen[chain->at] : chain->at != block_behind(net, chain, last)) fault = "a chain ends elsewhere";
}

static struct chain follow_and_look(struct depot *d, uint32_t offer, uint32_t ready, uint32_t channel)
{
    struct chain chain = follow(d, offer, ready, channel);
    if (chain.refusal == 0) look_at_chain(d, offer, ready, channel, &chain);
    return chain;
}

const char *fault_of_chains(void)
{
    const char *found = fault;
    fault = NULL;
    return found;
}

// ---- stalltry

static uint32_t step_once(struct depot *d, uint32_t offer, uint32_t ready)
{
    struct given given;
    return step_bay(d, 0, offer, ready, &given);
}

// The question that a case asks: a stand-in has another one here.
static struct { struct chain (*follow)(struct depot *, uint32_t, uint32_t, uint32_t); } stall_calls = {follow_and_look};

static void print_answer_of(FILE *out, uint32_t channel, const struct chain *chain)
{
    fprintf(out, "ask %u: refusal %u", channel, chain->refusal);
    for (uint32_t i = 0; i < chain->count; i++) fprintf(out, " %u%c", chain->channel[i], chain->lacks_word[i] ? 'v' : 'r');
    if (chain->refusal == 0) fprintf(out, " ending %u at %u", chain->ending, chain->at);
    putc('\n', out);
}

static void print_asked(FILE *out, struct depot *d, uint32_t offer, uint32_t ready, uint32_t channel)
{
    struct chain chain = stall_calls.follow(d, offer, ready, channel);
    print_answer_of(out, channel, &chain);
}

static void print_all_asked(FILE *out, struct depot *d, uint32_t offer, uint32_t ready)
{
    for (uint32_t channel = 0; channel < CHANNELS; channel++) print_asked(out, d, offer, ready, channel);
}

// Obeys an order of a case in which so many ends are held; as many as are lent now are those of the depot.
static void obey_order(FILE *out, struct depot *d, uint32_t ends, const uint32_t *order)
{
    struct state *state = &d->record.state[0];
    uint32_t a = order[1], b = order[2], c = order[3];
    switch (order[0]) {
    case DO_STEP: fprintf(out, "step: refusal %u\n", step_once(d, a, b)); break;
    case ASK: print_asked(out, d, a, b, c); break;
    case ASK_ALL: print_all_asked(out, d, a, b); break;
    case DO_FRESH: fprintf(out, "fresh %u\n", fresh_bays(d)); break;
    case PUT_CHANNELS: d->channels = a % 256; break;
    case PUT_COUNT: state->count = a; break;
    case PUT_WORD: state->reg[a % REGISTERS].word = b; break;
    case PUT_MARKS: state->reg[a % REGISTERS].marks = b % 256; break;
    case LEND: d->end_count = a < ends ? a : ends; break;
    default: break;
    }
}

void print_stalltry(FILE *out, const uint8_t *bytes, size_t len)
{
    static struct depot d;
    size_t at = open_case(&d, bytes, len);
    uint32_t ends = d.end_count, order[4];
    if (at == 0) {
        fprintf(out, "bad case\n");
        return;
    }
    fprintf(out, "load %u\nfresh %u\n", d.refusal, fresh_bays(&d));
    for (; len - at >= ORDER_BYTES; at += ORDER_BYTES) {
        for (unsigned i = 0; i < 4; i++) order[i] = number_at(bytes + at, i);
        obey_order(out, &d, ends, order);
    }
}

// ---- netstall: what it is given

// A number that is above all that can be asked for.
static const uint64_t too_great = (uint64_t)1 << 32;

// The masks of the first cycles; whether the last of them goes on.
struct masks { uint32_t at[MOST_TYPED]; size_t count; int goes_on; };

// The question: numbers above 2^32 - 1 are 2^32.
struct asked {
    uint64_t cycle, channel;
    struct masks offer, ready;
    uint32_t words[MOST_TYPED], ends[MOST_STREAMS];
    size_t word_count, end_count;
};

// Takes digits, one at least.
static int take_number(const char **text, uint64_t *number)
{
    size_t digits = strspn(*text, "0123456789");
    *number = 0;
    for (size_t i = 0; i < digits; i++) {
        *number = 10 * *number + (uint64_t)((*text)[i] - '0');
        if (*number > too_great) *number = too_great;
    }
    *text += digits;
    return digits > 0;
}

// Takes words with commas between them; answers what stands behind the last, or NULL where one is no word or has no room.
static const char *take_words(const char *text, uint32_t *words, size_t room, size_t *count)
{
    for (;; text++) {
        uint64_t number;
        if (!take_number(&text, &number) || number == too_great || *count == room) return NULL;
        words[(*count)++] = (uint32_t)number;
        if (*text != ',') return text;
    }
}

static int take_mask_list(const char *text, struct masks *masks)
{
    masks->count = 0;
    const char *rest = take_words(text, masks->at, MOST_TYPED, &masks->count);
    masks->goes_on = rest && strcmp(rest, "..") == 0;
    return rest && (*rest == 0 || masks->goes_on);
}

// The next stream; an empty text is an empty one.
static int take_stream(const char *text, struct asked *q)
{
    const char *rest = *text ? take_words(text, q->words, MOST_TYPED, &q->word_count) : text;
    if (!rest || *rest || q->end_count == MOST_STREAMS) return 0;
    q->ends[q->end_count++] = (uint32_t)q->word_count;
    return 1;
}

static int take_further(const char *text, struct asked *q)
{
    if (strncmp(text, "offer=", 6) == 0) return take_mask_list(text + 6, &q->offer);
    if (strncmp(text, "ready=", 6) == 0) return take_mask_list(text + 6, &q->ready);
    return take_stream(text, q);
}

static int take_whole_number(const char *text, uint64_t *number)
{
    return take_number(&text, number) && *text == 0;
}

// Whether all arguments are as they should be.
static int take_question(const struct typed *t, struct asked *q)
{
    memset(q, 0, sizeof *q);
    if (t->count < 3 || !t->can_be_read) return 0;
    if (!take_whole_number(t->argument[1], &q->cycle) || !take_whole_number(t->argument[2], &q->channel)) return 0;
    for (unsigned i = 3; i < t->count; i++)
        if (!take_further(t->argument[i], q)) return 0;
    return 1;
}

static uint32_t mask_of(const struct masks *masks, uint64_t cycle)
{
    if (cycle < masks->count) return masks->at[cycle];
    return masks->goes_on ? masks->at[masks->count - 1] : 0xffffffff;
}

// ---- netstall: what it answers

// Without a stream every source gets 1, 2, 3.
static void give_default(struct net *net, struct asked *q)
{
    for (uint32_t k = 0; k < number_kind(net, SOURCE); k++)
        for (uint32_t word = 1; word <= 3; word++) {
            q->words[q->word_count++] = word;
            q->ends[k] = (uint32_t)q->word_count;
            q->end_count = k + 1;
        }
}

static void put_bytes(const uint32_t *numbers, size_t count, uint8_t *bytes)
{
    for (size_t i = 0; i < 4 * count; i++) bytes[i] = (uint8_t)(numbers[i / 4] >> (24 - i % 4 * 8));
}

// The net of a form in its fresh state, with the question's streams.
static void open_form(struct depot *d, const struct typed *t, struct asked *q)
{
    static uint8_t words[4 * MOST_TYPED], ends[4 * MOST_STREAMS];
    memset(d, 0, sizeof *d);
    d->refusal = load(t->form, t->form_len, &d->circuit.net);
    if (d->refusal) return;
    if (q->end_count == 0) give_default(&d->circuit.net, q);
    put_bytes(q->words, q->word_count, words);
    put_bytes(q->ends, q->end_count, ends);
    d->circuit.words = words;
    d->circuit.ends = ends;
    d->word_count = (uint32_t)q->word_count;
    d->end_count = (uint32_t)q->end_count;
    d->channels = d->circuit.net.channels;
    fresh_bays(d);
}

static uint32_t refusal_of_netstall(struct depot *d, const struct asked *q)
{
    if (d->refusal) return d->refusal;
    if (ends_are_bad(d)) return BAD_ENDS;
    if (q->channel >= d->channels) return NO_CHANNEL;
    return q->cycle > CYCLE_LIMIT ? ALLOWANCE_USED : 0;
}

static void run_cycles(struct depot *d, const struct asked *q)
{
    for (uint64_t c = 0; c < q->cycle; c++) step_once(d, mask_of(&q->offer, c), mask_of(&q->ready, c));
}

static void print_chain(FILE *out, uint32_t channel, const struct chain *chain)
{
    static const char *const texts[ENDINGS] = {
        [EMPTY_CHAIN] = "channel %u delivers\n", [IDLE_SOURCE] = "ends at block %u: a source that offers nothing\n",
        [UNREADY_SINK] = "ends at block %u: a sink that is not ready\n", [EMPTY_DATA] = "ends at block %u: an empty data buffer\n",
        [FULL_CONTROL] = "ends at block %u: a full control buffer\n", [CIRCLE] = "ends in a circle: channel %u is met again\n",
        [NO_RULE] = "ends at block %u: no rule names a further channel\n",
    };
    for (uint32_t i = 0; i < chain->count; i++)
        fprintf(out, chain->lacks_word[i] ? "channel %u: no word comes (lacks V)\n" : "channel %u: its word is not taken (lacks R)\n", chain->channel[i]);
    fprintf(out, texts[chain->ending], chain->ending == EMPTY_CHAIN ? channel : chain->at);
}

void print_netstall(FILE *out, FILE *errors, const struct typed *t)
{
    static struct depot d;
    static struct asked q;
    if (!take_question(t, &q)) {
        fprintf(errors, "netstall: ");
        return;
    }
    open_form(&d, t, &q);
    uint32_t refusal = refusal_of_netstall(&d, &q), channel = (uint32_t)q.channel;
    if (refusal) {
        fprintf(out, "refused %u\n", refusal);
        return;
    }
    run_cycles(&d, &q);
    uint32_t offer = mask_of(&q.offer, q.cycle), ready = mask_of(&q.ready, q.cycle);
    struct chain chain = follow_and_look(&d, offer, ready, channel);
    print_chain(out, channel, &chain);
}
