// Nets grow from one source joined to one sink: again and again a channel is cut and a small pattern of blocks put in its place.
// Then ends of channels may be swapped, and loops that lack a buffer get one, so that every net made this way is accepted.
#include "generate.h"
#include <string.h>

// ---- Random numbers

uint32_t random_bits(struct random *r)
{
    r->state += 0x9e3779b97f4a7c15u;
    uint64_t z = r->state;
    z = (z ^ z >> 30) * 0xbf58476d1ce4e5b9u;
    z = (z ^ z >> 27) * 0x94d049bb133111ebu;
    return (uint32_t)(z ^ z >> 31);
}

uint32_t below(struct random *r, uint32_t n)
{
    return (uint32_t)((uint64_t)random_bits(r) * n >> 32);
}

int chance(struct random *r, uint32_t n)
{
    return below(r, n) == 0;
}

// ---- Drawing

unsigned inputs_of(unsigned kind, unsigned m)
{
    const unsigned fixed[KINDS] = {0, 1, 2, 1, 1, m + 1, 2, m, 1, 1, 1};
    return fixed[kind];
}

unsigned outputs_of(unsigned kind, unsigned m)
{
    const unsigned fixed[KINDS] = {1, 0, 1, 1, m, 1, m, 2, 1, 1, 1};
    return fixed[kind];
}

unsigned count_kind(const struct draft *d, unsigned kind)
{
    unsigned count = 0;
    for (unsigned b = 0; b < d->blocks; b++) count += d->block[b].kind == kind;
    return count;
}

static unsigned add_block(struct draft *d, unsigned kind, unsigned m, uint32_t value)
{
    d->block[d->blocks] = (struct drawn){.kind = kind, .m = m, .value = value};
    return d->blocks++;
}

static void enter(struct draft *d, unsigned c, unsigned b, unsigned input)
{
    d->to[c] = (struct place){b, input};
    d->block[b].port[input] = c;
}

static void leave(struct draft *d, unsigned c, unsigned b, unsigned output)
{
    unsigned port = inputs_of(d->block[b].kind, d->block[b].m) + output;
    d->from[c] = (struct place){b, port};
    d->block[b].port[port] = c;
}

static void join(struct draft *d, unsigned from, unsigned output, unsigned to, unsigned input)
{
    unsigned c = d->channels++;
    leave(d, c, from, output);
    enter(d, c, to, input);
}

static void feed(struct draft *d, unsigned b, unsigned input)
{
    join(d, add_block(d, SOURCE, 0, 0), 0, b, input);
}

static void drain(struct draft *d, unsigned b, unsigned output)
{
    join(d, b, output, add_block(d, SINK, 0, 0), 0);
}

// Cuts a channel: it keeps its producer and enters the block; the new channel leaves the block and keeps the consumer.
static void put_between(struct draft *d, unsigned c, unsigned first, unsigned input, unsigned last, unsigned output)
{
    struct place consumer = d->to[c];
    unsigned rest = d->channels++;
    enter(d, c, first, input);
    leave(d, rest, last, output);
    enter(d, rest, consumer.block, consumer.port);
}

void add_drawn(struct draft *d, unsigned kind, unsigned m, unsigned value, const unsigned *ports)
{
    unsigned b = add_block(d, kind, m, value), ins = inputs_of(kind, m), outs = outputs_of(kind, m);
    for (unsigned i = 0; i < ins; i++) enter(d, ports[i], b, i);
    for (unsigned i = 0; i < outs; i++) leave(d, ports[ins + i], b, i);
}

// ---- Words and widths

static uint32_t some_word(struct random *r)
{
    static const uint32_t edges[] = {0, 1, 2, 0x7fffffff, 0x80000000, 0xfffffffe, 0xffffffff};
    switch (below(r, 4)) {
    case 0: return edges[below(r, 7)];
    case 1: return random_bits(r);
    default: return below(r, 10);
    }
}

static unsigned some_m(struct random *r)
{
    return chance(r, 6) ? 8 : chance(r, 3) ? 2 + below(r, 7) : 2 + below(r, 2);
}

// ---- Patterns: each puts blocks into channel c

static void grow_pass(struct random *r, struct draft *d, unsigned c)
{
    static const unsigned kinds[] = {CONSTANT, DATA, CONTROL, CONTROL, DATA, FULL_DATA};
    unsigned kind = kinds[below(r, 6)];
    unsigned b = add_block(d, kind, kind == CONSTANT ? below(r, 4) : 0, kind == CONSTANT || kind == FULL_DATA ? some_word(r) : 0);
    put_between(d, c, b, 0, b, 0);
}

static void grow_operator(struct random *r, struct draft *d, unsigned c)
{
    unsigned b = add_block(d, OPERATOR, below(r, 4), 0), side = below(r, 2);
    put_between(d, c, b, side, b, 0);
    feed(d, b, 1 - side);
}

static void grow_diamond(struct random *r, struct draft *d, unsigned c)
{
    unsigned fork = add_block(d, FORK, 2, 0), b = add_block(d, OPERATOR, below(r, 4), 0);
    put_between(d, c, fork, 0, b, 0);
    join(d, fork, 0, b, 0);
    join(d, fork, 1, b, 1);
}

static void grow_fan(struct random *r, struct draft *d, unsigned c)
{
    unsigned m = some_m(r), fork = add_block(d, FORK, m, 0), kept = below(r, m);
    put_between(d, c, fork, 0, fork, kept);
    for (unsigned i = 0; i < m; i++)
        if (i != kept) drain(d, fork, i);
}

static void grow_mux(struct random *r, struct draft *d, unsigned c)
{
    unsigned m = some_m(r), mux = add_block(d, MUX, m, 0), kept = below(r, m + 1);
    put_between(d, c, mux, kept, mux, 0);
    for (unsigned i = 0; i < m + 1; i++)
        if (i != kept) feed(d, mux, i);
}

static void grow_demux(struct random *r, struct draft *d, unsigned c)
{
    unsigned m = some_m(r), demux = add_block(d, DEMUX, m, 0), kept = below(r, m), side = chance(r, 4) ? 0 : 1;
    put_between(d, c, demux, side, demux, kept);
    feed(d, demux, 1 - side);
    for (unsigned i = 0; i < m; i++)
        if (i != kept) drain(d, demux, i);
}

static void grow_merge(struct random *r, struct draft *d, unsigned c)
{
    unsigned m = some_m(r), merge = add_block(d, MERGE, m, 0), input = below(r, m), kept = chance(r, 4);
    put_between(d, c, merge, input, merge, kept);
    drain(d, merge, 1 - kept);
    for (unsigned i = 0; i < m; i++)
        if (i != input) feed(d, merge, i);
}

// A demux spreads the words, a merge gathers them again.
static void grow_gather(struct random *r, struct draft *d, unsigned c)
{
    unsigned m = some_m(r), demux = add_block(d, DEMUX, m, 0), merge = add_block(d, MERGE, m, 0);
    put_between(d, c, demux, 1, merge, 0);
    feed(d, demux, 0);
    drain(d, merge, 1);
    for (unsigned i = 0; i < m; i++) join(d, demux, i, merge, m - 1 - i);
}

// A demux spreads the words, a mux with the same select words gathers them in order.
static void branch(struct draft *d, unsigned c, unsigned m)
{
    unsigned demux = add_block(d, DEMUX, m, 0), mux = add_block(d, MUX, m, 0), fork = add_block(d, FORK, 2, 0);
    put_between(d, c, demux, 1, mux, 0);
    feed(d, fork, 0);
    join(d, fork, 0, demux, 0);
    join(d, fork, 1, mux, 0);
    for (unsigned i = 0; i < m; i++) join(d, demux, i, mux, 1 + i);
}

static void grow_branch(struct random *r, struct draft *d, unsigned c)
{
    branch(d, c, some_m(r));
}

static void grow_wide_branch(struct random *r, struct draft *d, unsigned c)
{
    branch(d, c, 8 - below(r, 2));
}

// A merge shares an operator between users, its report sends each result back to its user.
static void grow_shared(struct random *r, struct draft *d, unsigned c)
{
    unsigned m = some_m(r), merge = add_block(d, MERGE, m, 0), user = below(r, m);
    unsigned shared = add_block(d, CONSTANT, below(r, 4), some_word(r)), demux = add_block(d, DEMUX, m, 0);
    put_between(d, c, merge, user, demux, user);
    join(d, merge, 0, shared, 0);
    join(d, shared, 0, demux, 1);
    join(d, merge, 1, demux, 0);
    for (unsigned i = 0; i < m; i++) {
        if (i == user) continue;
        feed(d, merge, i);
        drain(d, demux, i);
    }
}

// Joins two ports through a data and a control buffer, in either order; the data buffer may begin full.
static void join_back(struct random *r, struct draft *d, unsigned from, unsigned output, unsigned to, unsigned input, int full)
{
    unsigned data = add_block(d, full ? FULL_DATA : DATA, 0, full ? (uint32_t)full : 0), control = add_block(d, CONTROL, 0, 0);
    unsigned data_first = below(r, 2), first = data_first ? data : control, second = data_first ? control : data;
    join(d, from, output, first, 0);
    join(d, first, 0, second, 0);
    join(d, second, 0, to, input);
}

// Running results: an operator whose second operand is its last result.
static void grow_running(struct random *r, struct draft *d, unsigned c)
{
    unsigned b = add_block(d, OPERATOR, below(r, 4), 0), fork = add_block(d, FORK, 2, 0), back = below(r, 2);
    put_between(d, c, b, 0, fork, 1 - back);
    join(d, b, 0, fork, 0);
    join_back(r, d, fork, back, b, 1, chance(r, 8) ? 0 : 1 + (int)below(r, 3));
}

// A test of the word steers it: one way on, the other to a sink.
static void grow_test(struct random *r, struct draft *d, unsigned c)
{
    unsigned fork = add_block(d, FORK, 2, 0), test = add_block(d, CONSTANT, 2 + below(r, 2), some_word(r));
    unsigned demux = add_block(d, DEMUX, 2, 0), kept = below(r, 2);
    put_between(d, c, fork, 0, demux, kept);
    join(d, fork, 0, test, 0);
    join(d, test, 0, demux, 0);
    join(d, fork, 1, demux, 1);
    drain(d, demux, 1 - kept);
}

// A word goes round through a merge, growing, while it is less than a limit.
static void grow_while(struct random *r, struct draft *d, unsigned c)
{
    unsigned merge = add_block(d, MERGE, 2, 0), fork = add_block(d, FORK, 2, 0), back = below(r, 2);
    unsigned test = add_block(d, CONSTANT, 3, 1 + below(r, 9)), demux = add_block(d, DEMUX, 2, 0), step = add_block(d, CONSTANT, 0, 1 + below(r, 3));
    put_between(d, c, merge, 1 - back, demux, 0);
    drain(d, merge, 1);
    join(d, merge, 0, fork, 0);
    join(d, fork, 0, test, 0);
    join(d, test, 0, demux, 0);
    join(d, fork, 1, demux, 1);
    join(d, demux, 1, step, 0);
    join_back(r, d, step, 0, merge, back, 0);
}

// The same through a mux that begins with a 1 on its select: a new word enters when the last has left.
static void grow_repeat(struct random *r, struct draft *d, unsigned c)
{
    unsigned mux = add_block(d, MUX, 2, 0), fork = add_block(d, FORK, 2, 0), test = add_block(d, CONSTANT, 3, 1 + below(r, 9));
    unsigned twice = add_block(d, FORK, 2, 0), negate = add_block(d, CONSTANT, 2, 0), demux = add_block(d, DEMUX, 2, 0);
    unsigned step = add_block(d, CONSTANT, 0, 1 + below(r, 3));
    put_between(d, c, mux, 2, demux, 0);
    join(d, mux, 0, fork, 0);
    join(d, fork, 0, test, 0);
    join(d, fork, 1, demux, 1);
    join(d, test, 0, twice, 0);
    join(d, twice, 0, demux, 0);
    join(d, twice, 1, negate, 0);
    join_back(r, d, negate, 0, mux, 0, 1);
    join(d, demux, 1, step, 0);
    join_back(r, d, step, 0, mux, 1, 0);
}

// A pair of its own beside the rest, or a ring with a word in it.
static void grow_beside(struct random *r, struct draft *d, unsigned c)
{
    (void)c;
    if (chance(r, 2)) feed(d, add_block(d, SINK, 0, 0), 0);
    else {
        unsigned b = add_block(d, CONSTANT, below(r, 4), some_word(r));
        join_back(r, d, b, 0, b, 0, 1 + (int)below(r, 9));
    }
}

typedef void pattern(struct random *, struct draft *, unsigned);
static pattern *const patterns[] = {
    grow_pass, grow_pass, grow_operator, grow_diamond, grow_fan, grow_mux, grow_demux, grow_merge, grow_gather, grow_branch,
    grow_shared, grow_running, grow_test, grow_while, grow_repeat, grow_beside, grow_pass, grow_operator, grow_fan, grow_wide_branch,
};
enum { PATTERNS = sizeof patterns / sizeof patterns[0] };

uint32_t patterns_of_sources(void)
{
    return 1 << 2 | 1 << 5 | 1 << 7;
}

uint32_t patterns_of_sinks(void)
{
    return 1 << 4 | 1 << 6;
}

uint32_t patterns_of_channels(void)
{
    return 1 << 0 | 1 << 3 | 1 << 8 | 1 << 9 | 1 << 19;
}

uint32_t patterns_without_merges(void)
{
    return ~(1u << 7 | 1u << 8 | 1u << 10 | 1u << 13);
}

// ---- Loops

struct search { int data; unsigned depth, trail[BLOCK_ROOM], colour[BLOCK_ROOM]; };

static int breaks(const struct draft *d, unsigned b, int data)
{
    unsigned kind = d->block[b].kind;
    return data ? kind == DATA || kind == FULL_DATA : kind == CONTROL;
}

// Goes on from a block; true when the trail's last channel closes a loop.
static int search_on(const struct draft *d, struct search *s, unsigned b)
{
    unsigned ins = inputs_of(d->block[b].kind, d->block[b].m), outs = outputs_of(d->block[b].kind, d->block[b].m);
    s->colour[b] = 1;
    for (unsigned i = 0; i < outs; i++) {
        unsigned c = d->block[b].port[ins + i], next = d->to[c].block;
        if (breaks(d, next, s->data) || s->colour[next] == 2) continue;
        s->trail[s->depth++] = c;
        if (s->colour[next] == 1 || search_on(d, s, next)) return 1;
        s->depth--;
    }
    s->colour[b] = 2;
    return 0;
}

// Finds a loop that lacks a data or a control buffer; answers its length, its channels at the end of the trail.
static unsigned find_loop(const struct draft *d, struct search *s, int data)
{
    memset(s, 0, sizeof *s);
    s->data = data;
    for (unsigned b = 0; b < d->blocks; b++) {
        if (breaks(d, b, data) || s->colour[b] || !search_on(d, s, b)) continue;
        unsigned goal = d->to[s->trail[s->depth - 1]].block, length = 1;
        while (d->from[s->trail[s->depth - length]].block != goal) length++;
        return length;
    }
    return 0;
}

uint32_t refusal_of_loops(const struct draft *d)
{
    struct search s;
    return find_loop(d, &s, 1) ? 10 : find_loop(d, &s, 0) ? 11 : 0;
}

// Puts buffers on loops that lack one; false when the net outgrows its limits.
static int repair(struct random *r, struct draft *d, const struct limits *limits)
{
    struct search s;
    for (int data = 0; data < 2; data++)
        for (unsigned length; (length = find_loop(d, &s, data)) > 0;) {
            if (d->blocks >= limits->blocks || d->channels >= limits->channels) return 0;
            unsigned kind = !data ? CONTROL : chance(r, 3) ? DATA : FULL_DATA;
            unsigned b = add_block(d, kind, 0, kind == FULL_DATA ? below(r, 3) : 0);
            put_between(d, s.trail[s.depth - 1 - below(r, length)], b, 0, b, 0);
        }
    return 1;
}

// ---- A whole net

static int fits(const struct draft *d, const struct limits *l)
{
    return d->blocks <= l->blocks && d->channels <= l->channels && count_kind(d, SOURCE) <= l->sources && count_kind(d, SINK) <= l->sinks;
}

static void grow(struct random *r, const struct wish *wish, struct draft *d)
{
    struct draft before;
    for (unsigned misses = 0; misses < 12 && d->blocks < wish->limits.blocks;) {
        unsigned which = below(r, PATTERNS);
        if (!(wish->patterns >> which & 1)) continue;
        before = *d;
        patterns[which](r, d, below(r, d->channels));
        if (fits(d, &wish->limits)) continue;
        *d = before;
        misses++;
    }
    while (chance(r, 64) == 0 && d->blocks < wish->limits.blocks && d->channels < wish->limits.channels) grow_pass(r, d, below(r, d->channels));
}

static void swap_ends(struct random *r, struct draft *d)
{
    unsigned a = below(r, d->channels), b = below(r, d->channels);
    struct place to_a = d->to[a], to_b = d->to[b];
    enter(d, a, to_b.block, to_b.port);
    enter(d, b, to_a.block, to_a.port);
}

void shuffle(struct random *r, unsigned count, unsigned *order)
{
    for (unsigned i = 0; i < count; i++) order[i] = i;
    for (unsigned i = count; i > 1; i--) {
        unsigned j = below(r, i), kept = order[i - 1];
        order[i - 1] = order[j];
        order[j] = kept;
    }
}

// Numbers blocks and channels anew, at random or the other way round.
static void renumber(struct random *r, struct draft *d)
{
    unsigned blocks[BLOCK_ROOM], channels[CHANNEL_ROOM], ports[PORT_ROOM];
    struct draft old = *d;
    shuffle(r, d->blocks, blocks);
    shuffle(r, d->channels, channels);
    if (chance(r, 4))
        for (unsigned i = 0; i < d->blocks; i++) blocks[i] = d->blocks - 1 - i;
    d->blocks = 0;
    for (unsigned b = 0; b < old.blocks; b++) {
        const struct drawn *from = &old.block[blocks[b]];
        unsigned count = inputs_of(from->kind, from->m) + outputs_of(from->kind, from->m);
        for (unsigned i = 0; i < count; i++) ports[i] = channels[from->port[i]];
        add_drawn(d, from->kind, from->m, from->value, ports);
    }
}

void draw(struct random *r, const struct wish *wish, struct draft *d)
{
    struct wish smaller = *wish;
    for (;;) {
        d->blocks = d->channels = 0;
        feed(d, add_block(d, SINK, 0, 0), 0);
        grow(r, &smaller, d);
        for (unsigned i = 0; i < wish->swaps; i++) swap_ends(r, d);
        if (!wish->repaired || repair(r, d, &wish->limits)) break;
        if (smaller.limits.blocks > 4) smaller.limits.blocks -= 1 + smaller.limits.blocks / 8;
    }
    if (!chance(r, 4)) renumber(r, d);
}

// ---- The stored form

void set_bits(uint8_t *bytes, size_t at, unsigned width, uint32_t field)
{
    for (unsigned i = 0; i < width; i++) {
        size_t bit = at + i;
        uint8_t one = (uint8_t)(128 >> bit % 8);
        bytes[bit / 8] = field >> (width - 1 - i) & 1 ? bytes[bit / 8] | one : bytes[bit / 8] & (uint8_t)~one;
    }
}

static size_t put_field(struct form *form, unsigned width, uint32_t field)
{
    size_t at = form->end;
    set_bits(form->bytes, at, width, field);
    form->end += width;
    return at;
}

void write_form(const struct draft *d, struct form *form)
{
    memset(form, 0, sizeof *form);
    put_field(form, 4, 1);
    put_field(form, 12, 0);
    put_field(form, 8, d->blocks);
    put_field(form, 8, d->channels);
    for (unsigned b = 0; b < d->blocks; b++) {
        const struct drawn *block = &d->block[b];
        form->kind_at[b] = put_field(form, 4, block->kind);
        form->m_at[b] = put_field(form, 4, block->m);
        if (block->kind == CONSTANT || block->kind == FULL_DATA) form->value_at[b] = put_field(form, 32, block->value);
        for (unsigned i = 0; i < inputs_of(block->kind, block->m) + outputs_of(block->kind, block->m); i++)
            form->port_at[b][i] = put_field(form, 7, block->port[i]);
    }
    form->len = (form->end + 7) / 8;
}

// ---- Streams and masks

// The number of ports that the words on a channel select among, through forks and buffers; 0 where they select nothing.
static unsigned selects(const struct draft *d, unsigned c, unsigned depth)
{
    const struct drawn *b = &d->block[d->to[c].block];
    unsigned m = 0;
    if (depth > 8) return 0;
    if (b->kind == MUX || b->kind == DEMUX) return d->to[c].port == 0 ? b->m : 0;
    if (b->kind == DATA || b->kind == FULL_DATA || b->kind == CONTROL) return selects(d, b->port[1], depth + 1);
    for (unsigned i = 0; b->kind == FORK && m == 0 && i < b->m; i++) m = selects(d, b->port[1 + i], depth + 1);
    return m;
}

// A select word of m ports. One in six is past the last port: just past it, or anywhere.
static uint32_t some_select(struct random *r, unsigned m)
{
    uint32_t any = some_word(r);
    if (!chance(r, 6)) return below(r, m);
    return any < m || chance(r, 2) ? m + below(r, 3) : any;
}

size_t draw_streams(struct random *r, const struct draft *d, unsigned longest, uint32_t *words, uint32_t *ends)
{
    size_t count = 0;
    for (unsigned b = 0, k = 0; b < d->blocks; b++) {
        if (d->block[b].kind != SOURCE) continue;
        unsigned m = selects(d, d->block[b].port[0], 0), length = chance(r, 12) ? 0 : 1 + below(r, longest);
        for (unsigned i = 0; i < length; i++) words[count++] = m == 0 ? some_word(r) : some_select(r, m);
        ends[k++] = (uint32_t)count;
    }
    return count;
}

static uint32_t some_mask(struct random *r, unsigned way)
{
    uint32_t a = random_bits(r), b = random_bits(r), c = random_bits(r);
    switch (way) {
    case MASKS_FULL: return 0xffffffff;
    case MASKS_SPARSE: return a & b & c;
    case MASKS_DENSE: return a | b | c;
    default: return a;
    }
}

void draw_masks(struct random *r, unsigned way, size_t cycles, uint32_t *masks)
{
    uint32_t on[2] = {random_bits(r), random_bits(r)};
    for (size_t i = 0; i < 2 * cycles; i++) {
        unsigned ready = i % 2;
        uint32_t some = some_mask(r, way), rare = random_bits(r) & random_bits(r) & random_bits(r);
        if (way == MASKS_BURSTS) masks[i] = on[ready] ^= rare;
        else if (way == MASKS_SLOW_SINKS) masks[i] = ready ? rare : 0xffffffff;
        else if (way == MASKS_SLOW_SOURCES) masks[i] = ready ? 0xffffffff : rare;
        else masks[i] = some;
    }
}
