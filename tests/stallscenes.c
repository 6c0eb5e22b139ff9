#include "stallscenes.h"
#include <string.h>

// No more questions for all channels than this in one case: each prints 128 lines.
enum { MOST_ASK_ALL = 4 };

// ---- Orders

unsigned orders_left(const struct scene *s)
{
    return (unsigned)((CASE_ROOM - s->len) / ORDER_BYTES);
}

void order(struct scene *s, uint32_t command, uint32_t a, uint32_t b, uint32_t c)
{
    if (orders_left(s) > 0) put_numbers(s, (uint32_t[]){command, a, b, c}, 4);
}

static struct mask_pair next_pair(struct scene *s, unsigned row)
{
    const uint32_t *masks = s->masks[row % BAYS] + 2 * (s->given[row % BAYS]++ % MASK_CYCLES);
    return (struct mask_pair){masks[0], masks[1]};
}

void take_steps(struct scene *s, unsigned row, unsigned count)
{
    for (unsigned i = 0; i < count; i++) {
        struct mask_pair pair = next_pair(s, row);
        order(s, DO_STEP, pair.offer, pair.ready, 0);
    }
}

// The masks that the next step of a row takes; all or none set; any.
struct mask_pair draw_pair(struct scene *s, struct random *r, unsigned row)
{
    const uint32_t *next = s->masks[row % BAYS] + 2 * (s->given[row % BAYS] % MASK_CYCLES);
    uint32_t offer = random_bits(r), ready = random_bits(r);
    if (chance(r, 2)) return (struct mask_pair){next[0], next[1]};
    return (struct mask_pair){ONE_OF(r, 0, 0xffffffff, 0xffffffff, offer), ONE_OF(r, 0, 0xffffffff, 0xffffffff, ready)};
}

static void ask_channel(struct scene *s, struct random *r, unsigned row, uint32_t channel)
{
    struct mask_pair pair = draw_pair(s, r, row);
    order(s, ASK, pair.offer, pair.ready, channel);
}

static void ask_some(struct scene *s, struct random *r, unsigned row, unsigned count)
{
    for (unsigned i = 0; i < count; i++) ask_channel(s, r, row, below(r, s->draft.channels));
}

static void ask_all(struct scene *s, struct random *r, unsigned row)
{
    struct mask_pair pair = draw_pair(s, r, row);
    order(s, ASK_ALL, pair.offer, pair.ready, 0);
}

// ---- Nets

enum { PLAIN_BLOCKS = 24, TANGLED_BLOCKS = 34 };

void draw_plain(struct scene *s, struct random *r, unsigned i)
{
    (void)i;
    draw_net(s, r, &(struct wish){{2 + below(r, PLAIN_BLOCKS), 96, 16, 16}, chance(r, 2) ? 0 : below(r, 7), 1, patterns_without_merges()});
}

void draw_tangled(struct scene *s, struct random *r, unsigned i)
{
    draw_net(s, r, &(struct wish){{8 + below(r, TANGLED_BLOCKS), 110, 16, 16}, 3 + below(r, 14), 1, i % 3 == 0 ? patterns_without_merges() : ~0u});
}

// A row of up to 64 blocks, or of all 64: a source, operators with constants and at times a data buffer, a sink. Channels have any numbers.
void draw_row(struct scene *s, struct random *r, unsigned i)
{
    unsigned channel[CHANNEL_ROOM], length = i % 2 ? 63 : 1 + below(r, 63), rare = ONE_OF(r, 6, 20, 1000);
    shuffle(r, length, channel);
    s->draft.blocks = 0;
    s->draft.channels = length;
    add_drawn(&s->draft, SINK, 0, 0, &channel[length - 1]);
    for (unsigned n = 1; n < length; n++) {
        unsigned kind = chance(r, rare) ? ONE_OF(r, DATA, FULL_DATA) : CONSTANT;
        add_drawn(&s->draft, kind, kind == CONSTANT ? below(r, 4) : 0, kind == DATA ? 0 : below(r, 9), &channel[n - 1]);
    }
    add_drawn(&s->draft, SOURCE, 0, 0, &channel[0]);
    write_form(&s->draft, &s->form);
    draw_signals(s, r);
}

// ---- Steps and questions

void ask_between_steps(struct scene *s, struct random *r, unsigned i)
{
    unsigned row = below(r, BAYS), all = 0;
    while (orders_left(s) > 0) {
        take_steps(s, row, below(r, i % 2 ? 3 : 9));
        if (all < MOST_ASK_ALL && chance(r, 2)) all++, ask_all(s, r, row);
        else ask_some(s, r, row, 1 + below(r, 6));
        if (chance(r, 4)) row = below(r, BAYS);
    }
}

// Some or all sinks are not ready, some or all sources offer nothing, or both; what goes round goes on.
void ask_when_stalled(struct scene *s, struct random *r, unsigned i)
{
    unsigned row = below(r, BAYS), cycles = 6 + below(r, 60);
    uint32_t offer = i % 3 == 0 ? 0xffffffff : random_bits(r) & ONE_OF(r, 0, 0xffffffff);
    uint32_t ready = i % 3 == 1 ? 0xffffffff : random_bits(r) & ONE_OF(r, 0, 0xffffffff);
    take_steps(s, row, below(r, 12));
    for (unsigned n = 0; n < cycles; n++) {
        order(s, DO_STEP, offer, ready, 0);
        if (chance(r, 16)) order(s, ASK, offer, ready, below(r, s->draft.channels));
    }
    order(s, ASK_ALL, offer, ready, 0);
    ask_all(s, r, row);
    ask_some(s, r, row, 8);
}

// ---- States that are set

// The numbers as the orders take them: the remainder for 64 blocks and for 256 marks counts.
static void put_registers(struct scene *s, struct random *r, unsigned block, struct registers set)
{
    order(s, PUT_WORD, block + 64 * (chance(r, 6) ? below(r, 1000) : 0), set.word, below(r, 9));
    order(s, PUT_MARKS, block + 64 * (chance(r, 6) ? below(r, 1000) : 0), set.marks + 256 * (chance(r, 6) ? below(r, 1000) : 0), below(r, 9));
}

// Registers in shape; buffers hold words that select as a rule.
static struct registers good_registers(struct random *r, const struct drawn *block)
{
    uint32_t m = block->m, winner = below(r, m + 1), any = random_bits(r), word = ONE_OF(r, 0, 0, 1, 1, 2, 3, 7, 8, 9, 0x80000000, any);
    switch (block->kind) {
    case SOURCE: return (struct registers){ONE_OF(r, 0, 1, 2, 5, 30, any), below(r, 2)};
    case FORK: return (struct registers){0, below(r, (1u << m) - 1)};
    case MERGE: return (struct registers){winner, winner > 0 ? below(r, 3) : 0};
    case DATA:
    case FULL_DATA:
    case CONTROL: return chance(r, 2) ? (struct registers){word, 1} : (struct registers){0, 0};
    default: return (struct registers){0, 0};
    }
}

static int has_registers(unsigned kind)
{
    return kind == SOURCE || kind == FORK || kind == MERGE || kind >= DATA;
}

// Most blocks that have registers, as far as there is room for them beside some questions.
static void put_good_state(struct scene *s, struct random *r)
{
    unsigned blocks[BLOCK_ROOM];
    shuffle(r, s->draft.blocks, blocks);
    for (unsigned n = 0; n < s->draft.blocks && orders_left(s) > 10; n++) {
        const struct drawn *block = &s->draft.block[blocks[n]];
        if (has_registers(block->kind) && !chance(r, 4)) put_registers(s, r, blocks[n], good_registers(r, block));
    }
}

void ask_any_state(struct scene *s, struct random *r, unsigned i)
{
    unsigned row = below(r, BAYS), all = 0;
    if (i % 2) take_steps(s, row, below(r, 6));
    while (orders_left(s) > 0) {
        put_good_state(s, r);
        if (all < MOST_ASK_ALL) all++, ask_all(s, r, row);
        ask_some(s, r, row, 2 + below(r, 6));
        take_steps(s, row, below(r, 3));
    }
}

// ---- The count

void ask_at_the_limit(struct scene *s, struct random *r, unsigned i)
{
    unsigned row = below(r, BAYS), all = 0;
    while (orders_left(s) > 0) {
        take_steps(s, row, below(r, 4));
        if (chance(r, 3)) put_good_state(s, r);
        order(s, PUT_COUNT, ONE_OF(r, ALLOWANCE - 1, ALLOWANCE, ALLOWANCE, ALLOWANCE, ALLOWANCE + 1, 0x80000000, 0xffffffff), 0, 0);
        if (all == 0 && i % 2) all++, ask_all(s, r, row);
        ask_some(s, r, row, 1 + below(r, 3));
        take_steps(s, row, 1 + below(r, 2));
        ask_some(s, r, row, 1 + below(r, 3));
        if (chance(r, 3)) ask_channel(s, r, row, draw_no_channel(r, &s->draft));
        order(s, PUT_COUNT, below(r, 9), 0, 0);
    }
}

// ---- What is spoilt

// At the count, at the ends of a byte and of a half, whose last byte or bytes are a channel's.
uint32_t draw_no_channel(struct random *r, const struct draft *d)
{
    uint32_t channels = d->channels, some = below(r, channels), any = random_bits(r), higher = 256 * (1 + any % 0xffffff);
    return ONE_OF(r, channels - 1, channels, channels, channels + 1, 127, 128, 128 + some, 255, 256, 256 + some, 512 + some, 65536 + some, 0x80000000 + some,
                  0xffffff00 + some, 0xffffffff, higher + some, any);
}

void ask_no_channels(struct scene *s, struct random *r, unsigned i)
{
    unsigned row = below(r, BAYS);
    for (unsigned n = 0; n < 60; n++) {
        take_steps(s, row, below(r, 2));
        ask_channel(s, r, row, draw_no_channel(r, &s->draft));
        if (i % 2 && chance(r, 4)) ask_some(s, r, row, 1);
    }
}

// Registers at the edge of what a block may hold, or past it; then 0, which is in shape for every kind.
void ask_spoilt_states(struct scene *s, struct random *r, unsigned i)
{
    static const struct drawn none = {.kind = SINK};
    unsigned row = below(r, BAYS);
    if (i % 2) put_good_state(s, r);
    while (orders_left(s) > 0) {
        unsigned b = some_entry(r, &s->draft);
        put_registers(s, r, b, edge_registers(r, b < s->draft.blocks ? &s->draft.block[b] : &none));
        ask_some(s, r, row, 1 + below(r, 2));
        if (chance(r, 4)) ask_channel(s, r, row, draw_no_channel(r, &s->draft));
        if (chance(r, 3)) take_steps(s, row, 1);
        put_registers(s, r, b, (struct registers){0, 0});
        if (chance(r, 3)) ask_some(s, r, row, 1);
    }
}

// The net's own channel count again, at times with 256 more.
static void put_channels_back(struct scene *s, struct random *r)
{
    order(s, PUT_CHANNELS, s->draft.channels + 256 * (chance(r, 4) ? below(r, 1000) : 0), 0, 0);
}

void ask_spoilt_nets(struct scene *s, struct random *r, unsigned i)
{
    unsigned row = below(r, BAYS);
    while (orders_left(s) > 0) {
        take_steps(s, row, below(r, 6));
        order(s, PUT_CHANNELS, other_channels(r, &s->draft) + 256 * (chance(r, 4) ? below(r, 1000) : 0), 0, 0);
        ask_channel(s, r, row, chance(r, 3) ? draw_no_channel(r, &s->draft) : below(r, s->draft.channels));
        if (chance(r, 3)) take_steps(s, row, 1);
        if (chance(r, i % 2 ? 3 : 9)) order(s, DO_FRESH, 0, 0, 0);
        put_channels_back(s, r);
        ask_some(s, r, row, below(r, 3));
    }
}

void ask_over_some_ends(struct scene *s, struct random *r, unsigned i)
{
    unsigned row = below(r, BAYS);
    uint32_t all = (uint32_t)s->end_count, less = all > 0 ? all - 1 : 0;
    (void)i;
    while (orders_left(s) > 0) {
        take_steps(s, row, below(r, 5));
        order(s, LEND, ONE_OF(r, 0, less, less, all, all, all + 1, 256, 0x80000000, 0xffffffff), 0, 0);
        ask_some(s, r, row, 1 + below(r, 3));
        if (chance(r, 4)) ask_channel(s, r, row, draw_no_channel(r, &s->draft));
        if (chance(r, 6)) order(s, DO_FRESH, 0, 0, 0);
        if (chance(r, 3)) take_steps(s, row, 1);
    }
}

// ---- Several faults at once

enum { WITH_BAD_NET = 1, WITH_BAD_STATE = 2, WITH_BAD_ENDS = 4, WITH_NO_CHANNEL = 8, WITH_THE_LAST_COUNT = 16, SETS_OF_FAULTS = 32 };

// Registers of a block that has none, registers behind the blocks, or a count above the limit.
static void put_bad_state(struct scene *s, struct random *r)
{
    unsigned b = 0;
    while (b < s->draft.blocks && s->draft.block[b].kind != SINK) b++;
    switch (below(r, 3)) {
    case 0: put_registers(s, r, 63, (struct registers){1 + below(r, 9), 0}); break;
    case 1: put_registers(s, r, b % 64, (struct registers){0, 1 + below(r, 255)}); break;
    default: order(s, PUT_COUNT, ALLOWANCE + 1 + below(r, 9), 0, 0); break;
    }
}

static void ask_with_set(struct scene *s, struct random *r, unsigned faults)
{
    uint32_t beyond = s->draft.channels + below(r, 3), any = random_bits(r) | 256;
    order(s, DO_FRESH, 0, 0, 0);
    if (faults & WITH_THE_LAST_COUNT) order(s, PUT_COUNT, ALLOWANCE, 0, 0);
    if (faults & WITH_BAD_STATE) put_bad_state(s, r);
    if (faults & WITH_BAD_ENDS) order(s, LEND, (uint32_t)s->end_count - 1, 0, 0);
    if (faults & WITH_BAD_NET) order(s, PUT_CHANNELS, other_channels(r, &s->draft), 0, 0);
    ask_channel(s, r, 0, faults & WITH_NO_CHANNEL ? ONE_OF(r, beyond, 255, 256, any) : below(r, s->draft.channels));
    if (chance(r, 4)) take_steps(s, 0, 1);
    if (faults & WITH_BAD_NET) put_channels_back(s, r);
    if (faults & WITH_BAD_ENDS) order(s, LEND, 0xffffffff, 0, 0);
}

void ask_with_faults(struct scene *s, struct random *r, unsigned i)
{
    unsigned sets[SETS_OF_FAULTS];
    (void)i;
    shuffle(r, SETS_OF_FAULTS, sets);
    for (unsigned n = 0; n < SETS_OF_FAULTS; n++) ask_with_set(s, r, sets[n]);
}

// ---- Nets that are refused, and fresh states

// The zero net is refused whatever is set.
void ask_refused_nets(struct scene *s, struct random *r, unsigned i)
{
    for (unsigned n = 0; n < 12; n++) {
        ask_channel(s, r, 0, chance(r, 3) ? draw_no_channel(r, &s->draft) : below(r, s->draft.channels));
        if (chance(r, 3)) take_steps(s, 0, 1);
        if (chance(r, 4)) order(s, PUT_CHANNELS, s->draft.channels, 0, 0);
        if (chance(r, 4)) order(s, PUT_COUNT, random_bits(r), 0, 0);
        if (chance(r, 4)) put_registers(s, r, below(r, 64), (struct registers){random_bits(r), below(r, 256)});
        if (chance(r, i % 2 ? 6 : 60)) order(s, DO_FRESH, 0, 0, 0);
        if (chance(r, 20)) ask_all(s, r, 0);
    }
}

void ask_fresh_states(struct scene *s, struct random *r, unsigned i)
{
    unsigned row = below(r, BAYS);
    while (orders_left(s) > 0) {
        take_steps(s, row, below(r, i % 2 ? 12 : 4));
        if (chance(r, 3)) put_good_state(s, r);
        ask_some(s, r, row, below(r, 3));
        order(s, DO_FRESH, 0, 0, 0);
        ask_some(s, r, row, 1 + below(r, 3));
    }
}

// ---- Numbers of no order, and files that are no case

// Those behind the orders, and numbers whose last byte or last two bytes are an order.
static uint32_t no_order(struct random *r)
{
    uint32_t some = below(r, NO_ORDER), any = random_bits(r) | 256;
    return ONE_OF(r, NO_ORDER, NO_ORDER + below(r, 16), 256 + some, 65536 + some, 0x80000000 + some, 0xffffff00 + some, 0xffffffff, any);
}

void give_no_orders(struct scene *s, struct random *r, unsigned i)
{
    (void)i;
    while (orders_left(s) > 0) {
        order(s, no_order(r), below(r, 70), random_bits(r), below(r, 70));
        take_steps(s, 0, below(r, 2));
        ask_some(s, r, 0, below(r, 3));
    }
}

void fill_case(struct scene *s, struct random *r, unsigned i)
{
    (void)i;
    ask_some(s, r, 0, orders_left(s));
}

static void set_number(struct scene *s, unsigned i, uint32_t number)
{
    set_bits(s->bytes, 32 * i, 32, number);
}

// Ends within the header or the parts; a header that promises too much, or so much that sizes go round at 2^32; a rest that is no order, in a file that is short
// or has all its room; nothing but zeros.
enum { SHORT_HEADER, SHORT_PARTS, EXACT_PARTS, BIG_FORM, BIG_WORDS, BIG_ENDS, A_REST, ALL_ROOM, ZEROS, FILE_FAULTS };

void spoil_case_file(struct scene *s, struct random *r, unsigned i)
{
    size_t parts = s->len;
    take_steps(s, 0, 1 + below(r, 5));
    ask_some(s, r, 0, 1 + below(r, 5));
    switch (i % FILE_FAULTS) {
    case SHORT_HEADER: s->len = below(r, HEADER_BYTES); break;
    case SHORT_PARTS: s->len = chance(r, 2) ? parts - 1 : HEADER_BYTES + below(r, (uint32_t)parts - HEADER_BYTES); break;
    case EXACT_PARTS: s->len = parts; break;
    case BIG_FORM: set_number(s, 0, ONE_OF(r, CASE_ROOM, 0xffffffff, 0xfffffff4, 0xfffffff0, 0x80000000, (uint32_t)s->len - HEADER_BYTES + 1)); break;
    case BIG_WORDS: set_number(s, 1, ONE_OF(r, MOST_WORDS + 1, 0x40000000, 0x80000000, 0xffffffff, MOST_WORDS)); break;
    case BIG_ENDS: set_number(s, 2, ONE_OF(r, MOST_ENDS + 1, 0x40000000, 0x80000000, 0xffffffff, MOST_ENDS)); break;
    case A_REST: s->len -= 1 + below(r, ORDER_BYTES - 1); break;
    case ALL_ROOM:
        fill_case(s, r, i);
        while (s->len < CASE_ROOM) s->bytes[s->len++] = 0;
        break;
    default: memset(s->bytes, 0, s->len); break;
    }
}
