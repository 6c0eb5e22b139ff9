#include "diffpairs.h"
#include "model.h"
#include <stdio.h>
#include <stdlib.h>
#include <string.h>

enum { SHORT_RECORDS = 60, SHORT_CHANNELS = 6, LAST_CYCLE = (1 << 25) - 1 };

// ---- Records

size_t records_of(const struct recording *t)
{
    return t->len / RECORD_BYTES;
}

static uint8_t *record(struct recording *t, size_t i)
{
    return t->bytes + i * RECORD_BYTES;
}

static unsigned channel_of(const uint8_t *record)
{
    return record[CHANNEL_AT] % CHANNELS;
}

static uint32_t word_of(const uint8_t *record)
{
    uint32_t word = 0;
    for (unsigned i = WORD_AT; i < RECORD_BYTES; i++) word = word << 8 | record[i];
    return word;
}

static void set_record(uint8_t *record, uint32_t cycle, unsigned channel, uint32_t word)
{
    uint64_t all = (uint64_t)cycle << 39 | (uint64_t)channel << 32 | word;
    for (unsigned i = 0; i < RECORD_BYTES; i++) record[i] = (uint8_t)(all >> (56 - 8 * i));
}

static void set_word(uint8_t *record, uint32_t word)
{
    for (unsigned i = WORD_AT; i < RECORD_BYTES; i++) record[i] = (uint8_t)(word >> (56 - 8 * i));
}

static void copy(const struct recording *from, struct recording *to)
{
    to->len = from->len;
    memcpy(to->bytes, from->bytes, from->len);
}

// ---- What stands in records

// Few words, so that they come again; words at the edges of bytes; any.
enum { FEW_WORDS, EDGE_WORDS, ANY_WORDS, WORD_WAYS };

static uint32_t draw_word(struct random *r, unsigned way)
{
    switch (way) {
    case FEW_WORDS: return below(r, 3);
    case EDGE_WORDS: return ONE_OF(r, 0, 1, 255, 256, 65535, 65536, 0xffffff, 0x1000000, 0x7fffffff, 0x80000000, 0xfffffffe, 0xffffffff);
    default: return random_bits(r);
    }
}

// Cycles rise as in a run; are all the last; are any.
enum { CYCLES_RISE, CYCLES_LAST, CYCLES_ANY, CYCLE_WAYS };

static uint32_t draw_cycle(struct random *r, unsigned way, uint32_t before)
{
    return way == CYCLES_RISE ? before + below(r, 3) : way == CYCLES_LAST ? LAST_CYCLE : below(r, LAST_CYCLE + 1);
}

// Channels at the edges; channels that are 64 apart, and 1; any.
static void draw_channels(struct pair *p, struct random *r, unsigned most)
{
    static const unsigned edges[] = {0, 64, 63, 127, 1, 126};
    unsigned way = below(r, 3), any = below(r, CHANNELS);
    p->count = 1 + below(r, most);
    for (unsigned k = 0; k < p->count; k++) p->channel[k] = way == 0 ? edges[k % 6] : way == 1 ? (any + 64 * k + k / 2) % CHANNELS : below(r, CHANNELS);
}

static void take_all_channels(struct pair *p)
{
    p->count = CHANNELS;
    for (unsigned c = 0; c < CHANNELS; c++) p->channel[c] = c;
}

// Adds records on some of the channels, while there is room.
static void add_records(const struct pair *p, struct recording *t, struct random *r, size_t count, unsigned first, unsigned channels)
{
    unsigned words = below(r, WORD_WAYS), cycles = below(r, CYCLE_WAYS);
    uint32_t cycle = 0;
    for (size_t n = 0; n < count && t->len < TRACE_ROOM; n++, t->len += RECORD_BYTES) {
        cycle = draw_cycle(r, cycles, cycle);
        set_record(t->bytes + t->len, cycle, p->channel[first + below(r, channels)], draw_word(r, words));
    }
}

// ---- Short traces

void draw_short(struct pair *p, struct random *r, unsigned i)
{
    (void)i;
    draw_channels(p, r, SHORT_CHANNELS);
    p->trace[0].len = 0;
    add_records(p, &p->trace[0], r, chance(r, 5) ? below(r, 4) : below(r, SHORT_RECORDS), 0, p->count);
    copy(&p->trace[0], &p->trace[1]);
}

// As many words on one channel as the longest list has, about; at times on two.
void draw_listed(struct pair *p, struct random *r, unsigned i)
{
    size_t count = MOST_LISTED - 3 + below(r, 7);
    draw_channels(p, r, 1);
    p->trace[0].len = 0;
    add_records(p, &p->trace[0], r, count, 0, 1);
    if (i % 2) {
        p->channel[p->count++] = (p->channel[0] + 64) % CHANNELS;
        add_records(p, &p->trace[0], r, below(r, 9), 1, 1);
    }
    copy(&p->trace[0], &p->trace[1]);
}

// Both traces together are as long as a case has room for; any channels.
void draw_roomy(struct pair *p, struct random *r, unsigned i)
{
    size_t all = (CASE_ROOM - CASE_HEADER) / RECORD_BYTES, some = i % 2 ? all / 2 : below(r, (uint32_t)all / 2);
    take_all_channels(p);
    p->trace[0].len = 0;
    add_records(p, &p->trace[0], r, some, 0, p->count);
    copy(&p->trace[0], &p->trace[1]);
    add_records(p, &p->trace[1], r, all - 2 * some, 0, p->count);
}

// ---- Changes

static struct recording *either(struct pair *p, struct random *r)
{
    return &p->trace[below(r, 2)];
}

// The first record, the last one, or any.
static size_t pick(struct random *r, const struct recording *t)
{
    size_t count = records_of(t);
    return chance(r, 4) ? 0 : chance(r, 3) ? count - 1 : below(r, (uint32_t)count);
}

// Puts a channel before the others.
static void put_first(struct pair *p, unsigned channel)
{
    unsigned k = 0;
    while (k + 1 < p->count && p->channel[k] != channel) k++;
    p->channel[k] = p->channel[0];
    p->channel[0] = channel;
}

void change_nothing(struct pair *p, struct random *r, unsigned i)
{
    (void)p, (void)r, (void)i;
}

void cut_records(struct pair *p, struct random *r, unsigned i)
{
    struct recording *t = either(p, r);
    size_t count = records_of(t);
    (void)i;
    if (count > 0) t->len = (chance(r, 3) ? count - 1 : below(r, (uint32_t)count)) * RECORD_BYTES;
}

static void change_word_at(struct pair *p, struct random *r, struct recording *t, size_t n)
{
    uint32_t word = word_of(record(t, n)), any = 1 + below(r, 0xffffffff), bit = 1u << below(r, 32), top = 1 + below(r, 255);
    set_word(record(t, n), ONE_OF(r, word ^ any, word ^ bit, word ^ top << 24, word + 1, ~word));
    put_first(p, channel_of(record(t, n)));
}

void change_word(struct pair *p, struct random *r, unsigned i)
{
    struct recording *t = either(p, r);
    (void)i;
    if (t->len > 0) change_word_at(p, r, t, pick(r, t));
}

void drop_record(struct pair *p, struct random *r, unsigned i)
{
    struct recording *t = either(p, r);
    (void)i;
    if (t->len == 0) return;
    size_t n = pick(r, t);
    put_first(p, channel_of(record(t, n)));
    t->len -= RECORD_BYTES;
    memmove(record(t, n), record(t, n + 1), t->len - n * RECORD_BYTES);
}

void double_record(struct pair *p, struct random *r, unsigned i)
{
    struct recording *t = either(p, r);
    (void)i;
    if (t->len == 0 || t->len == TRACE_ROOM) return;
    size_t n = pick(r, t);
    put_first(p, channel_of(record(t, n)));
    memmove(record(t, n + 1), record(t, n), t->len - n * RECORD_BYTES);
    t->len += RECORD_BYTES;
}

// With the next record of the channel that has another word, if there is one.
void exchange_words(struct pair *p, struct random *r, unsigned i)
{
    struct recording *t = either(p, r);
    (void)i;
    if (t->len == 0) return;
    size_t n = chance(r, 2) ? 0 : pick(r, t), m = n + 1;
    uint8_t *one = record(t, n);
    while (m < records_of(t) && (channel_of(record(t, m)) != channel_of(one) || word_of(record(t, m)) == word_of(one))) m++;
    if (m == records_of(t)) return;
    uint32_t word = word_of(one);
    set_word(one, word_of(record(t, m)));
    set_word(record(t, m), word);
    put_first(p, channel_of(one));
}

void change_cycles(struct pair *p, struct random *r, unsigned i)
{
    struct recording *t = either(p, r);
    unsigned way = below(r, CYCLE_WAYS);
    uint32_t cycle = 0;
    (void)i;
    for (size_t n = 0; n < records_of(t); n++) {
        cycle = draw_cycle(r, way, cycle);
        set_record(record(t, n), cycle, channel_of(record(t, n)), word_of(record(t, n)));
    }
}

// The channels come in a random order; each time its channel's next record is taken.
void change_order(struct pair *p, struct random *r, unsigned i)
{
    static struct recording old;
    static unsigned order[TRACE_ROOM / RECORD_BYTES];
    struct recording *t = either(p, r);
    size_t next[CHANNELS] = {0};
    copy(t, &old);
    shuffle(r, (unsigned)records_of(t), order);
    for (size_t n = 0; n < records_of(t); n++) {
        unsigned c = channel_of(record(&old, order[n]));
        while (channel_of(record(&old, next[c])) != c) next[c]++;
        memcpy(record(t, n), record(&old, next[c]++), RECORD_BYTES);
    }
    if (chance(r, 2)) change_cycles(p, r, i);
}

void change_some(struct pair *p, struct random *r, unsigned i)
{
    static pair_rule *const rules[] = {change_word, drop_record, double_record, exchange_words, cut_records, change_order, change_order, change_cycles};
    for (unsigned n = 1 + below(r, 4); n > 0; n--) rules[below(r, sizeof rules / sizeof rules[0])](p, r, i);
}

void draw_others(struct pair *p, struct random *r, unsigned i)
{
    struct recording *t = either(p, r);
    (void)i;
    t->len = 0;
    add_records(p, t, r, below(r, SHORT_RECORDS), 0, p->count);
}

// ---- Changes of long traces

// A place in a block: the first, the last, or any.
static uint32_t draw_place(struct random *r)
{
    uint32_t any = below(r, BLOCK_RECORDS);
    return ONE_OF(r, 0, BLOCK_RECORDS - 1, any);
}

// The first or the last record of a block, or of the trace.
void change_at_edge(struct pair *p, struct random *r, unsigned i)
{
    struct recording *t = either(p, r);
    size_t count = records_of(t), edge = BLOCK_RECORDS * (size_t)below(r, (uint32_t)count / BLOCK_RECORDS + 1);
    (void)i;
    if (count == 0) return;
    if (chance(r, 4)) edge = count - 1;
    else if (edge > 0 && chance(r, 2)) edge--;
    change_word_at(p, r, t, edge < count ? edge : count - 1);
}

// The rest is about some blocks long.
void cut_blocks(struct pair *p, struct random *r, unsigned i)
{
    struct recording *t = either(p, r);
    size_t count = records_of(t), left = BLOCK_RECORDS * (size_t)below(r, (uint32_t)count / BLOCK_RECORDS + 1);
    (void)i;
    if (chance(r, 2)) left += draw_place(r);
    if (left < count) t->len = left * RECORD_BYTES;
}

void change_any(struct pair *p, struct random *r, unsigned i)
{
    static pair_rule *const rules[] = {change_nothing, change_word, change_at_edge, change_at_edge, drop_record, double_record, exchange_words, cut_blocks};
    rules[below(r, sizeof rules / sizeof rules[0])](p, r, i);
}

// ---- Traces of several blocks

// About as long as some blocks.
static size_t draw_length(struct random *r)
{
    size_t blocks = (size_t)BLOCK_RECORDS * (1 + below(r, MOST_BLOCKS));
    return chance(r, 2) ? blocks + below(r, 3) - 1 : blocks - below(r, BLOCK_RECORDS);
}

void draw_alone(struct pair *p, struct random *r, unsigned i)
{
    (void)i;
    draw_channels(p, r, 1);
    p->trace[0].len = 0;
    add_records(p, &p->trace[0], r, draw_length(r), 0, 1);
    copy(&p->trace[0], &p->trace[1]);
}

// Some channels, at times all.
void draw_mixed(struct pair *p, struct random *r, unsigned i)
{
    draw_channels(p, r, SHORT_CHANNELS);
    if (i % 3 == 2) take_all_channels(p);
    p->trace[0].len = 0;
    add_records(p, &p->trace[0], r, draw_length(r), 0, p->count);
    copy(&p->trace[0], &p->trace[1]);
    change_order(p, r, i);
}

// A channel, and two others that stand between its words.
static void begin_parted(struct pair *p, struct random *r)
{
    unsigned channel = below(r, CHANNELS);
    p->count = 3;
    p->channel[0] = channel;
    p->channel[1] = (channel + 64) % CHANNELS;
    p->channel[2] = (channel + 1 + below(r, CHANNELS - 1)) % CHANNELS;
    p->trace[0].len = 0;
}

static void add_own(struct pair *p, struct random *r, size_t count)
{
    add_records(p, &p->trace[0], r, count, 0, 1);
}

static void add_between(struct pair *p, struct random *r, size_t count)
{
    add_records(p, &p->trace[0], r, count, 1, 2);
}

// The second trace: the first one, of which so many records go behind so many that follow them.
static void change_places(struct pair *p, size_t first, size_t second)
{
    copy(&p->trace[0], &p->trace[1]);
    memcpy(record(&p->trace[1], 0), record(&p->trace[0], first), second * RECORD_BYTES);
    memcpy(record(&p->trace[1], second), record(&p->trace[0], 0), first * RECORD_BYTES);
}

// By more than a block.
void draw_ahead(struct pair *p, struct random *r, unsigned i)
{
    size_t own = BLOCK_RECORDS + 1 + below(r, 3 * BLOCK_RECORDS / 2), between = BLOCK_RECORDS + 1 + below(r, 3 * BLOCK_RECORDS / 2);
    begin_parted(p, r);
    if (i % 2) {
        add_own(p, r, own);
        add_between(p, r, between);
        change_places(p, own, between);
    } else {
        add_between(p, r, between);
        add_own(p, r, own);
        change_places(p, between, own);
    }
}

// One of the records within each block goes to another place there.
static void move_in_blocks(struct recording *t, struct random *r, unsigned channel)
{
    uint8_t kept[RECORD_BYTES];
    for (size_t block = 0; block < records_of(t); block += BLOCK_RECORDS) {
        size_t n = block, last = block + BLOCK_RECORDS - 1, to = block + draw_place(r);
        while (n < last && channel_of(record(t, n)) != channel) n++;
        memcpy(kept, record(t, n), RECORD_BYTES);
        memmove(record(t, n), record(t, n + 1), (last - n) * RECORD_BYTES);
        memmove(record(t, to + 1), record(t, to), (last - to) * RECORD_BYTES);
        memcpy(record(t, to), kept, RECORD_BYTES);
    }
}

void draw_sparse(struct pair *p, struct random *r, unsigned i)
{
    (void)i;
    begin_parted(p, r);
    for (unsigned blocks = 1 + below(r, MOST_BLOCKS); blocks > 0; blocks--) {
        size_t before = draw_place(r);
        add_between(p, r, before);
        add_own(p, r, 1);
        add_between(p, r, BLOCK_RECORDS - 1 - before);
    }
    copy(&p->trace[0], &p->trace[1]);
    move_in_blocks(&p->trace[1], r, p->channel[0]);
}

void draw_to_a_block(struct pair *p, struct random *r, unsigned i)
{
    size_t both = (size_t)BLOCK_RECORDS * (1 + below(r, MOST_BLOCKS - 1)), own = 1 + below(r, (uint32_t)both);
    begin_parted(p, r);
    add_between(p, r, both - own);
    add_own(p, r, own);
    if (i % 2) add_between(p, r, below(r, BLOCK_RECORDS));
    if (chance(r, 3)) copy(&p->trace[0], &p->trace[1]);
    else change_places(p, both - own, own);
}

// ---- Two runs of one net

enum { CYCLES = 160, MANY_CYCLES = 320, LONGEST_STREAM = 40, SOURCE_ROOM = 32, WORD_ROOM = SOURCE_ROOM * LONGEST_STREAM };

// A net with its streams, and the masks of one run, as numbers and as bytes.
struct stage {
    struct draft draft;
    struct form form;
    uint32_t words[WORD_ROOM], ends[SOURCE_ROOM], masks[2 * MANY_CYCLES];
    uint8_t word_bytes[4 * WORD_ROOM], end_bytes[4 * SOURCE_ROOM], mask_bytes[8 * MANY_CYCLES];
    size_t word_count, end_count;
};

static void put_bytes(const uint32_t *numbers, size_t count, uint8_t *bytes)
{
    for (size_t i = 0; i < 4 * count; i++) bytes[i] = (uint8_t)(numbers[i / 4] >> (24 - i % 4 * 8));
}

static void draw_stage(struct stage *s, struct random *r, uint32_t patterns)
{
    const struct wish wish = {{2 + below(r, chance(r, 2) ? 16 : 63), CHANNELS, SOURCE_ROOM, SOURCE_ROOM}, chance(r, 3) ? 1 + below(r, 9) : 0, 1, patterns};
    draw(r, &wish, &s->draft);
    write_form(&s->draft, &s->form);
    s->word_count = draw_streams(r, &s->draft, LONGEST_STREAM, s->words, s->ends);
    s->end_count = count_kind(&s->draft, SOURCE);
    put_bytes(s->words, s->word_count, s->word_bytes);
    put_bytes(s->ends, s->end_count, s->end_bytes);
}

// A run from fresh with masks of its own; at times its trace is too short for all of it.
static void record_run(struct stage *s, struct random *r, unsigned longest, struct recording *t)
{
    size_t cycles = chance(r, 20) ? 0 : longest / 4 + below(r, 3 * longest / 4), room = cycles * s->draft.channels * RECORD_BYTES;
    if (room > TRACE_ROOM) room = TRACE_ROOM;
    if (chance(r, 6)) room = below(r, (uint32_t)room + 1);
    draw_masks(r, below(r, MASK_WAYS), cycles, s->masks);
    put_bytes(s->masks, 2 * cycles, s->mask_bytes);
    uint64_t answer = model_run(s->form.bytes, s->form.len, s->word_bytes, 4 * s->word_count, s->end_bytes, 4 * s->end_count, s->mask_bytes, 8 * cycles,
                                t->bytes, room);
    if (answer >> 56 != 0) {
        fprintf(stderr, "a run is refused: %u\n", (unsigned)(answer >> 56));
        exit(2);
    }
    t->len = (answer & 0x1fffffff) * RECORD_BYTES;
}

static void record_runs(struct pair *p, struct stage *s, struct random *r, unsigned i)
{
    unsigned longest = i % 6 == 5 ? MANY_CYCLES : CYCLES;
    take_all_channels(p);
    p->count = s->draft.channels;
    put_first(p, below(r, p->count));
    for (unsigned k = 0; k < 2; k++) record_run(s, r, longest, &p->trace[k]);
}

void draw_plain_runs(struct pair *p, struct random *r, unsigned i)
{
    static struct stage s;
    draw_stage(&s, r, i % 4 == 1 ? patterns_of_channels() & patterns_without_merges() : patterns_without_merges());
    if (count_kind(&s.draft, MERGE) > 0) {
        fprintf(stderr, "a pattern that adds no merge has added one\n");
        exit(2);
    }
    record_runs(p, &s, r, i);
}

void draw_merging_runs(struct pair *p, struct random *r, unsigned i)
{
    static struct stage s;
    do draw_stage(&s, r, ~0u);
    while (count_kind(&s.draft, MERGE) == 0);
    record_runs(p, &s, r, i);
}
