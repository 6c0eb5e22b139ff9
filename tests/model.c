// Document 01 in plain C, in the document's own order and words: made to be read beside it, not to be fast.
// It shares no code and no method with the library: loops are searched for, and a cycle is swept until nothing changes.
#include "model.h"
#include <string.h>

enum { SOURCE, SINK, OPERATOR, CONSTANT, FORK, MUX, DEMUX, MERGE, DATA, FULL_DATA, CONTROL, KINDS };
enum { ADD, SUBTRACT, EQUAL, LESS };
enum { CYCLE_LIMIT = 1048576 };

struct block { uint32_t kind, m, value, ins, outs, in[9], out[8], number; };
struct net { uint32_t blocks, channels, reader[128]; struct block block[64]; };
struct reg { uint32_t word, marks; };
struct wire { uint32_t valid, ready, word; };

// A net at work: its registers, this cycle's signals by channel, the streams, and this cycle's masks.
struct circuit {
    struct net net;
    struct reg reg[64];
    struct wire wire[128];
    const uint8_t *words, *ends;
    uint32_t offers, takes;
};

// ---- Blocks and ports

// The range of m, and the ports: ins + m * ins_by_m inputs, outs + m * outs_by_m outputs.
static const struct { uint32_t least, most, ins, ins_by_m, outs, outs_by_m; } shapes[KINDS] = {
    [SOURCE] = {0, 0, 0, 0, 1, 0}, [SINK] = {0, 0, 1, 0, 0, 0},    [OPERATOR] = {0, 3, 2, 0, 1, 0},  [CONSTANT] = {0, 3, 1, 0, 1, 0},
    [FORK] = {2, 8, 1, 0, 0, 1},   [MUX] = {2, 8, 1, 1, 1, 0},     [DEMUX] = {2, 8, 2, 0, 0, 1},     [MERGE] = {2, 8, 0, 1, 2, 0},
    [DATA] = {0, 0, 1, 0, 1, 0},   [FULL_DATA] = {0, 0, 1, 0, 1, 0}, [CONTROL] = {0, 0, 1, 0, 1, 0},
};

static uint32_t compute(uint32_t operation, uint32_t first, uint32_t second)
{
    switch (operation) {
    case ADD: return first + second;
    case SUBTRACT: return first - second;
    case EQUAL: return first == second;
    default: return first < second;
    }
}

// ---- The stored form

struct bits { const uint8_t *bytes; size_t count, at; };

// Takes a field, most significant bit first; false when the bytes end within it.
static int take(struct bits *from, unsigned width, uint32_t *field)
{
    if (from->count - from->at < width) return 0;
    *field = 0;
    for (unsigned i = 0; i < width; i++, from->at++)
        *field = *field << 1 | (from->bytes[from->at / 8] >> (7 - from->at % 8) & 1);
    return 1;
}

static int load_header(struct bits *from, struct net *net)
{
    uint32_t edition, reserved;
    if (!take(from, 4, &edition)) return 1;
    if (edition != 1) return 2;
    if (!take(from, 12, &reserved)) return 1;
    if (reserved != 0) return 2;
    if (!take(from, 8, &net->blocks)) return 1;
    if (net->blocks < 2 || net->blocks > 64) return 3;
    if (!take(from, 8, &net->channels)) return 1;
    if (net->channels < 1 || net->channels > 128) return 3;
    return 0;
}

static int load_ports(struct bits *from, uint32_t channels, uint32_t count, uint32_t *ports)
{
    for (uint32_t i = 0; i < count; i++) {
        if (!take(from, 7, &ports[i])) return 1;
        if (ports[i] >= channels) return 6;
    }
    return 0;
}

static int load_block(struct bits *from, uint32_t channels, struct block *b)
{
    if (!take(from, 4, &b->kind)) return 1;
    if (b->kind > 10) return 4;
    if (!take(from, 4, &b->m)) return 1;
    if (b->m < shapes[b->kind].least || b->m > shapes[b->kind].most) return 5;
    if ((b->kind == CONSTANT || b->kind == FULL_DATA) && !take(from, 32, &b->value)) return 1;
    b->ins = shapes[b->kind].ins + b->m * shapes[b->kind].ins_by_m;
    b->outs = shapes[b->kind].outs + b->m * shapes[b->kind].outs_by_m;
    int refusal = load_ports(from, channels, b->ins, b->in);
    return refusal ? refusal : load_ports(from, channels, b->outs, b->out);
}

static int load_padding(struct bits *from)
{
    uint32_t bit;
    while (from->at % 8 != 0) {
        take(from, 1, &bit);
        if (bit) return 7;
    }
    return from->at < from->count ? 7 : 0;
}

// ---- Checks of a net

static int wrongly_wired(const struct net *net)
{
    for (uint32_t c = 0; c < net->channels; c++) {
        uint32_t leaves = 0, enters = 0;
        for (uint32_t b = 0; b < net->blocks; b++) {
            for (uint32_t i = 0; i < net->block[b].ins; i++) enters += net->block[b].in[i] == c;
            for (uint32_t i = 0; i < net->block[b].outs; i++) leaves += net->block[b].out[i] == c;
        }
        if (leaves != 1 || enters != 1) return 1;
    }
    return 0;
}

// Numbers the blocks of a kind by block order and counts them.
static uint32_t number_kind(struct net *net, uint32_t kind)
{
    uint32_t count = 0;
    for (uint32_t b = 0; b < net->blocks; b++)
        if (net->block[b].kind == kind) net->block[b].number = count++;
    return count;
}

static int is_data(uint32_t kind)
{
    return kind == DATA || kind == FULL_DATA;
}

static int is_control(uint32_t kind)
{
    return kind == CONTROL;
}

// Notes for each channel the block that it enters.
static void note_readers(struct net *net)
{
    for (uint32_t b = 0; b < net->blocks; b++)
        for (uint32_t i = 0; i < net->block[b].ins; i++) net->reader[net->block[b].in[i]] = b;
}

// Whether a walk along channels from a block comes to the goal and meets no avoided kind.
static int walks_to(const struct net *net, uint32_t from, uint32_t goal, int (*avoided)(uint32_t), int *seen)
{
    for (uint32_t i = 0; i < net->block[from].outs; i++) {
        uint32_t next = net->reader[net->block[from].out[i]];
        if (avoided(net->block[next].kind)) continue;
        if (next == goal) return 1;
        if (seen[next]++) continue;
        if (walks_to(net, next, goal, avoided, seen)) return 1;
    }
    return 0;
}

static int loop_without(const struct net *net, int (*avoided)(uint32_t))
{
    for (uint32_t start = 0; start < net->blocks; start++) {
        int seen[64] = {0};
        if (!avoided(net->block[start].kind) && walks_to(net, start, start, avoided, seen)) return 1;
    }
    return 0;
}

static uint32_t load(const uint8_t *form, size_t form_len, struct net *net)
{
    struct bits from = {form, form_len * 8, 0};
    int refusal = load_header(&from, net);
    for (uint32_t b = 0; !refusal && b < net->blocks; b++) refusal = load_block(&from, net->channels, &net->block[b]);
    if (!refusal) refusal = load_padding(&from);
    if (refusal) return refusal;
    if (wrongly_wired(net)) return 8;
    note_readers(net);
    uint32_t sources = number_kind(net, SOURCE), sinks = number_kind(net, SINK);
    if (sources > 32 || sinks > 32) return 9;
    if (loop_without(net, is_data)) return 10;
    if (loop_without(net, is_control)) return 11;
    return 0;
}

// ---- One cycle: for each kind what its outputs show, which inputs are ready, and its registers afterwards

static struct wire *in(struct circuit *s, const struct block *b, uint32_t i)
{
    return &s->wire[b->in[i]];
}

static struct wire *out(struct circuit *s, const struct block *b, uint32_t i)
{
    return &s->wire[b->out[i]];
}

static void show(struct wire *w, int valid, uint32_t word)
{
    w->valid = valid;
    w->word = valid ? word : 0;
}

static int delivers(const struct wire *w)
{
    return w->valid && w->ready;
}

static uint32_t number_at(const uint8_t *bytes, size_t i)
{
    bytes += 4 * i;
    return (uint32_t)bytes[0] << 24 | (uint32_t)bytes[1] << 16 | (uint32_t)bytes[2] << 8 | bytes[3];
}

static void source_show(struct circuit *s, const struct block *b, const struct reg *r)
{
    uint32_t start = b->number > 0 ? number_at(s->ends, b->number - 1) : 0;
    uint32_t length = number_at(s->ends, b->number) - start;
    int held = r->marks, offered = s->offers >> b->number & 1;
    if (r->word < length && (held || offered)) show(out(s, b, 0), 1, number_at(s->words, (size_t)start + r->word));
    else show(out(s, b, 0), 0, 0);
}

static void source_next(struct circuit *s, const struct block *b, struct reg *r)
{
    if (delivers(out(s, b, 0))) *r = (struct reg){r->word + 1, 0};
    else r->marks = out(s, b, 0)->valid;
}

static void sink_ready(struct circuit *s, const struct block *b, const struct reg *r)
{
    (void)r;
    in(s, b, 0)->ready = s->takes >> b->number & 1;
}

static void operator_show(struct circuit *s, const struct block *b, const struct reg *r)
{
    (void)r;
    struct wire *x = in(s, b, 0), *y = in(s, b, 1);
    show(out(s, b, 0), x->valid && y->valid, compute(b->m, x->word, y->word));
}

static void constant_show(struct circuit *s, const struct block *b, const struct reg *r)
{
    (void)r;
    show(out(s, b, 0), in(s, b, 0)->valid, compute(b->m, in(s, b, 0)->word, b->value));
}

static void operator_ready(struct circuit *s, const struct block *b, const struct reg *r)
{
    (void)r;
    for (uint32_t i = 0; i < b->ins; i++) in(s, b, i)->ready = delivers(out(s, b, 0));
}

static void fork_show(struct circuit *s, const struct block *b, const struct reg *r)
{
    for (uint32_t i = 0; i < b->m; i++) show(out(s, b, i), in(s, b, 0)->valid && !(r->marks >> i & 1), in(s, b, 0)->word);
}

static void fork_ready(struct circuit *s, const struct block *b, const struct reg *r)
{
    int all_done = 1;
    for (uint32_t i = 0; i < b->m; i++)
        if (!(r->marks >> i & 1) && !delivers(out(s, b, i))) all_done = 0;
    in(s, b, 0)->ready = in(s, b, 0)->valid && all_done;
}

static void fork_next(struct circuit *s, const struct block *b, struct reg *r)
{
    for (uint32_t i = 0; i < b->m; i++)
        if (delivers(out(s, b, i))) r->marks |= 1u << i;
    if (in(s, b, 0)->ready) r->marks = 0;
}

// The port that the select word names: that of its own number, or the last one where the word is at or above m.
static uint32_t selected(struct circuit *s, const struct block *b)
{
    uint32_t word = in(s, b, 0)->word;
    return word < b->m ? word : b->m - 1;
}

static void mux_show(struct circuit *s, const struct block *b, const struct reg *r)
{
    (void)r;
    struct wire *chosen = in(s, b, 1 + selected(s, b));
    show(out(s, b, 0), in(s, b, 0)->valid && chosen->valid, chosen->word);
}

static void mux_ready(struct circuit *s, const struct block *b, const struct reg *r)
{
    (void)r;
    for (uint32_t i = 0; i < b->m; i++) in(s, b, 1 + i)->ready = delivers(out(s, b, 0)) && selected(s, b) == i;
    in(s, b, 0)->ready = delivers(out(s, b, 0));
}

static void demux_show(struct circuit *s, const struct block *b, const struct reg *r)
{
    (void)r;
    struct wire *select = in(s, b, 0), *data = in(s, b, 1);
    for (uint32_t i = 0; i < b->m; i++) show(out(s, b, i), select->valid && data->valid && selected(s, b) == i, data->word);
}

static void demux_ready(struct circuit *s, const struct block *b, const struct reg *r)
{
    (void)r;
    int gone = 0;
    for (uint32_t i = 0; i < b->m; i++)
        if (delivers(out(s, b, i))) gone = 1;
    in(s, b, 0)->ready = in(s, b, 1)->ready = gone;
}

// The winner, 1 to m, if its input is V; else 0.
static uint32_t merge_winner(struct circuit *s, const struct block *b, const struct reg *r)
{
    uint32_t w = r->word;
    for (uint32_t i = 0; w == 0 && i < b->m; i++)
        if (in(s, b, i)->valid) w = i + 1;
    return w != 0 && in(s, b, w - 1)->valid ? w : 0;
}

static void merge_show(struct circuit *s, const struct block *b, const struct reg *r)
{
    uint32_t w = merge_winner(s, b, r);
    show(out(s, b, 0), w && !(r->marks & 1), w ? in(s, b, w - 1)->word : 0);
    show(out(s, b, 1), w && !(r->marks & 2), w - 1);
}

static int merge_done(struct circuit *s, const struct block *b, const struct reg *r)
{
    return (r->marks & 1 || delivers(out(s, b, 0))) && (r->marks & 2 || delivers(out(s, b, 1)));
}

static void merge_ready(struct circuit *s, const struct block *b, const struct reg *r)
{
    uint32_t w = merge_winner(s, b, r);
    for (uint32_t i = 0; i < b->m; i++) in(s, b, i)->ready = w == i + 1 && merge_done(s, b, r);
}

static void merge_next(struct circuit *s, const struct block *b, struct reg *r)
{
    uint32_t w = merge_winner(s, b, r);
    if (w == 0) return;
    uint32_t marks = r->marks | (delivers(out(s, b, 0)) ? 1 : 0) | (delivers(out(s, b, 1)) ? 2 : 0);
    *r = merge_done(s, b, r) ? (struct reg){0, 0} : (struct reg){w, marks};
}

static void data_show(struct circuit *s, const struct block *b, const struct reg *r)
{
    show(out(s, b, 0), r->marks, r->word);
}

static void data_ready(struct circuit *s, const struct block *b, const struct reg *r)
{
    in(s, b, 0)->ready = !r->marks || out(s, b, 0)->ready;
}

static void data_next(struct circuit *s, const struct block *b, struct reg *r)
{
    struct wire *w = in(s, b, 0);
    if (w->ready) *r = w->valid ? (struct reg){w->word, 1} : (struct reg){0, 0};
}

static void control_show(struct circuit *s, const struct block *b, const struct reg *r)
{
    if (r->marks) show(out(s, b, 0), 1, r->word);
    else show(out(s, b, 0), in(s, b, 0)->valid, in(s, b, 0)->word);
}

static void control_ready(struct circuit *s, const struct block *b, const struct reg *r)
{
    in(s, b, 0)->ready = !r->marks;
}

static void control_next(struct circuit *s, const struct block *b, struct reg *r)
{
    struct wire *w = in(s, b, 0);
    if (r->marks) {
        if (out(s, b, 0)->ready) *r = (struct reg){0, 0};
    } else if (w->valid && !out(s, b, 0)->ready) *r = (struct reg){w->word, 1};
}

typedef void signal_rule(struct circuit *, const struct block *, const struct reg *);
typedef void register_rule(struct circuit *, const struct block *, struct reg *);

static struct { signal_rule *show, *ready; register_rule *next; } rules[KINDS] = {
    [SOURCE] = {source_show, NULL, source_next},
    [SINK] = {NULL, sink_ready, NULL},
    [OPERATOR] = {operator_show, operator_ready, NULL},
    [CONSTANT] = {constant_show, operator_ready, NULL},
    [FORK] = {fork_show, fork_ready, fork_next},
    [MUX] = {mux_show, mux_ready, NULL},
    [DEMUX] = {demux_show, demux_ready, NULL},
    [MERGE] = {merge_show, merge_ready, merge_next},
    [DATA] = {data_show, data_ready, data_next},
    [FULL_DATA] = {data_show, data_ready, data_next},
    [CONTROL] = {control_show, control_ready, control_next},
};

// Sweeps over all blocks until nothing changes: with backward 0 what the outputs show, with 1 which inputs are ready.
static void settle(struct circuit *s, int backward)
{
    struct wire before[128];
    do {
        memcpy(before, s->wire, sizeof before);
        for (uint32_t b = 0; b < s->net.blocks; b++) {
            const struct block *block = &s->net.block[b];
            signal_rule *rule = backward ? rules[block->kind].ready : rules[block->kind].show;
            if (rule) rule(s, block, &s->reg[b]);
        }
    } while (memcmp(before, s->wire, sizeof before) != 0);
}

// V and word forward from the registers, then R backward.
static void work_out_signals(struct circuit *s)
{
    memset(s->wire, 0, sizeof s->wire);
    settle(s, 0);
    settle(s, 1);
}

static void work_out_registers(struct circuit *s)
{
    for (uint32_t b = 0; b < s->net.blocks; b++) {
        const struct block *block = &s->net.block[b];
        if (rules[block->kind].next) rules[block->kind].next(s, block, &s->reg[b]);
    }
}

static void make_fresh(struct circuit *s)
{
    memset(s->reg, 0, sizeof s->reg);
    for (uint32_t b = 0; b < s->net.blocks; b++)
        if (s->net.block[b].kind == FULL_DATA) s->reg[b] = (struct reg){s->net.block[b].value, 1};
}

// ---- Runs and the trace

static size_t count_deliveries(const struct circuit *s)
{
    size_t count = 0;
    for (uint32_t c = 0; c < s->net.channels; c++) count += delivers(&s->wire[c]);
    return count;
}

// Writes this cycle's records into the trace from a byte on; answers the byte after them.
static size_t write_records(const struct circuit *s, uint32_t cycle, uint8_t *trace, size_t at)
{
    for (uint32_t c = 0; c < s->net.channels; c++) {
        if (!delivers(&s->wire[c])) continue;
        uint64_t record = (uint64_t)cycle << 39 | (uint64_t)c << 32 | s->wire[c].word;
        for (int shift = 56; shift >= 0; shift -= 8) trace[at++] = (uint8_t)(record >> shift);
    }
    return at;
}

static uint32_t refuse_streams(struct net *net, size_t words_len, const uint8_t *ends, size_t ends_len)
{
    if (words_len % 4 != 0 || ends_len % 4 != 0 || ends_len / 4 != number_kind(net, SOURCE)) return 14;
    uint32_t last = 0;
    for (size_t k = 0; k < ends_len / 4; k++) {
        if (number_at(ends, k) < last) return 14;
        last = number_at(ends, k);
        if (last > words_len / 4) return 14;
    }
    return 0;
}

static uint32_t refuse_masks(size_t masks_len)
{
    if (masks_len % 4 != 0 || masks_len / 4 % 2 != 0) return 15;
    return masks_len / 8 > CYCLE_LIMIT ? 16 : 0;
}

static uint64_t pack(uint64_t refusal, uint64_t ending, uint64_t cycles, uint64_t records)
{
    return refusal << 56 | ending << 55 | cycles << 29 | records;
}

uint32_t model_check(const uint8_t *form, size_t form_len)
{
    struct net net;
    return load(form, form_len, &net);
}

uint64_t model_run(const uint8_t *form, size_t form_len, const uint8_t *words, size_t words_len, const uint8_t *ends, size_t ends_len,
                   const uint8_t *masks, size_t masks_len, uint8_t *trace, size_t trace_len)
{
    struct circuit s = {.words = words, .ends = ends};
    size_t used = 0, cycles = masks_len / 8;
    uint32_t refusal = load(form, form_len, &s.net);
    if (!refusal) refusal = refuse_streams(&s.net, words_len, ends, ends_len);
    if (!refusal) refusal = refuse_masks(masks_len);
    if (refusal) return pack(refusal, 0, 0, 0);
    make_fresh(&s);
    for (size_t cycle = 0; cycle < cycles; cycle++) {
        s.offers = number_at(masks, 2 * cycle);
        s.takes = number_at(masks, 2 * cycle + 1);
        work_out_signals(&s);
        if (8 * count_deliveries(&s) > trace_len - used) return pack(0, 1, cycle, used / 8);
        used = write_records(&s, (uint32_t)cycle, trace, used);
        work_out_registers(&s);
    }
    return pack(0, 0, cycles, used / 8);
}
