// A run as a C programmer writes it: the form is read into flat arrays, both orders are worked out once, each cycle is one pass each way.
#include "plain.h"
#include <string.h>

enum { SOURCE, SINK, OPERATOR, CONSTANT, FORK, MUX, DEMUX, MERGE, DATA, FULL_DATA, CONTROL };
enum { BLOCKS = 64, CHANNELS = 128, PORTS = 10, CYCLE_LIMIT = 1048576 };

// A net with its ports (inputs first), who writes and reads each channel, and the orders in which blocks are worked out.
struct plan {
    unsigned blocks, channels, sources, sinks, holders;
    uint8_t kind[BLOCKS], m[BLOCKS], ins[BLOCKS], outs[BLOCKS], number[BLOCKS];
    uint8_t port[BLOCKS][PORTS];
    uint32_t value[BLOCKS];
    uint8_t writer[CHANNELS], reader[CHANNELS];
    uint8_t forward[BLOCKS], backward[BLOCKS], holder[BLOCKS];
};

// All that changes from cycle to cycle.
struct signals {
    uint32_t word[CHANNELS], reg[BLOCKS];
    uint8_t valid[CHANNELS], ready[CHANNELS], marks[BLOCKS];
};

struct streams { const uint8_t *words; uint32_t start[32], length[32]; };

// ---- Reading the form

struct bits { const uint8_t *bytes; size_t len, at; };

// A field of up to 32 bits, or -1 where the bytes end within it.
static int64_t take(struct bits *from, unsigned width)
{
    size_t first = from->at / 8, last = (from->at + width + 7) / 8;
    if (last > from->len) return -1;
    uint64_t field = 0;
    for (size_t i = first; i < last; i++) field = field << 8 | from->bytes[i];
    from->at += width;
    return (int64_t)(field >> (8 * last - from->at) & (((uint64_t)1 << width) - 1));
}

static unsigned read_header(struct bits *from, struct plan *p)
{
    int64_t edition = take(from, 4);
    if (edition != 1) return edition < 0 ? 1 : 2;
    int64_t reserved = take(from, 12);
    if (reserved != 0) return reserved < 0 ? 1 : 2;
    int64_t blocks = take(from, 8);
    if (blocks < 2 || blocks > BLOCKS) return blocks < 0 ? 1 : 3;
    int64_t channels = take(from, 8);
    if (channels < 1 || channels > CHANNELS) return channels < 0 ? 1 : 3;
    p->blocks = (unsigned)blocks;
    p->channels = (unsigned)channels;
    return 0;
}

static int m_fits(unsigned kind, unsigned m)
{
    if (kind == OPERATOR || kind == CONSTANT) return m <= 3;
    if (kind >= FORK && kind <= MERGE) return m >= 2 && m <= 8;
    return m == 0;
}

static void count_ports(struct plan *p, unsigned b)
{
    unsigned kind = p->kind[b], m = p->m[b], ins = 1, outs = 1;
    switch (kind) {
    case SOURCE: ins = 0; break;
    case SINK: outs = 0; break;
    case OPERATOR: ins = 2; break;
    case FORK: outs = m; break;
    case MUX: ins = m + 1; break;
    case DEMUX: ins = 2, outs = m; break;
    case MERGE: ins = m, outs = 2; break;
    }
    p->ins[b] = (uint8_t)ins;
    p->outs[b] = (uint8_t)outs;
}

static unsigned read_block(struct bits *from, struct plan *p, unsigned b)
{
    int64_t kind = take(from, 4);
    if (kind < 0 || kind > CONTROL) return kind < 0 ? 1 : 4;
    int64_t m = take(from, 4);
    if (m < 0 || !m_fits((unsigned)kind, (unsigned)m)) return m < 0 ? 1 : 5;
    p->kind[b] = (uint8_t)kind;
    p->m[b] = (uint8_t)m;
    p->value[b] = 0;
    if (kind == CONSTANT || kind == FULL_DATA) {
        int64_t value = take(from, 32);
        if (value < 0) return 1;
        p->value[b] = (uint32_t)value;
    }
    count_ports(p, b);
    for (int i = 0; i < p->ins[b] + p->outs[b]; i++) {
        int64_t channel = take(from, 7);
        if (channel < 0 || channel >= p->channels) return channel < 0 ? 1 : 6;
        p->port[b][i] = (uint8_t)channel;
    }
    return 0;
}

static unsigned read_end(const struct bits *from)
{
    unsigned used = from->at % 8;
    if (used && from->bytes[from->at / 8] & (0xff >> used)) return 7;
    return (from->at + 7) / 8 < from->len ? 7 : 0;
}

// ---- Wiring and orders

static unsigned wire_up(struct plan *p)
{
    uint8_t written[CHANNELS] = {0}, read[CHANNELS] = {0};
    for (unsigned b = 0; b < p->blocks; b++) {
        const uint8_t *port = p->port[b];
        for (int i = 0; i < p->ins[b]; i++, port++) {
            if (read[*port]++) return 8;
            p->reader[*port] = (uint8_t)b;
        }
        for (int i = 0; i < p->outs[b]; i++, port++) {
            if (written[*port]++) return 8;
            p->writer[*port] = (uint8_t)b;
        }
    }
    for (unsigned c = 0; c < p->channels; c++)
        if (!read[c] || !written[c]) return 8;
    return 0;
}

static unsigned number_ends(struct plan *p)
{
    p->sources = p->sinks = p->holders = 0;
    for (unsigned b = 0; b < p->blocks; b++) {
        unsigned kind = p->kind[b];
        if (kind == SOURCE) p->number[b] = (uint8_t)p->sources++;
        if (kind == SINK) p->number[b] = (uint8_t)p->sinks++;
        if (kind == SOURCE || kind == FORK || kind >= MERGE) p->holder[p->holders++] = (uint8_t)b;
    }
    return p->sources > 32 || p->sinks > 32 ? 9 : 0;
}

// A block comes after the writers of its inputs; a data buffer shows its register and waits for none.
static unsigned order_forward(struct plan *p)
{
    uint8_t missing[BLOCKS];
    unsigned placed = 0;
    for (unsigned b = 0; b < p->blocks; b++) {
        missing[b] = p->kind[b] == DATA || p->kind[b] == FULL_DATA ? 0 : p->ins[b];
        if (missing[b] == 0) p->forward[placed++] = (uint8_t)b;
    }
    for (unsigned i = 0; i < placed; i++) {
        unsigned b = p->forward[i];
        for (int o = p->ins[b]; o < p->ins[b] + p->outs[b]; o++) {
            unsigned next = p->reader[p->port[b][o]];
            if (missing[next] && --missing[next] == 0) p->forward[placed++] = (uint8_t)next;
        }
    }
    return placed < p->blocks ? 10 : 0;
}

// A block comes after the readers of its outputs; a control buffer asks only its register and waits for none.
static unsigned order_backward(struct plan *p)
{
    uint8_t missing[BLOCKS];
    unsigned placed = 0;
    for (unsigned b = 0; b < p->blocks; b++) {
        missing[b] = p->kind[b] == CONTROL ? 0 : p->outs[b];
        if (missing[b] == 0) p->backward[placed++] = (uint8_t)b;
    }
    for (unsigned i = 0; i < placed; i++) {
        unsigned b = p->backward[i];
        for (int o = 0; o < p->ins[b]; o++) {
            unsigned next = p->writer[p->port[b][o]];
            if (missing[next] && --missing[next] == 0) p->backward[placed++] = (uint8_t)next;
        }
    }
    return placed < p->blocks ? 11 : 0;
}

static unsigned make_plan(const uint8_t *form, size_t form_len, struct plan *p)
{
    struct bits from = {form, form_len, 0};
    unsigned refusal = read_header(&from, p);
    for (unsigned b = 0; !refusal && b < p->blocks; b++) refusal = read_block(&from, p, b);
    if (!refusal) refusal = read_end(&from);
    if (!refusal) refusal = wire_up(p);
    if (!refusal) refusal = number_ends(p);
    if (!refusal) refusal = order_forward(p);
    if (!refusal) refusal = order_backward(p);
    return refusal;
}

// ---- Streams

static uint32_t number_at(const uint8_t *bytes, size_t i)
{
    uint32_t number;
    memcpy(&number, bytes + 4 * i, 4);
    return __builtin_bswap32(number);
}

static unsigned cut_streams(const struct plan *p, struct streams *s, size_t words_len, const uint8_t *ends, size_t ends_len)
{
    uint32_t start = 0;
    if (words_len % 4 || ends_len % 4 || ends_len / 4 != p->sources) return 14;
    for (unsigned k = 0; k < p->sources; k++) {
        uint32_t end = number_at(ends, k);
        if (end < start || end > words_len / 4) return 14;
        s->start[k] = start;
        s->length[k] = end - start;
        start = end;
    }
    return 0;
}

// ---- One cycle

static inline uint32_t compute(unsigned operation, uint32_t a, uint32_t b)
{
    switch (operation) {
    case 0: return a + b;
    case 1: return a - b;
    case 2: return a == b;
    default: return a < b;
    }
}

static inline void offer(const struct plan *p, const struct streams *from, struct signals *s, unsigned b, uint32_t offers)
{
    unsigned k = p->number[b], c = p->port[b][0];
    uint32_t at = s->reg[b];
    s->valid[c] = at < from->length[k] && (s->marks[b] | (offers >> k & 1));
    if (s->valid[c]) s->word[c] = number_at(from->words, (size_t)from->start[k] + at);
}

// The winner's input, counted from 1, or 0 where no input can win.
static inline unsigned winner(const struct signals *s, unsigned b, const uint8_t *port, unsigned m)
{
    unsigned w = s->reg[b];
    if (w) return s->valid[port[w - 1]] ? w : 0;
    for (unsigned i = 0; i < m; i++)
        if (s->valid[port[i]]) return i + 1;
    return 0;
}

static inline void merge_forward(struct signals *s, unsigned b, const uint8_t *port, unsigned m)
{
    unsigned w = winner(s, b, port, m), data = port[m], report = port[m + 1];
    s->valid[data] = w && !(s->marks[b] & 1);
    s->valid[report] = w && !(s->marks[b] & 2);
    if (w) s->word[data] = s->word[port[w - 1]], s->word[report] = w - 1;
}

// The port that a select word names.
static inline unsigned selected(uint32_t word, unsigned m)
{
    return word < m ? word : m - 1;
}

static inline void demux_forward(struct signals *s, const uint8_t *port, unsigned m)
{
    int both = s->valid[port[0]] & s->valid[port[1]];
    for (unsigned i = 0; i < m; i++) s->valid[port[2 + i]] = 0;
    if (both) {
        unsigned c = port[2 + selected(s->word[port[0]], m)];
        s->valid[c] = 1;
        s->word[c] = s->word[port[1]];
    }
}

static inline void mux_forward(struct signals *s, const uint8_t *port, unsigned m)
{
    unsigned out = port[m + 1];
    s->valid[out] = 0;
    if (s->valid[port[0]]) {
        unsigned chosen = port[1 + selected(s->word[port[0]], m)];
        s->valid[out] = s->valid[chosen];
        s->word[out] = s->word[chosen];
    }
}

static void forward(const struct plan *p, const struct streams *from, struct signals *s, uint32_t offers)
{
    for (unsigned i = 0; i < p->blocks; i++) {
        unsigned b = p->forward[i], m = p->m[b];
        const uint8_t *port = p->port[b];
        switch (p->kind[b]) {
        case SOURCE: offer(p, from, s, b, offers); break;
        case OPERATOR:
            s->valid[port[2]] = s->valid[port[0]] & s->valid[port[1]];
            s->word[port[2]] = compute(m, s->word[port[0]], s->word[port[1]]);
            break;
        case CONSTANT:
            s->valid[port[1]] = s->valid[port[0]];
            s->word[port[1]] = compute(m, s->word[port[0]], p->value[b]);
            break;
        case FORK:
            for (unsigned k = 0; k < m; k++) {
                s->valid[port[1 + k]] = s->valid[port[0]] & ~(s->marks[b] >> k) & 1;
                s->word[port[1 + k]] = s->word[port[0]];
            }
            break;
        case MUX: mux_forward(s, port, m); break;
        case DEMUX: demux_forward(s, port, m); break;
        case MERGE: merge_forward(s, b, port, m); break;
        case DATA:
        case FULL_DATA: s->valid[port[1]] = s->marks[b], s->word[port[1]] = s->reg[b]; break;
        case CONTROL:
            s->valid[port[1]] = s->marks[b] | s->valid[port[0]];
            s->word[port[1]] = s->marks[b] ? s->reg[b] : s->word[port[0]];
            break;
        }
    }
}

static inline int moves(const struct signals *s, unsigned c)
{
    return s->valid[c] & s->ready[c];
}

static inline void merge_backward(struct signals *s, unsigned b, const uint8_t *port, unsigned m)
{
    unsigned w = winner(s, b, port, m), gone = s->marks[b] | (unsigned)moves(s, port[m]) | (unsigned)moves(s, port[m + 1]) << 1;
    for (unsigned i = 0; i < m; i++) s->ready[port[i]] = w == i + 1 && gone == 3;
}

static inline void mux_backward(struct signals *s, const uint8_t *port, unsigned m)
{
    unsigned goes = (unsigned)moves(s, port[m + 1]), chosen = selected(s->word[port[0]], m);
    s->ready[port[0]] = (uint8_t)goes;
    for (unsigned i = 0; i < m; i++) s->ready[port[1 + i]] = goes && chosen == i;
}

static inline void demux_backward(struct signals *s, const uint8_t *port, unsigned m)
{
    int goes = 0;
    for (unsigned i = 0; i < m; i++) goes |= moves(s, port[2 + i]);
    s->ready[port[0]] = s->ready[port[1]] = (uint8_t)goes;
}

static inline void fork_backward(struct signals *s, unsigned b, const uint8_t *port, unsigned m)
{
    unsigned gone = s->marks[b];
    for (unsigned i = 0; i < m; i++) gone |= (unsigned)moves(s, port[1 + i]) << i;
    s->ready[port[0]] = s->valid[port[0]] && gone + 1 == 1u << m;
}

static void backward(const struct plan *p, struct signals *s, uint32_t takes)
{
    for (unsigned i = 0; i < p->blocks; i++) {
        unsigned b = p->backward[i], m = p->m[b];
        const uint8_t *port = p->port[b];
        switch (p->kind[b]) {
        case SINK: s->ready[port[0]] = takes >> p->number[b] & 1; break;
        case OPERATOR: s->ready[port[0]] = s->ready[port[1]] = (uint8_t)moves(s, port[2]); break;
        case CONSTANT: s->ready[port[0]] = (uint8_t)moves(s, port[1]); break;
        case FORK: fork_backward(s, b, port, m); break;
        case MUX: mux_backward(s, port, m); break;
        case DEMUX: demux_backward(s, port, m); break;
        case MERGE: merge_backward(s, b, port, m); break;
        case DATA:
        case FULL_DATA: s->ready[port[0]] = !s->marks[b] || s->ready[port[1]]; break;
        case CONTROL: s->ready[port[0]] = !s->marks[b]; break;
        }
    }
}

static inline void fork_register(struct signals *s, unsigned b, const uint8_t *port, unsigned m)
{
    unsigned gone = s->marks[b];
    for (unsigned i = 0; i < m; i++) gone |= (unsigned)moves(s, port[1 + i]) << i;
    s->marks[b] = s->ready[port[0]] ? 0 : (uint8_t)gone;
}

static inline void merge_register(struct signals *s, unsigned b, const uint8_t *port, unsigned m)
{
    unsigned w = winner(s, b, port, m), gone = s->marks[b] | (unsigned)moves(s, port[m]) | (unsigned)moves(s, port[m + 1]) << 1;
    if (!w) return;
    s->reg[b] = gone == 3 ? 0 : w;
    s->marks[b] = gone == 3 ? 0 : (uint8_t)gone;
}

static void registers(const struct plan *p, struct signals *s)
{
    for (unsigned i = 0; i < p->holders; i++) {
        unsigned b = p->holder[i], in = p->port[b][0], out = p->port[b][1];
        switch (p->kind[b]) {
        case SOURCE:
            s->reg[b] += (uint32_t)moves(s, in);
            s->marks[b] = s->valid[in] & !s->ready[in];
            break;
        case FORK: fork_register(s, b, p->port[b], p->m[b]); break;
        case MERGE: merge_register(s, b, p->port[b], p->m[b]); break;
        case DATA:
        case FULL_DATA:
            if (!s->ready[in]) break;
            s->marks[b] = s->valid[in];
            s->reg[b] = s->valid[in] ? s->word[in] : 0;
            break;
        case CONTROL:
            if (s->marks[b]) {
                if (s->ready[out]) s->marks[b] = 0, s->reg[b] = 0;
            } else if (s->valid[in] & !s->ready[out]) s->marks[b] = 1, s->reg[b] = s->word[in];
            break;
        }
    }
}

// ---- The run

static uint64_t pack(uint64_t refusal, uint64_t ending, uint64_t cycles, uint64_t records)
{
    return refusal << 56 | ending << 55 | cycles << 29 | records;
}

static unsigned gather(const struct plan *p, const struct signals *s, uint64_t cycle, uint64_t *records)
{
    unsigned count = 0;
    for (unsigned c = 0; c < p->channels; c++) {
        records[count] = cycle << 39 | (uint64_t)c << 32 | s->word[c];
        count += (unsigned)moves(s, c);
    }
    return count;
}

static void begin(const struct plan *p, struct signals *s)
{
    memset(s, 0, sizeof *s);
    for (unsigned b = 0; b < p->blocks; b++)
        if (p->kind[b] == FULL_DATA) s->reg[b] = p->value[b], s->marks[b] = 1;
}

static uint64_t run_cycles(const struct plan *p, const struct streams *from, const uint8_t *masks, size_t cycles, uint8_t *trace, size_t room)
{
    struct signals s;
    uint64_t records[CHANNELS + 1], written = 0;
    begin(p, &s);
    for (size_t cycle = 0; cycle < cycles; cycle++) {
        forward(p, from, &s, number_at(masks, 2 * cycle));
        backward(p, &s, number_at(masks, 2 * cycle + 1));
        unsigned count = gather(p, &s, cycle, records);
        if (8 * (written + count) > room) return pack(0, 1, cycle, written);
        for (unsigned i = 0; i < count; i++) {
            uint64_t record = __builtin_bswap64(records[i]);
            memcpy(trace + 8 * (written + i), &record, 8);
        }
        written += count;
        registers(p, &s);
    }
    return pack(0, 0, cycles, written);
}

uint32_t plain_check(const uint8_t *form, size_t form_len)
{
    struct plan plan;
    return make_plan(form, form_len, &plan);
}

uint64_t plain_run(const uint8_t *form, size_t form_len, const uint8_t *words, size_t words_len, const uint8_t *ends, size_t ends_len,
                   const uint8_t *masks, size_t masks_len, uint8_t *trace, size_t trace_len)
{
    struct plan plan;
    struct streams streams = {.words = words};
    unsigned refusal = make_plan(form, form_len, &plan);
    if (!refusal) refusal = cut_streams(&plan, &streams, words_len, ends, ends_len);
    if (!refusal && masks_len % 8) refusal = 15;
    if (!refusal && masks_len / 8 > CYCLE_LIMIT) refusal = 16;
    if (refusal) return pack(refusal, 0, 0, 0);
    return run_cycles(&plan, &streams, masks, masks_len / 8, trace, trace_len);
}
