// Placements by counting: first which numbers the pieces of each channel and the new blocks get, then every block is written once, with all its ports.
#include "placements.h"
#include "model.h"
#include <stdlib.h>

// ---- The base net

// Takes a field of a form that is known to be good.
static uint32_t take(const uint8_t *form, size_t *at, unsigned width)
{
    uint32_t field = 0;
    for (unsigned i = 0; i < width; i++, ++*at) field = field << 1 | (form[*at / 8] >> (7 - *at % 8) & 1);
    return field;
}

static void read_block(const uint8_t *form, size_t *at, struct draft *net)
{
    unsigned ports[PORT_ROOM], kind = take(form, at, 4), m = take(form, at, 4);
    uint32_t value = kind == CONSTANT || kind == FULL_DATA ? take(form, at, 32) : 0;
    for (unsigned i = 0; i < inputs_of(kind, m) + outputs_of(kind, m); i++) ports[i] = take(form, at, 7);
    add_drawn(net, kind, m, value, ports);
}

static void read_net(const uint8_t *form, struct draft *net)
{
    size_t at = 16;
    unsigned blocks = take(form, &at, 8);
    net->blocks = 0;
    net->channels = take(form, &at, 8);
    for (unsigned b = 0; b < blocks; b++) read_block(form, &at, net);
}

// The refusal of a base net, 1 to 9: its loops may lack buffers.
static uint32_t refusal_of_base(const uint8_t *form, size_t form_len)
{
    uint32_t refusal = model_check(form, form_len);
    return refusal < 10 ? refusal : 0;
}

// ---- Numbers for what is new

// The buffers that each code puts on its channel, from the producer on.
static struct { unsigned count, kind[2]; } buffers[LAST_CODE + 1] = {
    [NOTHING] = {0, {0, 0}}, [DATA_ALONE] = {1, {DATA, 0}}, [CONTROL_ALONE] = {1, {CONTROL, 0}}, [DATA_THEN_CONTROL] = {2, {DATA, CONTROL}}};

static int codes_are_wrong(unsigned channels, const uint8_t *codes, size_t count)
{
    size_t good = 0;
    while (good < count && codes[good] <= LAST_CODE) good++;
    return good < count || count != channels;
}

// How many buffers some codes put in; one that is no code counts as none.
static unsigned buffers_in(const uint8_t *codes, size_t count)
{
    unsigned sum = 0;
    for (size_t i = 0; i < count; i++) sum += codes[i] <= LAST_CODE ? buffers[codes[i]].count : 0;
    return sum;
}

// Each new buffer brings one new channel.
static int room_is_passed(const struct draft *base, unsigned added)
{
    return base->blocks + added > MOST_BLOCKS || base->channels + added > MOST_CHANNELS;
}

// Where a new block stands: on which channel, and as which of its buffers, counted from the producer.
struct spot { unsigned channel, buffer; };

// The pieces of each channel, from the producer on, and the new blocks, in the order of their numbers.
struct numbers {
    unsigned added, piece[MOST_CHANNELS][3];
    struct spot spot[MOST_BLOCKS];
};

static void count_up(const struct draft *base, const uint8_t *codes, struct numbers *n)
{
    n->added = 0;
    for (unsigned c = 0; c < base->channels; c++) {
        n->piece[c][0] = c;
        for (unsigned i = 0; i < buffers[codes[c]].count; i++) {
            n->piece[c][i + 1] = base->channels + n->added;
            n->spot[n->added++] = (struct spot){c, i};
        }
    }
}

// ---- The placed net

// An old block: its outputs begin the first pieces, its inputs end the last ones.
static void write_old(const struct drawn *block, const uint8_t *codes, const struct numbers *n, struct draft *placed)
{
    unsigned ports[PORT_ROOM], ins = inputs_of(block->kind, block->m), outs = outputs_of(block->kind, block->m);
    for (unsigned i = 0; i < ins + outs; i++) {
        unsigned c = block->port[i];
        ports[i] = n->piece[c][i < ins ? buffers[codes[c]].count : 0];
    }
    add_drawn(placed, block->kind, block->m, block->value, ports);
}

// A new block: buffer number i of a channel ends piece i and begins piece i + 1.
static void write_new(const struct spot *spot, const uint8_t *codes, const struct numbers *n, struct draft *placed)
{
    const unsigned *pieces = n->piece[spot->channel];
    add_drawn(placed, buffers[codes[spot->channel]].kind[spot->buffer], 0, 0, (unsigned[]){pieces[spot->buffer], pieces[spot->buffer + 1]});
}

static void write_placed(const struct draft *base, const uint8_t *codes, const struct numbers *n, struct draft *placed)
{
    placed->blocks = 0;
    placed->channels = base->channels + n->added;
    for (unsigned b = 0; b < base->blocks; b++) write_old(&base->block[b], codes, n, placed);
    for (unsigned k = 0; k < n->added; k++) write_new(&n->spot[k], codes, n, placed);
}

// The refusal of a placed net, 10, 11 or 0, by two searches of their own: one on the form, one on the drawing.
static uint32_t refusal_of_placed(const struct draft *placed, struct form *form)
{
    write_form(placed, form);
    uint32_t refusal = model_check(form->bytes, form->len);
    if (refusal == refusal_of_loops(placed)) return refusal;
    fprintf(stderr, "the model contradicts itself: a placed net earns %u, its loops %u\n", refusal, refusal_of_loops(placed));
    exit(2);
}

uint32_t model_place(const uint8_t *form, size_t form_len, const uint8_t *codes, size_t count, struct form *placed_form)
{
    struct draft base, placed;
    struct numbers numbers;
    uint32_t refusal = refusal_of_base(form, form_len);
    if (refusal) return refusal;
    read_net(form, &base);
    if (codes_are_wrong(base.channels, codes, count)) return BAD_CODES;
    if (room_is_passed(&base, buffers_in(codes, count))) return NO_ROOM;
    count_up(&base, codes, &numbers);
    write_placed(&base, codes, &numbers, &placed);
    return refusal_of_placed(&placed, placed_form);
}

// ---- The list

void codes_of(unsigned number, unsigned channels, uint8_t *codes)
{
    for (unsigned c = channels; c > 0; c--, number /= 4) codes[c - 1] = (uint8_t)(number % 4);
}

unsigned placements_of(unsigned channels)
{
    return 1u << 2 * channels;
}

uint32_t model_list(const uint8_t *form, size_t form_len, unsigned *channels)
{
    struct draft base;
    uint32_t refusal = refusal_of_base(form, form_len);
    if (refusal) return refusal;
    read_net(form, &base);
    *channels = base.channels;
    return base.channels > MOST_LISTED ? TOO_MANY_CHANNELS : 0;
}

// ---- What is printed

static void print_digits(FILE *out, const uint8_t *codes, unsigned channels)
{
    for (unsigned c = 0; c < channels; c++) putc('0' + codes[c], out);
}

static void print_answer(FILE *out, uint32_t refusal, const struct form *placed)
{
    if (refusal) fprintf(out, "refused %u", refusal);
    for (size_t i = 0; !refusal && i < placed->len; i++) fprintf(out, "%02x", placed->bytes[i]);
    putc('\n', out);
}

void print_one(FILE *out, const uint8_t *form, size_t form_len, const uint8_t *codes, size_t count)
{
    static struct form placed;
    print_answer(out, model_place(form, form_len, codes, count, &placed), &placed);
}

void print_list(FILE *out, const uint8_t *form, size_t form_len)
{
    static struct form placed;
    uint8_t codes[MOST_LISTED] = {0};
    unsigned channels;
    uint32_t refusal = model_list(form, form_len, &channels);
    if (refusal) print_answer(out, refusal, NULL);
    for (unsigned number = 0; !refusal && number < placements_of(channels); number++) {
        codes_of(number, channels, codes);
        if (model_place(form, form_len, codes, channels, &placed)) continue;
        print_digits(out, codes, channels);
        putc('\n', out);
    }
}

void print_all(FILE *out, const uint8_t *form, size_t form_len)
{
    uint8_t codes[MOST_LISTED] = {0};
    unsigned channels;
    uint32_t refusal = model_list(form, form_len, &channels);
    if (refusal) print_answer(out, refusal, NULL);
    for (unsigned number = 0; !refusal && number < placements_of(channels); number++) {
        codes_of(number, channels, codes);
        print_digits(out, codes, channels);
        putc(' ', out);
        print_one(out, form, form_len, codes, channels);
    }
}
