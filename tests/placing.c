// Compares the programs netplace and placetry with the model: the list and every placement of small nets, forms that are refused, codes of larger nets.
// usage: placing NETPLACE PLACETRY FORM [SEED [NETS]] (forms are written to the file FORM; one for which an answer differs stays there)
#include "comparing.h"
#include "placements.h"
#include "spoil.h"
#include <stdlib.h>
#include <string.h>

enum { NETS = 60, SPOILT = 4, MANY_SOURCES = 4, WIDE_NETS = 24, SINGLES = 400, CODE_ROOM = 70000 };

static char *netplace, *placetry, *form_file;

// A form on trial, the net that it was drawn from, and where it comes from.
struct subject {
    const char *class;
    uint64_t seed;
    struct draft draft;
    struct form form;
};

static void name_subject(struct subject *s, const char *class, const struct random *r)
{
    s->class = class;
    s->seed = r->first;
}

// ---- Comparing

static unsigned long placements, listed;

// Counts the refusal in a line of the model's, if there is one.
static void count_refusal(const char *line, size_t len)
{
    unsigned refusal;
    size_t digits = strspn(line, "0123");
    const char *rest = digits < len && line[digits] == ' ' ? line + digits + 1 : line;
    if (sscanf(rest, "refused %u", &refusal) == 1) count_refused(refusal);
}

static struct trial trial_of(const struct subject *s)
{
    return (struct trial){s->class, s->seed, "form", s->form.bytes, s->form.len};
}

static void fail(const struct subject *s, const char *why)
{
    struct trial trial = trial_of(s);
    fail_trial(&trial, why);
}

static void write_file(const struct subject *s)
{
    struct trial trial = trial_of(s);
    write_trial(&trial, form_file);
}

// Runs a program as the call says, and compares what it prints with what the model printed.
static void finish(const struct subject *s, FILE *out, char *const *arguments, const char *input)
{
    struct trial trial = trial_of(s);
    finish_trial(&trial, out, arguments, input, count_refusal);
}

// The list of a form, which is given by name or by standard input.
static void compare_list(const struct subject *s, int by_input)
{
    FILE *out = begin_model();
    print_list(out, s->form.bytes, s->form.len);
    snprintf(call, sizeof call, "netplace %s%s", by_input ? "< " : "", form_file);
    finish(s, out, (char *[]){netplace, by_input ? NULL : form_file, NULL}, by_input ? form_file : NULL);
}

static void compare_all(const struct subject *s)
{
    FILE *out = begin_model();
    print_all(out, s->form.bytes, s->form.len);
    snprintf(call, sizeof call, "placetry %s", form_file);
    finish(s, out, (char *[]){placetry, form_file, NULL}, NULL);
}

// Codes as a report shows them: in digits where they are codes, and else as numbers in brackets. The first 400 are shown.
static void name_codes(const uint8_t *codes, size_t count)
{
    int at = snprintf(call, sizeof call, "placetry %s '", form_file);
    for (size_t i = 0; i < count && i < 400; i++) at += snprintf(call + at, sizeof call - (size_t)at, codes[i] <= LAST_CODE ? "%u" : "(%u)", codes[i]);
    snprintf(call + at, sizeof call - (size_t)at, "%s' (%zu codes)", count > 400 ? ".." : "", count);
}

// One list of codes, none of which is 208, as that would be a zero byte.
static void compare_one(const struct subject *s, const uint8_t *codes, size_t count)
{
    static char characters[CODE_ROOM + 1];
    FILE *out = begin_model();
    print_one(out, s->form.bytes, s->form.len, codes, count);
    for (size_t i = 0; i < count; i++) characters[i] = (char)(codes[i] + '0');
    characters[count] = 0;
    name_codes(codes, count);
    finish(s, out, (char *[]){placetry, form_file, characters, NULL}, NULL);
}

// ---- Cases by hand, for the model itself

// A net that is known, codes for it, and the blocks of the placed net as they are to be.
struct known {
    unsigned blocks, channels, placed_blocks, placed_channels;
    struct drawn block[4], placed[12];
    uint8_t codes[4];
};

static const struct known by_hand[] = {
    // netrun's net with nothing more; with a data buffer on the last channel; with all that can be had.
    {4, 3, 4, 3, {{SOURCE, 0, 0, {0}}, {DATA, 0, 0, {0, 1}}, {CONSTANT, 0, 5, {1, 2}}, {SINK, 0, 0, {2}}},
     {{SOURCE, 0, 0, {0}}, {DATA, 0, 0, {0, 1}}, {CONSTANT, 0, 5, {1, 2}}, {SINK, 0, 0, {2}}}, {0, 0, 0}},
    {4, 3, 5, 4, {{SOURCE, 0, 0, {0}}, {DATA, 0, 0, {0, 1}}, {CONSTANT, 0, 5, {1, 2}}, {SINK, 0, 0, {2}}},
     {{SOURCE, 0, 0, {0}}, {DATA, 0, 0, {0, 1}}, {CONSTANT, 0, 5, {1, 2}}, {SINK, 0, 0, {3}}, {DATA, 0, 0, {2, 3}}}, {0, 0, 1}},
    {4, 3, 10, 9, {{SOURCE, 0, 0, {0}}, {DATA, 0, 0, {0, 1}}, {CONSTANT, 0, 5, {1, 2}}, {SINK, 0, 0, {2}}},
     {{SOURCE, 0, 0, {0}}, {DATA, 0, 0, {4, 1}}, {CONSTANT, 0, 5, {6, 2}}, {SINK, 0, 0, {8}}, {DATA, 0, 0, {0, 3}}, {CONTROL, 0, 0, {3, 4}},
      {DATA, 0, 0, {1, 5}}, {CONTROL, 0, 0, {5, 6}}, {DATA, 0, 0, {2, 7}}, {CONTROL, 0, 0, {7, 8}}}, {3, 3, 3}},
    // Two operators that feed themselves, each through a channel of its own.
    {2, 2, 6, 6, {{CONSTANT, 0, 1, {1, 1}}, {CONSTANT, 1, 2, {0, 0}}},
     {{CONSTANT, 0, 1, {5, 1}}, {CONSTANT, 1, 2, {3, 0}}, {DATA, 0, 0, {0, 2}}, {CONTROL, 0, 0, {2, 3}}, {DATA, 0, 0, {1, 4}},
      {CONTROL, 0, 0, {4, 5}}}, {3, 3}},
    // A merge one of whose inputs comes from its own report side, through a control buffer on the way; a data buffer is put there too.
    {4, 4, 7, 7, {{SOURCE, 0, 0, {3}}, {MERGE, 2, 0, {2, 3, 0, 1}}, {CONTROL, 0, 0, {1, 2}}, {SINK, 0, 0, {0}}},
     {{SOURCE, 0, 0, {3}}, {MERGE, 2, 0, {5, 6, 0, 1}}, {CONTROL, 0, 0, {1, 2}}, {SINK, 0, 0, {4}}, {CONTROL, 0, 0, {0, 4}}, {DATA, 0, 0, {2, 5}},
      {CONTROL, 0, 0, {3, 6}}}, {2, 0, 1, 2}},
};

static void draw_known(struct draft *d, const struct drawn *block, unsigned blocks, unsigned channels)
{
    d->blocks = 0;
    d->channels = channels;
    for (unsigned b = 0; b < blocks; b++) add_drawn(d, block[b].kind, block[b].m, block[b].value, block[b].port);
}

static void try_by_hand(void)
{
    static struct subject s;
    static struct form placed;
    struct random r = random_for(0, 0);
    struct draft d;
    name_subject(&s, "by hand", &r);
    for (unsigned i = 0; i < sizeof by_hand / sizeof by_hand[0]; i++) {
        const struct known *k = &by_hand[i];
        draw_known(&d, k->placed, k->placed_blocks, k->placed_channels);
        draw_known(&s.draft, k->block, k->blocks, k->channels);
        write_form(&s.draft, &s.form);
        write_file(&s);
        compare_one(&s, k->codes, k->channels);
        uint32_t refusal = model_place(s.form.bytes, s.form.len, k->codes, k->channels, &placed);
        write_form(&d, &s.form);
        if (refusal || placed.len != s.form.len || memcmp(placed.bytes, s.form.bytes, placed.len) != 0) fail(&s, "the model differs from the case by hand");
    }
}

// ---- Small nets

// What the small nets were like.
static unsigned long of_kind[KINDS], with_self_loops, in_parts, short_lists;

static unsigned some_m(struct random *r, unsigned kind)
{
    if (kind == OPERATOR || kind == CONSTANT) return below(r, 4);
    return kind >= FORK && kind <= MERGE ? 2 + below(r, chance(r, 3) ? 5 : 1) : 0;
}

// Blocks at random whose inputs and outputs are as many as the channels, joined at random; sources and sinks are rare, so that there are loops.
static void draw_joined(struct random *r, unsigned channels, struct draft *d)
{
    unsigned ins[MOST_LISTED], outs[MOST_LISTED], ports[PORT_ROOM], entered = 0, left = 0;
    shuffle(r, channels, ins);
    shuffle(r, channels, outs);
    d->blocks = 0;
    d->channels = channels;
    while (entered < channels || left < channels) {
        unsigned kind = below(r, KINDS), m = some_m(r, kind), inputs = inputs_of(kind, m), outputs = outputs_of(kind, m);
        if (entered + inputs > channels || left + outputs > channels || (kind <= SINK && !chance(r, 4))) continue;
        for (unsigned i = 0; i < inputs; i++) ports[i] = ins[entered++];
        for (unsigned i = 0; i < outputs; i++) ports[inputs + i] = outs[left++];
        add_drawn(d, kind, m, kind == CONSTANT || kind == FULL_DATA ? random_bits(r) : 0, ports);
    }
}

static int has_loops(const struct draft *d)
{
    struct draft bare = *d;
    for (unsigned b = 0; b < d->blocks; b++)
        if (d->block[b].kind >= DATA) bare.block[b].kind = CONSTANT;
    return refusal_of_loops(&bare) != 0;
}

// Sorts of small nets: accepted with loops, a loop lacks a data buffer, a loop lacks a control buffer only, as they fall.
enum { ACCEPTED, LACKS_DATA, LACKS_CONTROL, ANY_SORT, SORTS };

static int is_of_sort(const struct draft *d, unsigned sort)
{
    switch (sort) {
    case ACCEPTED: return refusal_of_loops(d) == 0 && has_loops(d);
    case LACKS_DATA: return refusal_of_loops(d) == 10;
    case LACKS_CONTROL: return refusal_of_loops(d) == 11;
    default: return 1;
    }
}

// One channel leads from a source to a sink, whatever was wished for.
static void draw_small(struct random *r, unsigned channels, unsigned sort, struct draft *d)
{
    do draw_joined(r, channels, d);
    while (d->blocks < 2 || (channels > 1 && !is_of_sort(d, sort)));
}

// How many parts a net has that no channel joins: every block takes the least number of a block that it is joined to, until nothing changes.
static unsigned parts_of(const struct draft *d)
{
    unsigned part[BLOCK_ROOM], count = 0;
    for (unsigned b = 0; b < d->blocks; b++) part[b] = b;
    for (unsigned i = 0; i < d->blocks * d->channels; i++) {
        unsigned *from = &part[d->from[i % d->channels].block], *to = &part[d->to[i % d->channels].block];
        *from = *to = *from < *to ? *from : *to;
    }
    for (unsigned b = 0; b < d->blocks; b++) count += part[b] == b;
    return count;
}

static void take_notes(const struct draft *d, unsigned long lines)
{
    unsigned self_loops = 0;
    for (unsigned c = 0; c < d->channels; c++) self_loops += d->from[c].block == d->to[c].block;
    for (unsigned b = 0; b < d->blocks; b++) of_kind[d->block[b].kind]++;
    with_self_loops += self_loops > 0;
    in_parts += parts_of(d) > 1;
    placements += placements_of(d->channels);
    listed += lines;
    short_lists += lines < placements_of(d->channels);
}

static void try_small_nets(unsigned nets)
{
    static const char *const names[SORTS] = {"small nets, accepted", "small nets, loops without a data buffer", "small nets, loops without a control buffer",
                                             "small nets as they fall"};
    static struct subject s;
    for (unsigned i = 0; i < nets; i++) {
        struct random r = random_for(1, i);
        unsigned channels = 1 + i % MOST_LISTED, sort = (i + i / MOST_LISTED) % SORTS;
        name_subject(&s, names[sort], &r);
        draw_small(&r, channels, sort, &s.draft);
        write_form(&s.draft, &s.form);
        write_file(&s);
        unsigned long before = lines_compared();
        compare_list(&s, i / MOST_LISTED % 2);
        take_notes(&s.draft, lines_compared() - before);
        compare_all(&s);
    }
}

static void print_notes(void)
{
    printf("small nets with blocks that feed themselves: %lu, in several parts: %lu, with lists that are not all: %lu\nblocks of kind", with_self_loops,
           in_parts, short_lists);
    for (unsigned kind = 0; kind < KINDS; kind++) printf(" %u: %lu%s", kind, of_kind[kind], kind + 1 < KINDS ? "," : "\n");
}

// ---- Codes

// How many buffers are put in: few, about as many as there is room for, any number.
enum { FEW, ABOUT_THE_ROOM, ANY_NUMBER, AMOUNTS };

// What is wrong with codes: nothing; there are too few, too many, 256 too many; one is above 3; there are none.
enum { GOOD, TOO_FEW, TOO_MANY, A_BYTE_TOO_MANY, ABOVE_THREE, EMPTY, FAULTS };

// So many buffers as are wanted, if the channels have room for them, on channels at random.
static void spread(struct random *r, unsigned channels, unsigned wanted, uint8_t *codes)
{
    memset(codes, 0, channels);
    for (unsigned added = 0; added < wanted && added < 2 * channels;) {
        unsigned c = below(r, channels), two = wanted - added >= 2 && chance(r, 2);
        if (codes[c] == DATA_THEN_CONTROL) continue;
        added += codes[c] == NOTHING && two ? 2 : 1;
        codes[c] = codes[c] != NOTHING || two ? DATA_THEN_CONTROL : (uint8_t)(DATA_ALONE + below(r, 2));
    }
}

static void draw_codes(struct random *r, const struct draft *d, unsigned amount, uint8_t *codes)
{
    unsigned room = MOST_BLOCKS - d->blocks < MOST_CHANNELS - d->channels ? MOST_BLOCKS - d->blocks : MOST_CHANNELS - d->channels;
    if (amount == FEW) spread(r, d->channels, below(r, room + 1), codes);
    else if (amount == ABOUT_THE_ROOM) spread(r, d->channels, room + below(r, 3), codes);
    else spread(r, d->channels, below(r, 2 * d->channels + 1), codes);
}

// Any code above 3 but 208, which stands for a zero byte.
static uint8_t wrong_code(struct random *r)
{
    unsigned code = chance(r, 2) ? 4 + below(r, 12) : 4 + below(r, 252);
    return (uint8_t)(code == 208 ? 255 : code);
}

// Spoils codes, one for each channel; answers how many there are then.
static size_t spoil_codes(struct random *r, unsigned channels, unsigned fault, uint8_t *codes)
{
    switch (fault) {
    case TOO_FEW: return below(r, channels);
    case TOO_MANY:
        for (unsigned i = 0; i < 4; i++) codes[channels + i] = (uint8_t)below(r, 4);
        return channels + 1 + below(r, 4);
    case A_BYTE_TOO_MANY: memset(codes + channels, 0, 256); return channels + 256;
    case ABOVE_THREE: codes[below(r, channels)] = wrong_code(r); return channels;
    case EMPTY: return 0;
    default: return channels;
    }
}

// How often the room was passed by blocks alone, by channels alone, and with codes that are wrong too.
static unsigned long by_blocks, by_channels, with_wrong_codes;

static void note_room(const struct draft *d, const uint8_t *codes, unsigned fault)
{
    unsigned added = 0;
    for (unsigned c = 0; c < d->channels; c++) added += codes[c] == DATA_THEN_CONTROL ? 2 : codes[c] == NOTHING ? 0 : 1;
    int blocks = d->blocks + added > MOST_BLOCKS, channels = d->channels + added > MOST_CHANNELS;
    by_blocks += fault == GOOD && blocks && !channels;
    by_channels += fault == GOOD && channels && !blocks;
    with_wrong_codes += fault != GOOD && (blocks || channels);
}

static void compare_codes(const struct subject *s, struct random *r, unsigned amount, unsigned fault)
{
    uint8_t codes[MOST_CHANNELS + 256];
    draw_codes(r, &s->draft, amount, codes);
    note_room(&s->draft, codes, fault);
    size_t count = spoil_codes(r, s->draft.channels, fault, codes);
    compare_one(s, codes, count);
}

// ---- Forms that are refused

static void compare_refused(const struct subject *s, struct random *r)
{
    write_file(s);
    compare_list(s, chance(r, 2));
    compare_all(s);
    for (unsigned fault = GOOD; fault < FAULTS; fault++) compare_codes(s, r, below(r, AMOUNTS), fault);
}

// One field spoilt, of small nets and of larger ones: the form's number comes before that of the codes and of the channels.
static void try_spoilt_forms(void)
{
    static struct subject s;
    for (int refusal = 1; refusal <= 8; refusal++)
        for (unsigned i = 0; i < SPOILT; i++) {
            struct random r = random_for(1 + (unsigned)refusal, i);
            const struct wish larger = {{64, 127, 32, 32}, below(&r, 6), chance(&r, 2), ~0u};
            name_subject(&s, "forms with one field spoilt", &r);
            if (i % 2) draw(&r, &larger, &s.draft);
            else draw_small(&r, 2 + below(&r, MOST_LISTED - 1), ANY_SORT, &s.draft);
            write_form(&s.draft, &s.form);
            spoil_form(&r, &s.draft, &s.form, refusal);
            compare_refused(&s, &r);
        }
}

static void try_many_sources(void)
{
    static struct subject s;
    for (unsigned i = 0; i < MANY_SOURCES; i++) {
        struct random r = random_for(10, i);
        const struct wish wish = {{64, 128, 64, 64}, 0, chance(&r, 2), i % 2 ? patterns_of_sources() : patterns_of_sinks()};
        name_subject(&s, "over 32 sources or sinks", &r);
        do draw(&r, &wish, &s.draft);
        while (count_kind(&s.draft, SOURCE) <= 32 && count_kind(&s.draft, SINK) <= 32);
        write_form(&s.draft, &s.form);
        compare_refused(&s, &r);
    }
}

// A source, some data buffers in a row and a sink.
static void draw_row(struct draft *d, unsigned channels)
{
    d->blocks = 0;
    d->channels = channels;
    add_drawn(d, SOURCE, 0, 0, (unsigned[]){0});
    for (unsigned c = 1; c < channels; c++) add_drawn(d, DATA, 0, 0, (unsigned[]){c - 1, c});
    add_drawn(d, SINK, 0, 0, (unsigned[]){channels - 1});
}

// Nets of 7 channels and more, which are not listed, whether their loops lack buffers or not: rows of each length from 7 on, and nets as they fall.
static void try_wide_nets(void)
{
    static struct subject s;
    for (unsigned i = 0; i < WIDE_NETS; i++) {
        struct random r = random_for(11, i);
        const struct wish wish = {{64, 128, 32, 32}, below(&r, 6), 0, i % 4 == 1 ? patterns_of_channels() : ~0u};
        name_subject(&s, "nets of 7 channels and more", &r);
        draw_row(&s.draft, MOST_LISTED + 1 + i / 2);
        if (i % 2) {
            do draw(&r, &wish, &s.draft);
            while (s.draft.channels <= MOST_LISTED);
        }
        write_form(&s.draft, &s.form);
        write_file(&s);
        compare_list(&s, chance(&r, 2));
        compare_all(&s);
    }
}

// ---- Single lists of codes

// Nets as they fall; nets of 64 blocks or almost; nets whose channels leave less room than their blocks.
static void draw_larger(struct random *r, unsigned way, struct draft *d)
{
    struct wish wish = {{64, 128, 32, 32}, chance(r, 2) ? below(r, 8) : 0, !chance(r, 3), ~0u};
    if (way == 0) wish.limits.blocks = 4 + below(r, 50);
    if (way == 1) wish.limits.blocks = 61 + below(r, 4);
    if (way == 2) {
        wish.limits.blocks = 50;
        wish.patterns = patterns_of_channels();
    }
    do draw(r, &wish, d);
    while (way == 2 && MOST_CHANNELS - d->channels >= MOST_BLOCKS - d->blocks);
}

static void try_single_codes(void)
{
    static struct subject s;
    for (unsigned i = 0; i < SINGLES; i++) {
        struct random r = random_for(12, i / 8);
        unsigned fault = i % 8 < 3 ? GOOD : i % 8 - 2;
        if (i % 8 == 0) {
            name_subject(&s, "codes for larger nets", &r);
            draw_larger(&r, i / 8 % 3, &s.draft);
            write_form(&s.draft, &s.form);
            write_file(&s);
        }
        r = random_for(13, i);
        compare_codes(&s, &r, fault == GOOD ? i % 8 : below(&r, AMOUNTS), fault);
    }
}

// Each byte but zero as the code of a net with one channel.
static void try_characters(void)
{
    static struct subject s;
    struct random r = random_for(14, 0);
    name_subject(&s, "every character as a code", &r);
    draw_row(&s.draft, 1);
    write_form(&s.draft, &s.form);
    write_file(&s);
    for (unsigned character = 1; character < 256; character++) compare_one(&s, (uint8_t[]){(uint8_t)(character - '0')}, 1);
}

// A demux of 8 and a merge of 8, twelve times one after another; then a row of buffers up to the wanted number of channels, at least 122.
static void draw_sheaf(struct draft *d, unsigned channels)
{
    d->blocks = 0;
    d->channels = channels;
    for (unsigned i = 0; i < 2; i++) add_drawn(d, SOURCE, 0, 0, &i);
    for (unsigned c = 0; c < 120; c += 10) {
        const unsigned wide[] = {c + 2, c + 3, c + 4, c + 5, c + 6, c + 7, c + 8, c + 9};
        unsigned ports[PORT_ROOM] = {c, c + 1};
        memcpy(ports + 2, wide, sizeof wide);
        add_drawn(d, DEMUX, 8, 0, ports);
        memcpy(ports, wide, sizeof wide);
        ports[8] = c + 11;
        ports[9] = c + 10;
        add_drawn(d, MERGE, 8, 0, ports);
    }
    for (unsigned c = 122; c < channels; c++) add_drawn(d, CONTROL, 0, 0, (unsigned[]){c - 1, c});
    add_drawn(d, SINK, 0, 0, (unsigned[]){120});
    add_drawn(d, SINK, 0, 0, (unsigned[]){channels - 1});
}

// All channels get the same code, or the last one gets a code and the others none; and as many codes more as a count of 16 bits would not see.
static void compare_even_codes(const struct subject *s)
{
    static uint8_t codes[CODE_ROOM];
    size_t channels = s->draft.channels;
    for (uint8_t code = NOTHING; code <= LAST_CODE; code++) {
        memset(codes, code, channels);
        compare_one(s, codes, channels);
        memset(codes, NOTHING, channels);
        codes[channels - 1] = code;
        compare_one(s, codes, channels);
    }
    memset(codes, NOTHING, sizeof codes);
    compare_one(s, codes, channels + 65536);
}

// Around the room of 64 blocks and of 128 channels. With 128 channels and two buffers on each, counts of 8 bits come round to where they were.
static void try_room(void)
{
    static struct subject s;
    struct random r = random_for(15, 0);
    name_subject(&s, "around 64 blocks and 128 channels", &r);
    for (unsigned channels = 60; channels <= 63; channels++) {
        draw_row(&s.draft, channels);
        write_form(&s.draft, &s.form);
        write_file(&s);
        compare_even_codes(&s);
    }
    for (unsigned channels = 125; channels <= 128; channels++) {
        draw_sheaf(&s.draft, channels);
        write_form(&s.draft, &s.form);
        write_file(&s);
        compare_even_codes(&s);
    }
}

// ---- All of it

static void require_refusals(void)
{
    char what[40];
    for (unsigned refusal = 1; refusal <= TOO_MANY_CHANNELS; refusal++) {
        snprintf(what, sizeof what, "refusal %u", refusal);
        require((refusal > 11 && refusal < BAD_CODES) || times_refused(refusal) > 0, what);
    }
    require(by_blocks > 0, "room passed by blocks alone");
    require(by_channels > 0, "room passed by channels alone");
    require(with_wrong_codes > 0, "room passed by codes that are wrong");
}

// What the small nets have to show, from 60 nets on.
static void require_small_nets(unsigned nets)
{
    if (nets < NETS) return;
    for (unsigned kind = 0; kind < KINDS; kind++) require(of_kind[kind] > 0, "a kind of block in a small net");
    require(with_self_loops > 0, "a block that feeds itself");
    require(in_parts > 0, "a net in several parts");
    require(short_lists > 0, "a list that is not all");
}

int main(int count, char **arguments)
{
    if (count < 4) {
        fprintf(stderr, "usage: placing NETPLACE PLACETRY FORM [SEED [NETS]]\n");
        return 2;
    }
    netplace = arguments[1];
    placetry = arguments[2];
    form_file = arguments[3];
    if (count > 4) first_seed = strtoull(arguments[4], NULL, 10);
    unsigned nets = count > 5 ? (unsigned)strtoul(arguments[5], NULL, 10) : NETS;
    try_by_hand();
    try_small_nets(nets);
    try_spoilt_forms();
    try_many_sources();
    try_wide_nets();
    try_single_codes();
    try_characters();
    try_room();
    require_refusals();
    require_small_nets(nets);
    print_notes();
    printf("room passed by blocks alone: %lu, by channels alone: %lu, by codes that are wrong: %lu\n", by_blocks, by_channels, with_wrong_codes);
    print_classes();
    printf("placements compared: %lu, listed: %lu\n", placements, listed);
    print_verdict();
    remove(form_file);
    return 0;
}
