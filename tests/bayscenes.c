#include "bayscenes.h"
#include "spoil.h"
#include <string.h>

enum { SMALL_BLOCKS = 18, LONGEST_STREAM = 24 };

// ---- Writing a case

static void put_number(struct scene *s, uint32_t number)
{
    for (int shift = 24; shift >= 0; shift -= 8) s->bytes[s->len++] = (uint8_t)(number >> shift);
}

void put_numbers(struct scene *s, const uint32_t *numbers, size_t count)
{
    for (size_t i = 0; i < count; i++) put_number(s, numbers[i]);
}

unsigned commands_left(const struct scene *s)
{
    return (unsigned)((CASE_ROOM - s->len) / COMMAND_BYTES);
}

// Adds a command, if there is room.
void add(struct scene *s, uint32_t command, uint32_t a, uint32_t b)
{
    if (commands_left(s) > 0) put_numbers(s, (uint32_t[]){command, a, b}, 3);
}

uint32_t number_of(const struct scene *s, size_t at, unsigned i)
{
    const uint8_t *bytes = s->bytes + at + 4 * i;
    return (uint32_t)bytes[0] << 24 | (uint32_t)bytes[1] << 16 | (uint32_t)bytes[2] << 8 | bytes[3];
}

// A case without commands: header, form, words, ends.
void begin_case(struct scene *s)
{
    s->len = 0;
    put_numbers(s, (uint32_t[]){(uint32_t)s->form.len, (uint32_t)s->word_count, (uint32_t)s->end_count}, 3);
    memcpy(s->bytes + s->len, s->form.bytes, s->form.len);
    s->len += s->form.len;
    put_numbers(s, s->words, s->word_count);
    put_numbers(s, s->ends, s->end_count);
    s->commands_at = s->len;
}

// A bay's next masks; a number of no bay takes those of some bay.
static const uint32_t *next_masks(struct scene *s, unsigned bay)
{
    return s->masks[bay % BAYS] + 2 * (s->given[bay % BAYS]++ % MASK_CYCLES);
}

void step(struct scene *s, unsigned bay)
{
    const uint32_t *masks = next_masks(s, bay);
    add(s, bay, masks[0], masks[1]);
}

void step_some(struct scene *s, struct random *r, unsigned count)
{
    for (unsigned i = 0; i < count; i++) step(s, below(r, BAYS));
}

void step_each(struct scene *s)
{
    for (unsigned k = 0; k < BAYS; k++) step(s, k);
}

// ---- Calls of next

void give_masks(struct scene *s, unsigned bay)
{
    const uint32_t *masks = next_masks(s, bay);
    add(s, SET_MASKS + bay, masks[0], masks[1]);
}

void give_all_masks(struct scene *s)
{
    for (unsigned k = 0; k < BAYS; k++) give_masks(s, k);
}

void call_next_over(struct scene *s, uint32_t want, uint32_t lent)
{
    add(s, NEXT, want, lent);
}

// Any number from that of the ends on means all of them.
void call_next(struct scene *s, struct random *r, uint32_t want)
{
    uint32_t all = (uint32_t)s->end_count;
    call_next_over(s, want, ONE_OF(r, all, all, all + 1, 256, 65536, 0x80000000, 0xffffffff));
}

// The number as the command takes it: the remainder for 256 counts.
void set_turn(struct scene *s, struct random *r, uint32_t turn)
{
    add(s, SET_TURN, turn + 256 * (chance(r, 4) ? below(r, 1000) : 0), below(r, 9));
}

uint32_t draw_want(struct random *r, unsigned way, unsigned bay)
{
    uint32_t any = below(r, ALL_BAYS + 1), other = below(r, ALL_BAYS + 1);
    switch (way) {
    case WANT_ALL: return ALL_BAYS;
    case WANT_ONE: return 1u << any % BAYS;
    case WANT_FEW: return any & other;
    case WANT_ALWAYS: return any | 1u << bay;
    default: return any;
    }
}

uint32_t draw_beyond(struct random *r)
{
    uint32_t any = random_bits(r) & ~(uint32_t)ALL_BAYS;
    return chance(r, 2) ? 0 : ONE_OF(r, 0x10, 0x20, 0x100, 0x80000000, 0xfffffff0, any);
}

uint32_t draw_turn_beyond(struct random *r)
{
    uint32_t any = BAYS + below(r, 256 - BAYS);
    return ONE_OF(r, 4, 5, 6, 7, 8, 9, 16, 64, 128, 252, 255, any, any, any);
}

// ---- Nets and streams

// Streams of so many words that all have room, and masks for each bay, drawn in a way of its own. At times there are words behind the last stream.
void draw_signals(struct scene *s, struct random *r)
{
    unsigned sources = count_kind(&s->draft, SOURCE), longest = sources > 0 ? MOST_WORDS / sources : 1;
    memset(s->words, 0, sizeof s->words);
    s->word_count = draw_streams(r, &s->draft, longest < LONGEST_STREAM ? longest : LONGEST_STREAM, s->words, s->ends);
    s->end_count = sources;
    for (; s->word_count < MOST_WORDS && chance(r, 8); s->word_count++) s->words[s->word_count] = random_bits(r);
    for (unsigned k = 0; k < BAYS; k++) {
        draw_masks(r, below(r, MASK_WAYS), MASK_CYCLES, s->masks[k]);
        s->given[k] = 0;
    }
}

void draw_net(struct scene *s, struct random *r, const struct wish *wish)
{
    draw(r, wish, &s->draft);
    write_form(&s->draft, &s->form);
    draw_signals(s, r);
}

void draw_small(struct scene *s, struct random *r, unsigned i)
{
    (void)i;
    draw_net(s, r, &(struct wish){{2 + below(r, SMALL_BLOCKS), 64, 12, 12}, chance(r, 2) ? 0 : below(r, 5), 1, ~0u});
}

// A small net with a merge in it.
void draw_merging(struct scene *s, struct random *r, unsigned i)
{
    do draw_small(s, r, i);
    while (count_kind(&s->draft, MERGE) == 0);
}

void draw_large(struct scene *s, struct random *r, unsigned i)
{
    draw_net(s, r, &(struct wish){{61 + below(r, 4), 128, 32, 32}, chance(r, 2) ? 0 : below(r, 9), 1, i % 4 == 1 ? patterns_of_channels() : ~0u});
}

// ---- Ends that do not fit

// Too few, too many, none; two that descend; one that passes the words; words too few; as many words as there may be, which do fit.
enum { FEWER_ENDS, MORE_ENDS, NO_ENDS, MANY_ENDS, DESCENDING, PAST_THE_WORDS, FAR_PAST, FEWER_WORDS, NO_WORDS, MORE_WORDS, END_FAULTS };

static void spoil_ends(struct scene *s, struct random *r, unsigned fault)
{
    size_t last = s->end_count - 1, some = below(r, (uint32_t)s->end_count);
    switch (fault) {
    case FEWER_ENDS: s->end_count--; break;
    case MORE_ENDS: s->ends[s->end_count++] = (uint32_t)s->word_count; break;
    case NO_ENDS: s->end_count = 0; break;
    case MANY_ENDS:
        for (; s->end_count < MOST_ENDS; s->end_count++) s->ends[s->end_count] = s->ends[last];
        break;
    case DESCENDING: s->ends[some] = s->ends[last] + 1; s->word_count += s->word_count < MOST_WORDS; break;
    case PAST_THE_WORDS: s->ends[last] = (uint32_t)s->word_count + 1; break;
    case FAR_PAST: s->ends[some] = chance(r, 2) ? 0xffffffff : 1u << below(r, 32) | s->ends[some]; break;
    case FEWER_WORDS: s->word_count -= s->word_count > 0; break;
    case NO_WORDS: s->word_count = 0; break;
    default: s->word_count = MOST_WORDS; break;
    }
}

void draw_bad_ends(struct scene *s, struct random *r, unsigned i)
{
    draw_small(s, r, i);
    spoil_ends(s, r, i % END_FAULTS);
}

// Half of the cases have ends that do not fit.
void draw_any_ends(struct scene *s, struct random *r, unsigned i)
{
    draw_small(s, r, i);
    if (i % 2) spoil_ends(s, r, below(r, END_FAULTS));
}

// ---- Refused forms

// A net that earns 9: over 32 sources or sinks.
static void draw_many(struct scene *s, struct random *r)
{
    const struct wish wish = {{64, 128, 64, 64}, 0, 1, chance(r, 2) ? patterns_of_sources() : patterns_of_sinks()};
    do draw(r, &wish, &s->draft);
    while (count_kind(&s->draft, SOURCE) <= 32 && count_kind(&s->draft, SINK) <= 32);
}

// A net whose loops lack buffers, which earns 10 or 11.
static void draw_unbuffered(struct scene *s, struct random *r, uint32_t refusal)
{
    const struct wish wish = {{6 + below(r, SMALL_BLOCKS), 64, 12, 12}, 2 + below(r, 8), 0, ~0u};
    do draw(r, &wish, &s->draft);
    while (refusal_of_loops(&s->draft) != refusal);
}

// For each refusal of a form in turn a form that earns it.
void draw_refused(struct scene *s, struct random *r, unsigned i)
{
    unsigned refusal = 1 + i % 11;
    if (refusal == 9) draw_many(s, r);
    else if (refusal >= 10) draw_unbuffered(s, r, refusal);
    else do draw_small(s, r, i); while (s->draft.channels < 2);
    write_form(&s->draft, &s->form);
    draw_signals(s, r);
    if (refusal <= 8) spoil_form(r, &s->draft, &s->form, (int)refusal);
}

// ---- Records that are spoilt

// Words and marks at the edge of what a block may hold: the block's m and the full marks of a fork are such edges.
struct registers edge_registers(struct random *r, const struct drawn *block)
{
    uint32_t m = block->m, full = (1u << m) - 1, marks = ONE_OF(r, 0, 1, 2, 3, 4, 128, 255);
    switch (block->kind) {
    case SOURCE: return (struct registers){ONE_OF(r, 0, 1, 2, 255, 256, 257, 65536, 0x80000000, 0xffffffff), chance(r, 2) ? below(r, 2) : marks};
    case FORK: return (struct registers){below(r, 4) == 0, ONE_OF(r, 0, 1, full - 1, full - 1, full, full, (full + 1) % 256, 255)};
    case MERGE:
        if (chance(r, 2)) return (struct registers){ONE_OF(r, 1, m), ONE_OF(r, 0, 1, 2, 3, 3, 4, 255)};
        return (struct registers){ONE_OF(r, 0, 0, 0, 0, m + 1, m + 1, 256, 0x80000000, 0xffffffff), ONE_OF(r, 0, 1, 2)};
    case DATA:
    case FULL_DATA:
    case CONTROL: return (struct registers){ONE_OF(r, 0, 1, 256, 65536, 0x80000000, 0xffffffff), chance(r, 2) ? below(r, 2) : marks};
    default: return chance(r, 2) ? (struct registers){0, marks} : (struct registers){ONE_OF(r, 0, 1, 256, 65536, 0x80000000, 0xffffffff), 0};
    }
}

// The numbers as the command takes them: the remainder for 64 blocks and for 256 marks counts.
void set_registers(struct scene *s, struct random *r, unsigned bay, unsigned block, uint32_t word, uint32_t marks)
{
    add(s, SET_WORD + bay, block + 64 * (chance(r, 4) ? below(r, 1000) : 0), word);
    add(s, SET_MARKS + bay, block + 64 * (chance(r, 4) ? below(r, 1000) : 0), marks + 256 * (chance(r, 4) ? below(r, 1000) : 0));
}

// A block of the net; more often than by their number one of those whose rules name registers. Or an entry behind the blocks.
unsigned some_entry(struct random *r, const struct draft *d)
{
    if (chance(r, 6)) return chance(r, 2) ? d->blocks % 64 : below(r, 64);
    unsigned kind = ONE_OF(r, SOURCE, FORK, MERGE, DATA, FULL_DATA, CONTROL), b = below(r, d->blocks), tries = chance(r, 3) ? 0 : d->blocks;
    for (; tries > 0 && d->block[b].kind != kind; tries--) b = (b + 1) % d->blocks;
    return b;
}

// Spoils a block of the net, or an entry behind its blocks, or leaves them at the edge of being spoilt; answers which.
unsigned spoil_registers(struct scene *s, struct random *r, unsigned bay)
{
    static const struct drawn none = {.kind = SINK};
    unsigned b = some_entry(r, &s->draft);
    struct registers edge = edge_registers(r, b < s->draft.blocks ? &s->draft.block[b] : &none);
    set_registers(s, r, bay, b, edge.word, edge.marks);
    return b;
}

void set_counts(struct scene *s, const uint32_t *counts)
{
    for (unsigned k = 0; k < BAYS; k++) add(s, SET_COUNT + k, counts[k], 0);
}

// At most so many are left to a bay, to a few or to all; the others have hardly begun.
void leave_cycles(struct scene *s, struct random *r, unsigned left)
{
    uint32_t counts[BAYS];
    unsigned rare = ONE_OF(r, 1, 2, 4), sure = below(r, BAYS);
    for (unsigned k = 0; k < BAYS; k++) counts[k] = k == sure || chance(r, rare) ? ALLOWANCE - below(r, left + 1) : below(r, 50);
    set_counts(s, counts);
}

// Two counts, of which one at least is out of range most of the time, whose sum goes round at 2^32 to a small number.
static void count_round(struct random *r, unsigned bay, uint32_t *counts)
{
    uint32_t moved = ONE_OF(r, 0x80000000, 0x40000000, 0xffffffff, 0xfff00000, 1 + ALLOWANCE, 0x3fffffff) + below(r, 100);
    counts[bay] += moved;
    counts[(bay + 1 + below(r, BAYS - 1)) % BAYS] -= moved;
}

void spoil_counts(struct scene *s, struct random *r, unsigned fault)
{
    uint32_t counts[BAYS], bay = below(r, BAYS), most = chance(r, 2) ? 50 : ALLOWANCE, half = ALLOWANCE / 2;
    for (unsigned k = 0; k < BAYS; k++) counts[k] = fault == ALL_FULL ? ALLOWANCE : fault == SUM_ABOVE ? half + below(r, half) : below(r, most);
    switch (fault) {
    case ONE_FULL: counts[bay] = ALLOWANCE; break;
    case ONE_ABOVE: counts[bay] = ALLOWANCE + 1; break;
    case FAR_ABOVE: counts[bay] = ONE_OF(r, ALLOWANCE + 2, 2 * ALLOWANCE, 0x80000000, 0xffffffff, 0xffff0000 + counts[bay] % 0x10000); break;
    case ROUND: count_round(r, bay, counts); break;
    default: break;
    }
    set_counts(s, counts);
}

// A fault of a bay's state: registers behind the blocks, registers of a sink, a count above the allowance.
void spoil_bay(struct scene *s, struct random *r, unsigned bay)
{
    unsigned b = 0;
    while (b < s->draft.blocks && s->draft.block[b].kind != SINK) b++;
    switch (below(r, 3)) {
    case 0: set_registers(s, r, bay, 63, 1 + below(r, 9), 0); break;
    case 1: set_registers(s, r, bay, b % 64, 0, 1 + below(r, 255)); break;
    default: add(s, SET_COUNT + bay, ONE_OF(r, ALLOWANCE + 1, ALLOWANCE + 2, 0xffffffff), 0); break;
    }
}

// A channel count that is not the net's own.
uint32_t other_channels(struct random *r, const struct draft *d)
{
    uint32_t any = below(r, 256), other = ONE_OF(r, 0, 1, d->channels - 1, d->channels + 1, 127, 128, 129, 255, any);
    return other == d->channels ? 0 : other;
}
