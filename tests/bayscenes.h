// Cases for the program baytry: a net with its streams and the masks of four bays, then commands; and ways to spoil them.
#ifndef BAYSCENES_H
#define BAYSCENES_H

#include "bays.h"
#include "generate.h"

// So many cycles have masks for each bay, more than a case has room for.
enum { MASK_CYCLES = 360 };

// A case as it grows and where its commands begin, the net and the streams that it is made from, and for each bay its masks and how many of them were given.
struct scene {
    const char *class;
    uint64_t seed;
    struct draft draft;
    struct form form;
    uint32_t words[MOST_WORDS], ends[MOST_ENDS], masks[BAYS][2 * MASK_CYCLES];
    size_t word_count, end_count, given[BAYS], commands_at, len;
    uint8_t bytes[CASE_ROOM];
};

// A case without commands; numbers at its end; how many commands have room; a command, if it has room; a number of the command at some place, from 0 on.
void begin_case(struct scene *s);
void put_numbers(struct scene *s, const uint32_t *numbers, size_t count);
unsigned commands_left(const struct scene *s);
void add(struct scene *s, uint32_t command, uint32_t a, uint32_t b);
uint32_t number_of(const struct scene *s, size_t at, unsigned i);

// A step of a bay with its next masks, where a number of no bay takes those of some bay; some steps of any bays; one of each.
void step(struct scene *s, unsigned bay);
void step_some(struct scene *s, struct random *r, unsigned count);
void step_each(struct scene *s);

// A bay's next masks, for later calls of next; those of each bay.
void give_masks(struct scene *s, unsigned bay);
void give_all_masks(struct scene *s);

// A call of next over all ends, or over no more than some; a turn.
void call_next(struct scene *s, struct random *r, uint32_t want);
void call_next_over(struct scene *s, uint32_t want, uint32_t lent);
void set_turn(struct scene *s, struct random *r, uint32_t turn);

// A mask of the bays that want a cycle: any, all, one, few, or one bay always and others at times; bits beyond the four bays, or none; a turn beyond them.
enum { WANT_ANY, WANT_ALL, WANT_ONE, WANT_FEW, WANT_ALWAYS, WANT_WAYS, ALL_BAYS = 15 };
uint32_t draw_want(struct random *r, unsigned way, unsigned bay);
uint32_t draw_beyond(struct random *r);
uint32_t draw_turn_beyond(struct random *r);

// A net by a wish, with streams and masks; streams and masks for the net that is there.
void draw_net(struct scene *s, struct random *r, const struct wish *wish);
void draw_signals(struct scene *s, struct random *r);

// A net with streams and masks: small; small with a merge; of 64 blocks or almost; small with streams that are spoilt, each time or every second time; with a
// form that is refused, for each refusal in turn.
typedef void scene_rule(struct scene *, struct random *, unsigned);
scene_rule draw_small, draw_merging, draw_large, draw_bad_ends, draw_any_ends, draw_refused;

// A number from a short list.
#define ONE_OF(r, ...) ((const uint32_t[]){__VA_ARGS__})[below(r, sizeof((uint32_t[]){__VA_ARGS__}) / sizeof(uint32_t))]

// An entry of a state, more often one of a block that has registers; registers at the edge of what a block may hold.
struct registers { uint32_t word, marks; };
unsigned some_entry(struct random *r, const struct draft *d);
struct registers edge_registers(struct random *r, const struct drawn *block);

// The registers of a block, or of an entry behind the blocks; such registers in shape or out of it, the answer says of which.
void set_registers(struct scene *s, struct random *r, unsigned bay, unsigned block, uint32_t word, uint32_t marks);
unsigned spoil_registers(struct scene *s, struct random *r, unsigned bay);

// Four counts; the counts of bays to which at most so many cycles are left, of all or of some.
void set_counts(struct scene *s, const uint32_t *counts);
void leave_cycles(struct scene *s, struct random *r, unsigned left);

// What becomes of the counts: all in range; one or all of them at the allowance; one above it, by one or by far; each in range, but their sum above the
// allowance; a sum that goes round at 2^32 to a small number.
enum { IN_RANGE, ONE_FULL, ALL_FULL, ONE_ABOVE, FAR_ABOVE, SUM_ABOVE, ROUND, COUNT_FAULTS };
void spoil_counts(struct scene *s, struct random *r, unsigned fault);

// A fault of a bay's state; a channel count that is not the net's own.
void spoil_bay(struct scene *s, struct random *r, unsigned bay);
uint32_t other_channels(struct random *r, const struct draft *d);

#endif
