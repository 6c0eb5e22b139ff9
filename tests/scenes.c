// Random nets for the tests of the planner's tool, a line each: the sort of net, its stored form in hexadecimal, its words, ends and masks with commas between them.
// Sorts: accepted (as it is made), spoilt (a field earns a refusal from 1 to 8), ends (up to 64 sources or sinks), loops (which may lack a buffer), turned (bits turned over).
// usage: scenes SEED COUNT     COUNT nets of each sort
#include "generate.h"
#include "spoil.h"
#include <stdio.h>
#include <stdlib.h>

enum { LONGEST = 6, CYCLES = 12, ENDS = 64 };
enum sort { ACCEPTED, SPOILT, MANY_ENDS, LOOPS, TURNED, SORTS };
static const char *const names[SORTS] = {"accepted", "spoilt", "ends", "loops", "turned"};

static struct draft draft;
static struct form form;
static uint32_t words[ENDS * LONGEST], ends[ENDS], masks[2 * CYCLES];

static void print_numbers(const uint32_t *numbers, size_t count)
{
    putchar(' ');
    if (count == 0) putchar('-');
    for (size_t i = 0; i < count; i++) printf("%s%u", i ? "," : "", numbers[i]);
}

static void print_form(void)
{
    if (form.len == 0) putchar('-');
    for (size_t i = 0; i < form.len; i++) printf("%02x", form.bytes[i]);
}

// What a net of a sort should be like.
static struct wish wish_for(struct random *r, enum sort sort)
{
    struct wish wish = {{64, 128, 32, 32}, chance(r, 2) ? 0 : below(r, 8), 1, ~0u};
    wish.limits.blocks = chance(r, 2) ? 6 + below(r, 12) : 6 + below(r, 59);
    if (sort == SPOILT) wish.limits.channels = 127;
    if (sort == LOOPS) wish.repaired = 0;
    if (sort == MANY_ENDS) {
        wish.limits = (struct limits){64, 128, ENDS, ENDS};
        wish.patterns = chance(r, 2) ? patterns_of_sources() : patterns_of_sinks();
    }
    return wish;
}

// What is done to the form of a net of a sort.
static void damage(struct random *r, enum sort sort)
{
    if (sort == SPOILT) spoil_form(r, &draft, &form, 1 + (int)below(r, 8));
    if (sort == TURNED)
        for (unsigned flips = 1 + below(r, 3); flips > 0; flips--) form.bytes[below(r, (uint32_t)form.len)] ^= (uint8_t)(1 << below(r, 8));
}

static void print_scene(struct random *r, enum sort sort)
{
    struct wish wish = wish_for(r, sort);
    draw(r, &wish, &draft);
    write_form(&draft, &form);
    size_t word_count = draw_streams(r, &draft, LONGEST, words, ends);
    draw_masks(r, below(r, MASK_WAYS), CYCLES, masks);
    damage(r, sort);
    printf("%s ", names[sort]);
    print_form();
    print_numbers(words, word_count);
    print_numbers(ends, count_kind(&draft, SOURCE));
    print_numbers(masks, 2 * CYCLES);
    putchar('\n');
}

int main(int count, char **arguments)
{
    if (count != 3) return 2;
    struct random r = {strtoull(arguments[1], NULL, 10), 0};
    for (unsigned i = 0; i < SORTS * strtoul(arguments[2], NULL, 10); i++) print_scene(&r, (enum sort)(i % SORTS));
}
