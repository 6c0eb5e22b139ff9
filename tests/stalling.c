// Compares the programs netstall and stalltry with the model: chains of nets at work, of nets that are stalled, of states that are set; every ending, every
// refusal, wrong arguments, files that are no case.
// usage: stalling NETSTALL STALLTRY CASE [SEED [NETS [random]]] (cases for stalltry are written to the file CASE, forms for netstall to CASE.form; those for
// which an answer differs stay there; random: without the cases by hand; a - in place of a program leaves its cases out)
#include "stallasks.h"
#include "stallgolden.h"
#include "stallquestions.h"
#include "stallscenes.h"
#include <stdlib.h>

// How many rounds of all classes there are, and how many show all that has to be met.
enum { NETS = 40, FEWEST_NETS = 24 };

// Orders that all have room, or of which the last has not, and then more bytes of such orders behind the room of a case.
static void try_longer(struct scene *s, struct random *r, unsigned i)
{
    begin_case(s);
    fill_case(s, r, i);
    while (s->len < CASE_ROOM) s->bytes[s->len++] = 0;
    try_longer_case(s, 1 + below(r, ONE_OF(r, ORDER_BYTES, 400)));
}

// The net with its streams; then either the orders of a case for stalltry, or questions for netstall or else; and how many cases there are in each round.
static const struct { const char *name; scene_rule *net, *orders, *ask; unsigned times; } classes[] = {
    {"steps and questions", draw_small, ask_between_steps, NULL, 2},
    {"steps and questions without merges", draw_plain, ask_between_steps, NULL, 1},
    {"steps and questions, tangled nets", draw_tangled, ask_between_steps, NULL, 2},
    {"steps and questions, 64 blocks or almost", draw_large, ask_between_steps, NULL, 1},
    {"stalled for long", draw_small, ask_when_stalled, NULL, 1},
    {"stalled for long, tangled nets", draw_tangled, ask_when_stalled, NULL, 2},
    {"stalled for long, 64 blocks or almost", draw_large, ask_when_stalled, NULL, 1},
    {"stalled for long, in a row", draw_row, ask_when_stalled, NULL, 1},
    {"states that are set", draw_small, ask_any_state, NULL, 2},
    {"states that are set, with merges", draw_merging, ask_any_state, NULL, 2},
    {"states that are set, tangled nets", draw_tangled, ask_any_state, NULL, 2},
    {"states that are set, 64 blocks or almost", draw_large, ask_any_state, NULL, 1},
    {"the count at its limit", draw_small, ask_at_the_limit, NULL, 1},
    {"registers in shape and out of it", draw_small, ask_spoilt_states, NULL, 2},
    {"registers of nets with merges", draw_merging, ask_spoilt_states, NULL, 1},
    {"channel counts changed and set back", draw_small, ask_spoilt_nets, NULL, 1},
    {"some of the ends lent", draw_small, ask_over_some_ends, NULL, 1},
    {"ends that do not fit", draw_bad_ends, ask_over_some_ends, NULL, 1},
    {"numbers of no channel", draw_small, ask_no_channels, NULL, 1},
    {"several faults at once", draw_small, ask_with_faults, NULL, 2},
    {"refused forms", draw_refused, ask_refused_nets, NULL, 1},
    {"fresh states in the middle", draw_small, ask_fresh_states, NULL, 1},
    {"numbers of no order", draw_small, give_no_orders, NULL, 1},
    {"files that are no case, or hardly one", draw_small, spoil_case_file, NULL, 1},
    {"files that are longer than a case", draw_small, NULL, try_longer, 1},
    {"netstall: masks and streams", draw_small, NULL, ask_in_full, 2},
    {"netstall: masks and streams, tangled nets", draw_tangled, NULL, ask_in_full, 2},
    {"netstall: masks and streams, 64 blocks or almost", draw_large, NULL, ask_in_full, 1},
    {"netstall: no stream", draw_small, NULL, ask_by_default, 2},
    {"netstall: no stream, tangled nets", draw_tangled, NULL, ask_by_default, 1},
    {"netstall: in a stall", draw_plain, NULL, ask_in_a_stall, 1},
    {"netstall: in a stall, tangled nets", draw_tangled, NULL, ask_in_a_stall, 3},
    {"netstall: masks and streams, in a row", draw_row, NULL, ask_in_full, 1},
    {"netstall: near the end of the masks", draw_small, NULL, ask_near_the_end, 2},
    {"netstall: streams that are not one per source", draw_small, NULL, ask_other_streams, 2},
    {"netstall: numbers of no channel", draw_small, NULL, ask_other_channels, 1},
    {"netstall: cycles past the limit", draw_small, NULL, ask_other_cycles, 1},
    {"netstall: several faults at once", draw_small, NULL, ask_several_faults, 3},
    {"netstall: refused forms", draw_refused, NULL, ask_refused_forms, 2},
    {"netstall: numbers typed in other ways", draw_small, NULL, ask_typed_oddly, 1},
    {"netstall: wrong arguments", draw_small, NULL, ask_wrongly, 2},
    {"netstall: too few arguments, or no file", draw_small, NULL, ask_without_file, 2},
    {"netstall: many words, masks and streams", draw_small, NULL, ask_with_many, 4},
};

// What the nets were like.
static unsigned long of_kind[KINDS], of_64_blocks, of_128_channels, without_merges;

static void note_net(const struct draft *d)
{
    for (unsigned b = 0; b < d->blocks; b++) of_kind[d->block[b].kind]++;
    of_64_blocks += d->blocks == 64;
    of_128_channels += d->channels == 128;
    without_merges += count_kind(d, MERGE) == 0;
}

static void try_class(unsigned class, unsigned i)
{
    static struct scene s;
    struct random r = random_for(1 + class, i);
    s.class = classes[class].name;
    s.seed = r.first;
    classes[class].net(&s, &r, i);
    note_net(&s.draft);
    if (classes[class].orders) {
        begin_case(&s);
        classes[class].orders(&s, &r, i);
        try_case(&s);
    } else classes[class].ask(&s, &r, i);
}

// The next cases of every class, so that what only one class shows is met early.
static void try_classes(unsigned round)
{
    for (unsigned class = 0; class < sizeof classes / sizeof classes[0]; class++)
        for (unsigned n = 0; n < classes[class].times; n++) try_class(class, round * classes[class].times + n);
}

static void print_nets(void)
{
    printf("nets of 64 blocks: %lu, of 128 channels: %lu, without merges: %lu; blocks of kind", of_64_blocks, of_128_channels, without_merges);
    for (unsigned kind = 0; kind < KINDS; kind++) printf(" %u: %lu%s", kind, of_kind[kind], kind + 1 < KINDS ? "," : "\n");
}

// What the cases have to show, from some rounds on.
static void require_notes(void)
{
    require_asked();
    for (unsigned kind = 0; kind < KINDS; kind++) require(of_kind[kind] > 0, "a kind of block");
    require(of_64_blocks > 0, "a net of 64 blocks");
    require(of_128_channels > 0, "a net of 128 channels");
    require(without_merges > 0, "a net without merges");
}

int main(int count, char **arguments)
{
    if (count < 4) {
        fprintf(stderr, "usage: stalling NETSTALL STALLTRY CASE [SEED [NETS [random]]]\n");
        return 2;
    }
    begin_asking(arguments[1], arguments[2], arguments[3]);
    if (count > 4) first_seed = strtoull(arguments[4], NULL, 10);
    unsigned nets = count > 5 ? (unsigned)strtoul(arguments[5], NULL, 10) : NETS;
    if (count <= 6) try_by_hand();
    for (unsigned net = 0; net < nets; net++) try_classes(net);
    if (nets >= FEWEST_NETS && both_are_asked()) require_notes();
    print_asked();
    print_nets();
    print_classes();
    print_verdict();
    end_asking();
    return 0;
}
