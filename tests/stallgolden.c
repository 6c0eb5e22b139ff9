// Every answer here was worked out by hand from the request's words.
#define _POSIX_C_SOURCE 200809L
#include "stallgolden.h"
#include "stallasks.h"
#include "stallscenes.h"
#include <string.h>

// A net that is known, with its streams.
struct known_net { unsigned blocks, channels, word_count, end_count; struct drawn block[5]; uint32_t words[6], ends[3]; };

// netrun's net: source, data buffer, add 5, sink. A control buffer instead. A fork before two sinks.
static const struct known_net netrun = {4, 3, 3, 1, {{SOURCE, 0, 0, {0}}, {DATA, 0, 0, {0, 1}}, {CONSTANT, 0, 5, {1, 2}}, {SINK, 0, 0, {2}}}, {1, 2, 3}, {3}};
static const struct known_net control = {3, 2, 3, 1, {{SOURCE, 0, 0, {0}}, {CONTROL, 0, 0, {0, 1}}, {SINK, 0, 0, {1}}}, {1, 2, 3}, {3}};
static const struct known_net copies = {4, 3, 3, 1, {{SOURCE, 0, 0, {0}}, {FORK, 2, 0, {0, 1, 2}}, {SINK, 0, 0, {1}}, {SINK, 0, 0, {2}}}, {1, 2, 3}, {3}};

// A mux of 2 with a source for its select and for each input: select words 0, 1, 5. A demux of 2 whose select words are 0 and 7. A merge of 2.
static const struct known_net choice = {5, 4, 6, 3,
    {{SOURCE, 0, 0, {0}}, {SOURCE, 0, 0, {1}}, {SOURCE, 0, 0, {2}}, {MUX, 2, 0, {0, 1, 2, 3}}, {SINK, 0, 0, {3}}}, {0, 1, 5, 10, 20, 21}, {3, 4, 6}};
static const struct known_net spread = {5, 4, 4, 2,
    {{SOURCE, 0, 0, {0}}, {SOURCE, 0, 0, {1}}, {DEMUX, 2, 0, {0, 1, 2, 3}}, {SINK, 0, 0, {2}}, {SINK, 0, 0, {3}}}, {0, 7, 30, 31}, {2, 4}};
static const struct known_net joined = {5, 4, 4, 2,
    {{SOURCE, 0, 0, {0}}, {SOURCE, 0, 0, {1}}, {MERGE, 2, 0, {0, 1, 2, 3}}, {SINK, 0, 0, {2}}, {SINK, 0, 0, {3}}}, {40, 41, 50, 51}, {2, 4}};

// A fork whose copies are the two inputs of a mux, which is to take the first copy twice: it waits for a second word of the fork, which waits until the mux takes
// the other copy.
static const struct known_net crossed = {5, 5, 4, 2,
    {{SOURCE, 0, 0, {0}}, {FORK, 2, 0, {0, 1, 2}}, {SOURCE, 0, 0, {3}}, {MUX, 2, 0, {3, 1, 2, 4}}, {SINK, 0, 0, {4}}}, {60, 61, 0, 0}, {2, 4}};

// ---- stalltry

// Orders: a step; a question for a channel.
#define STEP(offer, ready) {DO_STEP, offer, ready, 0}
#define ASKED(offer, ready, channel) {ASK, offer, ready, channel}

struct known_case { const struct known_net *net; unsigned count; uint32_t orders[16][4]; const char *text; };

static const struct known_case cases[] = {
    // A channel that delivers; an empty data buffer; an idle source. Then the buffer is full: asked for readiness, it hands on, up to the sink. No channel 3, no
    // channel 256.
    {&netrun, 7, {ASKED(1, 1, 0), ASKED(1, 1, 2), ASKED(0, 1, 0), STEP(1, 1), ASKED(1, 0, 0), ASKED(1, 0, 3), ASKED(1, 0, 256)},
     "load 0\nfresh 0\nask 0: refusal 0 ending 0 at 0\nask 2: refusal 0 2v 1v ending 3 at 1\nask 0: refusal 0 0v ending 1 at 0\nstep: refusal 0\n"
     "ask 0: refusal 0 0r 1r 2r ending 2 at 3\nask 3: refusal 24\nask 256: refusal 24\n"},
    // The last count may be asked about, though not stepped from; one more is out of shape.
    {&netrun, 6, {STEP(1, 1), {PUT_COUNT, ALLOWANCE, 0, 0}, STEP(1, 0), ASKED(1, 0, 2), {PUT_COUNT, ALLOWANCE + 1, 0, 0}, ASKED(1, 0, 2)},
     "load 0\nfresh 0\nstep: refusal 0\nstep: refusal 16\nask 2: refusal 0 2r ending 2 at 3\nask 2: refusal 13\n"},
    // Net, state, ends, channel: what comes first is said. A fresh state of a spoilt net is refused.
    {&netrun, 14, {{PUT_MARKS, 3, 1, 0}, {LEND, 0, 0, 0}, {PUT_CHANNELS, 2, 0, 0}, ASKED(1, 1, 9), {DO_FRESH, 0, 0, 0}, {PUT_CHANNELS, 259, 0, 0},
      {PUT_MARKS, 67, 257, 0}, ASKED(1, 1, 9), {PUT_MARKS, 3, 0, 0}, ASKED(1, 1, 9), {LEND, 7, 0, 0}, ASKED(1, 1, 9), ASKED(1, 1, 0), {NO_ORDER, 1, 1, 0}},
     "load 0\nfresh 0\nask 9: refusal 12\nfresh 12\nask 9: refusal 13\nask 9: refusal 14\nask 9: refusal 24\nask 0: refusal 0 ending 0 at 0\n"},
    // An empty control buffer asked for a word hands on; a full one asked for readiness ends the chain, whether its own word goes or not.
    {&control, 6, {ASKED(0, 0, 1), STEP(1, 0), ASKED(1, 0, 0), ASKED(1, 1, 0), ASKED(1, 1, 1), ASKED(1, 0, 1)},
     "load 0\nfresh 0\nask 1: refusal 0 1v 0v ending 1 at 0\nstep: refusal 0\nask 0: refusal 0 0r ending 4 at 1\nask 0: refusal 0 0r ending 4 at 1\n"
     "ask 1: refusal 0 ending 0 at 0\nask 1: refusal 0 1r ending 2 at 2\n"},
    // The first copy has gone and the second waits; then the rest goes, and no rule tells what the first waits for.
    {&copies, 5, {STEP(1, 1), ASKED(0, 1, 1), ASKED(0, 1, 0), ASKED(0, 2, 1), ASKED(0, 2, 0)},
     "load 0\nfresh 0\nstep: refusal 0\nask 1: refusal 0 1v 2r ending 2 at 3\nask 0: refusal 0 0r 2r ending 2 at 3\nask 1: refusal 0 1v ending 6 at 1\n"
     "ask 0: refusal 0 ending 0 at 0\n"},
    // The select is missing. With select 0 the other input waits for nothing while the mux delivers, and for the sink while it does not.
    {&choice, 4, {ASKED(6, 1, 3), ASKED(6, 1, 1), ASKED(7, 1, 2), ASKED(7, 0, 2)},
     "load 0\nfresh 0\nask 3: refusal 0 3v 0v ending 1 at 0\nask 1: refusal 0 1r 0v ending 1 at 0\nask 2: refusal 0 2r ending 6 at 3\n"
     "ask 2: refusal 0 2r 3r ending 2 at 4\n"},
    // The third select word is 5, past the last port: the mux waits for its last input. The first one has no more words.
    {&choice, 5, {STEP(7, 1), STEP(7, 1), ASKED(1, 1, 3), ASKED(1, 1, 0), ASKED(7, 1, 1)},
     "load 0\nfresh 0\nstep: refusal 0\nstep: refusal 0\nask 3: refusal 0 3v 2v ending 1 at 2\nask 0: refusal 0 0r 2v ending 1 at 2\n"
     "ask 1: refusal 0 1v ending 1 at 1\n"},
    // The output that is not selected, while the other delivers and while it does not; then select 7, which names the last.
    {&spread, 6, {ASKED(3, 3, 3), ASKED(3, 2, 3), ASKED(3, 2, 1), STEP(3, 3), ASKED(3, 1, 2), ASKED(3, 2, 2)},
     "load 0\nfresh 0\nask 3: refusal 0 3v ending 6 at 2\nask 3: refusal 0 3v 2r ending 2 at 3\nask 1: refusal 0 1r 2r ending 2 at 3\nstep: refusal 0\n"
     "ask 2: refusal 0 2v 3r ending 2 at 4\nask 2: refusal 0 2v ending 6 at 2\n"},
    // No winner. Then the first input wins: the other one waits for nothing while both sides go, else for the first side that does not.
    {&joined, 6, {ASKED(0, 3, 2), ASKED(0, 3, 0), ASKED(3, 3, 1), ASKED(3, 1, 1), ASKED(3, 1, 0), ASKED(3, 0, 1)},
     "load 0\nfresh 0\nask 2: refusal 0 2v ending 6 at 2\nask 0: refusal 0 0v ending 1 at 0\nask 1: refusal 0 1r ending 6 at 2\n"
     "ask 1: refusal 0 1r 3r ending 2 at 4\nask 0: refusal 0 0r 3r ending 2 at 4\nask 1: refusal 0 1r 2r ending 2 at 3\n"},
    // The second input is recorded and its data has gone. Then a record of the first input, which has no word.
    {&joined, 8, {STEP(2, 1), ASKED(3, 1, 2), ASKED(3, 2, 2), ASKED(3, 2, 0), {PUT_WORD, 2, 1, 0}, {PUT_MARKS, 2, 0, 0}, ASKED(2, 3, 2), ASKED(2, 3, 1)},
     "load 0\nfresh 0\nstep: refusal 0\nask 2: refusal 0 2v 3r ending 2 at 4\nask 2: refusal 0 2v ending 6 at 2\nask 0: refusal 0 0r ending 6 at 2\n"
     "ask 2: refusal 0 2v 0v ending 1 at 0\nask 1: refusal 0 1r 0v ending 1 at 0\n"},
    // A circle of two channels, from within and from outside.
    {&crossed, 7, {ASKED(3, 1, 2), STEP(3, 1), ASKED(3, 1, 2), ASKED(3, 1, 1), ASKED(3, 1, 0), ASKED(3, 1, 4), ASKED(3, 1, 3)},
     "load 0\nfresh 0\nask 2: refusal 0 2r ending 6 at 3\nstep: refusal 0\nask 2: refusal 0 2r 1v ending 5 at 2\nask 1: refusal 0 1v 2r ending 5 at 1\n"
     "ask 0: refusal 0 0r 2r 1v ending 5 at 2\nask 4: refusal 0 4v 1v 2r ending 5 at 1\nask 3: refusal 0 3r 1v 2r ending 5 at 1\n"},
};

// ---- netstall

struct known_question { const struct known_net *net; const char *arguments[6], *text; };

// The lines of a chain.
#define LACKS_V(channel) "channel " channel ": no word comes (lacks V)\n"
#define LACKS_R(channel) "channel " channel ": its word is not taken (lacks R)\n"

static const struct known_question questions[] = {
    {&netrun, {"0", "2"}, LACKS_V("2") LACKS_V("1") "ends at block 1: an empty data buffer\n"},
    {&netrun, {"0", "0"}, "channel 0 delivers\n"},
    {&netrun, {"1", "0", "ready=1,0"}, LACKS_R("0") LACKS_R("1") LACKS_R("2") "ends at block 3: a sink that is not ready\n"},
    {&netrun, {"2", "0", "ready=1,0"}, "channel 0 delivers\n"},
    {&netrun, {"9", "0", "ready=1,0.."}, LACKS_R("0") LACKS_R("1") LACKS_R("2") "ends at block 3: a sink that is not ready\n"},
    {&netrun, {"5", "0"}, LACKS_V("0") "ends at block 0: a source that offers nothing\n"},
    {&netrun, {"5", "0", "1,2,3,4,5,6"}, "channel 0 delivers\n"},
    {&netrun, {"0", "0", ""}, LACKS_V("0") "ends at block 0: a source that offers nothing\n"},
    {&netrun, {"1", "0", "offer=0", "7"}, "channel 0 delivers\n"},
    {&netrun, {"1", "0", "offer=0", "7", "offer=0.."}, LACKS_V("0") "ends at block 0: a source that offers nothing\n"},
    {&netrun, {"0", "3"}, "refused 24\n"},
    {&netrun, {"0", "256"}, "refused 24\n"},
    {&netrun, {"0", "18446744073709551616"}, "refused 24\n"},
    {&netrun, {"1048576", "0"}, LACKS_V("0") "ends at block 0: a source that offers nothing\n"},
    {&netrun, {"1048577", "0"}, "refused 16\n"},
    {&netrun, {"1048577", "3"}, "refused 24\n"},
    {&netrun, {"1048577", "3", "1", "2"}, "refused 14\n"},
    {&netrun, {"x", "0"}, ""},
    {&netrun, {"0", "0", "1,,2"}, ""},
    {&netrun, {"0"}, ""},
    {&control, {"1", "0", "ready=0.."}, LACKS_R("0") "ends at block 1: a full control buffer\n"},
    {&copies, {"1", "1", "ready=1,2"}, LACKS_V("1") "ends at block 1: no rule names a further channel\n"},
    {&joined, {"0", "2", "offer=0", "40", "50"}, LACKS_V("2") "ends at block 2: no rule names a further channel\n"},
    {&crossed, {"1", "2", "60,61", "0,0"}, LACKS_R("2") LACKS_V("1") "ends in a circle: channel 2 is met again\n"},
};

// ---- Comparing

// The net of a case or a question.
static void take_net(struct scene *s, const struct known_net *net)
{
    s->draft.blocks = 0;
    s->draft.channels = net->channels;
    for (unsigned b = 0; b < net->blocks; b++) add_drawn(&s->draft, net->block[b].kind, net->block[b].m, net->block[b].value, net->block[b].port);
    write_form(&s->draft, &s->form);
    memcpy(s->words, net->words, sizeof net->words);
    memcpy(s->ends, net->ends, sizeof net->ends);
    s->word_count = net->word_count;
    s->end_count = net->end_count;
}

static void fail_by_hand(const struct scene *s, unsigned i)
{
    struct trial trial = {s->class, i, "form", s->form.bytes, s->form.len};
    snprintf(call, sizeof call, "the model");
    fail_trial(&trial, "it differs from the case by hand of the number that stands for the seed");
}

static char text[4096];

static void try_known_case(struct scene *s, unsigned i)
{
    take_net(s, cases[i].net);
    begin_case(s);
    for (unsigned n = 0; n < cases[i].count; n++) put_numbers(s, cases[i].orders[n], 4);
    FILE *out = fmemopen(text, sizeof text, "w");
    print_stalltry(out, s->bytes, s->len);
    fclose(out);
    if (strcmp(text, cases[i].text) != 0) fail_by_hand(s, i);
    try_case(s);
}

static void try_known_question(struct scene *s, unsigned i)
{
    static struct question q;
    char complaint[64] = "";
    take_net(s, questions[i].net);
    begin_question(&q);
    name_form(&q, GOOD_FILE);
    for (unsigned n = 0; questions[i].arguments[n]; n++) {
        next_argument(&q);
        type(&q, "%s", questions[i].arguments[n]);
    }
    FILE *out = fmemopen(text, sizeof text, "w"), *errors = fmemopen(complaint, sizeof complaint, "w");
    memset(text, 0, sizeof text);
    print_netstall(out, errors, &(struct typed){q.count, q.argument, 1, s->form.bytes, s->form.len});
    fclose(out);
    fclose(errors);
    if (strcmp(text, questions[i].text) != 0 || (*complaint != 0) != (*text == 0)) fail_by_hand(s, i);
    ask(s, &q);
}

void try_by_hand(void)
{
    static struct scene s = {.class = "by hand"};
    for (unsigned i = 0; i < sizeof cases / sizeof cases[0]; i++) try_known_case(&s, i);
    for (unsigned i = 0; i < sizeof questions / sizeof questions[0]; i++) try_known_question(&s, i);
}
