// Traces, faults and cases worked out by hand, which hold the model itself; then the programs are asked of them.
#define _POSIX_C_SOURCE 200809L
#include "diffasks.h"
#include "diffgolden.h"
#include <string.h>

// Bytes as they are, with their number; a record of a low channel and word in cycle 0.
#define BYTES(...) {sizeof((uint8_t[]){__VA_ARGS__}), {__VA_ARGS__}}
#define RECORD(channel, word) 0, 0, 0, channel, 0, 0, 0, word
#define NO_BYTES {0, {0}}
struct known_bytes { size_t len; uint8_t bytes[88]; };

// Two traces, a channel or NULL for all, and the lines of the channels that have words, or of the one that is asked for.
static const struct { struct known_bytes trace[2]; const char *channel, *text; } known_pairs[] = {
    {{NO_BYTES, NO_BYTES}, "0", "channel 0: equal, no words\n"},
    {{NO_BYTES, NO_BYTES}, NULL, ""},
    {{BYTES(RECORD(5, 7)), BYTES(RECORD(5, 7))}, "5", "channel 5: equal, 1 word\n"},
    {{BYTES(RECORD(5, 7)), BYTES(RECORD(5, 7))}, "6", "channel 6: equal, no words\n"},
    // Cycle 3, then cycle 2^25 - 1, for which byte 3 has its highest bit set.
    {{BYTES(RECORD(5, 7), RECORD(5, 8)), BYTES(0, 0, 1, 0x85, 0, 0, 0, 7, 0xff, 0xff, 0xff, 0x85, 0, 0, 0, 8)}, "5", "channel 5: equal, 2 words\n"},
    {{BYTES(0xff, 0xff, 0xff, 0x80, 0, 0, 0, 9), BYTES(RECORD(0, 9))}, NULL, "channel 0: equal, 1 word\n"},
    // The same words on 5, with another channel between; its word is in one trace alone.
    {{BYTES(RECORD(5, 7), RECORD(6, 1), RECORD(5, 8)), BYTES(RECORD(5, 7), RECORD(5, 8))}, NULL,
     "channel 5: equal, 2 words\nchannel 6: second begins first by 1 word\n"},
    {{BYTES(RECORD(5, 7)), BYTES(RECORD(5, 7), RECORD(5, 8))}, "005", "channel 5: first begins second by 1 word\n"},
    {{NO_BYTES, BYTES(RECORD(5, 7), RECORD(5, 8), RECORD(5, 9))}, "5", "channel 5: first begins second by 3 words\n"},
    {{BYTES(RECORD(5, 7), RECORD(5, 7), RECORD(5, 7)), BYTES(RECORD(5, 7))}, "5", "channel 5: second begins first by 2 words\n"},
    {{BYTES(RECORD(5, 7)), BYTES(RECORD(5, 8))}, "5", "channel 5: differ at 0: 7 8\n"},
    {{BYTES(RECORD(5, 1), RECORD(5, 2), RECORD(5, 3)), BYTES(RECORD(5, 1), RECORD(6, 9), RECORD(5, 2), RECORD(5, 4), RECORD(5, 5))}, NULL,
     "channel 5: differ at 2: 3 4\nchannel 6: first begins second by 1 word\n"},
    // Channels 0 and 64, in another order: with 6 bits of a channel they would be one, and equal.
    {{BYTES(RECORD(0, 1), RECORD(64, 2)), BYTES(RECORD(64, 1), RECORD(0, 2))}, NULL, "channel 0: differ at 0: 1 2\nchannel 64: differ at 0: 2 1\n"},
    {{BYTES(0xff, 0xff, 0xff, 0xff, 0, 0, 0, 0), BYTES(0, 0, 0, 127, 0xff, 0xff, 0xff, 0xff)}, NULL, "channel 127: differ at 0: 0 4294967295\n"},
    {{BYTES(0, 0, 0, 127, 1, 2, 3, 4), BYTES(0, 0, 0, 127, 4, 3, 2, 1)}, "0000127", "channel 127: differ at 0: 16909060 67305985\n"},
};

// The number of arguments, the channel, how long both traces are or -1 where they cannot be read; and how the complaint begins, of FIRST and SECOND.
static const struct { unsigned arguments; const char *channel; int len[2]; const char *text; } known_faults[] = {
    {0, "0", {8, 8}, "netdiff: usage: netdiff FIRST SECOND [CHANNEL]"},
    {1, "0", {-1, 8}, "netdiff: usage: netdiff FIRST SECOND [CHANNEL]"},
    {4, "128", {8, 8}, "netdiff: usage: netdiff FIRST SECOND [CHANNEL]"},
    {3, "128", {8, 8}, "netdiff: 128 is no channel: channels are 0 to 127\n"},
    {3, "300", {-1, 81}, "netdiff: 300 is no channel: channels are 0 to 127\n"},
    {3, "-1", {81, 8}, "netdiff: -1 is no channel: channels are 0 to 127\n"},
    {3, "5x", {8, 8}, "netdiff: 5x is no channel: channels are 0 to 127\n"},
    {3, "", {8, 8}, "netdiff:  is no channel: channels are 0 to 127\n"},
    {3, "4294967296", {8, 8}, "netdiff: 4294967296 is no channel: channels are 0 to 127\n"},
    {3, "127", {-1, -1}, "netdiff: cannot read FIRST: "},
    {2, NULL, {-1, 81}, "netdiff: cannot read FIRST: "},
    {2, NULL, {81, -1}, "netdiff: cannot read SECOND: "},
    {2, NULL, {81, 80}, "netdiff: FIRST is no trace: its 81 bytes are not whole records of 8 bytes (refusal 22)\n"},
    {3, "0", {81, 9}, "netdiff: FIRST is no trace: its 81 bytes are not whole records of 8 bytes (refusal 22)\n"},
    {3, "0", {0, 1}, "netdiff: SECOND is no trace: its 1 bytes are not whole records of 8 bytes (refusal 22)\n"},
    {2, NULL, {8, 7}, "netdiff: SECOND is no trace: its 7 bytes are not whole records of 8 bytes (refusal 22)\n"},
};

// A small number of 4 bytes; the numbers of a case: bytes, channel and room of the first trace, then of the second.
#define NUMBER(n) 0, 0, 0, n
#define CASE(a, b, c, d, e, f) NUMBER(a), NUMBER(b), NUMBER(c), NUMBER(d), NUMBER(e), NUMBER(f)

static const struct { struct known_bytes bytes; const char *text; } known_cases[] = {
    {NO_BYTES, "no case\n"},
    {BYTES(NUMBER(0), NUMBER(5), NUMBER(1), NUMBER(0), NUMBER(5), 0, 0, 0), "no case\n"},
    {BYTES(CASE(8, 5, 1, 0, 5, 1), 0, 0, 0, 5, 0, 0, 0), "no case\n"},
    {BYTES(CASE(0, 0, 0, 0, 127, 0)), "first: refusal 0 count 0 list\nsecond: refusal 0 count 0 list\ncompare: equal\nrest:\n"},
    {BYTES(CASE(8, 5, 2, 8, 5, 1), RECORD(5, 7), RECORD(5, 7)),
     "first: refusal 0 count 1 list 7 4294967294\nsecond: refusal 0 count 1 list 7\ncompare: equal\nrest:\n"},
    {BYTES(CASE(8, 5, 1, 16, 5, 3), RECORD(5, 7), RECORD(5, 7), RECORD(5, 8)),
     "first: refusal 0 count 1 list 7\nsecond: refusal 0 count 2 list 7 8 4294967293\ncompare: first begins second\nrest: 8\n"},
    {BYTES(CASE(24, 5, 3, 8, 5, 1), RECORD(5, 7), RECORD(5, 8), RECORD(5, 9), RECORD(5, 7), 5),
     "first: refusal 0 count 3 list 7 8 9\nsecond: refusal 0 count 1 list 7\ncompare: second begins first\nrest: 8 9\n"},
    {BYTES(CASE(16, 5, 2, 24, 5, 3), RECORD(5, 7), RECORD(5, 8), RECORD(5, 7), RECORD(5, 9), RECORD(5, 1)),
     "first: refusal 0 count 2 list 7 8\nsecond: refusal 0 count 3 list 7 9 1\ncompare: differ at 1\nrest: 8\n"},
    // Two channels that are 64 apart, the greatest cycle, the greatest word and none.
    {BYTES(CASE(24, 0, 2, 24, 64, 2), RECORD(64, 3), 0xff, 0xff, 0xff, 0x80, 0xff, 0xff, 0xff, 0xff, RECORD(0, 0), 0xff, 0xff, 0xff, 0xc0, 0, 0, 0, 0,
           RECORD(0, 3), RECORD(64, 1)),
     "first: refusal 0 count 2 list 4294967295 0\nsecond: refusal 0 count 2 list 0 1\ncompare: differ at 0\nrest: 4294967295 0\n"},
    // A trace of 9 bytes; a list of one entry for two words; both at once. The other list is compared with an empty one.
    {BYTES(CASE(9, 5, 2, 8, 5, 1), RECORD(5, 7), 0, RECORD(5, 7)),
     "first: refusal 22 count 0 list 4294967295 4294967294\nsecond: refusal 0 count 1 list 7\ncompare: first begins second\nrest: 7\n"},
    {BYTES(CASE(8, 5, 1, 16, 5, 1), RECORD(5, 7), RECORD(5, 7), RECORD(5, 8)),
     "first: refusal 0 count 1 list 7\nsecond: refusal 23 count 0 list 4294967295\ncompare: second begins first\nrest: 7\n"},
    {BYTES(CASE(17, 5, 1, 8, 6, 0), RECORD(5, 7), RECORD(5, 8), 0, RECORD(5, 7)),
     "first: refusal 22 count 0 list 4294967295\nsecond: refusal 0 count 0 list\ncompare: equal\nrest:\n"},
    {BYTES(CASE(8, 5, 0, 7, 5, 0), RECORD(5, 7), 0, 0, 0, 5, 0, 0, 0),
     "first: refusal 23 count 0 list\nsecond: refusal 22 count 0 list\ncompare: equal\nrest:\n"},
    // Channels 128 and 255 have no words, whatever the lowest bit of the cycle; 261 is 5.
    {BYTES(CASE(8, 128, 1, 8, 255, 0), 0, 0, 0, 128, 0, 0, 0, 7, 0xff, 0xff, 0xff, 0xff, 0, 0, 0, 7),
     "first: refusal 0 count 0 list 4294967295\nsecond: refusal 0 count 0 list\ncompare: equal\nrest:\n"},
    {BYTES(NUMBER(8), 0, 0, 1, 5, NUMBER(1), NUMBER(8), 0xff, 0, 0, 6, NUMBER(1), RECORD(5, 7), RECORD(6, 8)),
     "first: refusal 0 count 1 list 7\nsecond: refusal 0 count 1 list 8\ncompare: differ at 0\nrest: 7\n"},
};

// What the model prints is as it was worked out.
static void hold_model(const struct trial *t, const char *got, const char *want)
{
    snprintf(call, sizeof call, "the model");
    if (strcmp(got, want) != 0) fail_trial(t, "it differs from the case by hand");
}

// The lines of all channels, where those that are known stand among others without words.
static void print_known(FILE *out, const char *text)
{
    for (unsigned channel = 0; channel < CHANNELS; channel++) {
        size_t len = strcspn(text, "\n") + 1;
        unsigned known = CHANNELS;
        if (sscanf(text, "channel %u", &known) == 1 && known == channel) {
            fprintf(out, "%.*s", (int)len, text);
            text += len;
        } else fprintf(out, "channel %u: equal, no words\n", channel);
    }
}

static void try_known_pair(struct pair *p, unsigned i)
{
    static char want[TEXT_ROOM], got[TEXT_ROOM];
    struct trial trial = trial_of(p);
    struct question q = question_of(p, known_pairs[i].channel);
    FILE *wanted = fmemopen(want, sizeof want, "w"), *printed = fmemopen(got, sizeof got, "w");
    if (q.channel) fprintf(wanted, "%s", known_pairs[i].text);
    else print_known(wanted, known_pairs[i].text);
    print_netdiff(printed, printed, &q);
    fclose(wanted);
    fclose(printed);
    hold_model(&trial, got, want);
    write_traces(p);
    ask(p, &q);
}

static void try_known_fault(struct pair *p, unsigned i)
{
    static char got[TEXT_ROOM];
    struct trial trial = trial_of(p);
    struct question q = question_of(p, known_faults[i].channel), named;
    q.arguments = known_faults[i].arguments;
    for (unsigned k = 0; k < 2; k++)
        if (known_faults[i].len[k] < 0) give_file(&q, k, NO_FILE);
    named = q;
    named.trace[0].name = "FIRST";
    named.trace[1].name = "SECOND";
    FILE *printed = fmemopen(got, sizeof got, "w");
    print_netdiff(printed, printed, &named);
    fclose(printed);
    hold_model(&trial, got, known_faults[i].text);
    write_traces(p);
    ask(p, &q);
}

static void try_known_case(struct pair *p, unsigned i)
{
    static char got[TEXT_ROOM];
    struct trial trial = {p->class, p->seed, "case", on_trial.at, on_trial.len};
    FILE *printed = fmemopen(got, sizeof got, "w");
    memcpy(on_trial.at, known_cases[i].bytes.bytes, known_cases[i].bytes.len);
    trial.len = on_trial.len = known_cases[i].bytes.len;
    print_difftry(printed, on_trial.at, on_trial.len);
    fclose(printed);
    hold_model(&trial, got, known_cases[i].text);
    try_case(p);
}

void try_by_hand(void)
{
    static struct pair p = {.class = "by hand"};
    for (unsigned i = 0; i < sizeof known_pairs / sizeof known_pairs[0]; i++) {
        for (unsigned k = 0; k < 2; k++) {
            p.trace[k].len = known_pairs[i].trace[k].len;
            memcpy(p.trace[k].bytes, known_pairs[i].trace[k].bytes, p.trace[k].len);
        }
        try_known_pair(&p, i);
    }
    for (unsigned i = 0; i < sizeof known_faults / sizeof known_faults[0]; i++) {
        for (unsigned k = 0; k < 2; k++) p.trace[k].len = known_faults[i].len[k] < 0 ? 0 : (size_t)known_faults[i].len[k];
        try_known_fault(&p, i);
    }
    for (unsigned i = 0; i < sizeof known_cases / sizeof known_cases[0]; i++) try_known_case(&p, i);
}
