// Recordings laid beside each other: a channel's words are gathered out of a whole trace, and two lists of words are walked along from their beginnings.
#include "diffs.h"
#include <stdlib.h>
#include <string.h>

// Words in a row: a list, or a part of one.
struct list { const uint32_t *at; size_t count; };

struct gathered { uint32_t refusal; size_t count; };

// How two lists compare; the place is how far they are the same.
enum { LISTS_EQUAL, FIRST_BEGINS, SECOND_BEGINS, LISTS_DIFFER };
struct compared { unsigned how; size_t place; };

// ---- Records

static uint32_t number_at(const uint8_t *bytes)
{
    return (uint32_t)bytes[0] << 24 | (uint32_t)bytes[1] << 16 | (uint32_t)bytes[2] << 8 | bytes[3];
}

static int is_on(const uint8_t *record, uint32_t channel)
{
    return record[CHANNEL_AT] % CHANNELS == channel;
}

size_t words_on(const uint8_t *trace, size_t len, uint32_t channel)
{
    size_t count = 0;
    for (size_t i = 0; i < len / RECORD_BYTES; i++) count += is_on(trace + i * RECORD_BYTES, channel);
    return count;
}

// ---- The three calls

// Puts a channel's words at a list's beginning.
static struct gathered gather(const uint8_t *trace, size_t len, uint32_t channel, uint32_t *list, size_t room)
{
    size_t count = 0;
    if (len % RECORD_BYTES != 0) return (struct gathered){NO_RECORDS, 0};
    if (words_on(trace, len, channel) > room) return (struct gathered){SHORT_LIST, 0};
    for (size_t at = 0; at < len; at += RECORD_BYTES)
        if (is_on(trace + at, channel)) list[count++] = number_at(trace + at + WORD_AT);
    return (struct gathered){0, count};
}

static struct compared compare(struct list first, struct list second)
{
    size_t both = first.count < second.count ? first.count : second.count, place = 0;
    while (place < both && first.at[place] == second.at[place]) place++;
    if (place < both) return (struct compared){LISTS_DIFFER, place};
    if (first.count == second.count) return (struct compared){LISTS_EQUAL, place};
    return (struct compared){first.count < second.count ? FIRST_BEGINS : SECOND_BEGINS, place};
}

// What is not matched: of the longer list, and of the first one where they are equal or differ.
static struct list rest(struct list first, struct list second)
{
    struct compared found = compare(first, second);
    const struct list *of = found.how == FIRST_BEGINS ? &second : &first;
    return (struct list){of->at + found.place, of->count - found.place};
}

// The calls that difftry makes: a stand-in has others here.
static struct {
    struct gathered (*gather)(const uint8_t *, size_t, uint32_t, uint32_t *, size_t);
    struct compared (*compare)(struct list, struct list);
    struct list (*rest)(struct list, struct list);
} calls = {gather, compare, rest};

// ---- netdiff

// Digits alone; a number that is too great for strtoul is the greatest one there.
static int is_channel(const char *typed)
{
    size_t digits = strspn(typed, "0123456789");
    return digits > 0 && typed[digits] == 0 && strtoul(typed, NULL, 10) < CHANNELS;
}

// The first thing that is wrong with a question; answers whether there is one.
static int complain(FILE *errors, const struct question *q)
{
    if (q->arguments < 2 || q->arguments > 3) return fprintf(errors, "netdiff: usage: netdiff FIRST SECOND [CHANNEL]");
    if (q->arguments == 3 && !is_channel(q->channel)) return fprintf(errors, "netdiff: %s is no channel: channels are 0 to 127\n", q->channel);
    for (const struct trace *t = q->trace; t < q->trace + 2; t++)
        if (!t->can_be_read) return fprintf(errors, "netdiff: cannot read %s: ", t->name);
    for (const struct trace *t = q->trace; t < q->trace + 2; t++)
        if (t->len % RECORD_BYTES != 0)
            return fprintf(errors, "netdiff: %s is no trace: its %zu bytes are not whole records of 8 bytes (refusal %d)\n", t->name, t->len, NO_RECORDS);
    return 0;
}

static void print_words(FILE *out, size_t count)
{
    if (count == 0) fprintf(out, "no words\n");
    else fprintf(out, "%zu word%s\n", count, count > 1 ? "s" : "");
}

// All words of a channel, in memory of their own.
static struct list all_words(const struct trace *t, uint32_t channel)
{
    size_t count = words_on(t->bytes, t->len, channel);
    uint32_t *words = malloc((count + 1) * sizeof *words);
    if (!words) exit(2);
    gather(t->bytes, t->len, channel, words, count);
    return (struct list){words, count};
}

static void print_channel(FILE *out, const struct question *q, uint32_t channel)
{
    struct list first = all_words(&q->trace[0], channel), second = all_words(&q->trace[1], channel);
    struct compared found = compare(first, second);
    fprintf(out, "channel %u: ", channel);
    if (found.how == LISTS_DIFFER) fprintf(out, "differ at %zu: %u %u\n", found.place, first.at[found.place], second.at[found.place]);
    else {
        fprintf(out, found.how == LISTS_EQUAL ? "equal, " : found.how == FIRST_BEGINS ? "first begins second by " : "second begins first by ");
        print_words(out, found.how == LISTS_EQUAL ? first.count : rest(first, second).count);
    }
    free((void *)first.at);
    free((void *)second.at);
}

void print_netdiff(FILE *out, FILE *errors, const struct question *q)
{
    if (complain(errors, q)) return;
    uint32_t first = q->arguments == 3 ? (uint32_t)strtoul(q->channel, NULL, 10) : 0, last = q->arguments == 3 ? first : CHANNELS - 1;
    for (uint32_t channel = first; channel <= last; channel++) print_channel(out, q, channel);
}

// ---- difftry

static void print_list(FILE *out, struct list list)
{
    for (size_t i = 0; i < list.count; i++) fprintf(out, " %u", list.at[i]);
    putc('\n', out);
}

// Gathers from one trace as its three numbers say; answers the words at the list's beginning.
static struct list print_gathered(FILE *out, const char *name, const uint8_t *numbers, const uint8_t *trace, uint32_t *list)
{
    size_t wanted = number_at(numbers + 8), room = wanted < MOST_LISTED ? wanted : MOST_LISTED;
    for (uint32_t i = 0; i < room; i++) list[i] = 0xffffffff - i;
    struct gathered answer = calls.gather(trace, number_at(numbers), number_at(numbers + 4) % 256, list, room);
    fprintf(out, "%s: refusal %u count %zu list", name, answer.refusal, answer.count);
    print_list(out, (struct list){list, room});
    return (struct list){list, answer.count};
}

static void print_compared(FILE *out, struct list first, struct list second)
{
    static const char *const texts[] = {"equal", "first begins second", "second begins first", "differ"};
    struct compared found = calls.compare(first, second);
    fprintf(out, "compare: %s", texts[found.how]);
    if (found.how == LISTS_DIFFER) fprintf(out, " at %zu", found.place);
    fprintf(out, "\nrest:");
    print_list(out, calls.rest(first, second));
}

static int is_case(const uint8_t *bytes, size_t len)
{
    if (len < CASE_HEADER || len > CASE_ROOM) return 0;
    return (uint64_t)number_at(bytes) + number_at(bytes + 12) <= len - CASE_HEADER;
}

void print_difftry(FILE *out, const uint8_t *bytes, size_t len)
{
    static uint32_t lists[2][MOST_LISTED];
    if (!is_case(bytes, len)) {
        fprintf(out, "no case\n");
        return;
    }
    const uint8_t *traces = bytes + CASE_HEADER;
    struct list first = print_gathered(out, "first", bytes, traces, lists[0]);
    struct list second = print_gathered(out, "second", bytes + 12, traces + number_at(bytes), lists[1]);
    print_compared(out, first, second);
}
