// The programs netdiff and difftry made from the model, to try the tests without them; with -D one thing is broken on purpose.
// It is netdiff or difftry by the name that it is called by, and takes the same arguments. Other than the model, its netdiff goes along the traces in blocks.
#define _POSIX_C_SOURCE 200809L
#include "diffs.c"
#include <errno.h>

enum { BLOCK_BYTES = 65536 };

// ---- Records

static uint32_t broken_channel(const uint8_t *record)
{
#ifdef CHANNEL_IN_6_BITS
    return record[CHANNEL_AT] % 64;
#elif defined CHANNEL_IN_8_BITS
    // The lowest bit of the cycle is taken along.
    return record[CHANNEL_AT];
#else
    return record[CHANNEL_AT] % CHANNELS;
#endif
}

static uint32_t broken_word(const uint8_t *record)
{
    uint32_t word = number_at(record + WORD_AT);
#ifdef TOP_BYTE_LOST
    word %= 1u << 24;
#elif defined LEAST_BYTE_FIRST
    word = word >> 24 | (word >> 8 & 0xff00) | (word & 0xff00) << 8 | word << 24;
#endif
    return word;
}

// Whether the record that begins at a byte of a trace is left out.
static int is_left_out(const uint8_t *trace, size_t len, size_t at)
{
    (void)trace, (void)len, (void)at;
#ifdef LAST_RECORD_LEFT_OUT
    return at + 2 * RECORD_BYTES > len;
#elif defined FIRST_RECORD_LEFT_OUT
    return at == 0;
#elif defined LAST_OF_A_BLOCK_LEFT_OUT
    return at % BLOCK_BYTES == BLOCK_BYTES - RECORD_BYTES;
#elif defined FIRST_OF_A_BLOCK_LEFT_OUT
    return at > 0 && at % BLOCK_BYTES == 0;
#elif defined WORDS_OF_0_LEFT_OUT
    return number_at(trace + at + WORD_AT) == 0;
#elif defined EARLIER_CYCLES_LEFT_OUT
    // A record whose cycle is less than that of the record before.
    return at > 0 && number_at(trace + at) >> 7 < number_at(trace + at - RECORD_BYTES) >> 7;
#elif defined REPEATED_RECORDS_LEFT_OUT
    return at > 0 && memcmp(trace + at, trace + at - RECORD_BYTES, RECORD_BYTES) == 0;
#else
    return 0;
#endif
}

// A channel's words in the records from one byte on and before another; answers how many there are.
static size_t broken_words(const uint8_t *trace, size_t len, size_t from, size_t to, uint32_t channel, uint32_t *words)
{
    size_t count = 0;
    for (size_t at = from; at + RECORD_BYTES <= to; at += RECORD_BYTES)
        if (broken_channel(trace + at) == channel && !is_left_out(trace, len, at)) words[count++] = broken_word(trace + at);
    return count;
}

// ---- Gathering

static uint32_t broken_refusal(size_t len, size_t words, size_t room)
{
    int no_records = len % RECORD_BYTES != 0, too_short = words > room;
#ifdef LENGTH_CUT_TO_RECORDS
    no_records = 0;
#elif defined FULL_LIST_REFUSED
    too_short = words >= room && words > 0;
#elif defined ONE_TOO_SHORT_PASSED
    too_short = words > room + 1;
#elif defined ROOM_FOR_ALL_RECORDS
    too_short = len / RECORD_BYTES > room;
#elif defined SHORT_BEFORE_NO_RECORDS
    if (too_short) return SHORT_LIST;
#endif
    return no_records ? NO_RECORDS : too_short ? SHORT_LIST : 0;
}

// What is broken about a list that was refused; it had some words.
static struct gathered after_refusal(uint32_t refusal, const uint32_t *words, size_t count, uint32_t *list, size_t room)
{
    (void)words, (void)count, (void)list, (void)room;
#ifdef SHORT_LIST_CHANGED
    if (refusal == SHORT_LIST) memcpy(list, words, room * sizeof *list);
#elif defined NO_RECORDS_CHANGES_LIST
    if (refusal == NO_RECORDS) memcpy(list, words, (count < room ? count : room) * sizeof *list);
#elif defined REFUSED_COUNTS
    return (struct gathered){refusal, count < room ? count : room};
#endif
    return (struct gathered){refusal, 0};
}

static struct gathered broken_gather(const uint8_t *trace, size_t len, uint32_t channel, uint32_t *list, size_t room)
{
    static uint32_t words[CASE_ROOM / RECORD_BYTES];
#ifdef CHANNEL_MODULO_128
    channel %= CHANNELS;
#elif defined CHANNELS_ABOVE_REFUSED
    if (channel >= CHANNELS) return (struct gathered){NO_RECORDS, 0};
#endif
    size_t count = broken_words(trace, len, 0, len, channel, words);
    uint32_t refusal = broken_refusal(len, count, room);
    if (refusal) return after_refusal(refusal, words, count, list, room);
    if (count > room) count = room;
#ifdef WORDS_AT_THE_END
    memcpy(list + room - count, words, count * sizeof *list);
#else
    memcpy(list, words, count * sizeof *list);
#endif
#ifdef ENTRIES_BEYOND_CLEARED
    memset(list + count, 0, (room - count) * sizeof *list);
#endif
    return (struct gathered){0, count};
}

// ---- Comparing

static size_t least(size_t a, size_t b)
{
    return a < b ? a : b;
}

// How lists compare that are the same as far as both go.
static struct compared by_length(size_t first, size_t second)
{
    return (struct compared){first == second ? LISTS_EQUAL : first < second ? FIRST_BEGINS : SECOND_BEGINS, least(first, second)};
}

#ifdef WORDS_AS_SETS
static int by_size(const void *a, const void *b)
{
    uint32_t one = *(const uint32_t *)a, other = *(const uint32_t *)b;
    return (one > other) - (one < other);
}

// Whether two lists have the same words, in whatever order.
static int same_words(const uint32_t *first, const uint32_t *second, size_t count)
{
    uint32_t *sorted = malloc((2 * count + 1) * sizeof *sorted);
    memcpy(sorted, first, count * sizeof *sorted);
    memcpy(sorted + count, second, count * sizeof *sorted);
    qsort(sorted, count, sizeof *sorted, by_size);
    qsort(sorted + count, count, sizeof *sorted, by_size);
    int same = memcmp(sorted, sorted + count, count * sizeof *sorted) == 0;
    free(sorted);
    return same;
}
#endif

// Whether the words at a place pass as the same.
static int pass(struct list first, struct list second, size_t place)
{
#ifdef ONLY_LENGTHS_COMPARED
    return 1;
#elif defined FIRST_WORD_NOT_COMPARED
    if (place == 0) return 1;
#elif defined LAST_WORD_NOT_COMPARED
    if (place + 1 == least(first.count, second.count)) return 1;
#elif defined LOW_HALF_COMPARED
    return (first.at[place] ^ second.at[place]) % 65536 == 0;
#endif
    return first.at[place] == second.at[place];
}

static struct compared broken_compare(struct list first, struct list second)
{
    size_t both = least(first.count, second.count), place = 0;
#ifdef LAST_DIFFERENCE
    for (size_t i = 0; i < both; i++)
        if (!pass(first, second, i)) place = i;
    if (both > 0 && pass(first, second, place)) place = both;
#else
    while (place < both && pass(first, second, place)) place++;
#endif
#ifdef WORDS_AS_SETS
    if (same_words(first.at, second.at, both)) place = both;
#elif defined OTHER_LENGTHS_DIFFER
    if (first.count != second.count) return (struct compared){LISTS_DIFFER, place};
#endif
    if (place == both) return by_length(first.count, second.count);
#ifdef DIFFERENCE_ONE_LATE
    place++;
#endif
    return (struct compared){LISTS_DIFFER, place};
}

// What is broken about the answer, once it is found.
static struct compared broken_answer(struct compared found)
{
#ifdef FIRST_AND_SECOND_CHANGED_ROUND
    found.how = found.how == FIRST_BEGINS ? SECOND_BEGINS : found.how == SECOND_BEGINS ? FIRST_BEGINS : found.how;
#elif defined EQUAL_WHERE_ONE_BEGINS
    if (found.how != LISTS_DIFFER) found.how = LISTS_EQUAL;
#elif defined BEGINS_WHERE_EQUAL
    if (found.how == LISTS_EQUAL) found.how = FIRST_BEGINS;
#elif defined DIFFERENCE_FROM_1
    if (found.how == LISTS_DIFFER) found.place++;
#endif
    return found;
}

static struct compared broken_call(struct list first, struct list second)
{
    return broken_answer(broken_compare(first, second));
}

static struct list broken_rest(struct list first, struct list second)
{
    struct compared found = compare(first, second);
    struct list of = found.how == FIRST_BEGINS ? second : first;
    size_t from = found.place;
#ifdef REST_OF_THE_SHORTER
    if (found.how != LISTS_DIFFER) of = found.how == FIRST_BEGINS ? first : second;
#elif defined REST_OF_THE_SECOND
    if (found.how == LISTS_DIFFER) of = second;
#elif defined REST_OF_THE_LONGER_AT_A_DIFFERENCE
    if (found.how == LISTS_DIFFER && second.count > first.count) of = second;
#elif defined REST_ONE_TOO_FAR
    if (from < of.count) from++;
#elif defined REST_ONE_TOO_EARLY
    if (from > 0) from--;
#elif defined WHOLE_LIST_AS_REST
    from = 0;
#elif defined BEGINNING_AS_REST
    return (struct list){of.at, from};
#elif defined NO_REST_AT_A_DIFFERENCE
    if (found.how == LISTS_DIFFER) from = of.count;
#elif defined REST_UP_TO_THE_OTHER
    // At a difference as much as the other list has.
    if (found.how == LISTS_DIFFER) of.count = least(first.count, second.count);
#endif
    return (struct list){of.at + from, of.count - from};
}

// ---- netdiff, in blocks

// The words of one trace that are read and not matched yet.
struct side { const struct trace *trace; uint32_t *words; size_t count; };

static struct side begin_side(const struct trace *t)
{
    struct side side = {t, malloc(t->len / 2 + 4), 0};
    if (!side.words) exit(2);
    return side;
}

// Whether a block is read at all.
static int is_read(const struct trace *t, size_t block)
{
    size_t blocks = (t->len + BLOCK_BYTES - 1) / BLOCK_BYTES;
#ifdef LAST_BLOCK_ONLY
    return block + 1 == blocks;
#elif defined FIRST_BLOCK_ONLY
    return block < blocks && block == 0;
#elif defined FULL_LAST_BLOCK_MISSED
    return block < blocks && (block + 1) * BLOCK_BYTES != t->len;
#else
    return block < blocks;
#endif
}

static void read_block(struct side *s, size_t block, uint32_t channel)
{
    size_t len = s->trace->len, from = block * BLOCK_BYTES;
    if (!is_read(s->trace, block)) return;
#ifdef LEFT_OVER_FORGOTTEN
    s->count = 0;
#endif
    s->count += broken_words(s->trace->bytes, len, from, least(len, from + BLOCK_BYTES), channel, s->words + s->count);
#ifdef ONE_BLOCK_KEPT
    // No more words are kept than one block has.
    s->count = least(s->count, BLOCK_BYTES / RECORD_BYTES);
#endif
}

static void forget(struct side *s, size_t count)
{
    memmove(s->words, s->words + count, (s->count - count) * sizeof *s->words);
    s->count -= count;
}

// The answer for a channel: how, how many words are matched, how many are left, and the words at a difference.
struct found { struct compared answer; size_t left; uint32_t word[2]; };

static uint32_t word_at(const struct side *s, size_t place)
{
    return place < s->count ? s->words[place] : 0;
}

// Both traces block by block, until they differ or both have ended.
static struct found walk(struct side *first, struct side *second, uint32_t channel)
{
    size_t matched = 0, shortest = least(first->trace->len, second->trace->len), longest = first->trace->len + second->trace->len - shortest;
#ifdef REST_OF_THE_FILE_NOT_COUNTED
    // Only as many blocks as the shorter trace has, but one at least.
    longest = least(longest, shortest + !shortest);
#endif
    for (size_t block = 0; block * BLOCK_BYTES < longest; block++) {
        read_block(first, block, channel);
        read_block(second, block, channel);
        struct compared now = broken_compare((struct list){first->words, first->count}, (struct list){second->words, second->count});
        struct found found = {now, 0, {word_at(first, now.place), word_at(second, now.place)}};
#ifndef PLACE_IN_THE_BLOCK
        found.answer.place += matched;
#endif
        if (now.how == LISTS_DIFFER) return found;
        matched += now.place;
        forget(first, now.place);
        forget(second, now.place);
    }
    struct compared end = by_length(first->count, second->count);
    return (struct found){{end.how, matched}, first->count + second->count, {0, 0}};
}

static size_t broken_by(const struct found *found)
{
#ifdef BY_COUNTS_THE_MATCHED
    return found->answer.place;
#elif defined BY_COUNTS_ALL
    return found->answer.place + found->left;
#elif defined BY_IN_RECORDS_OF_A_BLOCK
    return found->left % (BLOCK_BYTES / RECORD_BYTES);
#else
    return found->left;
#endif
}

static void print_difference(size_t place, uint32_t a, uint32_t b)
{
#ifdef A_AND_B_CHANGED_ROUND
    printf("differ at %zu: %u %u\n", place, b, a);
#elif defined WORDS_ARE_SIGNED
    printf("differ at %zu: %d %d\n", place, (int)a, (int)b);
#else
    printf("differ at %zu: %u %u\n", place, a, b);
#endif
}

static void print_count(size_t count)
{
#ifdef ONE_WORDS
    if (count == 1) printf("1 words\n");
    else print_words(stdout, count);
#elif defined NO_WORDS_AS_0
    if (count == 0) printf("0 words\n");
    else print_words(stdout, count);
#else
    print_words(stdout, count);
#endif
}

static void print_found(uint32_t channel, const struct found *found)
{
    struct compared answer = broken_answer(found->answer);
#ifdef EMPTY_CHANNELS_LEFT_OUT
    if (answer.how == LISTS_EQUAL && answer.place == 0) return;
#endif
    printf("channel %u: ", channel);
    if (answer.how == LISTS_DIFFER) print_difference(answer.place, found->word[0], found->word[1]);
    else {
        printf(answer.how == LISTS_EQUAL ? "equal, " : answer.how == FIRST_BEGINS ? "first begins second by " : "second begins first by ");
        print_count(answer.how == LISTS_EQUAL ? answer.place : broken_by(found));
    }
}

static void print_blocks(const struct question *q, uint32_t channel)
{
    struct side first = begin_side(&q->trace[0]), second = begin_side(&q->trace[1]);
    struct found found = walk(&first, &second, channel);
    print_found(channel, &found);
    free(first.words);
    free(second.words);
}

static void print_all(const struct question *q)
{
#ifdef CHANNELS_DESCENDING
    for (uint32_t channel = CHANNELS; channel-- > 0;) print_blocks(q, channel);
#elif defined LAST_CHANNEL_LEFT_OUT
    for (uint32_t channel = 0; channel < CHANNELS - 1; channel++) print_blocks(q, channel);
#else
    for (uint32_t channel = 0; channel < CHANNELS; channel++) print_blocks(q, channel);
#endif
}

// ---- What netdiff is given

// Makes good what is not to be seen in the channel.
static void forgive_channel(struct question *q)
{
    static char typed[24];
    (void)typed, (void)q;
#ifdef CHANNEL_MODULO_128
    snprintf(typed, sizeof typed, "%llu", strtoull(q->channel, NULL, 10) % CHANNELS);
    if (q->channel[0] && strspn(q->channel, "0123456789") == strlen(q->channel)) q->channel = typed;
#elif defined CHANNEL_IN_32_BITS
    snprintf(typed, sizeof typed, "%u", (uint32_t)strtoull(q->channel, NULL, 10));
    if (q->channel[0] && strspn(q->channel, "0123456789") == strlen(q->channel) && strlen(q->channel) < 20) q->channel = typed;
#elif defined CHANNEL_UP_TO_ITS_DIGITS
    snprintf(typed, sizeof typed, "%.*s", (int)strspn(q->channel, "0123456789"), q->channel);
    if (*typed) q->channel = typed;
#elif defined NO_DIGIT_IS_0
    if (!q->channel[0]) q->channel = "0";
#elif defined LEADING_ZERO_IS_OCTAL
    snprintf(typed, sizeof typed, "%lu", strtoul(q->channel, NULL, 0));
    if (is_channel(q->channel)) q->channel = typed;
#endif
}

// Makes good what is not to be seen in the files.
static void forgive_files(struct question *q)
{
    (void)q;
#ifdef LENGTH_CUT_TO_RECORDS
    for (unsigned k = 0; k < 2; k++) q->trace[k].len -= q->trace[k].len % RECORD_BYTES;
#elif defined SECOND_LENGTH_NOT_SEEN
    q->trace[1].len -= q->trace[1].len % RECORD_BYTES;
#elif defined MISSING_FILE_IS_EMPTY
    q->trace[0].can_be_read = q->trace[1].can_be_read = 1;
#elif defined LENGTH_BEFORE_SECOND_FILE
    if (q->trace[0].len % RECORD_BYTES != 0) q->trace[1].can_be_read = 1;
#elif defined SECOND_FILE_FIRST
    if (!q->trace[1].can_be_read) q->trace[0] = q->trace[1];
#elif defined FILES_BEFORE_CHANNEL
    if (q->arguments == 3 && !(q->trace[0].can_be_read && q->trace[1].can_be_read)) q->arguments = 2;
#elif defined MORE_ARGUMENTS_PASSED_OVER
    if (q->arguments > 3) q->arguments = 3;
#elif defined FIRST_TRACE_TWICE
    q->trace[1] = q->trace[0];
#endif
}

static void read_trace(struct trace *t)
{
    FILE *file = fopen(t->name, "rb");
    int again = file && fseek(file, 0, SEEK_SET) == 0;
    size_t room = 1 << 20;
    uint8_t *bytes = malloc(room);
    t->bytes = bytes;
    t->len = again && bytes ? fread(bytes, 1, room, file) : 0;
    t->can_be_read = again && !ferror(file);
    if (file) fclose(file);
}

// ---- The programs

static int broken_complain(const struct question *q)
{
    char *text;
    size_t len;
    FILE *to = stderr, *out = open_memstream(&text, &len);
    int wrong = complain(out, q);
    fclose(out);
#ifdef ERRORS_ON_OUTPUT
    to = stdout;
#endif
    if (wrong) fprintf(to, "%s%s", text, text[len - 1] == ' ' ? "it is no file\n" : text[len - 1] != '\n' ? "\n" : "");
    free(text);
    return wrong;
}

static void run_netdiff(int count, char **arguments)
{
    struct question q = {.arguments = (unsigned)count - 1, .channel = count > 3 ? arguments[3] : "0"};
    for (int k = 0; k < 2 && k + 1 < count; k++) {
        q.trace[k].name = arguments[1 + k];
        read_trace(&q.trace[k]);
    }
    forgive_files(&q);
    if (q.arguments == 3) forgive_channel(&q);
#ifdef OUTPUT_BEFORE_REFUSAL
    // The first line comes before the lengths are looked at.
    if (q.arguments == 2 && (q.trace[0].len | q.trace[1].len) % RECORD_BYTES != 0) print_blocks(&q, 0);
#endif
    if (broken_complain(&q)) return;
    if (q.arguments == 2) print_all(&q);
    else print_blocks(&q, (uint32_t)strtoul(q.channel, NULL, 10));
#ifdef ERRORS_ON_GOOD_RUNS
    fprintf(stderr, "netdiff: %zu and %zu bytes read\n", q.trace[0].len, q.trace[1].len);
#endif
}

// How long a case is taken to be.
static size_t broken_length(const uint8_t *bytes, size_t len)
{
    (void)bytes;
#ifdef LONG_CASE_CUT
    return least(len, CASE_ROOM);
#elif defined BYTES_BEHIND_REFUSED
    return is_case(bytes, len) && number_at(bytes) + number_at(bytes + 12) < len - CASE_HEADER ? 0 : len;
#else
    return len;
#endif
}

static void run_difftry(const char *path)
{
    static uint8_t bytes[CASE_ROOM + 1];
    FILE *file = fopen(path, "rb");
    calls.gather = broken_gather;
    calls.compare = broken_call;
    calls.rest = broken_rest;
    if (file) print_difftry(stdout, bytes, broken_length(bytes, fread(bytes, 1, sizeof bytes, file)));
    else fprintf(stderr, "cannot read %s: %s\n", path, strerror(errno));
}

int main(int count, char **arguments)
{
    const char *slash = strrchr(arguments[0], '/'), *name = slash ? slash + 1 : arguments[0];
    if (strcmp(name, "difftry") == 0) run_difftry(count > 1 ? arguments[1] : "a case");
    else run_netdiff(count, arguments);
    return 0;
}
