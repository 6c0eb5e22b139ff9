// The programs netplace and placetry made from the model, to try the tests without them; with -D one thing is broken on purpose.
// It is netplace or placetry by the name that it is called by, and takes the same arguments.
#include "placements.c"
#include <errno.h>
#include <string.h>

#ifdef SEVEN_CHANNELS
enum { LIST_LIMIT = 7 };
#else
enum { LIST_LIMIT = MOST_LISTED };
#endif

#if defined CONTROL_THEN_DATA || defined FULL_BUFFER
__attribute__((constructor)) static void break_buffers(void)
{
#ifdef CONTROL_THEN_DATA
    // With code 3 the control buffer comes first.
    buffers[DATA_THEN_CONTROL].kind[0] = CONTROL;
    buffers[DATA_THEN_CONTROL].kind[1] = DATA;
#else
    // Data buffers begin full.
    buffers[DATA_ALONE].kind[0] = buffers[DATA_THEN_CONTROL].kind[0] = FULL_DATA;
#endif
}
#endif

// ---- The base net and the codes

static uint32_t broken_base(const uint8_t *form, size_t form_len)
{
    uint32_t refusal = refusal_of_base(form, form_len);
#ifdef LOOPS_REFUSED
    // A base net whose loops lack a buffer is refused.
    refusal = model_check(form, form_len);
#endif
#ifdef FORM_EARNS_12
    // What is wrong with the net in a form earns the number of a net value.
    if (refusal == 8 || refusal == 9) refusal = 12;
#endif
    return refusal;
}

static int broken_codes(unsigned channels, const uint8_t *codes, size_t count)
{
#ifdef COUNT_IN_A_BYTE
    count %= 256;
#endif
#ifdef MORE_CODES_PASSED_OVER
    if (count > channels) count = channels;
#endif
#ifdef ZERO_FOR_MISSING_CODES
    if (count < channels && count > 0) return 0;
#endif
    return codes_are_wrong(channels, codes, count);
}

// The codes as they are worked with: one for each channel, missing ones 0.
static void take_codes(unsigned channels, const uint8_t *codes, size_t count, uint8_t *taken)
{
    memset(taken, 0, MOST_CHANNELS);
    memcpy(taken, codes, count < channels ? count : channels);
}

// The refusal for room; where a limit is not looked at, the load of the result finds 3.
static uint32_t broken_room(const struct draft *base, const uint8_t *codes, size_t count)
{
    unsigned added = buffers_in(codes, count);
    uint32_t refusal = room_is_passed(base, added) ? NO_ROOM : 0;
#ifdef CHANNELS_UNLIMITED
    if (refusal && base->blocks + added <= MOST_BLOCKS) refusal = 3;
#endif
#ifdef BLOCKS_UNLIMITED
    if (refusal && base->channels + added <= MOST_CHANNELS) refusal = 3;
#endif
#ifdef ROOM_IN_A_BYTE
    if (refusal && (base->blocks + added) % 256 <= MOST_BLOCKS && (base->channels + added) % 256 <= MOST_CHANNELS) refusal = 3;
#endif
#ifdef ROOM_ONE_LESS
    if (base->blocks + added == MOST_BLOCKS) refusal = NO_ROOM;
#endif
    return refusal;
}

// ---- Numbers for what is new

static void broken_count_up(const struct draft *base, const uint8_t *codes, struct numbers *n)
{
    count_up(base, codes, n);
#ifdef CONSUMER_KEEPS
    // The old number goes to the last piece.
    for (unsigned c = 0; c < base->channels; c++) {
        unsigned last = buffers[codes[c]].count;
        for (unsigned i = 0; i < last; i++) n->piece[c][i] = n->piece[c][i + 1];
        n->piece[c][last] = c;
    }
#endif
#ifdef DESCENDING
    // New blocks, and their channels with them, stand in descending channel order.
    n->added = 0;
    for (unsigned c = base->channels; c-- > 0;)
        for (unsigned i = 0; i < buffers[codes[c]].count; i++) {
            n->piece[c][i + 1] = base->channels + n->added;
            n->spot[n->added++] = (struct spot){c, i};
        }
#endif
#ifdef CHANNELS_DESCENDING
    // The new channels are counted down, the new blocks up.
    for (unsigned k = 0; k < n->added; k++) n->piece[n->spot[k].channel][n->spot[k].buffer + 1] = base->channels + n->added - 1 - k;
#endif
#ifdef BLOCKS_FROM_THE_CONSUMER
    // Where a channel gets two blocks, the one nearest the consumer comes first.
    for (unsigned k = 0; k + 1 < n->added; k++)
        if (n->spot[k].buffer == 0 && n->spot[k].channel == n->spot[k + 1].channel) {
            n->spot[k].buffer = 1;
            n->spot[k + 1].buffer = 0;
        }
#endif
}

// ---- The placed net

#ifdef CONTROL_LOOPS_FIRST
// Whether a loop lacks a control buffer: whether one lacks a data buffer once the two sorts have changed places.
static int lacks_control(const struct draft *placed)
{
    struct draft other = *placed;
    for (unsigned b = 0; b < placed->blocks; b++) {
        unsigned kind = placed->block[b].kind;
        other.block[b].kind = kind == CONTROL ? DATA : kind == DATA || kind == FULL_DATA ? CONTROL : kind;
    }
    return refusal_of_loops(&other) == 10;
}
#endif

static uint32_t broken_verdict(const struct draft *placed, struct form *form)
{
    uint32_t refusal = refusal_of_placed(placed, form);
#ifdef LOOPS_IGNORED
    refusal = 0;
#endif
#ifdef CONTROL_LOOPS_FIRST
    if (refusal == 10 && lacks_control(placed)) refusal = 11;
#endif
#ifdef CONTROL_LOOPS_IGNORED
    if (refusal == 11) refusal = 0;
#endif
    return refusal;
}

static uint32_t place(const uint8_t *form, size_t form_len, const uint8_t *codes, size_t count, struct form *placed_form)
{
    static struct draft base, placed;
    static struct numbers numbers;
    uint8_t taken[MOST_CHANNELS];
    uint32_t refusal = broken_base(form, form_len);
#ifdef BASE_AFTER_CODES
    if ((refusal == 8 || refusal == 9) && broken_codes(form[3], codes, count)) return BAD_CODES;
#endif
    if (refusal) return refusal;
    read_net(form, &base);
#ifdef ROOM_BEFORE_CODES
    if (broken_room(&base, codes, count)) return NO_ROOM;
#endif
    if (broken_codes(base.channels, codes, count)) return BAD_CODES;
    take_codes(base.channels, codes, count, taken);
    refusal = broken_room(&base, taken, base.channels);
    if (refusal) return refusal;
    broken_count_up(&base, taken, &numbers);
    write_placed(&base, taken, &numbers, &placed);
    return broken_verdict(&placed, placed_form);
}

// ---- What is printed

// A placement of the list: its digits, and either its answer or the fact that it loads.
static void print_placement(const uint8_t *form, size_t form_len, unsigned number, unsigned channels, int with_answer)
{
    static struct form placed;
    uint8_t digits[LIST_LIMIT] = {0}, codes[LIST_LIMIT];
    codes_of(number, channels, digits);
    memcpy(codes, digits, sizeof codes);
#ifdef LAST_CHANNEL_LEADS
    for (unsigned c = 0; c < channels; c++) codes[c] = digits[channels - 1 - c];
#endif
    uint32_t refusal = place(form, form_len, codes, channels, &placed);
#ifdef LAST_LEFT_OUT
    if (!with_answer && number + 1 == placements_of(channels)) return;
#endif
    if (refusal && !with_answer) return;
    print_digits(stdout, digits, channels);
    putchar(with_answer ? ' ' : '\n');
    if (with_answer) print_answer(stdout, refusal, &placed);
}

static void print_placements(const uint8_t *form, size_t form_len, int with_answers)
{
    uint32_t refusal = broken_base(form, form_len);
    if (!refusal && form[3] > LIST_LIMIT) refusal = TOO_MANY_CHANNELS;
    if (refusal) print_answer(stdout, refusal, NULL);
    for (unsigned number = 0; !refusal && number < placements_of(form[3]); number++) print_placement(form, form_len, number, form[3], with_answers);
}

static void try_codes(const uint8_t *form, size_t form_len, const char *characters)
{
    static struct form placed;
    size_t count = strlen(characters);
    uint8_t *codes = malloc(count + 1);
    for (size_t i = 0; i < count; i++) {
        codes[i] = (uint8_t)(characters[i] - '0');
#ifdef CODES_IN_TWO_BITS
        codes[i] &= 3;
#endif
    }
    print_answer(stdout, place(form, form_len, codes, count, &placed), &placed);
    free(codes);
}

// Reads a form, or as much of it as tells its refusal; answers its length, or -1 where it cannot be read.
static long read_form(const char *path, uint8_t *form)
{
    FILE *file = path ? fopen(path, "rb") : stdin;
    size_t len = file ? fread(form, 1, FORM_ROOM, file) : 0;
    if (file && !ferror(file)) return (long)len;
    fprintf(stderr, "cannot read %s: %s\n", path, strerror(errno));
    return -1;
}

int main(int count, char **arguments)
{
    static uint8_t form[FORM_ROOM];
    const char *slash = strrchr(arguments[0], '/'), *name = slash ? slash + 1 : arguments[0];
    long len = read_form(count > 1 ? arguments[1] : NULL, form);
    if (len < 0) return 0;
    int tries = strcmp(name, "placetry") == 0;
    if (tries && count > 2) try_codes(form, (size_t)len, arguments[2]);
    else print_placements(form, (size_t)len, tries);
    return 0;
}
