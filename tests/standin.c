// The two exports made from the model, to try the tests without the library; with -D one of them is broken on purpose.
#define model_check right_check
#define model_run right_run
#include "model.c"
#include "../include/whemdrosk.h"
#include <stdlib.h>

#ifdef OLD_FORK_MARKS
// Marks come one cycle late: the word register, which a fork does not use, keeps the newer ones.
static void broken_next(struct circuit *s, const struct block *b, struct reg *r)
{
    uint32_t newer = r->word;
    fork_next(s, b, r);
    r->word = r->marks;
    r->marks = newer;
}
#define BREAK rules[FORK].next = broken_next
#endif

#ifdef MERGE_FORGETS
// A winner of which neither side went is not recorded.
static void broken_next(struct circuit *s, const struct block *b, struct reg *r)
{
    merge_next(s, b, r);
    if (r->marks == 0) r->word = 0;
}
#define BREAK rules[MERGE].next = broken_next
#endif

#ifdef MERGE_HIGHEST
// The highest-numbered input wins in place of the lowest.
static void broken_show(struct circuit *s, const struct block *b, const struct reg *r)
{
    struct reg other = *r;
    for (uint32_t i = 0; r->word == 0 && i < b->m; i++)
        if (in(s, b, i)->valid) other.word = i + 1;
    merge_show(s, b, &other);
}
#define BREAK rules[MERGE].show = broken_show
#endif

#ifdef CONTROL_READY_WHILE_FULL
// A full control buffer takes a word when its own goes.
static void broken_ready(struct circuit *s, const struct block *b, const struct reg *r)
{
    in(s, b, 0)->ready = !r->marks || out(s, b, 0)->ready;
}
#define BREAK rules[CONTROL].ready = broken_ready
#endif

#ifdef CONTROL_TAKES_LATE
// An empty control buffer is ready only when its output is.
static void broken_ready(struct circuit *s, const struct block *b, const struct reg *r)
{
    in(s, b, 0)->ready = !r->marks && out(s, b, 0)->ready;
}
#define BREAK rules[CONTROL].ready = broken_ready
#endif

#ifdef DATA_EMPTY_FIRST
// A full data buffer is never ready, so that it empties before it takes.
static void broken_ready(struct circuit *s, const struct block *b, const struct reg *r)
{
    (void)s;
    in(s, b, 0)->ready = !r->marks;
}
#define BREAK rules[DATA].ready = rules[FULL_DATA].ready = broken_ready
#endif

#ifdef ZERO_IS_EMPTY
// A data buffer that holds the word 0 looks empty.
static void broken_show(struct circuit *s, const struct block *b, const struct reg *r)
{
    show(out(s, b, 0), r->marks && r->word != 0, r->word);
}
#define BREAK rules[DATA].show = rules[FULL_DATA].show = broken_show
#endif

#if defined SELECT_WRAPS || defined SELECT_FROM_THE_FIRST || defined OLD_DEMUX_SELECT
// A select word at or above m names the port of its remainder, port 0, or, as it was before request 1, no output of a demux.
static void broken_show(struct circuit *s, const struct block *b, const struct reg *r)
{
    (void)r;
    uint32_t word = in(s, b, 0)->word, m = b->m;
#ifdef SELECT_WRAPS
    uint32_t port = word % m;
#elif defined SELECT_FROM_THE_FIRST
    uint32_t port = word < m ? word : 0;
#else
    uint32_t port = word < m ? word : m;
#endif
    for (uint32_t i = 0; i < m; i++) show(out(s, b, i), in(s, b, 0)->valid && in(s, b, 1)->valid && port == i, in(s, b, 1)->word);
}
#define BREAK rules[DEMUX].show = broken_show
#endif

#ifdef OLD_MUX_SELECT
// A select word at or above m names no input of a mux, as it was before request 1.
static void broken_show(struct circuit *s, const struct block *b, const struct reg *r)
{
    mux_show(s, b, r);
    if (in(s, b, 0)->word >= b->m) show(out(s, b, 0), 0, 0);
}
#define BREAK rules[MUX].show = broken_show
#endif

#ifdef MUX_KEEPS_THE_LAST
// For a select word at or above m the last input's word goes on, but is not taken: forward by request 1, backward as it was before.
static void broken_ready(struct circuit *s, const struct block *b, const struct reg *r)
{
    mux_ready(s, b, r);
    if (in(s, b, 0)->word >= b->m) in(s, b, b->m)->ready = 0;
}
#define BREAK rules[MUX].ready = broken_ready
#endif

#ifdef MUX_TAKES_ALL
// Every input of a mux is ready when its output goes.
static void broken_ready(struct circuit *s, const struct block *b, const struct reg *r)
{
    (void)r;
    for (uint32_t i = 0; i < b->ins; i++) in(s, b, i)->ready = delivers(out(s, b, 0));
}
#define BREAK rules[MUX].ready = broken_ready
#endif

#ifdef SOURCE_FORGETS
// A source does not hold a word that was not taken.
static void broken_next(struct circuit *s, const struct block *b, struct reg *r)
{
    source_next(s, b, r);
    r->marks = 0;
}
#define BREAK rules[SOURCE].next = broken_next
#endif

#ifdef SIGNED_LESS
// Less compares signed numbers.
static void broken_show(struct circuit *s, const struct block *b, const struct reg *r)
{
    operator_show(s, b, r);
    if (b->m == LESS && out(s, b, 0)->valid) out(s, b, 0)->word = (int32_t)in(s, b, 0)->word < (int32_t)in(s, b, 1)->word;
}
#define BREAK rules[OPERATOR].show = broken_show
#endif

#ifdef BREAK
__attribute__((constructor)) static void break_rule(void)
{
    BREAK;
}
#endif

#ifdef ANY_BUFFER
static int is_buffer(uint32_t kind)
{
    return is_data(kind) || is_control(kind);
}
#endif

uint32_t whemdrosk_check(const uint8_t *form, size_t form_len)
{
    uint32_t refusal = right_check(form, form_len);
#ifdef ANY_BUFFER
    // A loop with a buffer of either sort passes.
    struct net net;
    if (load(form, form_len, &net) >= 10) refusal = loop_without(&net, is_buffer) ? 10 : 0;
#endif
#ifdef CONTROL_LOOPS_FIRST
    // Refusal 11 is judged before 10.
    struct net net;
    if (load(form, form_len, &net) == 10 && loop_without(&net, is_control)) refusal = 11;
#endif
#ifdef PORTS_COUNTED_IN_A_BYTE
    // A channel that 257 ports name on each side seems well wired.
    struct net net;
    if (load(form, form_len, &net) == 8 && net.channels == 1) {
        uint32_t ins = 0, outs = 0;
        for (uint32_t b = 0; b < net.blocks; b++) ins += net.block[b].ins, outs += net.block[b].outs;
        if (ins % 256 == 1 && outs % 256 == 1) refusal = 10;
    }
#endif
#ifdef LAST_PADDING_BIT
    // The last padding bit is not looked at.
    uint8_t copy[1024];
    if (refusal == 7 && form_len <= sizeof copy) {
        memcpy(copy, form, form_len);
        copy[form_len - 1] &= 0xfe;
        refusal = right_check(copy, form_len);
    }
#endif
    return refusal;
}

// What is broken about an answer or the trace after the run.
static uint64_t after(uint64_t answer, uint8_t *trace, size_t trace_len)
{
    uint64_t records = answer & 0x1fffffff;
    (void)trace, (void)trace_len, (void)records;
#ifdef LAST_RECORD_MISSING
    if (records > 0) answer--;
#endif
#ifdef ONE_BYTE_TOO_MANY
    if (answer >> 56 == 0) trace[8 * records] = 0;
#endif
#ifdef PARTIAL_RECORD
    if (answer >> 55 == 1)
        for (size_t i = 8 * records; i < trace_len; i++) trace[i] = 0;
#endif
#ifdef WRITES_WHEN_REFUSED
    if (answer >> 56 >= 14 && trace_len > 0) trace[0] = 0;
#endif
#ifdef CYCLE_COUNT_OFF_BY_ONE
    if (answer >> 55 == 1) answer += (uint64_t)1 << 29;
#endif
    return answer;
}

// What is broken about the lengths of the masks.
static size_t broken_length(size_t masks_len)
{
#ifdef CYCLES_BEFORE_MASKS
    if (masks_len / 8 >= CYCLE_LIMIT && masks_len % 8 != 0) masks_len = 8 * (CYCLE_LIMIT + (size_t)1);
#endif
#ifdef LIMIT_ONE_LESS
    if (masks_len == 8 * (size_t)CYCLE_LIMIT) masks_len += 8;
#endif
#ifdef KEEPS_STATE
    // A run of as many cycles as the last one does one cycle less.
    static size_t last_len;
    size_t len = masks_len;
    if (masks_len == last_len && masks_len >= 8) masks_len -= 8;
    last_len = len;
#endif
    return masks_len;
}

uint64_t whemdrosk_run(const uint8_t *form, size_t form_len, const uint8_t *words, size_t words_len, const uint8_t *ends, size_t ends_len,
                       const uint8_t *masks, size_t masks_len, uint8_t *trace, size_t trace_len)
{
    masks_len = broken_length(masks_len);
#ifdef NEVER_ENDS
    // The longest run that is allowed does not end.
    for (volatile size_t len = masks_len; len == 8 * (size_t)CYCLE_LIMIT;) continue;
#endif
#ifdef MASKS_BEFORE_STREAMS
    if (right_check(form, form_len) == 0 && refuse_masks(masks_len) == 15) return pack(15, 0, 0, 0);
#endif
#ifdef READS_ONE_BYTE_MORE
    if (words_len > 0) *(const volatile uint8_t *)(words + words_len);
#endif
#ifdef LAST_RECORD_MISSING
    // The run writes into a copy, of which the last record does not come back.
    uint8_t *copy = malloc(trace_len + 1);
    if (trace_len > 0) memcpy(copy, trace, trace_len);
    uint64_t answer = right_run(form, form_len, words, words_len, ends, ends_len, masks, masks_len, copy, trace_len);
    if ((answer & 0x1fffffff) > 0) memcpy(trace, copy, 8 * ((answer & 0x1fffffff) - 1));
    free(copy);
#else
    uint64_t answer = right_run(form, form_len, words, words_len, ends, ends_len, masks, masks_len, trace, trace_len);
#endif
    return after(answer, trace, trace_len);
}
