// Pairs of traces for the programs netdiff and difftry: short ones, ones of several blocks, those of two runs of a net; and what is changed in one of them.
#ifndef DIFFPAIRS_H
#define DIFFPAIRS_H

#include "diffs.h"
#include "generate.h"

// netdiff reads blocks of 65,536 bytes. A trace has up to five of them here, and a little more.
enum { BLOCK_RECORDS = 8192, MOST_BLOCKS = 5, TRACE_ROOM = (MOST_BLOCKS * BLOCK_RECORDS + 1024) * RECORD_BYTES };

// A trace as it grows.
struct recording { size_t len; uint8_t bytes[TRACE_ROOM]; };

// Two traces, where they come from, and the channels that their records are on; the one that the last change was on comes first.
struct pair {
    const char *class;
    uint64_t seed;
    unsigned count, channel[CHANNELS];
    struct recording trace[2];
};

size_t records_of(const struct recording *t);

// Two traces of the same words, channel by channel. The same records: few; a channel with about as many words as the longest list; as many records as a case
// has room for, where the second trace goes on. Of several blocks: one channel alone; some channels, one among the other in two ways; a channel whose words come
// early in one trace and late in the other; a channel with one word in each block; words that end with a block.
typedef void pair_rule(struct pair *, struct random *, unsigned);
pair_rule draw_short, draw_listed, draw_roomy, draw_alone, draw_mixed, draw_ahead, draw_sparse, draw_to_a_block;

// Two runs from fresh of one net over the same streams, with masks and a trace of their own each: a net without merges, a net with one.
pair_rule draw_plain_runs, draw_merging_runs;

// Changes of one of the two traces: nothing; it ends early; a word is another one; a record is missing; there twice; the words of two records of a channel
// change places; the same words in another order among the channels; other cycles; some of all these; other records altogether; a word at the edge of a block;
// it ends some blocks earlier; one of these.
pair_rule change_nothing, cut_records, change_word, drop_record, double_record, exchange_words, change_order, change_cycles, change_some, draw_others;
pair_rule change_at_edge, cut_blocks, change_any;

// A number from a short list.
#define ONE_OF(r, ...) ((const uint32_t[]){__VA_ARGS__})[below(r, sizeof((uint32_t[]){__VA_ARGS__}) / sizeof(uint32_t))]

#endif
