// Whemdrosk simulates nets of dataflow blocks: one call checks a stored net, the other runs it and records every delivery.
//
// Buffers. Each is a pointer and a length in bytes. Pass a pointer to at least that many bytes; pass NULL only with length 0.
// The buffers of one call must not overlap. Only the trace is written; a call that refuses writes nothing.
// Numbers in words, ends and masks take 4 bytes each, most significant byte first (see whemdrosk_put).
//
// Threads. The calls keep no state and allocate nothing: several threads may call them at once on different buffers.
//
// Memory. A call uses less than 14 KiB of stack, and no heap; of the C library it needs memcpy and memset.
//
// In this file: the limits; refusals, and whemdrosk_reason with a sentence for each; kinds of blocks and their ports; the two calls; the
// answer of a run, and what to do after ending 1; the records of a trace; whemdrosk_form_block, which writes a stored net block by block.
// The two calls are proved; the functions whose code stands here are plain C beside them, tested and not proved.
//
// A stored net (the "form"): fields lie one after another, most significant bit first, no gaps between them:
//   edition 4 bits (1), reserved 12 bits (0), blocks 8 bits (2 to 64), channels 8 bits (1 to 128);
//   then for each block: kind 4 bits, m 4 bits, value 32 bits (only WHEMDROSK_CONSTANT and WHEMDROSK_FULL_DATA_BUFFER),
//   and for each of its ports, inputs first, the port's channel in 7 bits; at the very end zero bits up to the byte's end.
// Each channel leaves one output port and enters one input port. No form that can be read through is longer than 628 bytes.
#ifndef WHEMDROSK_H
#define WHEMDROSK_H

#include <stddef.h>
#include <stdint.h>

#ifdef __cplusplus
extern "C" {
#endif

// The version. The minor number is the last change request that has landed.
#define WHEMDROSK_VERSION_MAJOR 1
#define WHEMDROSK_VERSION_MINOR 9
#define WHEMDROSK_VERSION_PATCH 0
#define WHEMDROSK_VERSION "1.9.0"

// The most blocks and channels of a net, and the most sources and sinks among its blocks.
#define WHEMDROSK_BLOCK_LIMIT 64
#define WHEMDROSK_CHANNEL_LIMIT 128
#define WHEMDROSK_SOURCE_LIMIT 32
#define WHEMDROSK_SINK_LIMIT 32

// The most ways of a fork, mux, demux or merge (its m).
#define WHEMDROSK_WAY_LIMIT 8

// The most ports of a block, inputs and outputs together: those of a mux, demux or merge of 8.
#define WHEMDROSK_PORT_LIMIT 10

// The bytes of the longest form that can be read through: 32 bits, and for each of 64 blocks 8 bits and 10 ports of 7 bits.
#define WHEMDROSK_FORM_LIMIT 628

// The most cycles that one run may list.
#define WHEMDROSK_CYCLE_LIMIT 1048576

// The bytes of one record of the trace.
#define WHEMDROSK_RECORD_BYTES 8

// The bytes of a trace that always fits, as a channel delivers at most one word in a cycle. With both numbers at their limits it is 1 GiB.
#define WHEMDROSK_TRACE_BYTES(cycles, channels) ((size_t)(cycles) * (size_t)(channels) * WHEMDROSK_RECORD_BYTES)

// The most stack that a call uses on x86-64, its return address included; what memcpy and memset use for themselves comes on top.
#define WHEMDROSK_STACK_BYTES 13688

// Why a call refuses. Checks are made in this order, and the first that fails is answered; 12, 13 and 17 are never answered here.
enum whemdrosk_refusal {
    WHEMDROSK_ACCEPTED = 0,                     // nothing is wrong
    WHEMDROSK_FORM_CUT_SHORT = 1,               // the form's bytes end within a field
    WHEMDROSK_BAD_EDITION = 2,                  // the edition is not 1, or a reserved bit is set
    WHEMDROSK_BAD_COUNT = 3,                    // the number of blocks or of channels is out of range
    WHEMDROSK_BAD_KIND = 4,                     // a block's kind is above 10
    WHEMDROSK_BAD_M = 5,                        // a block's m is out of range for its kind
    WHEMDROSK_BAD_CHANNEL = 6,                  // a port names a channel that the net does not have
    WHEMDROSK_FORM_TOO_LONG = 7,                // a padding bit is set, or a byte follows the form
    WHEMDROSK_BAD_WIRING = 8,                   // a channel has no output port or several, or no input port or several
    WHEMDROSK_TOO_MANY_SOURCES_OR_SINKS = 9,    // over 32 sources, or over 32 sinks
    WHEMDROSK_LOOP_WITHOUT_DATA_BUFFER = 10,    // some loop of blocks has no data buffer
    WHEMDROSK_LOOP_WITHOUT_CONTROL_BUFFER = 11, // some loop of blocks has no control buffer
    WHEMDROSK_BAD_STREAMS = 14,                 // words or ends are no whole numbers, or the ends do not cut the words (see run)
    WHEMDROSK_BAD_MASKS = 15,                   // masks are no whole numbers, or their number is odd
    WHEMDROSK_TOO_MANY_CYCLES = 16              // over WHEMDROSK_CYCLE_LIMIT cycles are listed
};

// A refusal in words, for the user of an editor. Numbers that are not listed above, 12, 13 and 17 among them, have one sentence in common.
static inline const char *whemdrosk_reason(uint32_t refusal)
{
    switch (refusal) {
    case WHEMDROSK_ACCEPTED: return "nothing is wrong";
    case WHEMDROSK_FORM_CUT_SHORT: return "the stored net is cut short: its bytes end within a field";
    case WHEMDROSK_BAD_EDITION: return "the stored net is not of edition 1, or a reserved bit is set";
    case WHEMDROSK_BAD_COUNT: return "the number of blocks is not 2 to 64, or the number of channels is not 1 to 128";
    case WHEMDROSK_BAD_KIND: return "a block is of an unknown kind, one above 10";
    case WHEMDROSK_BAD_M: return "a block has an m out of range: ways are 2 to 8, operations 0 to 3, all other m are 0";
    case WHEMDROSK_BAD_CHANNEL: return "a port names a channel that the net does not have";
    case WHEMDROSK_FORM_TOO_LONG: return "the stored net is too long: a padding bit is set, or a byte follows it";
    case WHEMDROSK_BAD_WIRING: return "a channel does not lead from exactly one output port to exactly one input port";
    case WHEMDROSK_TOO_MANY_SOURCES_OR_SINKS: return "the net has over 32 sources, or over 32 sinks";
    case WHEMDROSK_LOOP_WITHOUT_DATA_BUFFER: return "a loop of blocks has no data buffer";
    case WHEMDROSK_LOOP_WITHOUT_CONTROL_BUFFER: return "a loop of blocks has no control buffer";
    case WHEMDROSK_BAD_STREAMS: return "words or ends are not 4 bytes each, or the ends are not one per source, descend or pass the words";
    case WHEMDROSK_BAD_MASKS: return "the masks are not 4 bytes each, or not two for each cycle";
    case WHEMDROSK_TOO_MANY_CYCLES: return "the run lists over 1048576 cycles";
    default: return "no refusal of this library";
    }
}

// Kinds of blocks; behind each its ports, inputs first, and what m means.
enum whemdrosk_kind {
    WHEMDROSK_SOURCE = 0,           // no input; 1 output; m = 0
    WHEMDROSK_SINK = 1,             // 1 input; no output; m = 0
    WHEMDROSK_OPERATOR = 2,         // 2 inputs; 1 output; m = operation
    WHEMDROSK_CONSTANT = 3,         // 1 input; 1 output; m = operation; the value is the second operand
    WHEMDROSK_FORK = 4,             // 1 input; m outputs; m = 2 to 8
    WHEMDROSK_MUX = 5,              // select, then m inputs; 1 output; m = 2 to 8; a select word at or above m names the last input
    WHEMDROSK_DEMUX = 6,            // select, data; m outputs; m = 2 to 8; a select word at or above m names the last output
    WHEMDROSK_MERGE = 7,            // m inputs; data, report; m = 2 to 8
    WHEMDROSK_DATA_BUFFER = 8,      // 1 input; 1 output; m = 0; empty at start
    WHEMDROSK_FULL_DATA_BUFFER = 9, // 1 input; 1 output; m = 0; the value is its first word
    WHEMDROSK_CONTROL_BUFFER = 10   // 1 input; 1 output; m = 0
};

// Operations on unsigned 32-bit words; adding and subtracting go round, comparing gives 1 or 0.
enum whemdrosk_operation { WHEMDROSK_ADD = 0, WHEMDROSK_SUBTRACT = 1, WHEMDROSK_EQUAL = 2, WHEMDROSK_LESS = 3 };

// How many inputs a block of some kind and m has; of a kind above 10, none. Whether m is in range for the kind is left to the check.
static inline uint32_t whemdrosk_inputs(uint32_t kind, uint32_t m)
{
    switch (kind) {
    case WHEMDROSK_SOURCE: return 0;
    case WHEMDROSK_OPERATOR: return 2;
    case WHEMDROSK_MUX: return m + 1;
    case WHEMDROSK_DEMUX: return 2;
    case WHEMDROSK_MERGE: return m;
    default: return kind <= WHEMDROSK_CONTROL_BUFFER ? 1 : 0;
    }
}

// How many outputs it has, likewise.
static inline uint32_t whemdrosk_outputs(uint32_t kind, uint32_t m)
{
    switch (kind) {
    case WHEMDROSK_SINK: return 0;
    case WHEMDROSK_FORK: return m;
    case WHEMDROSK_DEMUX: return m;
    case WHEMDROSK_MERGE: return 2;
    default: return kind <= WHEMDROSK_CONTROL_BUFFER ? 1 : 0;
    }
}

// The refusal that a form earns, 1 to 11, or 0 where it is accepted.
uint32_t whemdrosk_check(const uint8_t *form, size_t form_len);

// Runs a form from its fresh state over streams and masks, and writes the trace; unpack the answer with the four macros below.
// words: the words of all sources, one source after another, sources in block order.
// ends: for each source the number of words up to its last one; source k has the words from the end before it (0 for the first) to its own.
//   Ends must not descend or pass the words; words after the last end are nobody's. A net without sources has no ends.
// masks: two for each cycle. Bit k (counted from the least significant) of the first lets source k offer its next word in that cycle,
//   bit k of the second lets sink k take one; sources and sinks are numbered in block order, bits beyond them are ignored.
// trace: one record for each delivery, cycles in order, channels ascending. Its length is free: the run ends before the first cycle whose
//   records do not all fit. Bytes after the last record keep what they held.
// Checked in order: the form (1 to 11), words and ends (14), masks (15), the number of cycles (16).
uint64_t whemdrosk_run(const uint8_t *form, size_t form_len, const uint8_t *words, size_t words_len, const uint8_t *ends, size_t ends_len,
                       const uint8_t *masks, size_t masks_len, uint8_t *trace, size_t trace_len);

// The refusal in a run's answer, 0 where it ran; when it refuses, the other three are 0.
#define WHEMDROSK_REFUSAL(answer) ((uint32_t)((uint64_t)(answer) >> 56))
// The ending in a run's answer: 0 after all listed cycles, 1 before a cycle whose records did not fit.
#define WHEMDROSK_ENDING(answer) ((uint32_t)((uint64_t)(answer) >> 55 & 1))
// The number of cycles that were done.
#define WHEMDROSK_CYCLES(answer) ((uint32_t)((uint64_t)(answer) >> 29 & 0x3ffffff))
// The number of records that were written.
#define WHEMDROSK_RECORDS(answer) ((uint32_t)((uint64_t)(answer) & 0x1fffffff))

// After ending 1 the trace holds all records of the first WHEMDROSK_CYCLES cycles, and they are right; there was no room for the next cycle's.
// A run always begins from fresh and needs nothing of an earlier call, so call it again with a longer trace, say of twice the bytes: it begins
// with the same records and goes further. With WHEMDROSK_TRACE_BYTES it ends 0. Or be content with fewer cycles: pass the masks of those alone.

// Writes a number into 4 bytes, as words, ends and masks hold it.
static inline void whemdrosk_put(uint8_t *bytes, uint32_t number)
{
    bytes[0] = (uint8_t)(number >> 24);
    bytes[1] = (uint8_t)(number >> 16);
    bytes[2] = (uint8_t)(number >> 8);
    bytes[3] = (uint8_t)number;
}

// Reads a number from 4 bytes.
static inline uint32_t whemdrosk_get(const uint8_t *bytes)
{
    return (uint32_t)bytes[0] << 24 | (uint32_t)bytes[1] << 16 | (uint32_t)bytes[2] << 8 | bytes[3];
}

// A record is 8 bytes, most significant byte first: cycle 25 bits, channel 7, word 32. These three read record number i of a trace.

// The cycle of a delivery, counted from 0.
static inline uint32_t whemdrosk_cycle_of(const uint8_t *trace, size_t i)
{
    return whemdrosk_get(trace + i * WHEMDROSK_RECORD_BYTES) >> 7;
}

// The channel on which a word was delivered.
static inline uint32_t whemdrosk_channel_of(const uint8_t *trace, size_t i)
{
    return whemdrosk_get(trace + i * WHEMDROSK_RECORD_BYTES) & 127;
}

// The word that was delivered.
static inline uint32_t whemdrosk_word_of(const uint8_t *trace, size_t i)
{
    return whemdrosk_get(trace + i * WHEMDROSK_RECORD_BYTES + 4);
}

// Writing a stored net: begin, a call for each block, end; then pass bytes and what end answered to the calls above. No bits to pack:
//
//     struct whemdrosk_form form;
//     const uint32_t channel[] = {0};
//     whemdrosk_form_begin(&form);
//     whemdrosk_form_block(&form, WHEMDROSK_SOURCE, 0, 0, channel, 1);
//     whemdrosk_form_block(&form, WHEMDROSK_SINK, 0, 0, channel, 1);
//     size_t len = whemdrosk_form_end(&form);
//     uint32_t refusal = len ? whemdrosk_check(form.bytes, len) : form.refusal;
//
// Blocks are numbered in the order of the calls. The number of channels is the highest that a port names, and one more, so number them without
// gaps: a number that no port names is a channel without ends, and the check answers 8. The writer refuses only what cannot be written; the check
// says whether it is a net. Give a port that is joined to nothing a channel of its own: the check answers 8 for it.
struct whemdrosk_form {
    uint8_t bytes[WHEMDROSK_FORM_LIMIT]; // the form, and zeros behind it
    uint32_t bits;                       // where the next block goes
    uint32_t blocks, channels;           // how many there are so far
    uint32_t refusal;                    // 0, or why a block could not be written: then no more blocks are, and end answers 0
};

// Begins a form without blocks; they go behind the 32 bits of the edition, the reserved bits and the two numbers. Nothing has to be freed.
static inline void whemdrosk_form_begin(struct whemdrosk_form *form)
{
    const struct whemdrosk_form empty = {{0}, 32, 0, 0, 0};
    *form = empty;
}

// For whemdrosk_form_block alone: puts a field behind what was written, and nothing outside the bytes.
static inline void whemdrosk_form_field(struct whemdrosk_form *form, uint32_t width, uint32_t field)
{
    for (; width > 0 && form->bits < 8 * WHEMDROSK_FORM_LIMIT; width--, form->bits++)
        form->bytes[form->bits / 8] = (uint8_t)(form->bytes[form->bits / 8] | (field >> (width - 1) & 1) << (7 - form->bits % 8));
}

// For whemdrosk_form_block alone: how many channels there are with those that the ports name, or one too many.
static inline uint32_t whemdrosk_form_channels(uint32_t channels, const uint32_t *ports, uint32_t count)
{
    for (uint32_t i = 0; i < count; i++) {
        if (ports[i] >= WHEMDROSK_CHANNEL_LIMIT) return WHEMDROSK_CHANNEL_LIMIT + 1;
        if (ports[i] >= channels) channels = ports[i] + 1;
    }
    return channels;
}

// For whemdrosk_form_block alone: why a block cannot be written, or 0.
static inline uint32_t whemdrosk_form_refusal(const struct whemdrosk_form *form, uint32_t kind, uint32_t m, const uint32_t *ports, uint32_t count)
{
    if (form->blocks >= WHEMDROSK_BLOCK_LIMIT) return WHEMDROSK_BAD_COUNT;
    if (kind > WHEMDROSK_CONTROL_BUFFER) return WHEMDROSK_BAD_KIND;
    if (m > WHEMDROSK_WAY_LIMIT || count != whemdrosk_inputs(kind, m) + whemdrosk_outputs(kind, m)) return WHEMDROSK_BAD_M;
    return whemdrosk_form_channels(0, ports, count) > WHEMDROSK_CHANNEL_LIMIT ? WHEMDROSK_BAD_COUNT : WHEMDROSK_ACCEPTED;
}

// Adds a block: its kind and m; its value, which only WHEMDROSK_CONSTANT and WHEMDROSK_FULL_DATA_BUFFER have (for others it is passed over); the
// channel of each port, inputs first, and how many ports that are. Answers form->refusal: 0, or why this block, or one before it, could not be
// written. In this order: 3, there are 64 blocks already; 4, the kind is above 10; 5, m is above 8, or a block of this kind and m has another
// number of ports; 3, a port names a channel above 127. Then this block and those that follow change nothing else.
static inline uint32_t whemdrosk_form_block(struct whemdrosk_form *form, uint32_t kind, uint32_t m, uint32_t value, const uint32_t *ports, uint32_t count)
{
    if (form->refusal == WHEMDROSK_ACCEPTED) form->refusal = whemdrosk_form_refusal(form, kind, m, ports, count);
    if (form->refusal != WHEMDROSK_ACCEPTED) return form->refusal;
    whemdrosk_form_field(form, 4, kind);
    whemdrosk_form_field(form, 4, m);
    if (kind == WHEMDROSK_CONSTANT || kind == WHEMDROSK_FULL_DATA_BUFFER) whemdrosk_form_field(form, 32, value);
    for (uint32_t i = 0; i < count; i++) whemdrosk_form_field(form, 7, ports[i]);
    form->blocks++;
    form->channels = whemdrosk_form_channels(form->channels, ports, count);
    return WHEMDROSK_ACCEPTED;
}

// Completes the form with its edition and its two numbers. Answers its length in bytes, or 0 where a block could not be written (form->refusal).
static inline size_t whemdrosk_form_end(struct whemdrosk_form *form)
{
    form->bytes[0] = 0x10; // edition 1, and the first reserved bits
    form->bytes[2] = (uint8_t)form->blocks;
    form->bytes[3] = (uint8_t)form->channels;
    return form->refusal == WHEMDROSK_ACCEPTED ? (form->bits + 7) / 8 : 0;
}

#ifdef __cplusplus
}
#endif

#endif
