// Following a stall to its cause in plain C, to compare the programs netstall and stalltry with. Made from document 01 and the request's words alone.
#ifndef STALLS_H
#define STALLS_H

#include "bays.h"

// The refusal of a question that begins at a number of no channel.
enum { NO_CHANNEL = 24 };

// How a chain ends: it is empty, as the beginning channel delivers or the question is refused; at an idle source, an unready sink, an empty data buffer, a full
// control buffer; in a circle; at a block for which no rule names a further channel.
enum { EMPTY_CHAIN, IDLE_SOURCE, UNREADY_SINK, EMPTY_DATA, FULL_CONTROL, CIRCLE, NO_RULE, ENDINGS };

// A case for stalltry has the parts of one for baytry, then orders of four numbers each: a step, given offer and ready; a question, given a channel too; the same
// question for every channel of 0 to 127; a fresh state; the net's channel count; the state's count; the word register of a block; its marks; how many of the
// ends are lent at most from now on. Other numbers do nothing.
enum { ORDER_BYTES = 16 };
enum { DO_STEP, ASK, ASK_ALL, DO_FRESH, PUT_CHANNELS, PUT_COUNT, PUT_WORD, PUT_MARKS, LEND, NO_ORDER };

// What stalltry prints for a case.
void print_stalltry(FILE *out, const uint8_t *bytes, size_t len);

// The most words, masks of one list and streams that netstall takes.
enum { MOST_TYPED = 4096, MOST_STREAMS = 64 };

// What netstall is given: its arguments, and of the form's file whether it can be read, and its bytes.
struct typed { unsigned count; char *const *argument; int can_be_read; const uint8_t *form; size_t form_len; };

// What netstall prints: its lines, or what standard error begins with and no lines.
void print_netstall(FILE *out, FILE *errors, const struct typed *typed);

// What is wrong with a chain that was printed since the last call, NULL where there is nothing: a channel is in it twice or delivers, or is no port of the block
// that the one before it asks; it begins or ends elsewhere.
const char *fault_of_chains(void);

#endif
