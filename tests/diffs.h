// Recordings laid beside each other in plain C, to compare the programs netdiff and difftry with. Made from the request's words alone.
#ifndef DIFFS_H
#define DIFFS_H

#include <stddef.h>
#include <stdint.h>
#include <stdio.h>

// A trace is records of 8 bytes, most significant byte first: cycle 25 bits, channel 7, word 32.
enum { RECORD_BYTES = 8, CHANNELS = 128, CHANNEL_AT = 3, WORD_AT = 4 };

// The refusals: the trace is no whole records, the list is too short for the channel's words.
enum { NO_RECORDS = 22, SHORT_LIST = 23 };

// A case for difftry: of each trace its bytes, its channel and the room of its list, 4 bytes each, most significant first; then both traces.
enum { CASE_HEADER = 24, CASE_ROOM = 65536, MOST_LISTED = 256 };

// How many words a channel has in a trace.
size_t words_on(const uint8_t *trace, size_t len, uint32_t channel);

// A trace as netdiff gets it: the name of its file, whether that can be read, and its bytes.
struct trace { const char *name; int can_be_read; const uint8_t *bytes; size_t len; };

// What netdiff is asked: with how many arguments, of which traces, and the channel as it is typed, if there are three arguments.
struct question { unsigned arguments; struct trace trace[2]; const char *channel; };

// What netdiff prints: its lines, or what standard error begins with (a text that ends with its line is all of the line) and no lines.
void print_netdiff(FILE *out, FILE *errors, const struct question *q);

// What difftry prints for a case.
void print_difftry(FILE *out, const uint8_t *bytes, size_t len);

#endif
