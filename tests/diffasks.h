// Asks the programs netdiff and difftry of two traces, and compares what they print with what the model prints.
#ifndef DIFFASKS_H
#define DIFFASKS_H

#include "comparing.h"
#include "diffpairs.h"

enum { NAME_ROOM = 4096, TEXT_ROOM = 16384, MOST_ARGUMENTS = 5 };

// Names the programs and the files that they are given, from the one for cases on; removes the files.
void begin_asking(char *netdiff_name, char *difftry_name, char *scratch);
void end_asking(void);

// ---- netdiff

void write_traces(const struct pair *p);
struct trial trial_of(const struct pair *p);

// The question about the traces that are written, or about a channel of them where one is typed.
struct question question_of(const struct pair *p, const char *channel);

// What is given for a trace: the file that is written, for a good trace or for one that is no whole records; no file, a directory, a name below a file's, no name.
enum { GOOD_TRACE, BROKEN_TRACE, NO_FILE, DIRECTORY, BENEATH_A_FILE, NO_NAME };
void give_file(struct question *q, unsigned k, unsigned sort);

// Compares the answer to a question; to that of one channel, of all.
void ask(const struct pair *p, const struct question *q);
void ask_channel(const struct pair *p, unsigned channel);
void ask_all(const struct pair *p);

// ---- difftry

// The case on trial, with more room than a case may have.
extern struct bytes { size_t len; uint8_t at[CASE_ROOM + 8192]; } on_trial;

// Its numbers: three for each trace.
enum { BYTES_NUMBER, CHANNEL_NUMBER, ROOM_NUMBER, NUMBERS };
void set_number(unsigned n, uint32_t number);

// Whether two traces have room in a case; the case with both; then the channel and the room of each list; compares the answer.
int have_room(const struct pair *p);
void begin_case(const struct pair *p);
void set_list(unsigned k, uint32_t channel, uint32_t room);
void try_case(const struct pair *p);

// ---- What was asked and said

// How often some channel, or some pair of lists, was said to differ.
unsigned long times_different(void);

// What was asked and said, by the lines in which both agree; what has to be met among it.
void print_asked(void);
void require_asked(void);

#endif
