// Asks the programs netstall and stalltry, compares what they print with what the model prints, and notes what was met.
#ifndef STALLASKS_H
#define STALLASKS_H

#include "bayscenes.h"
#include "comparing.h"
#include "stalls.h"

// Names the programs, of which one may be left out, and the files that they are given, from the one for cases on; removes the files; whether no program is left
// out.
void begin_asking(char *netstall_name, char *stalltry_name, char *scratch);
void end_asking(void);
int both_are_asked(void);

// ---- stalltry

// Compares what stalltry prints for a case; for one with some of its last bytes once more behind it, of which no more is read than a case has room for.
void try_case(const struct scene *s);
void try_longer_case(const struct scene *s, size_t more);

// ---- netstall

// A question as it is typed: its arguments, of which the last one grows, and whether the first one names a file that can be read.
enum { ARGUMENT_ROOM = 128, TYPED_ROOM = 1 << 20 };
struct question { unsigned count; int can_be_read; size_t used; char *argument[ARGUMENT_ROOM], text[TYPED_ROOM]; };

// What is given for the form: a file with it; no file, a directory, a name below a file's, no name.
enum { GOOD_FILE, NO_FILE, DIRECTORY, BENEATH_A_FILE, NO_NAME, FILE_SORTS };

// A question of no argument; the argument for the form; a further one that is empty; text at the end of the last one.
void begin_question(struct question *q);
void name_form(struct question *q, unsigned sort);
void next_argument(struct question *q);
void type(struct question *q, const char *format, ...);

// Compares what netstall prints for a question about a scene's net.
void ask(const struct scene *s, const struct question *q);

// ---- What was met

// What was asked and said, by the lines in which both agree; what has to be met among it.
void print_asked(void);
void require_asked(void);

#endif
