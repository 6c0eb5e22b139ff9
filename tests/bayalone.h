// A bay among others and the same bay alone: nothing that is done to the others may alter a line of it.
#ifndef BAYALONE_H
#define BAYALONE_H

#include "bayscenes.h"

// Follows the lines of a case: from its first one on, those of each bay are kept, and which bays its calls of next name.
void begin_lines(void);
void keep_line(const char *line, size_t len);

// The lines of a bay, its steps in turn or not and its state in the end, as they were kept.
const char *lines_of(unsigned bay);

// The case whose lines were kept, without the commands for other bays: a call of next that named the bay is one in which it wants a cycle by itself, and the
// other calls are left out. Fresh records, the turn and the net's channels are nobody's.
void leave_alone(const struct scene *all, unsigned bay, struct scene *alone);

#endif
