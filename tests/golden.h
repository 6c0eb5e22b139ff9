// Cases worked out by hand from document 01.
#ifndef GOLDEN_H
#define GOLDEN_H

#include <stddef.h>
#include <stdint.h>

// Tries all cases worked out by hand on model and library.
void try_goldens(void);

// A run's deliveries as "cycle channel word|", then "end" and the cycles done; or "refused" and the number.
void deliveries_as_text(uint64_t answer, const uint8_t *trace, char *text, size_t room);

#endif
