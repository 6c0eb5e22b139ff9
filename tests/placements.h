// Placements of buffers on a net's channels in plain C, to compare the programs netplace and placetry with. Made from the request's words alone.
#ifndef PLACEMENTS_H
#define PLACEMENTS_H

#include "generate.h"
#include <stdio.h>

// A code for each channel: no buffer, a data buffer, a control buffer, a data buffer and then a control buffer.
enum { NOTHING = 0, DATA_ALONE = 1, CONTROL_ALONE = 2, DATA_THEN_CONTROL = 3, LAST_CODE = 3 };

// The refusals beside those of a form: codes that do not fit the net, a result that is too big, a net with too many channels to be listed.
enum { BAD_CODES = 18, NO_ROOM = 19, TOO_MANY_CHANNELS = 20 };

enum { MOST_BLOCKS = 64, MOST_CHANNELS = 128, MOST_LISTED = 6 };

// The refusal of a form with codes, in the order 1 to 9, 18, 19, 10, 11; or 0 and the placed net's form.
uint32_t model_place(const uint8_t *form, size_t form_len, const uint8_t *codes, size_t count, struct form *placed);

// The refusal of a form whose placements are to be listed, 1 to 9 or 20; or 0 and the number of its channels.
uint32_t model_list(const uint8_t *form, size_t form_len, unsigned *channels);

// The codes of a placement from its number, which is read in base 4 with channel 0 leading; and how many numbers there are.
void codes_of(unsigned number, unsigned channels, uint8_t *codes);
unsigned placements_of(unsigned channels);

// What the programs print for a form: the list; all placements with their refusals or forms; one list of codes with its refusal or form.
void print_list(FILE *out, const uint8_t *form, size_t form_len);
void print_all(FILE *out, const uint8_t *form, size_t form_len);
void print_one(FILE *out, const uint8_t *form, size_t form_len, const uint8_t *codes, size_t count);

#endif
