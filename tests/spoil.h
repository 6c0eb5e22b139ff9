// Good forms with one field spoilt.
#ifndef SPOIL_H
#define SPOIL_H

#include "generate.h"

// Spoils the form of a draft so that it earns a refusal from 1 to 8. For 6 the draft has at most 127 channels, for 8 at least two.
void spoil_form(struct random *r, const struct draft *d, struct form *form, int refusal);

#endif
