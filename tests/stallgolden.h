// Stalls, cases and questions worked out by hand.
#ifndef STALLGOLDEN_H
#define STALLGOLDEN_H

// Compares the model with each, and then the programs with the model; ends the program with a report at the first difference.
void try_by_hand(void);

#endif
