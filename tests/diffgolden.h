// Traces, faults and cases worked out by hand.
#ifndef DIFFGOLDEN_H
#define DIFFGOLDEN_H

// Compares the model with each, and then the programs with the model; ends the program with a report at the first difference.
void try_by_hand(void);

#endif
