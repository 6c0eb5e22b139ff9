// Cases in which the bays are stepped in turn: calls of next, and what must or must not move the turn; and what the request says of every such call.
#ifndef BAYTURNS_H
#define BAYTURNS_H

#include "bayscenes.h"

// Good calls between steps; one bay that wants a cycle in every call; every turn with every mask; masks that name no bay; turns beyond the four bays; calls
// that are refused one after another; calls over some of the ends; several faults at once; fresh records between calls.
scene_rule in_turn, with_one_waiting, with_every_turn, with_empty_masks, with_turns_beyond, with_refused_calls, over_some_ends, with_faults_in_turn;
scene_rule with_fresh_turns;

// Follows the calls of a case: from its first call on, each with the bay that it names or BAYS for none, and its refusal. Answers a fault, or NULL.
void begin_waiting(const struct scene *s);
const char *fault_of_call(unsigned bay, unsigned refusal);

// How often a bay was served in the fourth call since it wanted a cycle, and not before.
unsigned long served_fourth(void);

#endif
