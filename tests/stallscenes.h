// Cases for the program stalltry: the net and the streams of a scene for baytry, then orders of steps and questions, and ways to spoil what is asked about.
#ifndef STALLSCENES_H
#define STALLSCENES_H

#include "bayscenes.h"
#include "stalls.h"

// How many orders have room; an order, if it has room.
unsigned orders_left(const struct scene *s);
void order(struct scene *s, uint32_t command, uint32_t a, uint32_t b, uint32_t c);

// Nets with streams and masks: without merges; with many ends of channels swapped; one block after the other in a row.
scene_rule draw_plain, draw_tangled, draw_row;

// Some steps with the masks of one row; masks for questions, which are at times those of the next step.
void take_steps(struct scene *s, unsigned row, unsigned count);
struct mask_pair { uint32_t offer, ready; };
struct mask_pair draw_pair(struct scene *s, struct random *r, unsigned row);

// A number of no channel, or almost.
uint32_t draw_no_channel(struct random *r, const struct draft *d);

// The orders of a case: steps and questions by turns; sinks, sources or both stalled for long; states in shape that are set; the count at its limit and about it;
// registers in shape and out of it; other channel counts; some of the ends lent; channels at the count and above; several faults at once; all of it set for a
// net that is refused; fresh states in the middle; numbers of no order.
scene_rule ask_between_steps, ask_when_stalled, ask_any_state, ask_at_the_limit, ask_spoilt_states, ask_spoilt_nets, ask_over_some_ends, ask_no_channels;
scene_rule ask_with_faults, ask_refused_nets, ask_fresh_states, give_no_orders;

// Orders, and then the file is spoilt or hardly a case; as many questions as have room.
scene_rule spoil_case_file, fill_case;

#endif
