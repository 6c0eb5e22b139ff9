// Questions for the program netstall about the net of a scene, with its streams and masks as arguments.
#ifndef STALLQUESTIONS_H
#define STALLQUESTIONS_H

#include "stallasks.h"

// Each draws some questions and asks them: with masks and streams; without a stream; of a net that is stalled by masks that go on; about a cycle near the end of
// the masks; with streams that are not one per source; with numbers of no channel; with cycles past the limit; with several of these at once; of a form that is
// refused; with numbers typed in other ways; with one argument that is wrong; with too few arguments or no file; with about as many words, masks and streams as
// are taken.
scene_rule ask_in_full, ask_by_default, ask_in_a_stall, ask_near_the_end, ask_other_streams, ask_other_channels, ask_other_cycles, ask_several_faults;
scene_rule ask_refused_forms, ask_typed_oddly, ask_wrongly, ask_without_file, ask_with_many;

#endif
