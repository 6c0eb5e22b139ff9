"""A run of a net: what it was given, and what the library says came of it."""
import dataclasses
import itertools

from . import library
from .faults import Misuse
from .nets import BUFFERS, Net
from .refusals import REASONS


@dataclasses.dataclass
class Inputs:
    """What a run is given: a list of words for each source and a pair of masks, offer and ready, for each cycle."""
    streams: list
    masks: list


@dataclasses.dataclass
class Run:
    """A run from fresh: the net, its inputs, the cycles that were done, and the library's trace."""
    net: Net
    inputs: Inputs
    cycles: int
    trace: library.Trace

    def deliveries(self):
        """Cycle, channel and word of each delivery, in order."""
        return map(self.trace.record, range(self.trace.count))

    def by_cycle(self):
        """For each cycle in order the words that it delivered, by channel."""
        groups = itertools.groupby(self.deliveries(), key=lambda delivery: delivery[0])
        due, group = next(groups, (None, ()))
        for cycle in range(self.cycles):
            if cycle != due:
                yield {}
                continue
            yield {channel: word for _, channel, word in group}
            due, group = next(groups, (None, ()))

    def contents(self):
        """For each cycle, and once more after the last, the word that each buffer holds before it, by block; a buffer that is not named is empty.
        By the buffer law (document 01): the words given out, then the word held, are the first word, if any, then the words taken in."""
        buffers = [(number, block) for number, block in enumerate(self.net.blocks) if block.kind in BUFFERS]
        held = {number: [block.value] if block.value is not None else [] for number, block in buffers}
        for moved in itertools.chain(self.by_cycle(), [{}]):
            yield {number: words[0] for number, words in held.items() if words}
            for number, block in buffers:
                if block.inputs[0] in moved:
                    held[number].append(moved[block.inputs[0]])
                if block.outputs[0] in moved:
                    held[number].pop(0)

    def stalled(self, cycle):
        """The channels whose source, and the channels whose sink, was told to stall in a cycle."""
        offer, ready = self.inputs.masks[cycle]
        return ({channel for bit, channel in enumerate(self.net.sources()) if not offer >> bit & 1},
                {channel for bit, channel in enumerate(self.net.sinks()) if not ready >> bit & 1})


def run(net, form, inputs, progress):
    """Runs a net that the library accepts."""
    refusal, cycles, trace = library.run(form, len(net.names), inputs.streams, inputs.masks, progress)
    if refusal:
        raise Misuse(f"the run is refused ({refusal}): {REASONS[refusal]}")
    return Run(net, inputs, cycles, trace)
