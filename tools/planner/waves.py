"""A run as a wave file (VCD), for GTKWave and its like: valid, ready and word of each channel as far as deliveries tell, what each buffer holds, and who was told to stall."""
import itertools

from .nets import BUFFERS

# A cycle takes this many units of the file's time.
CYCLE_TIME = 10
WORD_BITS = 32
FIRST_MARK, LAST_MARK = 33, 126


def marks():
    """Short names for signals, as the format wants them."""
    letters = [chr(code) for code in range(FIRST_MARK, LAST_MARK + 1)]
    for length in itertools.count(1):
        yield from map("".join, itertools.product(letters, repeat=length))


def bit(known):
    """One bit, or x where it is not known."""
    return "x" if known is None else "1" if known else "0"


def word(known):
    """A word, or x where there is none or it is not known."""
    return "bx" if known is None else f"b{known:b}"


class Signal:
    """A signal of the file: the scopes that it stands in, its name, its bits, and the value last written."""

    def __init__(self, mark, scopes, name, bits):
        self.mark, self.scopes, self.name, self.bits, self.last = mark, scopes, name, bits, None

    def declared(self):
        return f"$var wire {self.bits} {self.mark} {self.name} $end"

    def change(self, value):
        """The line of a change, or nothing where the value stays."""
        if value == self.last:
            return []
        self.last = value
        return [f"{value} {self.mark}" if self.bits > 1 else f"{value}{self.mark}"]


class Waves:
    """The signals of a net."""

    def __init__(self, net):
        fresh = marks()

        def row(parts, *scopes):
            return [Signal(next(fresh), scopes, part, bits) for part, bits in parts]

        self.net = net
        self.channels = [row((("valid", 1), ("ready", 1), ("word", WORD_BITS)), "channels", name) for name in net.names]
        self.buffers = {number: row((("full", 1), ("held", WORD_BITS)), "buffers", f"block_{number}_from_{net.names[block.inputs[0]]}_to_{net.names[block.outputs[0]]}")
                        for number, block in enumerate(net.blocks) if block.kind in BUFFERS}
        self.stalls = [row([(net.names[channel], 1) for channel in channels], "stalls", role) for role, channels in (("sources", net.sources()), ("sinks", net.sinks()))]

    def signals(self):
        groups = [*self.channels, *self.buffers.values(), *self.stalls]
        return [signal for group in groups for signal in group]

    def head(self):
        """The declarations."""
        yield from ("$version whemdrosk $end", f"$comment a cycle takes {CYCLE_TIME} ns; x: deliveries do not tell $end", "$timescale 1 ns $end")
        for scopes, group in itertools.groupby(self.signals(), key=lambda signal: signal.scopes):
            yield from (f"$scope module {scope} $end" for scope in scopes)
            yield from (signal.declared() for signal in group)
            yield from ("$upscope $end" for _ in scopes)
        yield "$enddefinitions $end"

    def deliveries(self, moved):
        """The changes of the channels: one that delivers is valid and ready; of the others it is not known which of both is missing."""
        for channel, (valid, ready, carried) in enumerate(self.channels):
            known = True if channel in moved else None
            yield from valid.change(bit(known)) + ready.change(bit(known)) + carried.change(word(moved.get(channel)))

    def contents(self, held):
        """The changes of the buffers."""
        for number, (full, kept) in self.buffers.items():
            yield from full.change(bit(number in held)) + kept.change(word(held.get(number)))

    def told(self, stalled):
        """The changes of those who are told to stall."""
        ends = zip(self.stalls, (self.net.sources(), self.net.sinks()), stalled)
        for signal, told in ((signal, channel in told) for signals, channels, told in ends for signal, channel in zip(signals, channels)):
            yield from signal.change(bit(told))


def lines_of(run, progress):
    """The lines of a run's wave file."""
    waves = Waves(run.net)
    yield from waves.head()
    for cycle, (moved, held) in enumerate(zip(run.by_cycle(), run.contents())):
        changes = [*waves.deliveries(moved), *waves.contents(held), *waves.told(run.stalled(cycle))]
        if changes:
            yield f"#{cycle * CYCLE_TIME}"
            yield from changes
        progress(cycle)
    yield f"#{run.cycles * CYCLE_TIME}"
