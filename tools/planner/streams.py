"""The words, stalls and masks that a run is given, from the command and from files, by the names of the net's channels."""
import re
import sys

from .faults import Fault, Misuse, counted, listed, quoted
from .language import Wrong, decoded, near, word_of
from .library import CYCLE_LIMIT
from .runs import Inputs

# A source that is given no words has these, as netrun gives them.
DEFAULT_WORDS = [1, 2, 3]
DEFAULT_CYCLES = 12
ALL_SET = (1 << 32) - 1
STALL = re.compile(r"(?:(source|sink):)?(\w+)@(.+)")
SPAN = re.compile(r"([0-9]{1,9})(-([0-9]{1,9})?)?")
BETWEEN = re.compile(r"\s*,\s*|\s+")


def words_of(text):
    """The words of a list, with commas or blanks between them."""
    parts = BETWEEN.split(text.strip()) if text.strip() else []
    if "" in parts:
        raise Wrong("a number is missing beside a comma; write 1,2,3")
    return [word_of(part) for part in parts]


def source_named(net, name):
    """The number of a source, by the name of its channel."""
    names = [net.names[channel] for channel in net.sources()]
    if name not in names:
        raise Wrong(f'there is no source {quoted(name)}; sources of this net: {listed(names)}{near(name, names)}')
    return names.index(name)


def add_words(net, streams, text):
    """Gives a source its words: NAME=1,2,3."""
    name, equals, words = text.partition("=")
    if not equals:
        raise Wrong(f'{quoted(text.strip())} has no "="; write NAME=1,2,3')
    source = source_named(net, name.strip())
    if streams[source] is not None:
        raise Wrong(f'source "{name.strip()}" is given words twice; give them all in one list')
    streams[source] = words_of(words)


def lines_of(path, data):
    """The lines of a file that say something, with their numbers."""
    for number, line in enumerate(decoded(path, data), 1):
        line = line.split("#")[0].strip()
        if line:
            yield number, line


def read_file(path):
    """The bytes of a file; - is the standard input."""
    if path == "-":
        return sys.stdin.buffer.read() if sys.stdin else b""
    try:
        with open(path, "rb") as file:
            return file.read()
    except OSError as error:
        raise Fault(f"{path}: cannot be read: {error.strerror}") from None


def streams_of(net, given, path, note):
    """The words of each source: from the command, from a file, or those of netrun."""
    streams = [None] * len(net.sources())
    for text in given:
        try:
            add_words(net, streams, text)
        except Wrong as fault:
            raise Misuse(f"--words {text}: {fault}") from None
    for number, line in lines_of(path, read_file(path)) if path else ():
        try:
            add_words(net, streams, line)
        except Wrong as fault:
            raise Fault(f"{path}:{number}: {fault}") from None
    without = [net.names[channel] for channel, stream in zip(net.sources(), streams) if stream is None]
    if without:
        note(f'no words are given for {listed(without)}: there they are {listed(DEFAULT_WORDS)} (--words {without[0]}=.. gives others)')
    return [DEFAULT_WORDS if stream is None else stream for stream in streams]


def end_named(net, role, name):
    """Which list of masks, and which bit of them, is that of a source or sink: 0 and its number for a source, 1 and its number for a sink."""
    ends = {(place, bit): net.names[channel] for place, channels in enumerate((net.sources(), net.sinks())) if role in (None, ("source", "sink")[place])
            for bit, channel in enumerate(channels)}
    found = [end for end, called in ends.items() if called == name]
    if len(found) == 1:
        return found[0]
    if found:
        raise Wrong(f'"{name}" goes from a source to a sink; write source:{name}@.. or sink:{name}@..')
    names = list(dict.fromkeys(ends.values()))
    raise Wrong(f'"{name}" is the channel of no {role or "source or sink"}, and only these stall: {listed(names)}{near(name, names)}')


def spans_of(text, cycles):
    """The cycles of a list as 2-5,8,10-, as far as there are cycles."""
    for part in text.split(","):
        match = SPAN.fullmatch(part.strip())
        if not match:
            raise Wrong(f'{quoted(part)} names no cycles; write 3 for one cycle, 2-5 for several, 4- for all from there on')
        first = int(match.group(1))
        last = first if not match.group(2) else int(match.group(3)) if match.group(3) else max(cycles - 1, first)
        if last < first:
            raise Wrong(f"{part} ends before it begins; write {last}-{first}")
        if first >= cycles:
            raise Wrong(f"the run has {counted(cycles, 'cycle')}, counted from 0, and {part} is behind them; give more --cycles")
        yield from range(first, min(last + 1, cycles))


def add_stall(net, masks, text):
    """Clears the mask bits of a source or sink that stalls: NAME@2-5."""
    match = STALL.fullmatch(text)
    if not match:
        raise Wrong("write NAME@2-5, where NAME is the channel of a source or a sink")
    place, bit = end_named(net, match.group(1), match.group(2))
    for cycle in spans_of(match.group(3), len(masks)):
        masks[cycle][place] &= ~(1 << bit)


def masks_in(path):
    """The masks of a file: offer and ready of a cycle on each line."""
    masks = []
    for number, line in lines_of(path, read_file(path)):
        try:
            pair = words_of(line)
            if len(pair) != 2:
                raise Wrong(f'{quoted(line)} is no pair of masks; write the offer mask and the ready mask of a cycle, as 0xffffffff 0x1')
        except Wrong as fault:
            raise Fault(f"{path}:{number}: {fault}") from None
        masks.append(pair)
    return masks


def masks_of(net, cycles, path, stalls, note):
    """The masks of each cycle: those of a file, all set behind them, and cleared where something stalls."""
    masks = masks_in(path) if path else []
    if cycles is None:
        cycles = len(masks) if path else DEFAULT_CYCLES
        if cycles > CYCLE_LIMIT:
            raise Fault(f"{path}: it has masks for {cycles} cycles, and one run has at most {CYCLE_LIMIT}")
    if len(masks) > cycles:
        note(f"{path} has masks for {len(masks)} cycles; those behind the first {cycles} are not used")
    masks = masks[:cycles] + [[ALL_SET, ALL_SET] for _ in range(cycles - len(masks))]
    for text in stalls:
        try:
            add_stall(net, masks, text)
        except Wrong as fault:
            raise Misuse(f"--stall {text}: {fault}") from None
    return masks


def inputs_of(net, options, note):
    """What the command's options give to a run."""
    return Inputs(streams_of(net, options.words, options.words_file, note), masks_of(net, options.cycles, options.masks, options.stall, note))
