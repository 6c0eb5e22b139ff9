"""A net as the tool holds it: blocks with their ports, and names for the channels. It says what a net is, never what it does."""
import dataclasses

BLOCK_LIMIT, CHANNEL_LIMIT = 64, 128
SOURCE_LIMIT = SINK_LIMIT = 32
WAYS = range(2, 9)

SOURCE, SINK, OPERATOR, CONSTANT, FORK, MUX, DEMUX, MERGE, DATA, FULL_DATA, CONTROL = range(11)
BUFFERS = (DATA, FULL_DATA, CONTROL)
DATA_BUFFERS, CONTROL_BUFFERS = (DATA, FULL_DATA), (CONTROL,)
# Kinds that have ways: as many as m says.
MANIFOLD = (FORK, MUX, DEMUX, MERGE)
# Kinds that hold a number.
VALUED = (CONSTANT, FULL_DATA)

OPERATIONS = ("add", "sub", "equal", "less")
WORDS = {SOURCE: "source", SINK: "sink", FORK: "fork", MUX: "mux", DEMUX: "demux", MERGE: "merge", DATA: "data", FULL_DATA: "data", CONTROL: "control"}


def port_counts(kind, m):
    """How many inputs and how many outputs a block has."""
    return {SOURCE: (0, 1), SINK: (1, 0), OPERATOR: (2, 1), CONSTANT: (1, 1), FORK: (1, m), MUX: (m + 1, 1), DEMUX: (2, m), MERGE: (m, 2),
            DATA: (1, 1), FULL_DATA: (1, 1), CONTROL: (1, 1)}[kind]


def input_name(kind, port):
    """What an input is called, where a block has several."""
    if kind == OPERATOR:
        return ("first operand", "second operand")[port]
    if kind == DEMUX:
        return ("select", "data input")[port]
    return {MUX: f"input {port - 1}" if port else "select", MERGE: f"input {port}"}.get(kind, "")


def output_name(kind, port):
    """What an output is called, where a block has several."""
    return ("data output", "report output")[port] if kind == MERGE else f"output {port}" if kind in (FORK, DEMUX) else ""


@dataclasses.dataclass(frozen=True)
class Block:
    """A block: its kind, m, the number it holds (or None), the channels of its inputs and outputs, and its line where it came from a text."""
    kind: int
    m: int
    value: int | None
    inputs: tuple
    outputs: tuple
    line: int | None = None

    @property
    def word(self):
        """What a text calls it."""
        return OPERATIONS[self.m] if self.kind in (OPERATOR, CONSTANT) else WORDS[self.kind]


@dataclasses.dataclass
class Net:
    """A net: the file it came from, its blocks, the name of each channel by number, for a text the line where each name first stands, and whether the names are its user's."""
    path: str
    blocks: list
    names: list
    lines: list | None = None
    named: bool = False

    @property
    def is_text(self):
        return self.lines is not None

    def of_kind(self, kind):
        """The numbers of the blocks of a kind, in block order."""
        return [number for number, block in enumerate(self.blocks) if block.kind == kind]

    def sources(self):
        """The channel of each source, in block order."""
        return [self.blocks[number].outputs[0] for number in self.of_kind(SOURCE)]

    def sinks(self):
        """The channel of each sink, in block order."""
        return [self.blocks[number].inputs[0] for number in self.of_kind(SINK)]

    def ends_out(self, channel):
        """The ports that a channel leaves: the block and the number of its output."""
        return [(number, port) for number, block in enumerate(self.blocks) for port, end in enumerate(block.outputs) if end == channel]

    def ends_in(self, channel):
        """The ports that a channel enters: the block and the number of its input."""
        return [(number, port) for number, block in enumerate(self.blocks) for port, end in enumerate(block.inputs) if end == channel]

    def givers(self, channel):
        """The blocks that put words on a channel, once for each of their ports."""
        return [number for number, _ in self.ends_out(channel)]

    def takers(self, channel):
        """The blocks that take words from a channel, once for each of their ports."""
        return [number for number, _ in self.ends_in(channel)]

    def ports_out(self, channel):
        """The ports that a channel leaves, as messages name them."""
        return [self.port(number, output_name(self.blocks[number].kind, port)) for number, port in self.ends_out(channel)]

    def ports_in(self, channel):
        """The ports that a channel enters, as messages name them."""
        return [self.port(number, input_name(self.blocks[number].kind, port)) for number, port in self.ends_in(channel)]

    def port(self, number, name):
        return f"{name} of {self.place(number)}" if name else self.place(number)

    def place(self, number):
        """A block as a message names it: by its line in a text, by its number in a stored form."""
        block = self.blocks[number]
        return f"{block.word} (line {block.line})" if self.is_text else f"block {number} ({block.word})"

    def at(self, number):
        """Where a message about a block begins: the file, and the line where there is one."""
        return f"{self.path}:{self.blocks[number].line}" if self.is_text else f"{self.path}: block {number}"

    def at_channel(self, channel):
        """Where a message about a channel begins."""
        return f"{self.path}:{self.lines[channel]}" if self.is_text else self.path
