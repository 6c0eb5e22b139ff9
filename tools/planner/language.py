"""Nets as text, with names for the channels.

A block on each line: its kind, its inputs, an arrow and its outputs.
  source -> a         sink a             fork a -> b c        merge a b -> data report
  add a b -> c        add a 5 -> c       (also sub, equal, less; a number is the second operand)
  mux select a b -> c                    demux select a -> b c
  data a -> b         data 1 a -> b      (a number is the first word of a buffer that is full at the start)
  control a -> b
Names are of letters, digits and underscores, and begin with no digit. Each name is a channel: it stands once behind an arrow and once before one (or behind
sink). Forks, muxes, demuxes and merges have 2 to 8 ways. Numbers are 32-bit words, decimal or hexadecimal (0x1f). What follows # is a comment.
Channels are numbered as their names first appear. A line
  channels a b c
numbers these first, in this order: a stored form that numbers them in another way is written so.
"""
import difflib
import math
import re

from .faults import Fault, counted, listed, quoted
from .nets import (CONSTANT, CONTROL, DATA, DEMUX, FORK, FULL_DATA, MERGE, MUX, OPERATIONS, OPERATOR, SINK, SOURCE, VALUED, Block, Net, port_counts)

WORD_LIMIT = 1 << 32
# The digits of a number that is looked at; leading zeros are nobody's.
DIGIT_LIMIT = 100
NAME = re.compile(r"[^\W\d]\w*")
LINE_END = re.compile(r"\r\n|\n|\r")
NUMBER = re.compile(r"0[xX][0-9a-fA-F]+|[0-9]+")
# How each kind is written, for messages.
SHAPES = {"source": "source -> a", "sink": "sink a", "fork": "fork a -> b c", "mux": "mux select a b -> c", "demux": "demux select a -> b c",
          "merge": "merge a b -> data report", "data": "data a -> b or data 1 a -> b", "control": "control a -> b",
          **{word: f"{word} a b -> c or {word} a 5 -> c" for word in OPERATIONS}}
CHANNELS = "channels"
# As many faults of one text as are said at once.
FAULT_LIMIT = 20


class Wrong(Exception):
    """What is wrong with a line."""


def word_of(text):
    """The 32-bit word that a number in decimal or hexadecimal says."""
    if not NUMBER.fullmatch(text):
        negative = re.fullmatch(r"-([0-9]{1,10})", text)
        if negative and 0 < int(negative.group(1)) <= WORD_LIMIT // 2:
            raise Wrong(f"{text} is no 32-bit word, as words have no sign; write {WORD_LIMIT - int(negative.group(1))} if adding it is to take {negative.group(1)} away")
        raise Wrong(f"{quoted(text)} is no number; write a number from 0 to {WORD_LIMIT - 1}, decimal or hexadecimal (0x1f)")
    value = value_of(text)
    if value >= WORD_LIMIT:
        raise Wrong(f"{quoted(text)} is no 32-bit word; write a number from 0 to {WORD_LIMIT - 1} ({hex(WORD_LIMIT - 1)})")
    return value


def value_of(text):
    """What a number in decimal or hexadecimal says; a very long one is greater than any that is asked for."""
    base = 16 if text[:2] in ("0x", "0X") else 10
    return int(text, base) if len(text) <= DIGIT_LIMIT else math.inf


def near(word, words):
    """A hint at the words that a misspelt one is close to."""
    close = difflib.get_close_matches(word.lower(), words, 1)
    return f'; did you mean "{close[0]}"?' if close else ""


def is_number(text):
    return text[0].isdigit() or (text[0] in "+-" and text[1:2].isdigit())


def kind_of(word, value, inputs, outputs):
    """The kind and m of a line's block."""
    fixed = {"source": SOURCE, "sink": SINK, "control": CONTROL, "data": DATA if value is None else FULL_DATA}
    if word in OPERATIONS:
        return (OPERATOR if value is None else CONSTANT), OPERATIONS.index(word)
    ways = {"fork": (FORK, len(outputs)), "mux": (MUX, max(len(inputs) - 1, 0)), "demux": (DEMUX, len(outputs)), "merge": (MERGE, len(inputs))}
    return ways[word] if word in ways else (fixed[word], 0)


def split_line(line):
    """The word that a line begins with, what stands before its arrow and what behind."""
    left, arrow, right = line.partition("->")
    word, *inputs = left.split() or [""]
    if word not in SHAPES:
        what = f"{quoted(word)} is no block" if word else 'no block stands before "->"'
        raise Wrong(f"{what}{near(word, list(SHAPES)) or '; the blocks are ' + listed(SHAPES)}")
    if word == "sink" and arrow:
        raise Wrong(f'a sink has no outputs; write "{SHAPES[word]}"')
    if word != "sink" and not arrow:
        raise Wrong(f'"->" is missing; write "{SHAPES[word]}"')
    if "->" in right:
        raise Wrong(f'a line has one "->"; write "{SHAPES[word]}", and another block on a line of its own')
    return word, inputs, right.split()


def take_value(word, inputs, outputs):
    """The number that a line gives its block, or None, and the names of its inputs."""
    for name in outputs:
        if is_number(name):
            raise Wrong(f'{quoted(name)} stands where a channel\'s name should; write "{SHAPES[word]}"')
    numbers = [place for place, name in enumerate(inputs) if is_number(name)]
    if not numbers:
        return None, inputs
    if len(numbers) > 1:
        raise Wrong(f"{quoted(inputs[numbers[1]])} is a second number; a block holds one at most")
    if word != "data" and word not in OPERATIONS:
        raise Wrong(f'a {word} holds no number; write "{SHAPES[word]}"')
    value = word_of(inputs[numbers[0]])
    names = inputs[:numbers[0]] + inputs[numbers[0] + 1:]
    right_place = 0 if word == "data" else len(inputs) - 1
    if numbers[0] != right_place:
        where = "the first word of a buffer stands before its input" if word == "data" else f"the number is the second operand of {word}"
        raise Wrong(f'{where}; write "{SHAPES[word].split(" or ")[1]}"')
    return value, names


def read_line(line):
    """Kind, m, number and the names of inputs and outputs of a line's block."""
    word, inputs, outputs = split_line(line)
    value, inputs = take_value(word, inputs, outputs)
    for name in inputs + outputs:
        if not NAME.fullmatch(name):
            raise Wrong(f"{quoted(name)} is no name; write letters, digits and underscores, and no digit first")
    kind, m = kind_of(word, value, inputs, outputs)
    wanted = port_counts(kind, m)
    if wanted != (len(inputs), len(outputs)):
        has = f"{counted(len(inputs), 'input')} and {counted(len(outputs), 'output')}"
        raise Wrong(f'{word} has {has} here; write "{SHAPES[word]}"')
    return kind, m, value, inputs, outputs


def read_channels(names, known):
    """The names of a channels line, each a new one."""
    for name in names:
        if not NAME.fullmatch(name):
            raise Wrong(f"{quoted(name)} is no name; write letters, digits and underscores, and no digit first")
        if name in known or names.count(name) > 1:
            raise Wrong(f'"{name}" has its number already; name each channel once, before the lines of the blocks')
    return names


def decoded(path, data):
    """The lines of a text file."""
    try:
        return LINE_END.split(data.decode("utf-8-sig"))
    except UnicodeDecodeError as error:
        line = len(LINE_END.split(data[:error.start].decode("latin-1")))
        raise Fault(f"{path}:{line}: byte {hex(data[error.start])} is no text; save the file as UTF-8, or name it .form if it is a stored form") from None


def read_net(path, data):
    """The net of a text; says all its faults at once."""
    numbers, lines, blocks, wrong = {}, [], [], []

    def number_of(name, line):
        if name not in numbers:
            numbers[name] = len(numbers)
            lines.append(line)
        return numbers[name]

    for line, text in enumerate(decoded(path, data), 1):
        text = text.split("#")[0].strip()
        if not text:
            continue
        try:
            if text.split()[0] == CHANNELS:
                for name in read_channels(text.split()[1:], numbers):
                    number_of(name, line)
                continue
            kind, m, value, inputs, outputs = read_line(text)
        except Wrong as fault:
            wrong.append(f"{path}:{line}: {fault}")
            continue
        blocks.append(Block(kind, m, value, tuple(number_of(name, line) for name in inputs), tuple(number_of(name, line) for name in outputs), line))
    if wrong:
        more = [f"{path}: and {len(wrong) - FAULT_LIMIT} more"] if len(wrong) > FAULT_LIMIT else []
        raise Fault(*wrong[:FAULT_LIMIT], *more)
    return Net(path, blocks, list(numbers), lines, named=True)


def line_of(net, block):
    """A block as a line of text."""
    inputs, outputs = ([net.names[port] for port in ports] for ports in (block.inputs, block.outputs))
    value = [] if block.kind not in VALUED else [str(block.value)]
    inputs = value + inputs if block.kind == FULL_DATA else inputs + value
    return " ".join([block.word, *inputs, *(["->", *outputs] if outputs else [])])


def written(net):
    """A net as text that gives the same stored form."""
    met = list(dict.fromkeys(port for block in net.blocks for port in (*block.inputs, *block.outputs)))
    lines = [line_of(net, block) for block in net.blocks]
    if met != list(range(len(net.names))):
        rows = [net.names[first:first + 16] for first in range(0, len(net.names), 16)]
        lines = [" ".join([CHANNELS, *row]) for row in rows] + lines
    return "\n".join(lines) + "\n"
