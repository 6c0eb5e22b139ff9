"""A net as a picture, laid out by Graphviz: bare, or as it is in one cycle of a run. Nothing here says what a net does; what moved and what is held comes from the run."""
import dataclasses
import html
import itertools
import subprocess

from . import svg
from .faults import Fault, letters
from .nets import BUFFERS, CONSTANT, CONTROL, DATA_BUFFERS, DEMUX, FORK, MERGE, MUX, OPERATOR, SINK, SOURCE

PROGRAM = "dot"
PNG_DOTS_PER_INCH = 110
POINTS_PER_INCH = 72
SIGNS = ("+", "−", "=", "<")
# Operations whose operands may not change places: their ends are numbered.
ORDERED = ("sub", "less")

STALLED, SELECT = "stalled", "sel"
# The side of a block at which channels come in and at which they go out.
SIDES = {"in": "w", "out": "e"}
# An empty cell; a space that is drawn, so that the cell has a text.
NO_WORD = "&#160;"

FONT = "Helvetica"
NAME_SIZE, PORT_SIZE, SMALL_SIZE, SIGN_SIZE = 11, 10, 8, 15
# How wide a letter is, in parts of its size.
LETTER = 0.6
ROW = 17
# The least height of a trapezoid, and how high its narrow side is against its wide one.
SLOPE_HEIGHT, NARROW = 3 * ROW, 0.55
TITLE_WIDTH, PORT_MARGIN, CORNER = 42, 10, 4
CELL_WIDTH, CELL_HEIGHT, BAND_HEIGHT = 28, 18, 11
TERMINAL_HEIGHT, TERMINAL_MARGIN = 30, 38
LABEL_HEIGHT, LABEL_MARGIN = 14, 6
# A fork's bar: how wide, and how high, with so much more for each copy.
BAR, BAR_HEIGHT, BAR_STEP = 7, 18, 4
CIRCLE = 28

INK, PALE, BAND, MOVED, FAULTY, STALLED_FILL = "#222222", "#f3f1ea", "#d5dfe8", "#0b4f94", "#b00020", "#fbdfe0"
FILLS = {SOURCE: "#e8efe3", SINK: "#e8efe3", OPERATOR: "white", CONSTANT: "white", MUX: PALE, DEMUX: PALE, MERGE: PALE}
THIN, THICK, STALLED_PEN = 1, 3, 2
# A label that says nothing: a piece of the line.
NO_LABEL = {"shape": "box", "style": "filled", "penwidth": 0, "fixedsize": "true", "width": 0.06, "height": 0.014, "label": ""}
LOOSE = {"shape": "point", "width": 0.08, "color": FAULTY}


@dataclasses.dataclass
class Moment:
    """One cycle of a run: the words that moved by channel, the words that were held before it by block, and the channels whose source or sink was told to stall."""
    cycle: int
    moved: dict
    held: dict
    stalled_sources: set
    stalled_sinks: set


@dataclasses.dataclass
class Room:
    """The letters that words may take: on each channel and in each buffer. A picture with room can show other words without being laid out again."""
    moved: dict
    held: dict


class Markup(str):
    """A label in Graphviz's own markup."""


def moment_of(run, cycle):
    """One cycle of a run, as a picture shows it."""
    moved, held = (next(itertools.islice(each, cycle, None)) for each in (run.by_cycle(), run.contents()))
    return Moment(cycle, moved, held, *run.stalled(cycle))


def room_of(run):
    """The room that the words of a run need: on each channel, and in each buffer for its first word and for those that its channel brings."""
    widest = {}
    for _, channel, word in run.deliveries():
        widest[channel] = max(word, widest.get(channel, 0))
    moved = {channel: len(str(word)) for channel, word in widest.items()}
    buffers = {number: block for number, block in enumerate(run.net.blocks) if block.kind in BUFFERS}
    return Room(moved, {number: max(moved.get(block.inputs[0], 0), len(held_word(block, number, None))) for number, block in buffers.items()})


def dot_of(net, moment=None, room=None):
    """The Graphviz text of a net: bare, or in one cycle of a run; with room for words, if that is asked for."""
    room = room or Room({}, {})
    lines = ["digraph net {", f"  graph {attributes(head_of(moment))}",
             f"  node {attributes({'fontname': FONT, 'fontsize': NAME_SIZE, 'color': INK, 'fontcolor': INK})}",
             f"  edge {attributes({'fontname': FONT, 'fontsize': SMALL_SIZE, 'color': INK, 'fontcolor': INK, 'arrowsize': 0.6})}"]
    # Graphviz puts those parts of a net at the bottom that it reads first: so sources come first, the last of them before the others.
    order = sorted(range(len(net.blocks)), key=lambda number: (net.blocks[number].kind != SOURCE, -number))
    lines += [f"  {quoted(node_of(net, number))} {attributes(block_look(net, number, moment, room))}" for number in order]
    back = ways_back(net)
    lines += [f"  {line}" for channel in range(len(net.names)) for line in channel_lines(net, channel, channel in back, moment, room)]
    return "\n".join(lines + ["}"]) + "\n"


def rendered(dot, kind):
    """The picture that Graphviz makes of its text, as the bytes of an SVG or PNG file."""
    options = [f"-Gdpi={PNG_DOTS_PER_INCH}"] if kind == "png" else []
    try:
        done = subprocess.run([PROGRAM, f"-T{kind}", *options], input=dot.encode(), capture_output=True, check=False)
    except OSError:
        raise Fault(f'"{PROGRAM}" is not there: pictures need Graphviz; install it (on Debian "apt install graphviz")') from None
    if done.returncode:
        raise Fault(f'"{PROGRAM}" failed: {done.stderr.decode(errors="replace").strip() or done.returncode}')
    return svg.tidied(done.stdout) if kind == "svg" else done.stdout


def head_of(moment):
    """The attributes of the whole picture."""
    head = {"rankdir": "LR", "outputorder": "edgesfirst", "fontname": FONT, "fontsize": SIGN_SIZE, "fontcolor": INK, "bgcolor": "white", "nodesep": 0.12, "ranksep": 0.22}
    return head if moment is None else {**head, "label": f"cycle {moment.cycle}", "labelloc": "t", "labeljust": "l"}


def quoted(text):
    """A text as Graphviz reads it."""
    return '"' + str(text).replace("&", "&amp;").replace("\\", "\\\\").replace('"', '\\"') + '"'


def attributes(pairs):
    """Attributes as Graphviz reads them."""
    return "[" + ", ".join(f"{key}=" + (f"<{value}>" if isinstance(value, Markup) else quoted(value)) for key, value in pairs.items()) + "]"


def inches(points):
    return round(points / POINTS_PER_INCH, 3)


def node_of(net, number):
    """What the picture calls a block; a browser shows it under the mouse."""
    block = net.blocks[number]
    return f"block {number}: {block.word}" + (f", line {block.line}" if block.line is not None else "")


def block_look(net, number, moment, room):
    """The attributes of a block's node."""
    block = net.blocks[number]
    if block.kind in BUFFERS:
        look = buffer(block, held_word(block, number, moment), room.held.get(number, 0))
    elif block.kind in (SOURCE, SINK):
        look = terminal(net, block, moment)
    else:
        look = {OPERATOR: operator, CONSTANT: constant, FORK: fork, MUX: mux, DEMUX: demux, MERGE: merge}[block.kind](block)
    style = {"style": "filled", "fillcolor": FILLS[block.kind]} if block.kind in FILLS else {}
    return {"id": f"block-{number}", "class": f"block {block.word}", **style, **look}


def small(text, colour=INK, size=SMALL_SIZE):
    """A text in small letters."""
    return f'<FONT POINT-SIZE="{size}" COLOR="{colour}">{html.escape(text)}</FONT>'


def terminal(net, block, moment):
    """A source or a sink: a tag with its channel's name, whose point is where the channel is."""
    channel = (block.outputs or block.inputs)[0]
    name = net.names[channel]
    told = set() if moment is None else moment.stalled_sources if block.kind == SOURCE else moment.stalled_sinks
    width = max(letters(name) * LETTER * NAME_SIZE, letters(STALLED) * LETTER * SMALL_SIZE) + TERMINAL_MARGIN
    look = {"shape": "house", "orientation": 270 if block.kind == SOURCE else 90, "fixedsize": "true", "width": inches(width), "height": inches(TERMINAL_HEIGHT)}
    if channel not in told:
        return {**look, "label": Markup(f"{html.escape(name)}<BR/>{small(block.word)}")}
    stall = {"style": "filled,dashed", "fillcolor": STALLED_FILL, "color": FAULTY, "penwidth": STALLED_PEN, "class": f"block {block.word} {STALLED}"}
    return {**look, **stall, "label": Markup(f"{html.escape(name)}<BR/>{small(STALLED, FAULTY)}")}


def operator(block):
    """An operation on two words."""
    return {"shape": "circle", "fixedsize": "true", "width": inches(CIRCLE), "fontsize": SIGN_SIZE, "label": SIGNS[block.m]}


def constant(block):
    """An operation with a constant inside: as a circle, drawn out as far as the constant needs."""
    label = f"{SIGNS[block.m]} {block.value}"
    return {"shape": "ellipse", "fixedsize": "true", "height": inches(CIRCLE), "width": inches(CIRCLE + letters(label) * LETTER * NAME_SIZE), "label": label}


def table(rows, look='BORDER="0" CELLBORDER="0"', between=""):
    """A table without gaps."""
    return f'<TABLE {look} CELLSPACING="0" CELLPADDING="0">{between.join(f"<TR>{row}</TR>" for row in rows)}</TABLE>'


def cell(text, width, height, port="", more=""):
    """A cell of a fixed size, with a port where it has one."""
    named = f' PORT="{port}"' if port else ""
    return f'<TD{named} WIDTH="{round(width)}" HEIGHT="{round(height)}" FIXEDSIZE="TRUE"{more}>{text}</TD>'


def column(way, texts, height, whole):
    """The ports at one side of a block, one below the other in the middle of the whole height, and how wide they are."""
    width = max(letters(text) * LETTER * PORT_SIZE for text in [*texts, ""]) + PORT_MARGIN
    rows = [cell(small(text, size=PORT_SIZE) if text else "", width, height / len(texts), f"{way}{port}") for port, text in enumerate(texts)]
    space = [cell("", width, (whole - height) / 2)] if whole > height else []
    return table([*space, *rows, *space] or [cell("", width, whole)]), round(width)


def many_ports(title, shape, height, inputs, outputs):
    """A block with its name in the middle and its ports at both sides; the ports of a side come as their texts and the height that they share."""
    (left, left_width), (right, right_width) = column("in", *inputs, height), column("out", *outputs, height)
    middle = cell(f"<B>{small(title, size=PORT_SIZE)}</B>", TITLE_WIDTH, height)
    label = Markup(table([f"<TD>{left}</TD>{middle}<TD>{right}</TD>"]))
    return {**shape, "fixedsize": "true", "width": inches(left_width + TITLE_WIDTH + right_width), "height": inches(height), "margin": 0, "label": label}


def ways(block):
    return [str(way) for way in range(block.m)]


def slope(ports):
    """The heights of a trapezoid's wide side and of its narrow one."""
    height = max(ROW * ports, SLOPE_HEIGHT)
    return height, NARROW * height


def mux(block):
    """A mux: a trapezoid that narrows towards its output. The select comes in first."""
    wide, narrow = slope(block.m + 1)
    return many_ports("mux", {"shape": "trapezium", "orientation": 270}, wide, ([SELECT, *ways(block)], wide - 2 * CORNER), ([""], narrow))


def demux(block):
    """A demux: a trapezoid that widens towards its outputs."""
    wide, narrow = slope(block.m)
    return many_ports("demux", {"shape": "trapezium", "orientation": 90}, wide, ([SELECT, ""], narrow), (ways(block), wide - 2 * CORNER))


def merge(block):
    """A merge: a box with round corners; below its data it reports whose they are."""
    height = max(ROW * block.m, 2 * ROW)
    return many_ports("merge", {"shape": "box", "style": "filled,rounded"}, height, (ways(block), height), (["data", "report"], height))


def fork(block):
    """A fork: a bar. Its copies are alike, so that they leave it in whatever order keeps the lines apart."""
    return {"shape": "box", "style": "filled", "fillcolor": INK, "fixedsize": "true", "width": inches(BAR), "height": inches(BAR_HEIGHT + BAR_STEP * block.m), "label": ""}


def held_word(block, number, moment):
    """What a buffer's cell says: its word before the cycle, or in the bare net its first word."""
    word = block.value if moment is None else moment.held.get(number)
    return "" if word is None else str(word)


def buffer(block, word, room):
    """A buffer: a cell for its word, below a band that says which it is. A control buffer is dashed and round, as words may pass it by."""
    width = max(CELL_WIDTH, LETTER * NAME_SIZE * max(letters(word), room) + PORT_MARGIN, letters(block.word) * LETTER * SMALL_SIZE + PORT_MARGIN)
    look, fill, between = ('STYLE="dashed,rounded" BORDER="1"', "", "<HR/>") if block.kind == CONTROL else ('BORDER="2"', f' BGCOLOR="{BAND}"', "")
    band, held = cell(small(block.word), width, BAND_HEIGHT, more=fill), cell(html.escape(word) or NO_WORD, width, CELL_HEIGHT)
    return {"shape": "plain", "class": f"block {block.word} buffer", "label": Markup(table([band, held], f'{look} CELLBORDER="0" COLOR="{INK}"', between))}


def port_of(net, number, way, port):
    """Where at its block a channel ends: a port's place, or a point of the compass."""
    block = net.blocks[number]
    if block.kind in (MUX, DEMUX, MERGE):
        return f":{way}{port}:{SIDES[way]}"
    if block.kind == FORK and way == "out":
        return ""
    if block.kind == OPERATOR and way == "in":
        return (":nw", ":sw")[port]
    return f":{SIDES[way]}"


def end_marks(net, number, port):
    """What marks the end of a channel at a block: which operand it is, or that it selects."""
    block = net.blocks[number]
    if block.kind == OPERATOR and block.word in ORDERED:
        return {"headlabel": str(port + 1), "labeldistance": 1.2, "labelangle": (35, -35)[port]}
    return {"arrowhead": "diamond", "arrowsize": 0.8} if block.kind in (MUX, DEMUX) and port == 0 else {}


def ways_back(net):
    """The channels that are drawn backwards: those that lead from a data buffer into a loop again, so that a loop is laid out from its buffer to its buffer."""
    return {block.outputs[0] for number, block in enumerate(net.blocks) if block.kind in DATA_BUFFERS and number in reached(net, number)}


def reached(net, start):
    """The blocks that lie behind a block, along channels."""
    steps = {number: {taker for channel in block.outputs for taker in net.takers(channel)} for number, block in enumerate(net.blocks)}
    known, fresh = set(), steps[start]
    while fresh:
        known |= fresh
        fresh = set().union(*(steps[number] for number in fresh)) - known
    return known


def edge(tail, head, back, look):
    """An edge as it is laid out: from left to right, or backwards."""
    if not back:
        return f"{tail} -> {head} {attributes(look)}"
    swaps = {"arrowhead": "arrowtail", "headclip": "tailclip", "tailclip": "headclip", "headlabel": "taillabel"}
    return f"{head} -> {tail} {attributes({'dir': 'back', **{swaps.get(key, key): value for key, value in look.items()}, 'weight': 0})}"


def channel_lines(net, channel, back, moment, room):
    """The lines of a channel: its label, and an edge from each port that it leaves and to each that it enters. A loose end is a red point."""
    givers, takers = net.ends_out(channel), net.ends_in(channel)
    parts = (f"channel-{channel}.{part}" for part in itertools.count())
    name = net.names[channel]
    label = quoted(f"channel {name}")
    look = channel_look(channel, len(givers) == 1 and len(takers) == 1, moment)
    yield f"{label} {attributes({'id': next(parts), **label_look(net, channel, moment, room, look)})}"
    tails = [(quoted(node_of(net, number)) + port_of(net, number, "out", port), {}) for number, port in givers]
    heads = [(quoted(node_of(net, number)) + port_of(net, number, "in", port), end_marks(net, number, port)) for number, port in takers]
    for ends, loose in ((tails, f"no block gives {name}"), (heads, f"no block takes {name}")):
        if not ends:
            yield f"{quoted(loose)} {attributes({'id': next(parts), **LOOSE})}"
            ends.append((quoted(loose), {}))
    yield from (edge(tail, label, back, {"id": next(parts), **look, "arrowhead": "none", "headclip": "false"}) for tail, _ in tails)
    yield from (edge(label, head, back, {"id": next(parts), **look, "tailclip": "false", **marks}) for head, marks in heads)


def channel_look(channel, sound, moment):
    """The colour and width of a channel's line."""
    if not sound:
        return {"color": FAULTY, "penwidth": THIN}
    return {"color": MOVED, "penwidth": THICK} if moment and channel in moment.moved else {"color": INK, "penwidth": THIN}


def label_look(net, channel, moment, room, look):
    """The label on a channel: its name, and the word that it delivers. Where a source or a sink says the name, it stands alone with a word."""
    name = net.names[channel]
    moved = moment is not None and channel in moment.moved
    said = f"{name}: {moment.moved[channel]}" if moved else "" if channel in net.sources() + net.sinks() and look["color"] != FAULTY else name
    wide = letters(name + ": ") + room.moved[channel] if channel in room.moved else letters(said)
    if not wide:
        return {**NO_LABEL, "fillcolor": look["color"]}
    fill = MOVED if moved else "white" if said else "none"
    return {"shape": "box", "style": "filled,rounded", "fillcolor": fill, "penwidth": 0, "fixedsize": "true", "width": inches(wide * LETTER * PORT_SIZE + LABEL_MARGIN),
            "height": inches(LABEL_HEIGHT), "fontsize": PORT_SIZE, "fontcolor": "white" if moved else look["color"], "label": said}
