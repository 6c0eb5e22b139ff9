"""A run as one page for a browser: the picture, the cycles one by one, and every channel with all its words. The page shows what the library's trace says; it works out nothing."""
import html
import json
import pathlib
import re

from . import drawing
from .faults import Misuse
from .nets import BUFFERS, SINK, SOURCE

TEMPLATE = pathlib.Path(__file__).with_name("page.html")
DELIVERY_LIMIT = 200_000
PLACE = re.compile("@@([a-z]+)@@")
# The signs that could end the data's element or begin another, as JSON says them.
UNSAFE = {ord(sign): f"\\u{ord(sign):04x}" for sign in "<>&\u2028\u2029"}


def page_of(run):
    """The page of a run, as the text of an HTML file that needs no other."""
    if run.trace.count > DELIVERY_LIMIT:
        raise Misuse(f"the run has {run.trace.count} deliveries, and a page holds {DELIVERY_LIMIT} at most; give fewer --cycles")
    picture = drawing.rendered(drawing.dot_of(run.net, room=drawing.room_of(run)), "svg").decode()
    parts = {"title": html.escape(pathlib.Path(run.net.path).name), "picture": picture[picture.index("<svg"):], "run": embedded(data_of(run)), "last": str(max(run.cycles - 1, 0))}
    return PLACE.sub(lambda place: parts[place.group(1)], TEMPLATE.read_text(encoding="utf-8"))


def embedded(data):
    """Data as JSON that can stand within a page."""
    return json.dumps(data, separators=(",", ":")).translate(UNSAFE)


def data_of(run):
    """What the page shows of a run."""
    net = run.net
    ends = [[[net.place(number) for number in ends] for ends in (net.givers(channel), net.takers(channel))] for channel in range(len(net.names))]
    terminals = {"source": list(zip(net.sources(), net.of_kind(SOURCE))), "sink": list(zip(net.sinks(), net.of_kind(SINK)))}
    return {"cycles": run.cycles, "names": net.names, "ends": ends, "terminals": terminals, "words": words_of(run), "held": held_of(run), "stalls": stalls_of(run)}


def words_of(run):
    """For each channel the cycles in which it delivers, and its words."""
    words = [([], []) for _ in run.net.names]
    for cycle, channel, word in run.deliveries():
        words[channel][0].append(cycle)
        words[channel][1].append(word)
    return words


def held_of(run):
    """For each buffer the cycles before which it holds something new, and the word that it holds from there on, or nothing."""
    changes = {number: ([], []) for number, block in enumerate(run.net.blocks) if block.kind in BUFFERS}
    for cycle, held in enumerate(run.contents()):
        note(changes, cycle, held)
    return changes


def note(changes, cycle, held):
    """Notes for each buffer what it holds before a cycle, where that is new."""
    for number, (cycles, words) in changes.items():
        word = held.get(number)
        if word != (words[-1] if words else None):
            cycles.append(cycle)
            words.append(word)


def stalls_of(run):
    """The cycles from which on other sources or sinks are told to stall, and the channels of those sources and of those sinks."""
    changes, masks = ([], []), None
    for cycle in range(run.cycles):
        if run.inputs.masks[cycle] != masks:
            masks = run.inputs.masks[cycle]
            changes[0].append(cycle)
            changes[1].append([sorted(channels) for channels in run.stalled(cycle)])
    return changes
