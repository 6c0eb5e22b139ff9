"""Why a net is refused, in words and with the place. The library says the number; the place is looked for here, and what is found has to fit the number."""
from . import forms, library
from .faults import Fault, counted, listed
from .language import near
from .nets import (BLOCK_LIMIT, CHANNEL_LIMIT, CONTROL_BUFFERS, DATA_BUFFERS, MANIFOLD, SINK, SINK_LIMIT, SOURCE, SOURCE_LIMIT, WAYS, MUX, MERGE)

# The sentences of whemdrosk_reason in include/whemdrosk.h, to which the tests hold these.
REASONS = {
    0: "nothing is wrong",
    1: "the stored net is cut short: its bytes end within a field",
    2: "the stored net is not of edition 1, or a reserved bit is set",
    3: "the number of blocks is not 2 to 64, or the number of channels is not 1 to 128",
    4: "a block is of an unknown kind, one above 10",
    5: "a block has an m out of range: ways are 2 to 8, operations 0 to 3, all other m are 0",
    6: "a port names a channel that the net does not have",
    7: "the stored net is too long: a padding bit is set, or a byte follows it",
    8: "a channel does not lead from exactly one output port to exactly one input port",
    9: "the net has over 32 sources, or over 32 sinks",
    10: "a loop of blocks has no data buffer",
    11: "a loop of blocks has no control buffer",
    14: "words or ends are not 4 bytes each, or the ends are not one per source, descend or pass the words",
    15: "the masks are not 4 bytes each, or not two for each cycle",
    16: "the run lists over 1048576 cycles",
}


def checked(net, form=None):
    """The form of a net that the library accepts; a Fault with number and place where it refuses it."""
    form = forms.written(net) if form is None else form
    refusal = library.check(form)
    if refusal:
        raise refused(net, refusal)
    return form


def refused(net, refusal):
    """The Fault of a net that the library refuses."""
    places = {3: counts, 5: ways, 8: wiring, 9: ends, 10: data_loop, 11: control_loop}
    found = places[refusal](net) if refusal in places else []
    if not found:
        found = [f"{net.path}: refused {refusal}: {REASONS[refusal]}"]
    return Fault(*found, refusal=refusal)


def malformed(path, fault, form):
    """The Fault of a form that cannot be read through. The library is asked too: it refuses for the same reason."""
    refusal = library.check(form)
    if refusal != fault.refusal:
        return Fault(f"{path}: refused {refusal}: {REASONS.get(refusal, '')}", refusal=refusal)
    return Fault(f"{path}: refused {refusal}: {fault}", refusal=refusal)


def said(at, refusal, what):
    return f"{at}: refused {refusal}: {what}"


def counts(net):
    """Too few or too many blocks or channels."""
    if not net.blocks:
        return [said(f"{net.path}:1" if net.is_text else net.path, 3, 'the net has no blocks; write one on each line, as "source -> a" and "sink a"')]
    if len(net.blocks) < 2:
        return [said(net.at(0), 3, f"the net has 1 block; it needs 2 to {BLOCK_LIMIT}")]
    if len(net.blocks) > BLOCK_LIMIT:
        return [said(net.at(BLOCK_LIMIT), 3, f"this is block {BLOCK_LIMIT + 1} of {len(net.blocks)}; a net has at most {BLOCK_LIMIT}: split it into several nets")]
    if len(net.names) > CHANNEL_LIMIT:
        name = net.names[CHANNEL_LIMIT]
        return [said(net.at_channel(CHANNEL_LIMIT), 3, f'"{name}" is channel {CHANNEL_LIMIT + 1} of {len(net.names)}; a net has at most {CHANNEL_LIMIT}: split it into several nets')]
    return []


def ways(net):
    """A block with too few or too many ways."""
    for number, block in enumerate(net.blocks):
        if block.kind in MANIFOLD and block.m not in WAYS:
            has = counted(block.m, "input" if block.kind in (MUX, MERGE) else "output") + (" beside the select" if block.kind == MUX else "")
            return [said(net.at(number), 5, f"{block.word} has {has}; it has to have {WAYS[0]} to {WAYS[-1]}")]
    return []


def wiring(net):
    """Every channel that does not lead from one output port to one input port."""
    open_names = {name for channel, name in enumerate(net.names) if not (net.givers(channel) and net.takers(channel))}
    return [line for channel in range(len(net.names)) for line in wiring_of(net, channel, open_names)]


def wiring_of(net, channel, open_names):
    """What is wrong with the two ends of a channel: its ports, and what to write."""
    name, givers, takers = net.names[channel], net.givers(channel), net.takers(channel)
    others = sorted(open_names - {name})
    if not givers:
        ports = f"comes out of no block and goes into {listed(net.ports_in(channel), 'no block')}"
        yield said(net.at_channel(channel), 8, f'channel "{name}" {ports}; put "{name}" behind the "->" of one block{near(name, others)}')
    elif not takers:
        ports = f"comes out of {listed(net.ports_out(channel))} and goes into no block"
        yield said(net.at_channel(channel), 8, f'channel "{name}" {ports}; let one block take it, as "sink {name}"{near(name, others)}')
    if len(givers) > 1:
        yield said(net.at(givers[1]), 8, f'channel "{name}" comes out of {listed(net.ports_out(channel))}; it may leave one port: give each its own name, '
                   f'and join them with "merge" if both are meant')
    if len(takers) > 1:
        yield said(net.at(takers[1]), 8, f'channel "{name}" goes into {listed(net.ports_in(channel))}; it may enter one port: {copying(net, name, len(takers))}')


def copying(net, name, takers):
    """How to give each of several takers its own copy."""
    if takers > WAYS[-1]:
        return f"give them copies by forks; one has at most {WAYS[-1]} outputs, so that one fork has to feed others"
    return f'write "fork {name} -> {" ".join(fresh_name(net, f"{name}_{copy}") for copy in range(1, takers + 1))}" and let them take the copies'


def ends(net):
    """Too many sources or sinks."""
    for kind, limit, word in ((SOURCE, SOURCE_LIMIT, "source"), (SINK, SINK_LIMIT, "sink")):
        found = net.of_kind(kind)
        if len(found) > limit:
            return [said(net.at(found[limit]), 9, f"this is {word} {limit + 1} of {len(found)}; a net has at most {limit}")]
    return []


def loop_without(net, buffers):
    """The channels of one loop that passes through none of these kinds, and the block that each comes out of; nothing where every loop has one."""
    steps = {number: [(channel, taker) for channel in block.outputs for taker in net.takers(channel) if net.blocks[taker].kind not in buffers]
             for number, block in enumerate(net.blocks)}
    done = set()
    for start in steps:
        path, walks = [(None, start)], [iter(steps[start])]
        while walks:
            channel, block = next(walks[-1], (None, None))
            on_path = [number for _, number in path]
            if block is None:
                done.add(path.pop()[1])
                walks.pop()
            elif block in on_path:
                first = on_path.index(block)
                return [*path[first + 1:], (channel, block)]
            elif block not in done:
                path.append((channel, block))
                walks.append(iter(steps[block]))
    return []


def loop(net, refusal, buffers, word):
    """One loop that lacks a buffer, by names, and where the buffer could go."""
    found = loop_without(net, buffers)
    if not found:
        return []
    walk = net.place(found[-1][1]) + "".join(f" -{net.names[channel]}-> {net.place(block)}" for channel, block in found)
    channel, block = found[-1]
    name = net.names[channel]
    new = fresh_name(net, f"{name}_{word}")
    mend = f'write "{word} {name} -> {new}" and let {net.place(block)} take "{new}" instead of "{name}"'
    return [said(net.at(block), refusal, f"the loop {walk} has no {word} buffer; {mend}")]


def fresh_name(net, name):
    while name in net.names:
        name += "_"
    return name


def data_loop(net):
    return loop(net, 10, DATA_BUFFERS, "data")


def control_loop(net):
    return loop(net, 11, CONTROL_BUFFERS, "control")
