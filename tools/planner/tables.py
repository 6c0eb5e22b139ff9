"""A run as a table, as a list and as comma-separated values."""
import csv

from .faults import letters, padded

QUIET = "."
STALLED = "x"
# Behind a word that a source delivered though it was told to stall.
HELD = "*"
LEGEND = {QUIET: "nothing delivered", STALLED: "told to stall", HELD: "its source was told to stall, but had offered the word before"}
LEAST_COLUMNS = 4


def cell(channel, moved, stalled):
    """What the table has for a channel in a cycle."""
    sources, sinks = stalled
    if channel in moved:
        return f"{moved[channel]}{HELD if channel in sources else ''}"
    return STALLED if channel in sources or channel in sinks else QUIET


def role(net, channel):
    """What a channel is to its user."""
    ends = [word for word, channels in (("source", net.sources()), ("sink", net.sinks())) if channel in channels]
    return ", ".join(ends)


def labels(net):
    """The head of each row, all of one width."""
    names = [(name, role(net, channel)) for channel, name in enumerate(net.names)]
    name_width, role_width = (max(letters(pair[place]) for pair in names) for place in (0, 1))
    return [f"{padded(name, name_width)} {padded(what, role_width)}" if role_width else padded(name, name_width) for name, what in names]


def section(heads, first, columns):
    """Rows for some cycles: a line with their numbers, and one for each channel."""
    title = "cycle"
    width = max(letters(title), letters(heads[0]))
    widths = [max(len(str(first + place)), *map(len, column)) for place, column in enumerate(columns)]
    yield title.ljust(width) + " |" + "".join(f" {first + place:>{widths[place]}}" for place in range(len(columns)))
    for row, head in enumerate(heads):
        yield padded(head, width) + " |" + "".join(f" {column[row]:>{widths[place]}}" for place, column in enumerate(columns))


def columns_of(run):
    """The column of each cycle."""
    for cycle, moved in enumerate(run.by_cycle()):
        stalled = run.stalled(cycle)
        yield [cell(channel, moved, stalled) for channel in range(len(run.net.names))]


def sections(run, width):
    """The columns in groups that fit into so many characters, with the first cycle of each."""
    room, first, group, used = width - letters(labels(run.net)[0]) - 2, 0, [], 0
    for cycle, column in enumerate(columns_of(run)):
        needs = 1 + max(len(str(cycle)), *map(len, column))
        if group and used + needs > room and len(group) >= LEAST_COLUMNS:
            yield first, group
            first, group, used = cycle, [], 0
        group.append(column)
        used += needs
    if group or not first:
        yield first, group


def table(run, width, progress):
    """The lines of a run's table: channels down, cycles across, in sections that fit the width."""
    heads, marks = labels(run.net), set()
    for number, (first, columns) in enumerate(sections(run, width)):
        if number:
            yield ""
        yield from section(heads, first, columns)
        marks |= {text[-1] for column in columns for text in column if text[-1] in LEGEND}
        progress(first)
    if marks:
        yield ", ".join(f"{mark} {LEGEND[mark]}" for mark in LEGEND if mark in marks)


def listing(run, progress):
    """The lines of netrun: cycle, channel and word of each delivery, then the cycles."""
    for cycle, channel, word in run.deliveries():
        yield f"{cycle} {channel} {word}"
        progress(cycle)
    yield f"end {run.cycles}"


def write_csv(run, file, progress):
    """A row for each cycle and a column for each channel, empty where nothing was delivered."""
    rows = csv.writer(file, lineterminator="\n")
    rows.writerow(["cycle", *run.net.names])
    for cycle, moved in enumerate(run.by_cycle()):
        rows.writerow([cycle, *(moved.get(channel, "") for channel in range(len(run.net.names)))])
        progress(cycle)
