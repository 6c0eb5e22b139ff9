"""The command line of the tool."""
import argparse
import os
import re
import shutil
import sys
import time

from . import drawing, files, forms, language, library, refusals, runs, streams, tables, waves, webpage
from .faults import Fault, Misuse, counted, listed, quoted

VERSION = "1.9.0"
WRONG_FILE, WRONG_COMMAND = 1, 2
# As a shell says it of a program that was stopped from the keyboard.
INTERRUPTED = 130
# Where no terminal tells its width, tables are this wide.
PLAIN_WIDTH = 100
PROGRESS_SECONDS = 2
ARGUMENTS = {"net": "a text (NAME.net) or a stored form (NAME.form)", "trace": "a recording", "records": "cycle, channel and word on each line"}
PICTURES = (".svg", ".png", ".dot")
PAGES = (".html", ".htm")
NETS = {".net": "texts", ".form": "stored forms"}


class Progress:
    """Says on standard error how far a long run has come."""

    def __init__(self, what, cycles):
        self.what, self.cycles, self.due = what, cycles, time.monotonic() + PROGRESS_SECONDS

    def __call__(self, cycle):
        now = time.monotonic()
        if now >= self.due:
            self.due = now + PROGRESS_SECONDS
            print(f"{self.what}: cycle {cycle} of {self.cycles}", file=sys.stderr, flush=True)


def note(text):
    """Says what a user may not have meant, beside the output."""
    print(f"note: {text}", file=sys.stderr)


def printed(lines):
    for line in lines:
        print(line)


def write(options, path, data):
    """Writes a file, unless it is one of those that were read."""
    read = (getattr(options, name, None) for name in ("net", "records", "words_file", "masks"))
    if any(origin and os.path.exists(path) and os.path.exists(origin) and os.path.samefile(path, origin) for origin in read):
        raise Misuse(f"{path}: this is a file that was read; choose another name")
    files.write_file(path, data)


def check_ending(option, path, right, wrong=()):
    """Fails unless a file that is to be written ends as such files do, or at least not as others do."""
    ending = os.path.splitext(path)[1]
    if (right and ending not in right) or ending in wrong:
        raise Misuse(f"{option} {path}: {'end its name in ' + ' or '.join(right) if right else f'{ending} is the ending of {NETS[ending]}; choose another'}")


def run_of(options):
    """The run that the options ask for."""
    net = files.read_net(options.net)
    form = refusals.checked(net)
    inputs = streams.inputs_of(net, options, note)
    return runs.run(net, form, inputs, Progress("running", len(inputs.masks)))


def check(options):
    """Says that a net is accepted."""
    net = files.read_net(options.net)
    refusals.checked(net)
    ends = [f"{counted(len(channels), word)} ({listed(net.names[channel] for channel in channels)})" if channels else f"no {word}s"
            for word, channels in (("source", net.sources()), ("sink", net.sinks()))]
    print(f"{net.path}: accepted: {len(net.blocks)} blocks, {counted(len(net.names), 'channel')}, {listed(ends)}")


def run(options):
    """Runs a net and shows what came of it."""
    for option, path in (("--trace", options.trace), ("--vcd", options.vcd)):
        check_ending(option, path or "", (), NETS)
    if options.trace and options.trace == options.vcd:
        raise Misuse(f"--trace and --vcd {options.vcd}: these are two files; give each its own name")
    try:
        result = run_of(options)
    except Fault as fault:
        if options.list and fault.refusal:
            print(f"refused {fault.refusal}")
        raise
    if options.trace:
        write(options, options.trace, result.trace.bytes())
    if options.vcd:
        write(options, options.vcd, "".join(f"{line}\n" for line in waves.lines_of(result, Progress("writing the waves", result.cycles))).encode())
    show(options, result)


def show(options, result):
    """Prints a run in the way that is asked for; nothing where it was written to files."""
    progress = Progress("printing", result.cycles)
    if options.list:
        printed(tables.listing(result, progress))
    elif options.csv:
        tables.write_csv(result, sys.stdout, progress)
    elif not (options.trace or options.vcd):
        printed(tables.table(result, options.width or shutil.get_terminal_size((PLAIN_WIDTH, 0)).columns, progress))


def draw(options):
    """Draws a net, or one cycle of a run."""
    check_ending("-o", options.output, PICTURES)
    dot = dot_at(options) if options.at is not None else dot_alone(options)
    kind = os.path.splitext(options.output)[1][1:]
    write(options, options.output, dot.encode() if kind == "dot" else drawing.rendered(dot, kind))


def dot_alone(options):
    """The picture of a net, also of one that is refused, if it has blocks at all."""
    if options.words or options.words_file or options.stall or options.masks or options.cycles is not None:
        raise Misuse("words, stalls and cycles are for a picture of one cycle; say which one with --at CYCLE")
    net = files.read_net(options.net)
    if not net.blocks:
        refusals.checked(net)
    return drawing.dot_of(net)


def dot_at(options):
    """The picture of one cycle of a run, which goes on to this cycle at least unless another number is given."""
    if options.cycles is None and not options.masks:
        options.cycles = max(options.at + 1, streams.DEFAULT_CYCLES)
    result = run_of(options)
    if options.at >= result.cycles:
        raise Misuse(f"--at {options.at}: the run has {counted(result.cycles, 'cycle')}, counted from 0; give more --cycles")
    return drawing.dot_of(result.net, drawing.moment_of(result, options.at))


def page(options):
    """Writes the page of a run."""
    check_ending("-o", options.output, PAGES)
    write(options, options.output, webpage.page_of(run_of(options)).encode(errors="backslashreplace"))


def form(options):
    """Writes a net as a stored form, and beside it its text where that would be lost."""
    check_ending("-o", options.output, (), (".net",))
    net = files.read_net(options.net)
    if not options.refused or not forms.can_be_written(net):
        refusals.checked(net)
    beside = files.place_for_names(net, options.output)
    write(options, options.output, forms.written(net))
    if beside:
        files.write_file(beside, language.written(net).encode())
        note(f"the names of the channels are kept in {beside}")


def text(options):
    """Writes a net as text."""
    check_ending("-o", options.output, (), (".form",))
    net = files.read_net(options.net)
    if options.numbers:
        net.names = [f"c{channel}" for channel in range(len(net.names))]
    write(options, options.output, language.written(net).encode())


def records(options):
    """Prints a recording."""
    printed(files.records_of(options.trace, files.read_file(options.trace)))


def trace(options):
    """Writes a recording from its text."""
    write(options, options.output, files.trace_of(options.records, files.read_file(options.records)))


def whole(least, most):
    """A number on the command line."""
    def number(text):
        if not re.fullmatch("[0-9]{1,18}", text) or not least <= int(text) <= most:
            raise argparse.ArgumentTypeError(f"{quoted(text)} is no number from {least} to {most}")
        return int(text)
    return number


def run_options():
    """The options of run, which draw and page take too."""
    options = argparse.ArgumentParser(add_help=False)
    group = options.add_argument_group("what the run is given")
    group.add_argument("--words", metavar="NAME=1,2,3", action="append", default=[], help="the words of the source whose channel is NAME, decimal or hexadecimal; without, 1, 2 and 3")
    group.add_argument("--words-file", metavar="FILE", help="the same from a file, NAME=1,2,3 on each line")
    group.add_argument("--stall", metavar="NAME@2-5", action="append", default=[],
                       help="the source or sink whose channel is NAME stalls in cycles 2 to 5; also 3, 4-, 2-5,8; source:NAME or sink:NAME where it is both")
    group.add_argument("--masks", metavar="FILE", help="offer mask and ready mask of a cycle on each line; all set in the cycles behind them")
    group.add_argument("--cycles", metavar="N", type=whole(0, library.CYCLE_LIMIT), help=f"how many cycles; without, as many as masks are given, else {streams.DEFAULT_CYCLES}")
    return options


def arguments():
    """The subcommands and their options."""
    parser = argparse.ArgumentParser(prog="whemdrosk", description="Checks, runs and draws dataflow nets, by the proved library.",
                                     epilog="A net is a text (NAME.net) or a stored form (NAME.form); whemdrosk language says how texts are written. docs/TUTORIAL.md begins at the beginning.")
    parser.add_argument("--version", action="version", version=f"whemdrosk {VERSION}")
    commands = parser.add_subparsers(metavar="COMMAND", required=True)
    runs_with = run_options()

    def command(name, work, about, *parents, argument="net"):
        added = commands.add_parser(name, parents=parents, help=about, description=about)
        added.set_defaults(work=work)
        if argument:
            added.add_argument(argument, metavar=argument.upper(), help=f"{ARGUMENTS[argument]}; - is the standard input")
        return added

    command("check", check, "says whether a net is accepted, and if not, why and where")
    running = command("run", run, "runs a net from fresh and shows what each channel delivers in each cycle", runs_with)
    shown = running.add_mutually_exclusive_group()
    shown.add_argument("--list", action="store_true", help="a line for each delivery: cycle, channel number and word, as netrun prints them")
    shown.add_argument("--csv", action="store_true", help="comma-separated values: a row for each cycle, a column for each channel")
    running.add_argument("--trace", metavar="FILE", help="writes the recording, 8 bytes for each delivery, as the library wrote it")
    running.add_argument("--vcd", metavar="FILE", help="writes waves, for GTKWave")
    running.add_argument("--width", metavar="N", type=whole(1, 1 << 20), help="how wide the table may be")
    drawn = command("draw", draw, "draws a net, or one cycle of a run of it", runs_with)
    drawn.add_argument("-o", "--output", metavar="FILE", required=True, help="the picture: .svg, .png or .dot")
    drawn.add_argument("--at", metavar="CYCLE", type=whole(0, library.CYCLE_LIMIT - 1), help="shows what the buffers hold before this cycle, and what moves in it")
    command("page", page, "writes a page for the browser: picture, cycles, table", runs_with).add_argument("-o", "--output", metavar="FILE", required=True, help="the page, .html")
    stored = command("form", form, "writes a net as a stored form")
    stored.add_argument("-o", "--output", metavar="FILE", required=True, help="the form, NAME.form; - is the standard output")
    stored.add_argument("--refused", action="store_true", help="also where the library refuses it, as for a list of placements")
    told = command("text", text, "writes a net as text")
    told.add_argument("-o", "--output", metavar="FILE", default="-", help="where to; without, the standard output")
    told.add_argument("--numbers", action="store_true", help="calls the channels c0, c1 and so on, whatever their names")
    command("records", records, "prints a recording: cycle, channel and word on each line", argument="trace")
    command("trace", trace, "writes a recording from such lines", argument="records").add_argument("-o", "--output", metavar="FILE", required=True)
    command("language", lambda options: print(language.__doc__, end=""), "says how nets are written as text", argument=None)
    return parser


def main(words=None):
    """Does what the command asks for; answers its exit status."""
    for name in ("stdout", "stderr"):
        # What is closed swallows everything; and a name that the terminal cannot show is no reason to stop.
        setattr(sys, name, getattr(sys, name) or open(os.devnull, "w"))
        getattr(sys, name).reconfigure(errors="backslashreplace")
    options = arguments().parse_args(words)
    try:
        options.work(options)
        sys.stdout.flush()
    except Fault as fault:
        print(fault, file=sys.stderr)
        return WRONG_FILE
    except Misuse as fault:
        print(f"whemdrosk: {fault}", file=sys.stderr)
        return WRONG_COMMAND
    except KeyboardInterrupt:
        return INTERRUPTED
    except BrokenPipeError:
        # Whoever read the output has enough of it.
        return silenced(0)
    except OSError as error:
        print(f"standard output: cannot be written: {error.strerror}", file=sys.stderr)
        return silenced(WRONG_FILE)
    return 0


def silenced(status):
    """Lets what is still to be printed go nowhere; answers a status."""
    os.dup2(os.open(os.devnull, os.O_WRONLY), sys.stdout.fileno())
    return status
