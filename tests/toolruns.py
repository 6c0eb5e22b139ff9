"""Runs: what the tool hands to the library, and what it makes of the library's trace, against programs that do it in their own way."""
import csv
import io
import itertools
import os
import re
import shutil
import struct
import subprocess
import sys

from tooltrying import BUILD, EXAMPLES, ROOT, TOOLS, accepted, folder, holds, printed, same, tool

from planner import library, runs as ran, tables as shown, waves as waving
from planner.forms import read_net

NETS = 60
COMMANDS = 12
BAYTRY = ROOT / "crates" / "baytry" / "out" / "baytry"
LONG = 150000
ALL = (1 << 32) - 1


def run_of(scene):
    """A scene's run by the tool's modules."""
    net = read_net("x.form", scene.form)
    return ran.run(net, scene.form, ran.Inputs(scene.streams, scene.masks), lambda cycle: None)


def spans(cycles):
    """Cycles as the command takes them: 1-3,5."""
    parts = []
    for _, group in itertools.groupby(enumerate(cycles), key=lambda pair: pair[1] - pair[0]):
        group = [cycle for _, cycle in group]
        parts.append(str(group[0]) if len(group) == 1 else f"{group[0]}-{group[-1]}")
    return ",".join(parts)


def as_options(scene, net):
    """A scene's words and stalls as options of the command, by names."""
    options = ["--cycles", len(scene.masks)]
    for channel, stream in zip(net.sources(), scene.streams):
        options += ["--words", f"{net.names[channel]}={','.join(hex(word) if word % 2 else str(word) for word in stream)}"]
    for place, role, channels in ((0, "source", net.sources()), (1, "sink", net.sinks())):
        for bit, channel in enumerate(channels):
            stalled = [cycle for cycle, pair in enumerate(scene.masks) if not pair[place] >> bit & 1]
            if stalled:
                options += ["--stall", f"{role}:{net.names[channel]}@{spans(stalled)}"]
    return options


def as_files(scene, net, place):
    """The same as files."""
    (place / "words").write_text("".join(f"{net.names[channel]} = {' '.join(map(str, stream))}  # words\n" for channel, stream in zip(net.sources(), scene.streams)))
    (place / "masks").write_text("".join(f"{offer} {hex(ready)}\n" for offer, ready in scene.masks))
    return ["--words-file", "words", "--masks", "masks"]


def by_example(scene, place):
    """What the program in C prints of the scene with its ready masks, all sources offering; and the records that it writes."""
    (place / "x.form").write_bytes(scene.form)
    ready = ",".join(str(pair[1]) for pair in scene.masks)
    done = subprocess.run([BUILD / "example", "-o", place / "c.trace", "-r", ready, place / "x.form", str(len(scene.masks)),
                           *(",".join(map(str, stream)) for stream in scene.streams)], capture_output=True, text=True)
    same(done.returncode, 0, f"the status of the program in C: {done.stdout}")
    return done.stdout, (place / "c.trace").read_bytes()


def runs():
    """The examples as netrun prints them; random runs as a program in C prints them, and the same from files."""
    outputs = [path for path in sorted(EXAMPLES.glob("*.out")) if path.with_suffix(".net").exists()]
    for path in outputs:
        for ending in (".net", ".form"):
            same(tool("run", path.with_suffix(ending), "--list", "--cycles", "6")[1], path.read_text(), f"the list of {path.stem}{ending}")
    with folder() as place:
        for scene in accepted(13, NETS)[:COMMANDS]:
            scene.masks = [[ALL, ready] for _, ready in scene.masks]
            net = read_net("x.form", scene.form)
            lines, trace = by_example(scene, place)
            for options in (as_options(scene, net), as_files(scene, net, place)):
                same(printed("run", "x.form", "--list", "--trace", "t.trace", *options, folder=place), lines, f"the list with {options}")
                same((place / "t.trace").read_bytes(), trace, f"the trace with {options}")
    return f"{len(outputs)} examples as netrun prints them, {COMMANDS} random runs by options and by files as the program in C writes them"


def cells(text):
    """The cells of a table, by name and cycle, however many sections it has."""
    found, numbers = {}, []
    for line in text.splitlines():
        head, bar, row = line.partition(" |")
        if bar and head.split() == ["cycle"]:
            numbers = [int(number) for number in row.split()]
        elif bar:
            found |= {(head.split()[0], cycle): cell for cycle, cell in zip(numbers, row.split(), strict=True)}
    return found


def cell_of(run, cycle, channel, moved):
    """What a cell of the table should have."""
    sources, sinks = ({net_channel for bit, net_channel in enumerate(channels) if not run.inputs.masks[cycle][place] >> bit & 1}
                      for place, channels in ((0, run.net.sources()), (1, run.net.sinks())))
    if channel in moved:
        return f"{moved[channel]}*" if channel in sources else str(moved[channel])
    return "x" if channel in sources | sinks else "."


def delivered(run):
    """The words of each cycle, from the bytes of the trace alone."""
    found = [{} for _ in range(run.cycles)]
    for head, word in struct.iter_unpack(">II", run.trace.bytes()):
        found[head >> 7][head & 127] = word
    return found


def tables():
    """The table and the comma-separated values have every delivery of the trace and every stall, in sections of every width."""
    marks = set()
    for number, scene in enumerate(accepted(14, NETS)):
        run = run_of(scene)
        moved = delivered(run)
        wanted = {(name, cycle): cell_of(run, cycle, channel, moved[cycle]) for channel, name in enumerate(run.net.names) for cycle in range(run.cycles)}
        marks |= {cell[-1] for cell in wanted.values()}
        width = (40, 80, 100, 10000)[number % 4]
        lines = list(shown.table(run, width, lambda cycle: None))
        same(cells("\n".join(lines)), wanted, "the cells of a table")
        holds(all(len(line) <= width or len(line.split(" |")[1].split()) <= shown.LEAST_COLUMNS for line in lines if " |" in line), f"a line is longer than {width}")
        file = io.StringIO()
        shown.write_csv(run, file, lambda cycle: None)
        rows = list(csv.reader(io.StringIO(file.getvalue())))
        same(rows[0], ["cycle", *run.net.names], "the head of the values")
        same([[cell for cell in row] for row in rows[1:]], [[str(cycle), *(str(moved[cycle].get(channel, "")) for channel in range(len(run.net.names)))] for cycle in range(run.cycles)],
             "the values")
    holds({"x", "*", "."} <= marks, "random tables have no stall, or no word that was offered before")
    same(printed("run", "examples/add5.net", "--words", "a=1,2,3", "--stall", "c@1-2", "--cycles", "6"),
         "cycle    | 0 1 2 3 4 5\na source | 1 . . 2 3 .\nb        | . . . 1 2 3\nc sink   | . x x 6 7 8\n. nothing delivered, x told to stall\n", "a table by hand")
    same(printed("run", "examples/add5.net", "--words", "a=1", "--cycles", "0"), "cycle    |\na source |\nb        |\nc sink   |\n", "a table of no cycles")
    return f"{NETS} random runs as tables of four widths and as comma-separated values: every delivery and every stall, and no more"


def as_case(scene, cycles):
    """The first cycles of a scene as a case of baytry: bay 0 is stepped."""
    head = struct.pack(">III", len(scene.form), len(scene.words), len(scene.ends)) + scene.form
    return head + library.packed(scene.words + scene.ends + [256, 0, 0] + [number for pair in scene.masks[:cycles] for number in (0, *pair)])


def registers(scene, cycles, place):
    """The registers that are not 0 after some cycles, by block, as the proved program baytry prints them."""
    (place / "case").write_bytes(as_case(scene, cycles))
    out = subprocess.run([BAYTRY, place / "case"], capture_output=True, text=True).stdout
    line = re.findall(rf"^state 0 count {cycles}\b(.*)$", out, re.M)[-1]
    return {int(block): (int(word), int(marks)) for block, word, marks in re.findall(r" (\d+)=(\d+)/(\d+)", line)}


def contents():
    """What the tool says that buffers hold, against the registers that the proved step leaves."""
    met = {kind: [0, 0] for kind in (8, 9, 10)}
    with folder() as place:
        for scene in accepted(15, NETS):
            run = run_of(scene)
            for cycles, held in enumerate(run.contents()):
                if cycles % 4 != 0:
                    continue
                left = registers(scene, cycles, place)
                for number, block in enumerate(run.net.blocks):
                    if block.kind in met:
                        word, full = left.get(number, (0, 0))
                        same(held.get(number), word if full else None, f"what block {number} holds before cycle {cycles} of {scene.form.hex()}")
                        met[block.kind][full] += 1
    holds(all(min(counts) > 20 for counts in met.values()), f"too few buffers are met: {met}")
    return f"{sum(map(sum, met.values()))} buffers, {sum(full for _, full in met.values())} of them full, hold what the proved step leaves in their registers"


def read_waves(lines):
    """The values of each signal at each time, by its scopes and name."""
    scopes, names, values, time, found = [], {}, {}, 0, {}
    for line in lines:
        words = line.split()
        if words[:1] == ["$scope"]:
            scopes.append(words[2])
        elif words[:1] == ["$upscope"]:
            scopes.pop()
        elif words[:1] == ["$var"]:
            names.setdefault(words[3], []).append(".".join([*scopes, words[4]]))
        elif line.startswith("#"):
            found[time] = dict(values)
            time = int(line[1:])
        elif words and words[0][0] in "01xb" and "$" not in line[:1]:
            value, mark = (words[0][1:], words[1]) if len(words) == 2 else (words[0][0], words[0][1:])
            values |= {name: value for name in names.get(mark, [])}
    found[time] = dict(values)
    return found


def at_time(found, time):
    """The values that hold at a time."""
    return found[max(known for known in found if known <= time)]


def plain(value):
    """A value as the tool writes it: without leading zeros, and one x for a word that is not known."""
    return "x" if set(value) == {"x"} else value.lstrip("0") or "0"


def check_waves(run, found, known):
    """Valid, ready and word of each channel and what each buffer holds, at the middle of each cycle."""
    for cycle, (moved, held) in enumerate(zip(delivered(run), run.contents())):
        values = at_time(found, cycle * waving.CYCLE_TIME)
        for channel, name in enumerate(run.net.names):
            word = moved.get(channel)
            wanted = ("x", "x", "x") if word is None else ("1", "1", f"{word:b}")
            same(tuple(plain(values[f"channels.{name}.{part}"]) for part in ("valid", "ready", "word")), wanted, f"channel {name} in cycle {cycle}, {known}")
        for number, block in enumerate(run.net.blocks):
            if block.kind in (8, 9, 10):
                name = f"buffers.block_{number}_from_{run.net.names[block.inputs[0]]}_to_{run.net.names[block.outputs[0]]}"
                wanted = ("1", f"{held[number]:b}") if number in held else ("0", "x")
                same(tuple(plain(values[f"{name}.{part}"]) for part in ("full", "held")), wanted, f"{name} in cycle {cycle}, {known}")
        for role, channels, told in zip(("sources", "sinks"), (run.net.sources(), run.net.sinks()), run.stalled(cycle)):
            same([values[f"stalls.{role}.{run.net.names[channel]}"] for channel in channels], ["1" if channel in told else "0" for channel in channels], f"the stalls of {role}")


def by_gtkwave(place):
    """The waves as GTKWave's reader understands them, or None where it is not installed."""
    if not (shutil.which("vcd2fst") and shutil.which("fst2vcd")):
        return None
    subprocess.run(["vcd2fst", place / "x.vcd", place / "x.fst"], check=True, capture_output=True)
    return subprocess.run(["fst2vcd", place / "x.fst"], check=True, capture_output=True, text=True).stdout.splitlines()


def waves():
    """Wave files, read by the test and by GTKWave's own reader."""
    read = 0
    with folder() as place:
        for scene in accepted(16, NETS // 2):
            run = run_of(scene)
            lines = list(waving.lines_of(run, lambda cycle: None))
            check_waves(run, read_waves(lines), "by the test")
            (place / "x.vcd").write_text("\n".join(lines) + "\n")
            again = by_gtkwave(place)
            if again is not None:
                read += 1
                check_waves(run, read_waves(again), "by GTKWave's reader")
        printed("run", "examples/gcd.net", "--words", "a=100,56", "--words", "b=45,49", "--cycles", "20", "--vcd", place / "y.vcd")
        holds("$var wire 32 " in (place / "y.vcd").read_text(), "the command writes no waves")
    return f"{NETS // 2} random runs as waves: every delivery, buffer and stall" + (f"; {read} read by GTKWave" if read else "; NOT READ BY GTKWAVE, which is not installed (Debian: gtkwave)")


def hurried(*words, place):
    """Runs the tool so that it tells its progress a hundred times a second: what it prints, and the cycles that it tells of, by what it is doing."""
    script = f"import sys; from planner import command, library; command.PROGRESS_SECONDS = library.WATCH_SECONDS = 0.01; sys.exit(command.main({list(map(str, words))!r}))"
    done = subprocess.run([sys.executable, "-c", script], cwd=place, env=dict(os.environ, PYTHONPATH=str(TOOLS), PYTHONDONTWRITEBYTECODE="1"), capture_output=True, text=True)
    same(done.returncode, 0, f"the status of {words}: {done.stderr}")
    told = {}
    for what, cycle in re.findall(rf"^([a-z ]+): cycle (\d+) of {words[words.index('--cycles') + 1]}$", done.stderr, re.M):
        told.setdefault(what, []).append(int(cycle))
    return done.stdout, told


def long():
    """A long run shows its progress, and ends in a recording of every delivery."""
    with folder() as place:
        (place / "loop.net").write_text("data 0 next -> kept\ncontrol kept -> now\nfork now -> out up\nadd up 1 -> next\nsink out\n")
        out, told = hurried("run", "loop.net", "--cycles", LONG, "--list", place=place)
        lines = out.splitlines()
        same((len(lines), lines[-2], lines[-1]), (5 * LONG + 1, f"{LONG - 1} 4 {LONG - 1}", f"end {LONG}"), "the list of a long run")
        holds(len(told.get("printing", [])) > 1 and told["printing"] == sorted(told["printing"]), f"the progress of printing: {told}")
        _, told = hurried("run", "loop.net", "--cycles", library.CYCLE_LIMIT, "--trace", "x.trace", place=place)
        holds(told.get("running") and told["running"] == sorted(told["running"]) and told["running"][-1] > 0, f"the progress of running: {told}")
        data = (place / "x.trace").read_bytes()
        same(len(data), 8 * 5 * library.CYCLE_LIMIT, "the length of the longest recording")
        same(struct.unpack(">II", data[-40:-32]), ((library.CYCLE_LIMIT - 1) << 7, library.CYCLE_LIMIT), "the first record of its last cycle")
    return f"{LONG} cycles with progress, and {library.CYCLE_LIMIT} as a recording"
