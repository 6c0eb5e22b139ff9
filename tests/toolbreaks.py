#!/usr/bin/env python3
"""Broken copies of the planner's tool, each with one wrong line: the tests of the tool have to catch every one.
usage: toolbreaks.py     says of each copy which tests caught it, and ends 1 where one was missed"""
import concurrent.futures
import os
import pathlib
import shutil
import subprocess
import sys
import tempfile

UNTRIED = "NOT TRIED, as what it needs is not installed"
HERE = pathlib.Path(__file__).resolve().parent
ROOT = HERE.parent
# A name, the file, what stands there, what is put in its place, and the tests that have to catch it.
BREAKS = [
    ("operations exchanged", "nets.py", '("add", "sub", "equal", "less")', '("add", "equal", "sub", "less")', "examples"),
    ("a word may have 33 bits", "language.py", "WORD_LIMIT = 1 << 32", "WORD_LIMIT = 1 << 33", "messages"),
    ("hexadecimal read as decimal", "language.py", 'base = 16 if text[:2] in ("0x", "0X") else 10', "base, text = 10, text.lstrip('0xX') or '0'", "runs"),
    ("the number may stand first", "language.py", "if numbers[0] != right_place:", "if False:", "messages"),
    ("more than one arrow", "language.py", 'if "->" in right:', "if False:", "messages"),
    ("the first word left out of the text", "language.py", "value = [] if block.kind not in VALUED else", "value = [] if block.kind == FULL_DATA or block.kind not in VALUED else", "forms"),
    ("channels as they come", "language.py", "if met != list(range(len(net.names))):", "if False:", "forms"),
    ("inputs and outputs exchanged in the form", "forms.py", "in block.inputs + block.outputs", "in block.outputs + block.inputs", "examples"),
    ("ports of 8 bits", "forms.py", "PORT_BITS = 7", "PORT_BITS = 8", "examples"),
    ("padding not looked at", "forms.py", "reader.end()", "pass", "messages"),
    ("the last kind not known", "forms.py", "LAST_KIND = 10", "LAST_KIND = 9", "refusals"),
    ("any form has the names of the text beside it", "files.py", "and forms.written(net) == data else None", "else None", "forms"),
    ("names not kept", "command.py", "        files.write_file(beside, language.written(net).encode())\n", "", "forms"),
    ("a text beside a form written over", "files.py", "if there is None or there.names != net.names:", "if False:", "forms"),
    ("the form written before the text beside it is looked at", "files.py", "    if not beside.exists():\n", "    write_file(path, forms.written(net))\n    if not beside.exists():\n", "forms"),
    ("standard input as a text", "files.py", "return any(byte < 32", "return False and any(byte < 32", "ends"),
    ("the mark of UTF-8 as a name", "language.py", '"utf-8-sig"', '"utf-8"', "ends messages"),
    ("a pipe that is closed", "command.py", "except BrokenPipeError:", "except ZeroDivisionError:", "ends"),
    ("an interrupt is an end", "command.py", "INTERRUPTED = 130", "INTERRUPTED = 0", "ends"),
    ("lines at every blank", "language.py", 'LINE_END = re.compile(r"\\r\\n|\\n|\\r")', 'LINE_END = re.compile(r"\\r\\n|\\n|\\r|\\f")', "messages"),
    ("three takers pass", "refusals.py", "if len(takers) > 1:", "if len(takers) > 2:", "messages"),
    ("a loop through any buffer", "refusals.py", " if net.blocks[taker].kind not in buffers]", "]", "refusals"),
    ("a loop that is not closed", "refusals.py", "return [*path[first + 1:], (channel, block)]", "return [*path[first + 1:], (channel, path[-1][1])]", "refusals"),
    ("a sentence changed", "refusals.py", "a loop of blocks has no data buffer", "a loop of blocks has no buffer", "refusals"),
    ("stalls one cycle short", "streams.py", "range(first, min(last + 1, cycles))", "range(first, min(max(last, first + 1), cycles))", "runs"),
    ("the first sink stalls for all", "streams.py", "&= ~(1 << bit)", "&= ~1", "runs"),
    ("words in reverse", "streams.py", "streams[source] = words_of(words)", "streams[source] = words_of(words)[::-1]", "runs"),
    ("masks of the file exchanged", "streams.py", "        masks.append(pair)", "        masks.append(pair[::-1])", "runs"),
    ("no source has words", "streams.py", "return [DEFAULT_WORDS if stream is None", "return [[] if stream is None", "runs"),
    ("ends of each stream alone", "library.py", "ends.append(len(words))", "ends.append(len(stream))", "runs tables"),
    ("records of 64 channels", "library.py", "head & (1 << CHANNEL_BITS) - 1", "head & 63", "tables"),
    ("the last record left out", "library.py", "trace.count = answer & 0x1fffffff", "trace.count = max((answer & 0x1fffffff) - 1, 0)", "runs"),
    ("no room for the last cycle", "library.py", "Trace(len(masks) * channels * RECORD_BYTES)", "Trace((len(masks) - 1) * channels * RECORD_BYTES // 2)", "runs"),
    ("a cycle without deliveries left out", "runs.py", "                yield {}\n                continue", "                continue", "tables"),
    ("what buffers hold after the cycle", "runs.py", "itertools.chain(self.by_cycle(), [{}])", "list(self.by_cycle())[1:] + [{}, {}]", "contents"),
    ("a full buffer is empty at the start", "runs.py", "[block.value] if block.value is not None else []", "[]", "contents"),
    ("the last word held", "runs.py", "held[number].pop(0)", "held[number].pop()", "contents"),
    ("stalled sources as sinks", "runs.py", "if not offer >> bit & 1}", "if not ready >> bit & 1}", "tables"),
    ("an offer that stood not marked", "tables.py", "HELD if channel in sources else ''", "''", "tables"),
    ("a stalled source not marked", "tables.py", "STALLED if channel in sources or channel in sinks", "STALLED if channel in sinks", "tables"),
    ("sections too wide", "tables.py", "used + needs > room and len(group) >= LEAST_COLUMNS", "used > room and len(group) >= LEAST_COLUMNS", "tables"),
    ("a quiet channel as 0", "tables.py", 'moved.get(channel, "")', "moved.get(channel, 0)", "tables"),
    ("valid where nothing is delivered", "waves.py", "known = True if channel in moved else None", "known = True", "waves"),
    ("the held word always 7", "waves.py", "kept.change(word(held.get(number)))", "kept.change(word(7))", "waves"),
    ("a buffer that stays full", "waves.py", "full.change(bit(number in held))", "full.change(bit(number in held or full.last == '1'))", "waves"),
    ("stalls the other way round", "waves.py", "signal.change(bit(told))", "signal.change(bit(not told))", "waves"),
    ("status 0 for a refused net", "command.py", "return WRONG_FILE", "return 0", "messages"),
    ("status 1 for a wrong command", "command.py", "WRONG_FILE, WRONG_COMMAND = 1, 2", "WRONG_FILE, WRONG_COMMAND = 1, 1", "commands"),
    ("the net overwritten", "command.py", "os.path.samefile(path, origin)", "False", "commands"),
    ("sources and sinks alike", "drawing.py", "270 if block.kind == SOURCE else 90", "270", "pictures"),
    ("the constant left out", "drawing.py", 'label = f"{SIGNS[block.m]} {block.value}"', "label = SIGNS[block.m]", "pictures"),
    ("mux and demux alike", "drawing.py", '{"shape": "trapezium", "orientation": 90}', '{"shape": "trapezium", "orientation": 270}', "pictures"),
    ("merge as fork", "drawing.py", '{"shape": "box", "style": "filled,rounded"}', '{"shape": "box", "style": "filled"}', "pictures"),
    ("control as data buffer", "drawing.py", "if block.kind == CONTROL else ('BORDER=\"2\"'", "if False else ('BORDER=\"2\"'", "pictures"),
    ("the first word in every cycle", "drawing.py", "word = block.value if moment is None else moment.held.get(number)", "word = block.value", "pictures"),
    ("the word of another cycle", "drawing.py", "itertools.islice(each, cycle, None)", "itertools.islice(each, max(cycle - 1, 0), None)", "pictures"),
    ("stalls not shown", "drawing.py", "if channel not in told:", "if True:", "pictures"),
    ("the page one cycle late", "webpage.py", "words[channel][0].append(cycle)", "words[channel][0].append(cycle + 1)", "one-page"),
    ("the page's buffers one cycle late", "webpage.py", "            cycles.append(cycle)", "            cycles.append(cycle + 1)", "one-page"),
    ("the page's stalls one cycle late", "webpage.py", "changes[0].append(cycle)", "changes[0].append(cycle + 1)", "one-page"),
    ("stalls not shown on the page", "page.html", 'group.classList.toggle("stalled", stalls);', "", "one-page"),
    ("back goes on", "page.html", 'part("back").addEventListener("click", () => goTo(state.cycle - 1))', 'part("back").addEventListener("click", () => goTo(state.cycle + 1))', "one-page"),
    ("play does nothing", "page.html", 'part("play").addEventListener("click", play);', "", "one-page"),
    ("names not made safe", "webpage.py", ".translate(UNSAFE)", "", "one-page"),
    ("the table of the cycle before", "page.html", "const word = wordOf(channel, cycle), cell", "const word = wordOf(channel, cycle - 1), cell", "one-page"),
    ("the mouse not followed", "page.html", "if (channel < 0 || state.kept) return;", "return;", "one-page"),
    ("the slider does nothing", "page.html", 'slider.addEventListener("input"', 'slider.addEventListener("nothing"', "one-page"),
    ("the words of the first channel", "page.html", "const [cycles, words] = run.words[state.channel], item", "const [cycles, words] = run.words[0], item", "one-page"),
    ("progress stands still", "library.py", "low, high = (middle, high) if self.record(middle) != (0, 0, 0) else (low, middle)", "low, high = low, middle", "long"),
    ("no progress", "command.py", "if now >= self.due:", "if False:", "long"),
]


def tried(name, module, old, new, groups):
    """What the tests say of a broken copy: those that catch it, or none."""
    with tempfile.TemporaryDirectory() as folder:
        tools = pathlib.Path(folder) / "tools"
        shutil.copytree(ROOT / "tools", tools)
        path = tools / "planner" / module
        text = path.read_text()
        if text.count(old) != 1:
            return name, f"CANNOT BE BROKEN: {module} has it {text.count(old)} times"
        path.write_text(text.replace(old, new))
        found = subprocess.run([sys.executable, HERE / "tool.py", *groups.split()], env=dict(os.environ, TOOLS=str(tools)), capture_output=True, text=True)
        caught = [line.split(":")[0] for line in found.stdout.splitlines() if "NOT AS IT SHOULD BE" in line]
        if "IS NOT INSTALLED" in found.stdout and not caught:
            return name, UNTRIED
        return name, f"by: {', '.join(caught)}" if caught else f"MISSED{', but the tests crash' if found.returncode else ''}"


def main():
    caught = missed = 0
    with concurrent.futures.ThreadPoolExecutor(os.cpu_count()) as pool:
        for name, said in pool.map(lambda broken: tried(*broken), BREAKS):
            caught += said.startswith("by: ")
            missed += not said.startswith("by: ") and said != UNTRIED
            print(f"caught: {name}, {said}" if said.startswith("by: ") else f"{said}: {name}", flush=True)
    print(f"{caught} of {len(BREAKS)} broken copies of the tool caught, {missed} missed, {len(BREAKS) - caught - missed} not tried")
    sys.exit(1 if missed else 0)


main()
