#!/usr/bin/env python3
"""Runs the commands of pages and compares what they print; draws their pictures again and compares what is on them.
usage: consoles.py PAGE..            says each difference and ends 1
       consoles.py --write PAGE..    writes what the commands print into the pages, and the pictures
A block ```console has commands behind $ and what they print. A block ```net whose first line is # NAME.net is that text: of a page of its own folder (--fresh PAGE: an empty one) it is written there,
else it has to be that of docs/blocks/NAME.net. A comment <!-- whemdrosk draw NET -o PICTURE .. --> says how a picture was drawn."""
import os
import pathlib
import re
import shlex
import shutil
import subprocess
import sys
import tempfile

ROOT = pathlib.Path(__file__).resolve().parent.parent
TOOLS = pathlib.Path(os.environ.get("TOOLS", ROOT / "tools"))
BLOCK = re.compile(r"^```(console|net)\n(.*?)^```$", re.M | re.S)
PICTURE = re.compile(r"<!-- (whemdrosk draw \S+ -o (\S+).*?) -->")
# What Graphviz has to be there for; and what was done before these tests.
DRAWING = re.compile(r"whemdrosk (draw|page) ")
BEFORE = "make lib"
# A line that says what is wrong in a text: then, and only then, a command ends with 1.
COMPLAINT = re.compile(r"^\S+\.net:\d+: ", re.M)
faults = []


def fault(text):
    faults.append(text)


def done(command, folder):
    """What a command prints, complaints among it."""
    environment = dict(os.environ, PATH=f"{TOOLS}:{os.environ['PATH']}", COLUMNS="100", WHEMDROSK_LIBRARY=str(ROOT / "build" / "libwhemdrosk.so"))
    ran = subprocess.run(["bash", "-c", command], cwd=folder, env=environment, stdout=subprocess.PIPE, stderr=subprocess.STDOUT, text=True)
    if ran.returncode != bool(COMPLAINT.search(ran.stdout)):
        fault(f"{command}: its status is {ran.returncode}, and it prints {ran.stdout!r}")
    return ran.stdout


def console(body, folder, skipped):
    """A console block as it should be. What draws is left as it stands where nothing can be drawn."""
    lines = []
    for command, output in re.findall(r"^\$ (.*)\n((?:(?!\$ ).*\n)*)", body, re.M):
        drawn = shutil.which("dot") or not DRAWING.match(command)
        skipped += [] if drawn else [command]
        lines.append(f"$ {command}\n{done(command, folder) if drawn and command != BEFORE else output}")
    return "".join(lines)


def use_text(body, folder, fresh):
    """Writes a text of a page into the page's own folder, or compares it with the file that it is."""
    name = re.match(r"# (\S+\.net)\n", body).group(1)
    path = folder / name if fresh else ROOT / "docs" / "blocks" / name
    if fresh:
        path.write_text(body)
    elif not path.is_file() or path.read_text() != body:
        fault(f"docs/blocks/{name} is not as the page has it")


def page_as_it_should_be(text, folder, fresh, skipped):
    """The page with the output of its commands put in anew."""
    def block(match):
        if match.group(1) == "net":
            if match.group(2).startswith("# "):
                use_text(match.group(2), folder, fresh)
            return match.group(0)
        return f"```console\n{console(match.group(2), folder, skipped)}```"
    return BLOCK.sub(block, text)


def on_picture(svg):
    """What is on a picture, wherever it lies: its texts and the blocks and channels by their ids, in order."""
    return re.findall(r"<text[^>]*>(.*?)</text>", svg), re.findall(r'id="((?:block|channel)-\d+)"', svg)


def pictures(page, text, write):
    """Draws the pictures of a page again."""
    if not shutil.which("dot"):
        return 0
    for command, picture in PICTURE.findall(text):
        with tempfile.TemporaryDirectory() as folder:
            drawn = pathlib.Path(folder) / "drawn.svg"
            said = done(command.replace(f"-o {picture}", f"-o {shlex.quote(str(drawn))}"), ROOT)
            if said or not drawn.exists():
                fault(f"{page}: {command}: {said}")
            elif write:
                (ROOT / picture).write_bytes(drawn.read_bytes())
            elif not (ROOT / picture).exists() or on_picture((ROOT / picture).read_text()) != on_picture(drawn.read_text()):
                fault(f"{page}: {picture} is not what {command} draws; make pictures draws it again")
    return len(PICTURE.findall(text))


def compare(page, found, wanted):
    for number, (old, new) in enumerate(zip(found.splitlines() + [""] * 9, wanted.splitlines() + [""] * 9), 1):
        if old != new:
            fault(f"{page}:{number}: the page has {old!r}, and the command prints {new!r}")
            return


def try_page(page, fresh, write):
    """One page: its commands, texts and pictures."""
    path, skipped = ROOT / page, []
    with tempfile.TemporaryDirectory() as folder:
        text = path.read_text()
        wanted = page_as_it_should_be(text, pathlib.Path(folder) if fresh else ROOT, fresh, skipped)
    if write:
        path.write_text(wanted)
    else:
        compare(page, text, wanted)
    drawn = pictures(page, text, write)
    commands = len(re.findall(r"^\$ ", "".join(body for sort, body in BLOCK.findall(text) if sort == "console"), re.M))
    print(f"{page}: {commands - len(skipped)} commands tried, {drawn} pictures drawn again")
    if not shutil.which("dot") and (skipped or PICTURE.search(text)):
        print(f"{page}: GRAPHVIZ IS NOT INSTALLED (Debian: graphviz): its pictures and {len(skipped)} commands that draw were not tried")


def main():
    words = sys.argv[1:]
    write = "--write" in words
    fresh = False
    for word in words:
        if word == "--fresh":
            fresh = True
        elif word != "--write":
            try_page(word, fresh, write)
            fresh = False
    for text in faults:
        print(text)
    sys.exit(1 if faults else 0)


main()
