"""What the tests of the planner's tool share: the tool as a command and as modules, random nets, and a comparison that says what differs."""
import contextlib
import functools
import os
import pathlib
import subprocess
import sys
import tempfile

ROOT = pathlib.Path(__file__).resolve().parent.parent
TOOLS = pathlib.Path(os.environ.get("TOOLS", ROOT / "tools"))
EXAMPLES = ROOT / "examples"
BUILD = ROOT / "tests" / "build"
sys.dont_write_bytecode = True
sys.path.insert(0, str(TOOLS))
os.environ.setdefault("WHEMDROSK_LIBRARY", str(ROOT / "build" / "libwhemdrosk.so"))


class Unlike(Exception):
    """Something is not as it should be."""


def same(found, wanted, what):
    """Fails unless two values are the same."""
    if found != wanted:
        raise Unlike(f"{what}\n  wanted: {str(wanted)[:2000]}\n  found:  {str(found)[:2000]}")


def holds(truth, what):
    """Fails unless something holds."""
    if not truth:
        raise Unlike(what)


def tool(*words, folder=ROOT, given=b""):
    """Runs the tool: its exit status, what it prints and what it complains."""
    done = subprocess.run([sys.executable, TOOLS / "whemdrosk", *map(str, words)], cwd=folder, input=given, capture_output=True)
    return done.returncode, done.stdout.decode(), done.stderr.decode()


def printed(*words, **options):
    """What the tool prints where nothing is wrong."""
    status, out, complaints = tool(*words, **options)
    same(status, 0, f"the status of {words}: {complaints}")
    return out


@contextlib.contextmanager
def folder():
    """An empty folder."""
    with tempfile.TemporaryDirectory() as name:
        yield pathlib.Path(name)


def numbers(text):
    return [] if text == "-" else [int(number) for number in text.split(",")]


class Scene:
    """A random net with words, ends and masks."""

    def __init__(self, line):
        self.sort, form, words, ends, masks = line.split()
        self.form = bytes.fromhex(form.strip("-"))
        self.words, self.ends, masks = numbers(words), numbers(ends), numbers(masks)
        self.masks = [list(pair) for pair in zip(masks[::2], masks[1::2])]
        self.streams = [self.words[first:last] for first, last in zip([0, *self.ends], self.ends)]


@functools.cache
def scenes(seed, count):
    """Random nets of every sort that tests/scenes.c draws."""
    lines = subprocess.run([BUILD / "scenes", str(seed), str(count)], check=True, capture_output=True, text=True).stdout.splitlines()
    return [Scene(line) for line in lines]


def accepted(seed, count):
    return [scene for scene in scenes(seed, count) if scene.sort == "accepted"]
