"""Pictures: every block and channel once, each kind in its own way, and in a cycle of a run what moves, what is held and who stalls."""
import re
import shutil
import xml.etree.ElementTree as tree

from tooltrying import EXAMPLES, ROOT, accepted, folder, holds, printed, same, tool

from planner import drawing, language, runs
from planner.forms import read_net

NETS = 12
REFUSED = {"8": "source -> a\nadd a b -> c\nsink d\n", "several": "source -> a\nsource -> a\nsink a\nsink a\n", "5": "source -> a\nfork a -> b\nsink b\n", "one": "source -> a\n"}
NO_GRAPHVIZ = "GRAPHVIZ IS NOT INSTALLED (Debian: graphviz): no picture was tried"
SPACE = "{http://www.w3.org/2000/svg}"


def parsed(net, moment=None):
    """The elements of a net's picture, by their ids; each id stands once, and nothing has to be fetched."""
    data = drawing.rendered(drawing.dot_of(net, moment), "svg")
    same(drawing.rendered(drawing.dot_of(net, moment), "svg"), data, "a picture drawn twice")
    holds(b"<!DOCTYPE" not in data and b"href" not in data.replace(b"xlink:href", b"href") and data.count(b"http") == 1, "the picture names something outside itself")
    found = {}
    for element in tree.fromstring(data).iter(f"{SPACE}g"):
        name = element.get("id", "")
        holds(name not in found or not re.match("block|channel", name), f"{name} stands twice")
        found[name] = element
    wanted = {f"block-{number}" for number in range(len(net.blocks))} | {f"channel-{channel}" for channel in range(len(net.names))}
    same({name for name in found if re.match("(block|channel)-", name)}, wanted, f"the blocks and channels on the picture of {net.path}")
    return found


def texts(element, classes=None):
    return ["".join(text.itertext()) for text in element.iter(f"{SPACE}text") if classes is None or text.get("class") == classes]


def look(net, number):
    """How a block is drawn: its shape, which way it points, and the style of its border."""
    line = next(line for line in drawing.dot_of(net).splitlines() if f'id="block-{number}"' in line)
    return tuple(sorted(re.findall(r'\b(shape|orientation|style|STYLE)="([\w,]+)"', line)))


def kinds():
    """Each kind looks like no other, but a full data buffer like an empty one with its word in it; constants, first words and the names of ends are there to be read."""
    seen = {}
    for path in sorted((ROOT / "docs" / "blocks").glob("*.net")):
        net = language.read_net(path.name, path.read_bytes())
        found = parsed(net)
        for number, block in enumerate(net.blocks):
            seen.setdefault(8 if block.kind == 9 else block.kind, set()).add(look(net, number))
            said = texts(found[f"block-{number}"])
            holds(block.value is None or any(str(block.value) in text for text in said), f"the picture of {path.name} does not say {block.value}")
            holds(block.kind not in (0, 1) or net.names[(block.outputs + block.inputs)[0]] in said, f"the picture of {path.name} does not name an end")
    same(sorted(seen), [0, 1, 2, 3, 4, 5, 6, 7, 8, 10], "the kinds that the page of blocks shows")
    holds(all(len(ways) == 1 for ways in seen.values()) and len(set().union(*seen.values())) == len(seen), f"two kinds look alike: {seen}")


def check_moment(run, cycle):
    """A picture of a cycle against the run."""
    moment = drawing.moment_of(run, cycle)
    found = parsed(run.net, moment)
    moved, held = list(run.by_cycle())[cycle], list(run.contents())[cycle]
    for channel, name in enumerate(run.net.names):
        label = texts(found[f"channel-{channel}"], "label")[-1]
        same(label if ": " in label else None, f"{name}: {moved[channel]}" if channel in moved else None, f"channel {name} in cycle {cycle} of {run.net.path}")
    for number, block in enumerate(run.net.blocks):
        group = found[f"block-{number}"]
        if block.kind in (8, 9, 10):
            same("".join(texts(group, "held")).strip("\u00a0"), str(held.get(number, "")), f"what block {number} holds in cycle {cycle}")
        if block.kind in (0, 1):
            told = run.stalled(cycle)[block.kind]
            same("stalled" in texts(group), (block.outputs + block.inputs)[0] in told, f"the stall of block {number} in cycle {cycle}")


def files():
    """The three sorts of files that the command writes."""
    with folder() as place:
        for ending, begin in (("svg", b"<?xml"), ("png", b"\x89PNG\r\n"), ("dot", b"digraph")):
            printed("draw", EXAMPLES / "gcd.net", "-o", place / f"x.{ending}")
            holds((place / f"x.{ending}").read_bytes().startswith(begin), f"x.{ending} does not begin as such a file does")
        for name, text in REFUSED.items():
            (place / f"{name}.net").write_text(text)
            printed("draw", f"{name}.net", "-o", "refused.svg", folder=place)
            parsed(language.read_net(name, text.encode()))
        printed("draw", EXAMPLES / "add5.net", "-o", place / "at.svg", "--words", "a=1,2,3", "--stall", "c@1-2,9", "--at", "3")
        holds("cycle 3" in (place / "at.svg").read_text() and "c: 6" in (place / "at.svg").read_text(), "the picture of cycle 3 does not say that c delivers 6")


def pictures():
    """Pictures of all examples, of nets that are refused, of each kind, and of cycles of random runs."""
    if not shutil.which("dot"):
        with folder() as place:
            status, _, complaint = tool("draw", EXAMPLES / "add5.net", "-o", place / "x.svg")
            holds(status == 1 and "graphviz" in complaint, f"without Graphviz: {complaint}")
        return NO_GRAPHVIZ
    nets = [path for path in sorted(EXAMPLES.glob("*.net")) if path.with_suffix(".form").exists()]
    for path in nets:
        parsed(language.read_net(path.name, path.read_bytes()))
    kinds()
    files()
    for number, scene in enumerate(accepted(17, NETS)):
        run = runs.run(read_net("x.form", scene.form), scene.form, runs.Inputs(scene.streams, scene.masks), lambda cycle: None)
        check_moment(run, number % run.cycles)
    return f"{len(nets)} examples, {len(REFUSED)} refused nets, every kind; {NETS} cycles of random runs show what moves, what is held and who stalls"
