"""Texts and stored forms, both ways; refusals of random forms, with the places that the tool finds."""
import re

from tooltrying import EXAMPLES, ROOT, accepted, folder, holds, printed, same, scenes, tool

from planner import files, forms as stored, language, library, refusals as reasons
from planner.faults import Fault
from planner.nets import CONTROL_BUFFERS, DATA_BUFFERS

NETS = 400
# How many of each sort are also tried through the command.
COMMANDS = 3


def examples():
    """Every text of examples/ gives its form, every list of deliveries its trace, and both come back."""
    nets, lists = [path for path in sorted(EXAMPLES.glob("*.net")) if path.with_suffix(".form").exists()], sorted(EXAMPLES.glob("*.records"))
    with folder() as place:
        for path in nets:
            printed("form", "--refused", path, "-o", place / "x.form")
            same((place / "x.form").read_bytes(), path.with_suffix(".form").read_bytes(), f"the form of {path.name} (make examples writes it)")
            same(language.read_net("x", printed("text", place / "x.form").encode()).names, language.read_net("y", path.read_bytes()).names, f"the names of {path.name}")
            (place / "x.net").unlink()
        for path in lists:
            printed("trace", path, "-o", place / "x.trace")
            same((place / "x.trace").read_bytes(), path.with_suffix(".trace").read_bytes(), f"the trace of {path.name} (make examples writes it)")
            lines = [line.split("#")[0].split() for line in path.read_text().splitlines()]
            same([line.split() for line in printed("records", place / "x.trace").splitlines()], [line for line in lines if line], f"the deliveries of {path.name}")
    holds(len(nets) >= 13 and len(lists) >= 3, "there are fewer examples than there were")
    return f"{len(nets)} nets and {len(lists)} recordings: written as they lie there, and read again"


def there_and_back(form):
    """A form to text and back, with numbers and with names."""
    net = stored.read_net("x.form", form)
    text = language.written(net)
    again = language.read_net("x.net", text.encode())
    same(stored.written(again), form, "form to text to form")
    same(language.written(again), text, "text to form to text")
    named = language.read_net("x.net", re.sub(r"\bc(\d+)\b", r"channel_\1", text).encode())
    same(stored.written(named), form, "the same text with other names")
    return net


def through_commands(form):
    """The same through the commands: names are kept beside the form."""
    with folder() as place:
        (place / "a.form").write_bytes(form)
        text = printed("text", "a.form", folder=place)
        (place / "b.net").write_text("# mine\n" + re.sub(r"\bc(\d+)\b", r"tr\1ck", text))
        named = (place / "b.net").read_text().partition("\n")[2]
        for origin, target in (("b.net", "b.form"), ("b.net", "c.form"), ("c.form", "d.form")):
            printed("form", origin, "-o", target, folder=place)
            same((place / target).read_bytes(), form, f"the form of {origin}")
            same(printed("text", target, folder=place), named, f"the names of {target}")
        same(printed("text", "--numbers", "c.form", folder=place), text, "the text with numbers")
        left_alone(place, form, text)


def left_alone(place, form, text):
    """A text beside a form is never written over: not one that gives the form, nor one of another net, nor the form beside it."""
    mine = (place / "b.net").read_text()
    printed("form", "-", "-o", "b.form", folder=place, given=mine.encode())
    same((place / "b.net").read_text(), mine, "a text with its comments, beside its form")
    (place / "other.net").write_text(text)
    (place / "e.net").write_text("source -> a\nsink a\n")
    printed("form", "e.net", "-o", "e.form", folder=place)
    for target in ("b.form", "e.form"):
        before = [(place / name).read_bytes() for name in (target, target.replace("form", "net"))]
        status, _, complaint = tool("form", "other.net", "-o", target, folder=place)
        holds(status == 1 and complaint.startswith(f"{target[0]}.net: another text"), f"what is said of another text: {complaint}")
        same([(place / name).read_bytes() for name in (target, target.replace("form", "net"))], before, "a form and the text beside it")
    (place / "a.net").write_text("source -> a\nsink a\n")
    same(printed("text", "a.form", folder=place), text, "the text of a form beside another net's text")


def forms():
    """Random accepted forms: form to text to form gives the same bytes."""
    found = accepted(11, NETS)
    nets = [there_and_back(scene.form) for scene in found]
    for scene in found[:COMMANDS]:
        through_commands(scene.form)
    numbered = sum(language.written(net).startswith("channels") for net in nets)
    holds(numbered > NETS // 4, "few random forms number their channels in an order of their own")
    kinds = {block.kind for net in nets for block in net.blocks}
    same(kinds, set(range(11)), "the kinds of random forms")
    return f"{len(nets)} random forms to text and back: the same bytes, names kept; {numbered} of them number their channels in their own order"


def check_loop(net, kinds):
    """A loop that the tool found goes along channels, closes, and passes through no such buffer."""
    loop = reasons.loop_without(net, kinds)
    for (_, before), (channel, block) in zip([loop[-1], *loop], loop):
        holds(channel in net.blocks[before].outputs and channel in net.blocks[block].inputs, f"the loop {loop} does not go along channel {channel}")
        holds(net.blocks[block].kind not in kinds, f"the loop {loop} has the buffer that it should lack")


def refusal_of(form):
    """The tool's message for a form, or None."""
    try:
        reasons.checked(files.net_of_form("x.form", form), form)
    except Fault as fault:
        return fault
    return None


def refusals():
    """Random forms, most of them spoilt: the tool's number is the library's, and for each it finds the place."""
    met = {}
    for scene in scenes(12, NETS):
        number, fault = library.check(scene.form), refusal_of(scene.form)
        same(fault.refusal if fault else 0, number, f"the refusal of {scene.form.hex()}")
        if not number:
            continue
        met[number] = met.get(number, 0) + 1
        holds(all(f"refused {number}: " in line for line in fault.lines), f"a message of {scene.form.hex()} is without its number: {fault}")
        holds(not any(reasons.REASONS[number] in line for line in fault.lines), f"no place is found in {scene.form.hex()}: {fault}")
        if number in (10, 11):
            check_loop(files.net_of_form("x.form", scene.form), DATA_BUFFERS if number == 10 else CONTROL_BUFFERS)
    same(sorted(met), list(range(1, 12)), "the refusals that random forms earn")
    same(reasons_of_header(), {number: text for number, text in reasons.REASONS.items()}, "the tool's sentences and the header's")
    return f"{sum(met.values())} refused forms: the library's number, and a place for each ({', '.join(f'{number}: {count}' for number, count in sorted(met.items()))})"


def reasons_of_header():
    """The sentences of whemdrosk_reason, by the numbers that the header's enum gives them."""
    header = (ROOT / "include" / "whemdrosk.h").read_text()
    numbers = {name: int(number) for name, number in re.findall(r"^ +(WHEMDROSK_\w+) = (\d+),?", header.split("enum whemdrosk_refusal {")[1].split("};")[0], re.M)}
    return {numbers[name]: sentence for name, sentence in re.findall(r'case (WHEMDROSK_\w+):\s*return "([^"]*)";', header) if name in numbers}
