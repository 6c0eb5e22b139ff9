"""The page: what it carries, and what a real browser shows of it, against the library's trace."""
import html
import json
import re
import shutil
import struct
import subprocess

from tooltrying import BUILD, EXAMPLES, folder, holds, printed, same

from planner import command, files, refusals, runs, streams, webpage

CYCLE = 3
SHOWN = {"stalled.net": ["--words", "a=5,6,7,8", "--words", "b=1,2,3", "--stall", "sum@2-3", "--stall", "a@4", "--cycles", "9"],
         "gcd.net": ["--words", "a=100,56", "--words", "b=45,49", "--cycles", "20"],
         "shared.net": ["--words", "user0=1,2,3", "--words", "user1=1,2,3", "--stall", "back0@2-4", "--cycles", "14"]}
NO_BROWSER = "CHROMIUM IS NOT INSTALLED (Debian: chromium): the page was not tried in a browser"
BROKEN_BROWSER = "CHROMIUM IS NOT INSTALLED SO THAT IT STARTS: the page was not tried in a browser"
NO_GRAPHVIZ = "GRAPHVIZ IS NOT INSTALLED (Debian: graphviz): no page was tried"
# What a planner does with the page, and what he then sees, as a script that is put into a copy of it.
ACTS = """<pre id="seen"></pre><script>
const seen = [], see = () => seen.push([document.querySelector("#now").textContent, document.querySelector("#shown").textContent,
  [...document.querySelectorAll("#words li")].map(item => item.dataset.cycle + "=" + item.dataset.word).join(" ")]);
window.onerror = text => seen.push(["error", text, ""]);
const slider = document.querySelector("#cycle");
slider.value = 5; slider.dispatchEvent(new Event("input", {bubbles: true})); see();
document.querySelector("#channel-1 .line").dispatchEvent(new MouseEvent("mouseover", {bubbles: true})); see();
document.querySelector('td[data-channel="2"][data-cycle="0"]').dispatchEvent(new MouseEvent("mouseover", {bubbles: true})); see();
document.dispatchEvent(new KeyboardEvent("keydown", {key: "ArrowLeft", bubbles: true})); see();
document.querySelector("#on").click(); see();
document.querySelector("#back").click(); see();
const wide = () => document.querySelector("#picture svg").getBoundingClientRect().width, before = wide();
document.querySelector("#larger").click(); seen.push(["larger", wide() > before, ""]);
document.querySelector("#smaller").click(); document.querySelector("#smaller").click(); seen.push(["smaller", wide() < before, ""]);
document.querySelector("#play").click(); seen.push(["play", document.querySelector("#play").textContent, ""]);
document.querySelector("#seen").textContent = JSON.stringify(seen);
</script></body>"""


class Seen:
    """A page and the run that it is of. The words are taken from the bytes of the recording that the command writes, not from the tool's own reading of it."""

    def __init__(self, place, name, options):
        self.path = place / f"{name}.html"
        printed("page", EXAMPLES / name, "-o", self.path, *options)
        printed("run", EXAMPLES / name, "--trace", place / "x.trace", *options)
        self.net = files.read_net(str(EXAMPLES / name))
        self.run = command.run_of(command.arguments().parse_args(["run", str(EXAMPLES / name), *options]))
        self.moved, self.cycles = {}, int(options[-1])
        for head, word in struct.iter_unpack(">II", (place / "x.trace").read_bytes()):
            self.moved[head >> 7, head & 127] = word

    def words(self, channel):
        """The cycles and words of a channel."""
        return [(cycle, word) for (cycle, other), word in sorted(self.moved.items()) if other == channel]


def browser(*options):
    """Runs the browser without a window, each time as if for the first time; answers what it prints."""
    with folder() as profile:
        always = ["--headless", "--no-sandbox", "--disable-gpu", "--disable-dev-shm-usage", "--hide-scrollbars", f"--user-data-dir={profile}"]
        return subprocess.run(["chromium", *always, *options], check=True, capture_output=True, text=True, timeout=120).stdout


def starts():
    """Whether the browser runs on this machine."""
    try:
        return "<body>" in browser("--dump-dom", "data:text/html,<body>here</body>")
    except (OSError, subprocess.SubprocessError):
        return False


def dumped(path, fragment=""):
    """The page as a browser has it once its script has run."""
    return browser("--virtual-time-budget=3000", "--dump-dom", f"{path.as_uri()}{fragment}")


def check_carried(seen):
    """What the page carries, and that it needs nothing else."""
    text = seen.path.read_text()
    holds(not re.search(r'src=|<link|@import|@@|url\(', text) and text.count("http") == text.count("http://www.w3.org/2000/svg"), "the page needs something from elsewhere")
    carried = json.loads(re.search(r'<script type="application/json" id="run">(.*?)</script>', text, re.S).group(1))
    same(carried["cycles"], seen.cycles, "the cycles that the page carries")
    same([[list(zip(*carried["held"][number])) for number in sorted(carried["held"], key=int)]], [held_changes(seen.run)], "what buffers hold, as the page carries it")
    same([list(zip(*words)) for words in carried["words"]], [seen.words(channel) for channel in range(len(seen.net.names))], "the words that the page carries")


def held_changes(run):
    """For each buffer the cycles before which it begins to hold another word, and that word."""
    found = {number: [(None, None)] for number, block in enumerate(run.net.blocks) if block.kind in (8, 9, 10)}
    for cycle, held in enumerate(run.contents()):
        for number, changes in found.items():
            if held.get(number) != changes[-1][1]:
                changes.append((cycle, held.get(number)))
    return [changes[1:] for changes in found.values()]


def check_marks(seen, page):
    """Who stalls, in every cell and on the picture, and what the buffers hold."""
    told = [seen.run.stalled(cycle) for cycle in range(seen.cycles)]
    marked = {(int(channel), int(cycle)): roles for channel, cycle, roles in re.findall(r'<td data-channel="(\d+)" data-cycle="(\d+)"[^>]*data-stalled="([^"]*)"', page)}
    wanted = {(channel, cycle): " ".join(role for role, channels in zip(("source", "sink"), told[cycle]) if channel in channels)
              for channel in range(len(seen.net.names)) for cycle in range(seen.cycles)}
    same(marked, {place: roles for place, roles in wanted.items() if roles}, "the stalls in the table")
    for number, block in enumerate(seen.net.blocks):
        group = re.search(rf'<g id="block-{number}" class="([^"]*)".*?</g>', page, re.S)
        if block.kind in (0, 1):
            same("stalled" in group.group(1).split(), (block.outputs + block.inputs)[0] in told[CYCLE][block.kind], f"the stall of block {number} in cycle {CYCLE}")
        if block.kind in (8, 9, 10):
            held = list(seen.run.contents())[CYCLE].get(number)
            same(re.search(r'class="held"[^>]*>([^<]*)<', group.group(0)).group(1), "" if held is None else str(held), f"what block {number} holds before cycle {CYCLE}")


def check_shown(seen):
    """The table, the picture and the words of a channel in cycle 3, as the browser has them."""
    last = len(seen.net.names) - 1
    page = dumped(seen.path, f"#cycle={CYCLE}&channel={seen.net.names[last]}")
    cells = {(int(channel), int(cycle)): text for channel, cycle, text in re.findall(r'<td data-channel="(\d+)" data-cycle="(\d+)"[^>]*>([^<]*)</td>', page)}
    wanted = {(channel, cycle): str(seen.moved.get((cycle, channel), ".")) for channel in range(last + 1) for cycle in range(seen.cycles)}
    same(cells, wanted, "the table in the browser")
    same(re.findall(r'<li data-cycle="(\d+)" data-word="(\d+)"', page), [(str(cycle), str(word)) for cycle, word in seen.words(last)], "the words of the channel that is shown")
    labels = {html.unescape(text) for text in re.findall(r'class="label"[^>]*>([^<]*)</text>', page) if ": " in text}
    same(labels, {f"{name}: {seen.moved[CYCLE, channel]}" for channel, name in enumerate(seen.net.names) if (CYCLE, channel) in seen.moved}, f"what moves in cycle {CYCLE}")
    holds(f"cycle {CYCLE} of 0 to {seen.cycles - 1}" in page, "the page does not say its cycle")
    check_marks(seen, page)


def check_acts(seen):
    """The slider, the mouse on the picture and on the table, a key and a button."""
    copy = seen.path.with_name("acts.html")
    copy.write_text(seen.path.read_text().replace("</body>", ACTS))
    names = seen.net.names
    found = json.loads(html.unescape(re.search(r'<pre id="seen">(.*?)</pre>', dumped(copy), re.S).group(1)))
    listed = [" ".join(f"{cycle}={word}" for cycle, word in seen.words(channel)) for channel in range(3)]
    rows = [[f"cycle {cycle} of 0 to {seen.cycles - 1}", names[channel], listed[channel]] for cycle, channel in ((5, 0), (5, 1), (5, 2), (4, 2), (5, 2), (4, 2))]
    same(found, rows + [["larger", True, ""], ["smaller", True, ""], ["play", "stop", ""]], "what slider, mouse, keys and buttons show")


def screenshot(seen):
    """A picture of the page in cycle 3, for the eye: tests/build/page.png."""
    picture = BUILD / "page.png"
    picture.unlink(missing_ok=True)
    browser("--window-size=1280,800", f"--screenshot={picture}", f"{seen.path.as_uri()}#cycle={CYCLE}")
    data = picture.read_bytes()
    same((data[:4], struct.unpack(">II", data[16:24])), (b"\x89PNG", (1280, 800)), "the screenshot")
    holds(len(data) > 20000, f"the screenshot has {len(data)} bytes, as an empty page has")


def hostile():
    """Names that could end the script or begin another one."""
    net = files.read_net(str(EXAMPLES / "add5.net"))
    net.names = ["</script><b>", "&amp;", '"a']
    form = refusals.checked(net)
    run = runs.run(net, form, runs.Inputs([[1]], streams.masks_of(net, 4, None, [], None)), lambda cycle: None)
    text = webpage.page_of(run)
    same(text.count("</script>"), 2, "the ends of scripts in a page with strange names")
    holds("<b>" not in text.split("</header>")[1].split("<p id")[0], "a strange name is taken for markup")


def tried(names):
    """Pages of some examples; answers what was tried."""
    if not shutil.which("dot"):
        return NO_GRAPHVIZ
    hostile()
    with folder() as place:
        pages = [Seen(place, name, SHOWN[name]) for name in names]
        for seen in pages:
            check_carried(seen)
        if not shutil.which("chromium") or not starts():
            return f"{len(pages)} pages carry the words of the trace; {NO_BROWSER if not shutil.which('chromium') else BROKEN_BROWSER}"
        for seen in pages:
            check_shown(seen)
        check_acts(pages[0])
        screenshot(pages[0])
    return f"{len(pages)} pages carry the words of the trace, and a browser shows them in cycle {CYCLE}, by slider, mouse, key and button; tests/build/page.png has one"


def page():
    """Pages of three examples."""
    return tried(SHOWN)


def one_page():
    """The page of the first of them, for broken copies of the tool."""
    return tried(list(SHOWN)[:1])
