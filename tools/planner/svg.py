"""Pictures as Graphviz writes them, made fit to be kept and to stand in a page: nothing that names a version or fetches a file, each channel in one group, and names
for the parts that a page changes.

  #block-K                 the group of block K, of the classes "block" and its word ("add", "data" and so on); buffers are of the class "buffer" too
  #block-K .held           the text of the word that buffer K holds
  #block-K .role           what a source or a sink says of itself below its name
  #channel-K               the group of channel K, of the class "channel"
  #channel-K .line         its line, one path from the giver to the label and one on to the taker
  #channel-K .tip          its arrow
  #channel-K .plate .label the box and the text of its label
"""
import re
import xml.etree.ElementTree as tree

SPACE = "http://www.w3.org/2000/svg"
HEAD = '<?xml version="1.0" encoding="UTF-8"?>\n'
NUMBER = re.compile(r"-?[0-9]+(?:\.[0-9]+)?")
SHAPES = ("path", "polygon", "ellipse")
PART = re.compile(r"channel-([0-9]+)\.([0-9]+)")


def tidied(data):
    """The bytes of a picture that Graphviz wrote, without what differs from one version to another, and with its channels gathered."""
    tree.register_namespace("", SPACE)
    root = tree.fromstring(data.replace(b'="transparent"', b'="none"'))
    drawn = root.find(named("g"))
    drawn.remove(drawn.find(named("title")))
    gather(drawn)
    for group in drawn.findall(named("g")):
        name_parts(group)
    return (HEAD + tree.tostring(root, encoding="unicode") + "\n").encode()


def named(kind):
    return f"{{{SPACE}}}{kind}"


def kind_of(element):
    return element.tag.rpartition("}")[2]


def gather(drawn):
    """Puts the parts of each channel into one group, the channels in order and before the blocks; keeps the order of all else."""
    groups = taken_out(drawn)
    first = next((place for place, element in enumerate(drawn) if kind_of(element) == "g"), len(drawn))
    for place, channel in enumerate(sorted(groups)):
        parts = groups[channel]
        drawn.insert(first + place, channel_group(channel, [parts[part] for part in sorted(parts)]))


def taken_out(drawn):
    """The parts of the channels by channel and number, taken out of the picture."""
    groups = {}
    for element in drawn.findall(named("g")):
        found = PART.fullmatch(element.get("id", ""))
        if found:
            drawn.remove(element)
            groups.setdefault(int(found.group(1)), {})[int(found.group(2))] = element
    return groups


def channel_group(channel, parts):
    """One channel: its lines and arrows, then its label upon them. The label is the first part."""
    label, *others = parts
    plate = next(element for element in label if kind_of(element) in SHAPES)
    text = label.find(named("text"))
    group = tree.Element(named("g"), {"id": f"channel-{channel}", "class": "channel"})
    group.text = group.tail = "\n"
    group.extend(element for part in others for element in part if kind_of(element) != "title")
    for element in group:
        mark_line(element, middle(plate))
    group.insert(0, label.find(named("title")))
    group.extend([plate, label_text(plate) if text is None else text])
    plate.set("class", "plate")
    group[-1].set("class", "label")
    return group


def mark_line(element, centre):
    """Names a part of a line; lines are drawn on to the centre of their label, as Graphviz leaves a gap."""
    kind = kind_of(element)
    element.set("class", {"path": "line", "polygon": "tip", "text": "operand"}.get(kind, "loose"))
    if kind == "path":
        numbers = [float(number) for number in NUMBER.findall(element.get("d"))]
        from_end, from_start = (abs(x - centre[0]) + abs(y - centre[1]) for x, y in (numbers[-2:], numbers[:2]))
        to, way = f"{centre[0]:g},{centre[1]:g}", element.get("d")
        element.set("d", f"{way}L{to}" if from_end < from_start else f"M{to}L{way[1:]}")


def label_text(plate):
    """The text of a label that says nothing yet."""
    x, y = middle(plate)
    return tree.Element(named("text"), {"text-anchor": "middle", "x": f"{x:g}", "y": f"{y + 3:g}", "font-family": "Helvetica,sans-Serif", "font-size": "10.00"})


def middle(shape):
    """The centre of a shape: of all its points."""
    if kind_of(shape) == "ellipse":
        return float(shape.get("cx")), float(shape.get("cy"))
    numbers = [float(number) for number in NUMBER.findall(shape.get("points") or shape.get("d"))]
    points = set(zip(numbers[::2], numbers[1::2]))
    return tuple(round(sum(point[axis] for point in points) / len(points), 2) for axis in (0, 1))


def name_parts(group):
    """Names the texts of a buffer, a source or a sink, and puts them into its middle whatever the letters of the viewer are."""
    classes, texts = group.get("class", "").split(), group.findall(named("text"))
    if not texts or not {"buffer", "source", "sink"} & set(classes):
        return
    shape = [element for element in group if kind_of(element) in SHAPES][-1]
    for text in texts:
        text.set("text-anchor", "middle")
        text.set("x", f"{middle(shape)[0]:g}")
    texts[-1].set("class", "held" if "buffer" in classes else "role")
