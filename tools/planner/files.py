"""Nets and recordings in files: which of them is text and which a stored form, and where the names of a form come from."""
import pathlib
import sys

from . import forms, language, refusals
from .faults import Fault, quoted
from .library import CHANNEL_BITS, CYCLE_BITS, RECORD, RECORD_BYTES, WORD_BITS, recorded
from .streams import lines_of, read_file


def is_form(path, data):
    """Whether a file is a stored form: by its ending, else by bytes that no text has."""
    ending = pathlib.PurePath(path).suffix
    if ending in (".net", ".form"):
        return ending == ".form"
    return any(byte < 32 and byte not in b"\t\n\r\f" for byte in data)


def text_beside(path, data):
    """The net in the text beside a stored form (NAME.net beside NAME.form), where it gives these very bytes; else None."""
    beside = pathlib.Path(path).with_suffix(".net")
    if not beside.is_file():
        return None
    try:
        net = language.read_net(str(beside), beside.read_bytes())
    except (Fault, OSError):
        return None
    return net if forms.can_be_written(net) and forms.written(net) == data else None


def net_of_form(path, data):
    """The net of a stored form, with names where a text beside it has them."""
    try:
        net = forms.read_net(path, data)
    except forms.Malformed as fault:
        raise refusals.malformed(path, fault, data) from None
    text = text_beside(path, data)
    if text:
        net.names, net.named = text.names, True
    return net


def read_net(path):
    """The net of a file, text or stored form; - is the standard input."""
    data = read_file(path)
    name = "standard input" if path == "-" else path
    return net_of_form(name, data) if is_form(name, data) else language.read_net(name, data)


def write_file(path, data):
    """Writes bytes to a file; - is the standard output."""
    if path == "-":
        sys.stdout.buffer.write(data)
        return
    try:
        with open(path, "wb") as file:
            file.write(data)
    except OSError as error:
        raise Fault(f"{path}: cannot be written: {error.strerror}") from None


def place_for_names(net, path):
    """Where the text of a net is to be kept beside its form (NAME.net beside NAME.form), since a form has no room for names; None where it lies there already."""
    beside = pathlib.Path(path).with_suffix(".net")
    if not net.named or path == "-":
        return None
    if not beside.exists():
        return beside
    there = text_beside(path, forms.written(net))
    if there is None or there.names != net.names:
        raise Fault(f"{beside}: another text lies where the names of {path} would be kept; move it away, or choose another name")
    return None


def trace_of(path, data):
    """The bytes of a recording from its text: cycle, channel and word of a delivery on each line."""
    records = bytearray()
    for number, line in lines_of(path, data):
        fields = line.split()
        if not all(language.NUMBER.fullmatch(field) for field in fields) or len(fields) != 3:
            raise Fault(f"{path}:{number}: {quoted(line)} is no delivery; write cycle, channel and word, as 0 2 17")
        cycle, channel, word = map(language.value_of, fields)
        if cycle >= 1 << CYCLE_BITS or channel >= 1 << CHANNEL_BITS or word >= 1 << WORD_BITS:
            raise Fault(f"{path}:{number}: cycles are below {1 << CYCLE_BITS}, channels below {1 << CHANNEL_BITS}, words below {1 << WORD_BITS}")
        records += RECORD.pack(cycle << CHANNEL_BITS | channel, word)
    return bytes(records)


def records_of(path, data):
    """The lines of a recording: cycle, channel and word of each delivery."""
    if len(data) % RECORD_BYTES:
        raise Fault(f"{path}: it has {len(data)} bytes, and a recording has {RECORD_BYTES} for each delivery; write the records of a run alone")
    for number in range(len(data) // RECORD_BYTES):
        yield " ".join(map(str, recorded(data, number)))
