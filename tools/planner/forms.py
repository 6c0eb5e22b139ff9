"""Nets as stored forms: fields one after another, most significant bit first, as document 01 lists them."""
from .faults import counted
from .nets import BLOCK_LIMIT, CHANNEL_LIMIT, MANIFOLD, OPERATIONS, OPERATOR, CONSTANT, VALUED, WAYS, Block, Net, port_counts

EDITION = 1
KIND_BITS = M_BITS = EDITION_BITS = 4
RESERVED_BITS = 12
COUNT_BITS = 8
VALUE_BITS = 32
PORT_BITS = 7
LAST_KIND = 10


class Malformed(Exception):
    """A form that cannot be read through: the refusal that it earns, and what is wrong where."""

    def __init__(self, refusal, what):
        super().__init__(what)
        self.refusal = refusal


def most(bits):
    return (1 << bits) - 1


def fields_of(net):
    """The fields of a net's form, as width and number. What a field cannot hold is cut down to a number that the check refuses for the same reason."""
    yield EDITION_BITS, EDITION
    yield RESERVED_BITS, 0
    yield COUNT_BITS, min(len(net.blocks), most(COUNT_BITS))
    yield COUNT_BITS, min(len(net.names), most(COUNT_BITS))
    for block in net.blocks:
        yield KIND_BITS, block.kind
        yield M_BITS, min(block.m, most(M_BITS))
        if block.kind in VALUED:
            yield VALUE_BITS, block.value
        for port in block.inputs + block.outputs:
            yield PORT_BITS, port & most(PORT_BITS)


def written(net):
    """The bytes of a net's stored form."""
    bits = "".join(format(number, f"0{width}b") for width, number in fields_of(net))
    bits += "0" * (-len(bits) % 8)
    return int(bits, 2).to_bytes(len(bits) // 8, "big")


def can_be_written(net):
    """Whether every number of a net has room in its field, so that the form is of this net."""
    return len(net.blocks) <= most(COUNT_BITS) and len(net.names) <= CHANNEL_LIMIT and all(block.m <= most(M_BITS) for block in net.blocks)


class Reader:
    """The fields of a form, from its bytes."""

    def __init__(self, data):
        self.data, self.at = data, 0

    def field(self, width, what):
        end = self.at + width
        if end > 8 * len(self.data):
            raise Malformed(1, f"the form ends after {counted(len(self.data), 'byte')}, within {what}")
        first, last = self.at // 8, (end + 7) // 8
        number = int.from_bytes(self.data[first:last], "big") >> (8 * last - end) & most(width)
        self.at = end
        return number

    def end(self):
        """Zero bits up to the byte's end, and nothing more."""
        if self.field(-self.at % 8, "the last byte"):
            raise Malformed(7, f"the last byte of the form (byte {self.at // 8 - 1}) has a bit set behind the last field")
        if self.at < 8 * len(self.data):
            raise Malformed(7, f"the form ends after {self.at // 8} bytes, and the file has {len(self.data)}")


def read_head(reader):
    """The numbers of blocks and of channels."""
    edition = reader.field(EDITION_BITS, "the edition")
    if edition != EDITION:
        raise Malformed(2, f"the edition (the first 4 bits) is {edition}, not {EDITION}: it is no stored form, or one of another edition")
    if reader.field(RESERVED_BITS, "the reserved bits"):
        raise Malformed(2, "a reserved bit (bits 4 to 15) is set")
    blocks = reader.field(COUNT_BITS, "the number of blocks")
    if not 2 <= blocks <= BLOCK_LIMIT:
        raise Malformed(3, f"the number of blocks (byte 2) is {blocks}, not 2 to {BLOCK_LIMIT}")
    channels = reader.field(COUNT_BITS, "the number of channels")
    if not 1 <= channels <= CHANNEL_LIMIT:
        raise Malformed(3, f"the number of channels (byte 3) is {channels}, not 1 to {CHANNEL_LIMIT}")
    return blocks, channels


def read_block(reader, number, channels):
    """One block of a form."""
    here = f"block {number} (from bit {reader.at})"
    kind = reader.field(KIND_BITS, f"the kind of block {number}")
    if kind > LAST_KIND:
        raise Malformed(4, f"{here} has kind {kind}, and the last kind is {LAST_KIND}")
    m = reader.field(M_BITS, f"the m of block {number}")
    allowed = range(len(OPERATIONS)) if kind in (OPERATOR, CONSTANT) else WAYS if kind in MANIFOLD else (0,)
    if m not in allowed:
        raise Malformed(5, f"{here} of kind {kind} has m = {m}, not {allowed[0]}{f' to {allowed[-1]}' if len(allowed) > 1 else ''}")
    value = reader.field(VALUE_BITS, f"the value of block {number}") if kind in VALUED else None
    inputs, outputs = port_counts(kind, m)
    ports = []
    for port in range(inputs + outputs):
        ports.append(reader.field(PORT_BITS, f"port {port} of block {number}"))
        if ports[-1] >= channels:
            raise Malformed(6, f"port {port} of {here} names channel {ports[-1]}, and the net has channels 0 to {channels - 1}")
    return Block(kind, m, value, tuple(ports[:inputs]), tuple(ports[inputs:]))


def read_net(path, data):
    """The net of a stored form; its channels are called c0, c1 and so on."""
    reader = Reader(data)
    blocks, channels = read_head(reader)
    net = Net(path, [read_block(reader, number, channels) for number in range(blocks)], [f"c{channel}" for channel in range(channels)])
    reader.end()
    return net
