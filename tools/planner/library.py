"""The proved library, as the shared object that make lib builds. All that the tool says of a net's behaviour comes from these two calls."""
import ctypes
import functools
import mmap
import os
import pathlib
import struct
import threading

from .faults import Fault

ROOT = pathlib.Path(__file__).resolve().parent.parent.parent
SHARED = ROOT / "build" / "libwhemdrosk.so"
# Names another shared object, as one that is installed elsewhere.
VARIABLE = "WHEMDROSK_LIBRARY"
# A record of a delivery: cycle and channel in one number, and the word.
RECORD = struct.Struct(">II")
RECORD_BYTES = RECORD.size
CYCLE_BITS, CHANNEL_BITS, WORD_BITS = 25, 7, 32
CYCLE_LIMIT = 1 << 20
# Runs of more cycles are watched, so that their progress can be shown.
WATCHED = 1 << 16
WATCH_SECONDS = 0.5


@functools.cache
def loaded():
    """The shared object."""
    named = os.environ.get(VARIABLE)
    path = named or str(SHARED)
    if not os.path.exists(path):
        raise Fault(f"{path}: there is no library, though {VARIABLE} names it" if named else
                    f'{path}: the proved library is not there yet; run "make lib" in {ROOT} once, which proves and builds it in some minutes')
    try:
        shared = ctypes.CDLL(path)
        shared.whemdrosk_check.restype, shared.whemdrosk_run.restype = ctypes.c_uint32, ctypes.c_uint64
    except (OSError, AttributeError) as error:
        raise Fault(f"{path}: it is not the library: {error}") from None
    return shared


def recorded(data, number):
    """Cycle, channel and word of a record of a trace."""
    head, word = RECORD.unpack_from(data, number * RECORD_BYTES)
    return head >> CHANNEL_BITS, head & (1 << CHANNEL_BITS) - 1, word


def packed(numbers):
    """Numbers as the library takes them: 4 bytes each, most significant first."""
    return struct.pack(f">{len(numbers)}I", *numbers)


def lent(*buffers):
    """Buffers as arguments: a pointer and a length each."""
    return [argument for buffer in buffers for argument in (bytes(buffer), ctypes.c_size_t(len(buffer)))]


def check(form):
    """The refusal that a form earns, or 0."""
    return loaded().whemdrosk_check(*lent(form))


class Trace:
    """Records of deliveries, as the library writes them, in memory that is taken only as far as it is written."""

    def __init__(self, room):
        self.memory = mmap.mmap(-1, max(room, 1))
        self.room = room
        self.count = 0

    def address(self):
        return (ctypes.c_char * len(self.memory)).from_buffer(self.memory)

    def record(self, number):
        """Cycle, channel and word of a record."""
        return recorded(self.memory, number)

    def reached(self):
        """The cycle of the last record that is written so far: the first record may be all zeros, no other is."""
        low, high = 0, self.room // RECORD_BYTES
        while high - low > 1:
            middle = (low + high) // 2
            low, high = (middle, high) if self.record(middle) != (0, 0, 0) else (low, middle)
        return self.record(low)[0] if self.room else 0

    def bytes(self):
        """The records, and nothing behind them."""
        return self.memory[:self.count * RECORD_BYTES]


def run(form, channels, streams, masks, progress):
    """The refusal of a run from fresh, or 0; the cycles that were done; the trace. Streams are lists of words, masks pairs of numbers; every record has room."""
    words, ends = [], []
    for stream in streams:
        words += stream
        ends.append(len(words))
    trace = Trace(len(masks) * channels * RECORD_BYTES)
    given = lent(form, packed(words), packed(ends), packed([mask for pair in masks for mask in pair]))
    answers = []

    def call():
        answers.append(loaded().whemdrosk_run(*given, trace.address(), ctypes.c_size_t(trace.room)))

    if len(masks) < WATCHED:
        call()
    else:
        watched(call, trace, progress)
    answer = answers[0]
    trace.count = answer & 0x1fffffff
    return answer >> 56, answer >> 29 & 0x3ffffff, trace


def watched(call, trace, progress):
    """Does a call beside this thread, and tells the progress of its trace."""
    caller = threading.Thread(target=call)
    caller.start()
    while caller.is_alive():
        caller.join(WATCH_SECONDS)
        progress(trace.reached())
