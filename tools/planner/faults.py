"""What the tool says when something is wrong, a fault in a file (exit status 1) or in the command (exit status 2), and how its messages are put together."""
import unicodedata

# As much of a word as a message repeats.
SHOWN = 40


class Fault(Exception):
    """Something in a file is wrong: each line says where, what, and what to write instead."""

    def __init__(self, *lines, refusal=None):
        super().__init__("\n".join(lines))
        self.lines = lines
        # The library's number, where it is the library that refuses the net.
        self.refusal = refusal


class Misuse(Exception):
    """Something in the command is wrong, as a name that the net does not have."""


def listed(names, none="none"):
    """Names as in a sentence: a, b and c."""
    names = [str(name) for name in names]
    return none if not names else names[0] if len(names) == 1 else ", ".join(names[:-1]) + " and " + names[-1]


def counted(count, noun):
    """A number of things: 1 input, 2 inputs, no inputs."""
    return f"{count or 'no'} {noun}{'' if count == 1 else 's'}"


def quoted(word):
    """A word of the user's in a message: cut where it is long, and without signs that a terminal would obey."""
    safe = "".join(letter if letter.isprintable() else f"\\x{ord(letter):02x}" for letter in word[:SHOWN])
    return f'"{safe}{".." if len(word) > SHOWN else ""}"'


def letters(text):
    """How many letters wide a text is; the letters of some scripts are twice as wide."""
    return sum(2 if unicodedata.east_asian_width(letter) in "WF" else 1 for letter in text)


def padded(text, width):
    """A text with blanks behind it up to a width."""
    return text + " " * (width - letters(text))
