#!/usr/bin/env python3
"""What the static library needs: bytes of code and of read-only data, and the most stack that each call uses, by the frames of its functions. Held to the page and to a painted stack.
usage: needs.py LIBRARY [PAINTED]     PAINTED is the program that runs the calls on a painted stack; without it the figures are printed alone, and held to nothing.
       needs.py --write LIBRARY       writes the figures into the page, the README and the header."""
import pathlib
import re
import subprocess
import sys

ROOT = pathlib.Path(__file__).resolve().parent.parent
PAGE = ROOT / "docs" / "ARCHITECTURE.md"
HEADER = ROOT / "include" / "whemdrosk.h"
# These say "less than N KiB of stack"; the header has the bytes too.
ROUNDED = (ROOT / "README.md", HEADER)
CALLS = ("whemdrosk_check", "whemdrosk_run")
# What the host's C library has to do for it.
FROM_THE_HOST = {"memcpy", "memset"}
RETURN_ADDRESS = 8
SORTS = {"code": r"\.text", "read-only data": r"\.rodata|\.data\.rel\.ro|\.eh_frame", "writable data": r"\.data|\.bss|\.tdata|\.tbss"}


def said(*command):
    return subprocess.run(command, check=True, capture_output=True, text=True).stdout


def sections(library):
    """The sections that are loaded, by sort: name and bytes, summed where several objects have one of that name."""
    found = {sort: {} for sort in SORTS}
    for name, size in re.findall(r"^(\.\S+)\s+(\d+)\s+\d+$", said("size", "-A", library), re.M):
        sort = next((sort for sort, pattern in SORTS.items() if re.match(pattern, name)), None)
        if sort and int(size):
            found[sort][name] = found[sort].get(name, 0) + int(size)
    return found


def frames(library):
    """Of each function: the bytes of its frame, how far below its stack pointer it reaches, and what it calls with how many bytes of arguments on the stack."""
    functions, f = {}, None
    for line in said("objdump", "-dr", "--no-show-raw-insn", library).splitlines():
        head = re.match(r"[0-9a-f]+ <(.+)>:$", line)
        if head and head.group(1) in functions:
            sys.exit(f"two functions are called {head.group(1)}, so it is not known which one is called")
        if head:
            f = functions[head.group(1)] = {"frame": RETURN_ADDRESS, "opened": False, "pushed": 0, "below": 0, "calls": []}
        elif f is not None:
            read_line(f, line)
    return functions


def read_line(f, line):
    """One line of a function's code, or of its references. What is pushed once the frame is open are a call's arguments, given back after it, and so is what is taken after a call."""
    taken = re.search(r"\tsub +\$0x([0-9a-f]+),%rsp$", line) or re.search(r"\tlea +-0x([0-9a-f]+)\(%rsp\),%rsp$", line)
    given_back = re.search(r"\t(?:add +\$0x|lea +0x)[0-9a-f]+(?:\(%rsp\))?,%rsp$", line)
    below = re.search(r"-0x([0-9a-f]+)\(%rsp", line)
    called = re.search(r"R_X86_64_PLT32\t(?:\.text\.)?(\S+)-0x4$", line)
    if re.search(r"\tpush ", line):
        f["pushed" if f["opened"] else "frame"] += 8
    elif taken:
        f["pushed" if f["calls"] else "frame"] += int(taken.group(1), 16)
        f["opened"] = True
    elif given_back:
        f["pushed"] = 0
    elif re.search(r"\tcall +\*", line) or re.search(r"\t(?:add|and|mov|lea|sub|xchg)\w* .*,%rsp$", line):
        sys.exit(f"the stack has no bound that can be read from this line:{line}")
    elif called:
        f["calls"].append((called.group(1), f["pushed"]))
    elif below:
        f["below"] = max(f["below"], int(below.group(1), 16))


def depth(functions, name, above=()):
    """The most stack from the call of this function on, without what the C library uses for itself."""
    if name in above:
        sys.exit(f"{name} calls itself, so its stack has no bound that can be read from the code")
    if name not in functions:
        return RETURN_ADDRESS
    f = functions[name]
    return f["frame"] + max([f["below"], *(pushed + depth(functions, callee, (*above, name)) for callee, pushed in f["calls"])])


def figures(library):
    """The page's rows: what is needed, and how many bytes."""
    rows = {sort: sum(parts.values()) for sort, parts in sections(library).items()}
    functions = frames(library)
    return rows | {f"stack of `{call}`": depth(functions, call) for call in CALLS}


def page_rows():
    """The table of the page's section "What it needs"."""
    section = re.search(r"^## What it needs\n(.*?)(?=^## )", PAGE.read_text(), re.M | re.S).group(1)
    return {name: int(number.replace(",", "")) for name, number in re.findall(r"^\| (.+?) \| ([\d,]+) \|", section, re.M)}


def faults(library, painted):
    """What the library needs and the page does not say, and where the painted stack and the frames disagree."""
    rows, said_rows = figures(library), page_rows()
    for name in rows.keys() | said_rows.keys():
        if rows.get(name) != said_rows.get(name):
            yield f"{PAGE.name}: {name}: the page says {said_rows.get(name)}, the library has {rows.get(name)}"
    most = max(rows[f"stack of `{call}`"] for call in CALLS)
    for path in ROUNDED:
        limit = re.search(r"less than (\d+) KiB of stack", path.read_text())
        if not limit or not most < 1024 * int(limit.group(1)):
            yield f"{path.name}: it should say that a call uses less than {most // 1024 + 1} KiB of stack"
    if re.findall(r"^#define WHEMDROSK_STACK_BYTES (.*)$", HEADER.read_text(), re.M) != [str(most)]:
        yield f"{HEADER.name}: WHEMDROSK_STACK_BYTES should be {most}"
    undefined = set(re.findall(r"^ +U (\S+)$", said("nm", "-u", library), re.M))
    if undefined != FROM_THE_HOST:
        yield f"the library calls {sorted(undefined)} of its host, not {sorted(FROM_THE_HOST)}"
    for call, bytes_met in (line.split() for line in said(painted).splitlines()):
        most = rows[f"stack of `{call}`"]
        print(f"{call}: {bytes_met} bytes of a painted stack, at most {most} by its frames")
        # a frame that is counted and never used would show as a gap
        if not most - 64 <= int(bytes_met) <= most:
            yield f"{call} used {bytes_met} bytes of a painted stack, and its frames say {most}"


def write(library):
    """The page's rows, the header's macro and the two sentences in KiB, as the library is. What the page says of the figures in words is not written."""
    rows = figures(library)
    most = max(rows[f"stack of `{call}`"] for call in CALLS)
    text = PAGE.read_text()
    for name, number in rows.items():
        text = re.sub(rf"^\| {re.escape(name)} \| [\d,]+ \|", f"| {name} | {number:,} |", text, flags=re.M)
    PAGE.write_text(text)
    for path in ROUNDED:
        path.write_text(re.sub(r"less than \d+ KiB of stack", f"less than {most // 1024 + 1} KiB of stack", path.read_text()))
    HEADER.write_text(re.sub(r"^(#define WHEMDROSK_STACK_BYTES) .*$", rf"\1 {most}", HEADER.read_text(), flags=re.M))


def main():
    if sys.argv[1] == "--write":
        write(sys.argv[2])
        return
    library, painted = sys.argv[1], sys.argv[2] if len(sys.argv) > 2 else None
    for sort, parts in sections(library).items():
        print(f"{sort}: {sum(parts.values())}", *(f"{name} {size}" for name, size in parts.items()), sep="\n  ")
    if not painted:
        print(*(f"{name}: {number}" for name, number in figures(library).items()), sep="\n")
        return
    found = list(faults(library, painted))
    print(*found, f"what it needs: {len(found)} faults", sep="\n")
    sys.exit(1 if found else 0)


main()
