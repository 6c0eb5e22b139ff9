#!/usr/bin/env python3
"""respell.py: gives the repository's own definitions and lemmas today's spelling. Run once, right after /opt/rattle/port/port.py.

    tools/port/respell.py            rewrites crates/**/*.antt and *.rt (contracts, `ghost use`, comments' names)
    tools/port/respell.py --table    prints the table alone: old name, tab, new name

A definition, lemma or field in camel case becomes snake case (`fieldsOk`, `fields_ok`). In a name with dashes a dash stays where it joins two names, and
becomes '_' before or behind a plain word (`no-free-loop`, `no_free_loop`; `length-bitsOf`, `length-bits_of`). A part in capitals keeps them: it names a type
or a fact. What Rattle makes (needs, places, steps) and every name of src/ is left alone. The kit's snake.py does the rewriting.
"""
import collections
import glob
import os
import re
import subprocess
import sys

SNAKE = "/opt/rattle/port/notes/2026-11-18-names-are-in-snake-case/snake.py"
NAME = r"[^\s(){}.;,@\"«»\[\]\\:|]+"
DECLARED = re.compile(rf"^ *(?:(?:abbrev|unfoldable|pub|opaque|irreducible) )*({NAME})(?: \{{[^}}]*\}}| \([^)]*\))* :(?= |$)(.*)")
TYPE = re.compile(rf"^ *(?:(?:pub|abbrev) )*(?:record|data) ({NAME})")
CASE = re.compile(rf"^ *\| ({NAME})|^  ({NAME}) :")
# words of the library that lemmas here are about, and that a dash may join
LIBRARY = set("length map reverse take drop append get_or set slice_set slice_index slice_get sum filter fold cond not some none suc zero add mul pow div mod".split())
# names that stand in other names as plain words
WORDS = set("all by is are on in at of it one own so to no not other each first last next given left right more less kept same some none own step put puts".split())
# taken otherwise: the plain spelling is another definition's, a field's, a parameter's or a function's that the same files name
APART = {
    "end_before": "end_before_lem", "ends-fit": "ends_fit_lem", "entry-shape": "entry_shape_lem", "fields-ok": "fields_ok_lem", "in-shape": "in_shape_lem",
    "in_use": "in_use_lem", "ins-of": "ins_of_lem", "kind-in": "kind_in_lem", "mask-of": "mask_of_lem", "next_here": "next_here_lem", "port-of": "port_of_lem",
    "ready_of": "ready_of_lem", "regs-of": "regs_of_lem", "rows-of": "rows_of_lem", "sizes-ok": "sizes_ok_lem", "turn_at": "turn_at_lem", "verdict-of": "verdict_of_lem",
    # facts, which are spelled as types
    "isCount": "IsCount", "source-ahead": "SourceAhead", "directLeads": "DirectLeads", "mergingLeads": "MergingLeads", "isTrue": "HoldsTrue",
    "ran-of": "ran_up_to", "inOrder": "in_given_order",
}


def texts():
    for path in sorted(glob.glob("crates/**/*.antt", recursive=True)):
        if "/out/" not in path:
            with open(path, encoding="utf-8") as f:
                yield path, f.read()


def declared():
    """Every declared name of specs/ and proofs/, but those that answer a need of a function's proof."""
    found = collections.OrderedDict()
    for path, text in texts():
        if "/+" in path:
            continue
        for line in text.split("\n"):
            if line.startswith("use ") or line.lstrip().startswith("--"):
                continue
            m = TYPE.match(line)
            if m:
                found.setdefault(m[1], set()).add(path)
                continue
            m = DECLARED.match(line)
            if m and not m[1].endswith("-spec") and "Need-" not in line and not line.startswith("    "):
                found.setdefault(m[1], set()).add(path)
    return found


def snake(part):
    """A part in camel case in snake case; one that begins with a capital is a type's or a fact's and stays."""
    if part[:1].isupper():
        return part
    return re.sub(r"(?<=[a-z0-9])([A-Z])", lambda m: "_" + m[1].lower(), part)


def respelled(name, names):
    if re.search(r"[^\x00-\x7f]", name):
        return name
    if name in APART:
        return APART[name]
    parts = [p for p in name.split("-")]
    if any(p == "" for p in parts):
        return name
    out = snake(parts[0])
    for before, part in zip(parts, parts[1:]):
        joins = all(p in names or p in LIBRARY or p[:1].isupper() for p in (before, part))
        out += ("-" if joins else "_") + snake(part)
    return out


def table():
    found = declared()
    plain = {n for n, paths in found.items() if "-" not in n and n not in WORDS and any("/specs/" in p for p in paths)}
    rows = {n: respelled(n, plain) for n in found}
    count = collections.Counter(rows.values())
    functions = rust_functions()
    for n, new in rows.items():
        if "-" in n and n not in APART and (count[new] > 1 or new in functions):
            rows[n] = new + "_lem"
    return {n: new for n, new in rows.items() if n != new}, found


def rust_functions():
    found = set()
    for path in glob.glob("crates/*/src/**/*.rt", recursive=True):
        with open(path, encoding="utf-8") as f:
            found |= set(re.findall(r"\bfn (\w+)", f.read()))
    return found


def main():
    rows, found = table()
    if "--clashes" in sys.argv:
        back = collections.defaultdict(set)
        for n in found:
            back[rows.get(n, n)].add(n)
        for new, olds in sorted(back.items()):
            if len(olds) > 1:
                print(new, {o: sorted(found[o])[:4] for o in olds})
        return 0
    lines = "".join(f"{a}\t{b}\n" for a, b in sorted(rows.items()))
    if "--table" in sys.argv:
        print(lines, end="")
        return 0
    os.makedirs("/tmp/respell", exist_ok=True)
    with open("/tmp/respell/table.tsv", "w", encoding="utf-8") as f:
        f.write(lines)
    return subprocess.run([sys.executable, SNAKE, "--table", "/tmp/respell/table.tsv", "--only", "antt,rt", "--prose", "file", "crates"], check=False).returncode


if __name__ == "__main__":
    sys.exit(main())
