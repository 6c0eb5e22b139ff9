#!/usr/bin/env python3
"""names.py: for each crate the names that the turn of the spelling changed, old and new, as docs/PORT.md lists them."""
import collections
import importlib.util
import pathlib
import textwrap

spec = importlib.util.spec_from_file_location("pages", pathlib.Path(__file__).with_name("pages.py"))
pages = importlib.util.module_from_spec(spec)
spec.loader.exec_module(pages)


def main():
    both = [set(p for p in pages.git("ls-tree", "-r", "--name-only", c, "crates").split("\n") if p.endswith(".antt")) for c in (pages.BEFORE, pages.TURNED)]
    crates = collections.OrderedDict()
    for path in sorted(both[0] & both[1]):
        old, new = (pages.declared(pages.git("show", f"{c}:{path}")) for c in (pages.BEFORE, pages.TURNED))
        for before, after in zip(old, new):
            goal = path.endswith("Proof.antt")
            if before[2] != after[2] and not goal:
                crates.setdefault(path.split("/")[1], collections.OrderedDict())[before[2]] = after[2]
    for crate, rows in crates.items():
        print(f"\n{crate} ({len(rows)}):\n")
        print("```")
        print("\n".join(textwrap.wrap(", ".join(f"{a} > {b}" for a, b in rows.items()), 118, break_long_words=False, break_on_hyphens=False)))
        print("```")


main()
