#!/usr/bin/env python3
"""beside.py READER OLD NEW: the public signatures, clauses, facts of types, definitions and statements of proofs/ that differ between two trees, old and new side by side, as tables of a page.
READER is the toolchain's port/contracts.py, which reads functions and definitions; what it does not read, the statements of proofs/, is read here."""
import collections
import importlib.util
import pathlib
import re
import sys

spec = importlib.util.spec_from_file_location("contracts", sys.argv[1])
contracts = importlib.util.module_from_spec(spec)
spec.loader.exec_module(contracts)


def cell(text):
    return ("`" + text.replace("|", "\\|").replace("`", "'") + "`") if text else "–"


def table(title, rows):
    if not rows:
        return
    print(f"\n### {title}\n\n| where | old | new |\n|---|---|---|")
    for where, old, new in rows:
        print(f"| {where} | {old} | {new} |")


def promise(f):
    return f["sign"] + "".join(f"; {word} {name + ' ' if name else ''}{{ {text} }}" for word, name, text in f["requires"] + f["ensures"])


def public(root):
    """The public functions of a tree by crate, file, type and name."""
    crates, found, ghosts, specs, sizes, files = contracts.read(root)
    return {k: v[0] for k, v in found.items() if v[0]["pub"] and not v[0]["test"]}, ghosts, specs


def statements(root):
    """What stands in proofs/ beside the answers, by crate and name: without the proofs, and whole where it is a definition.
    Answers and invariants lie in the folders of their functions; a file of that name right in proofs/ has statements."""
    out, whole, defined = collections.defaultdict(list), collections.defaultdict(list), set()
    for path in sorted(pathlib.Path(root).glob("crates/*/proofs/**/*.antt")):
        crate, _, *inside = path.relative_to(pathlib.Path(root, "crates")).parts
        if path.name == "Lib.antt" or (len(inside) > 1 and path.name in ("Answers.antt", "Invariants.antt")):
            continue
        for name, texts in contracts.definitions(path.read_text()).items():
            for text in texts:
                own = re.escape(name)
                head, rest = text.split(name, 1)
                said = re.split(rf"(?<=\s)(?:unfolding\b|{own}(?=[\s{{]))", rest, 1)[0]
                out[crate, name].append(contracts.squeeze(said))
                whole[crate, name].append(rest)
                if re.search(r"\b(abbrev|unfoldable|opaque)\b", head):
                    defined.add((crate, name))
    return out, whole, defined


def alike(old, new):
    """Whether two lists of texts are the same up to names: each word of the one stands for one word of the other, at each place."""
    if len(old) != len(new):
        return False
    there, back = {}, {}
    for a, b in zip(sorted(old), sorted(new)):
        a, b = (re.findall(r"[\w'-]+|\S", text) for text in (a, b))
        if len(a) != len(b) or any(there.setdefault(x, y) != y or back.setdefault(y, x) != x for x, y in zip(a, b)):
            return False
    return True


def by_name(old, new):
    """Pairs of public functions: at the same place, else of the same name in the crate, else of the same name anywhere."""
    left = dict(new)
    for test in (lambda a, b: a == b, lambda a, b: (a[0], a[3]) == (b[0], b[3]), lambda a, b: a[3] == b[3]):
        for a in [a for a in old if a in old and a not in done]:
            b = next((b for b in left if test(a, b)), None)
            if b is not None:
                done[a] = b
                del left[b]
    return left


old_functions, old_ghosts, old_specs = public(sys.argv[2])
new_functions, new_ghosts, new_specs = public(sys.argv[3])
done = {}
left = by_name(old_functions, new_functions)
where = lambda k: " ".join(f"`{p}`" for p in k if p)  # noqa: E731
table("Public functions", [(where(a) if a == b else where(a) + ", now " + where(b), cell(promise(old_functions[a])), cell(promise(new_functions[b])))
      for a, b in sorted(done.items()) if promise(old_functions[a]) != promise(new_functions[b])])
table("Public functions that went", [(where(a), cell(promise(f)), "") for a, f in sorted(old_functions.items()) if a not in done])
table("New public functions", [(where(b), "", cell(promise(new_functions[b]))) for b in sorted(left)])
(old_statements, old_whole, old_defined), (new_statements, new_whole, new_defined) = statements(sys.argv[2]), statements(sys.argv[3])


def same_statement(k, q):
    """Two lemmas of one name may have nothing to do with each other: of lemmas the statements are compared, of definitions the whole texts."""
    if k in old_defined or q in new_defined:
        return alike(old_whole[k], new_whole[q])
    return alike(old_statements[k], new_statements[q])


for title, a, b in (("Facts of types, and constants", old_ghosts, new_ghosts), ("Definitions", old_specs, new_specs), ("Statements of proofs/", old_statements, new_statements)):
    gone = {k: v for k, v in a.items() if k not in b}
    moved = {k: q for k in gone for q in b if q[1:] == k[1:] and q not in a and (a is not old_statements or same_statement(k, q))}
    table(title + ", changed", [(where(k), cell(" ".join(v)), cell(" ".join(b[k]))) for k, v in sorted(a.items()) if k in b and sorted(v) != sorted(b[k])])
    table(title + ", in another crate", [(where(k) + ", now " + where(q), cell(" ".join(a[k])), cell(" ".join(b[q])) if sorted(a[k]) != sorted(b[q]) else "the same") for k, q in sorted(moved.items())])
    table(title + ", gone", [(where(k), cell(" ".join(v)), "") for k, v in sorted(gone.items()) if k not in moved])
    table(title + ", new", [(where(k), "", cell(" ".join(v))) for k, v in sorted(b.items()) if k not in a and k not in moved.values()])
