#!/usr/bin/env python3
"""pages.py: gives the names in the pages today's spelling. Run once, after respell.py.

    tools/port/pages.py            rewrites README.md, examples/README.md, docs/*.md and docs/changes/*.md
    tools/port/pages.py --table    prints the table alone: old name, tab, new name

The table lays the names that each .antt file declared, in order, beside those that it declared once the spelling was turned: in the two commits a file's declarations are as many, in the
same order. In the pages it is the code between backticks, in a line or in a block, that is rewritten; a block that is a definition is quoted from the tree anew.
"""
import collections
import pathlib
import re
import subprocess
import sys

ROOT = pathlib.Path(__file__).resolve().parent.parent.parent
BEFORE, TURNED = "850b094", "5959ead"
NAME = r"[^\s:(){}\[\]«».,;@\"|`/]+"
KINDS = (re.compile(rf"^( *)(?:(?:abbrev|pub) +)*(?:record|data) ({NAME})"),
         re.compile(rf"^( *)(?:(?:abbrev|unfoldable|opaque|irreducible|pub) +)*({NAME})(?: *\{{[^}}]*\}}| *\([^)]*\))* :(?=\s|$)"),
         re.compile(rf"^( *)\| ({NAME})"))
# The library's, as the pages write them.
LIBRARY = {"List·Memᴰ": "Memᴰ", "masks′": "masks'", "getD": "get_or", "+ask_ready+ask_word": "+ask_ready_ask_word"}


def git(*words):
    return subprocess.run(["git", *words], cwd=ROOT, check=True, capture_output=True, text=True).stdout


def declared(text):
    """The kind, the indent and the name of each declaration, in order."""
    found = []
    for line in text.split("\n"):
        if line.startswith("use ") or line.lstrip().startswith("--"):
            continue
        match = next(((kind, m) for kind, m in ((k, r.match(line)) for k, r in enumerate(KINDS)) if m), None)
        if match:
            found.append((match[0], len(match[1][1]), match[1][2]))
    return found


def table():
    files = [set(p for p in git("ls-tree", "-r", "--name-only", commit, "crates").split("\n") if p.endswith(".antt")) for commit in (BEFORE, TURNED)]
    rows = collections.defaultdict(collections.Counter)
    for path in sorted(files[0] & files[1]):
        old, new = (declared(git("show", f"{commit}:{path}")) for commit in (BEFORE, TURNED))
        if [it[:2] for it in old] != [it[:2] for it in new]:
            sys.exit(f"{path}: its declarations are not the same in the two commits")
        for before, after in zip(old, new):
            rows[before[2]][after[2]] += 1
    return {name: found.most_common(1)[0][0] for name, found in rows.items() if found.most_common(1)[0][0] != name}


def definitions():
    """Each definition of specs/ as it stands, by its name."""
    found = {}
    for path in sorted((ROOT / "crates").glob("*/specs/*.antt")):
        for block in re.findall(r"^(\w+ =\n(?: .*\n)+)", path.read_text(), re.M):
            found.setdefault(block.split()[0], block)
    return found


def respelled(code, rows):
    return re.sub(NAME, lambda m: rows.get(m[0], m[0]), code)


def page(text, rows, quotes):
    def block(m):
        head, body = m[1], m[2]
        name = body.split(" ")[0]
        if not head and re.match(r"\w+ =\n", body) and name in quotes:
            return f"```\n{quotes[name]}```"
        return f"```{head}\n{body if head in ('console', 'sh', 'c') else respelled(body, rows)}```"

    parts = re.split(r"(^```\w*\n.*?^```)", text, flags=re.M | re.S)
    for k, part in enumerate(parts):
        if k % 2:
            parts[k] = re.sub(r"^```(\w*)\n(.*?)^```", block, part, flags=re.M | re.S)
        else:
            parts[k] = re.sub(r"`([^`]+)`", lambda m: f"`{respelled(m[1], rows)}`", part)
    return "".join(parts)


def main():
    rows = table()
    if "--table" in sys.argv:
        print("".join(f"{a}\t{b}\n" for a, b in sorted(rows.items())), end="")
        return
    quotes = definitions()
    for path in [ROOT / "README.md", ROOT / "examples" / "README.md", *sorted((ROOT / "docs").glob("*.md")), *sorted((ROOT / "docs" / "changes").glob("*.md"))]:
        path.write_text(page(path.read_text(), rows | LIBRARY, quotes))


if __name__ == "__main__":
    main()
