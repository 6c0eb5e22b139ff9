#!/usr/bin/env python3
"""Holds the pages to the tree: line counts, files, crates, edits, names and make targets that they name, definitions that they quote, and the rule on names. Run from anywhere; says each fault
and ends 1. With --write it first writes the line counts anew."""
import functools
import pathlib
import re
import sys

ROOT = pathlib.Path(__file__).resolve().parent.parent
CRATES = ROOT / "crates"
# The notes of changes say what was so when each change landed, so they are not held to the tree of today.
PAGES = [ROOT / "README.md", ROOT / "examples" / "README.md", ROOT / "docs" / "changes" / "README.md", *sorted((ROOT / "docs").glob("*.md"))]
# What was written for the port, for the pass after it and for the look back at that says what was so before.
BEFORE_THE_PORT = ("PORT.md", "DESIGN-PASS.md", "LOOK-BACK.md")
PAGES = [path for path in PAGES if path.name not in BEFORE_THE_PORT]
faults = []


def fault(text):
    faults.append(text)


def lines_of(path):
    return len(path.read_text().splitlines())


COUNTED = re.compile(r"^\| ((?:`[\w/.]+\.antt`(?:, )?)+) \| ([\d, ]+) \|", re.M)


def counted(names):
    """The files of such a row."""
    paths = re.findall(r"`([\w/.]+)`", names)
    folder = paths[0].rsplit("/", 1)[0]
    return [CRATES / (name if "/" in name else f"{folder}/{name}") for name in paths]


def write_counts(path):
    """The page with the lines of each file as they are."""
    path.write_text(COUNTED.sub(lambda m: f"| {m[1]} | {', '.join(str(lines_of(it)) if it.is_file() else '0' for it in counted(m[1]))} |", path.read_text()))


def check_counts(page, text):
    """Rows `| `crate/specs/File.antt`, `Other.antt` | 36, 40 |` give the lines of each file."""
    for names, counts in COUNTED.findall(text):
        for path, count in zip(counted(names), counts.split(", "), strict=True):
            if not path.is_file():
                fault(f"{page}: there is no {path.relative_to(ROOT)}")
            elif lines_of(path) != int(count):
                fault(f"{page}: {path.relative_to(ROOT)} has {lines_of(path)} lines, not {count}")


def check_files(page, text):
    """Names in backticks that begin with a crate or a folder of ours and have an ending are files."""
    for name in re.findall(r"`([\w./-]+\.(?:antt|rt|md|c|h|py|form|net|out))`", text):
        head = name.split("/")[0]
        if "/" not in name or "NAME" in name or "CRATE" in name or name.startswith("./"):
            continue
        places = [ROOT / name] if (ROOT / head).is_dir() else [CRATES / name] if (CRATES / head).is_dir() else []
        # in the sentence table a name without `specs/` stands for a file there
        places += [CRATES / head / part / name.split("/", 1)[1] for part in ("specs", "proofs") if (CRATES / head).is_dir()]
        if places and not any(place.exists() for place in places):
            fault(f"{page}: there is no {name}")


def check_edits(page, text):
    """Edits are written CRATE/NAME."""
    for crate, name in re.findall(r"`(\w+)/(\w+)`", text):
        folder = CRATES / crate / "must-fail"
        if folder.is_dir() and not (folder / f"{name}.edit").is_file() and not list((CRATES / crate).glob(f"*/{name}.antt")):
            fault(f"{page}: there is no edit {crate}/{name}")


def check_targets(page, text):
    makefile = (ROOT / "Makefile").read_text()
    for target in re.findall(r"(?:^|`)make (?!-)([a-z]+)", text, re.M):
        if not re.search(rf"^(?:[a-z]+ )*{target}(?: [a-z]+)*:", makefile, re.M):
            fault(f"{page}: make has no target {target}")


# What the prover calls a goal at a place of a function, by its number there.
PLACE = re.compile(r"(?:returns|requires|sub-result)-\d+")


def check_laws(page, text):
    """Names in backticks with a hyphen or an underscore inside, or with a capital first, are laws or definitions, or names of the code, the header, the tests or the tool."""
    for name in sorted(set(re.findall(r"`([a-z][\w']*(?:[-_][\w']+)+|[A-Z]\w*[a-z]\w*)`", text)) - law_names() - code_names()):
        if not PLACE.fullmatch(name):
            fault(f"{page}: there is no law {name}")


def check_quotes(page, text):
    """A block of a page that begins with `Name =` is a definition, word for word."""
    for block in re.findall(r"^```\n(\w+ =\n.*?)^```$", text, re.M | re.S):
        if not any(block in path.read_text() for path in CRATES.glob("*/specs/*.antt")):
            fault(f"{page}: no definition reads as the page has {block.split()[0]}")


def check_crates():
    """Every crate stands in the architecture's table, and every file of definitions is listed there as one to believe or not."""
    text = (ROOT / "docs" / "ARCHITECTURE.md").read_text()
    for line in (ROOT / "crates.txt").read_text().splitlines():
        name = " ".join(line.split("#")[0].split(":")[0].split()[:1])
        if name and not re.search(rf"^\| (?:`\w+`, )*`{name}`", text, re.M):
            fault(f"docs/ARCHITECTURE.md: the crate {name} is not in the table")
    for path in sorted(CRATES.glob("*/specs/*.antt")):
        name = f"{path.parts[-3]}/specs/{path.stem}"
        if path.stem != "Lib" and f"`{name}.antt`" not in text and f"`{name}`" not in text:
            fault(f"docs/ARCHITECTURE.md: {name} is listed neither as a file to believe nor as one that needs none")


def check_version():
    """The header's version, which is the tool's too, has the number of the last request that has landed."""
    last = max(int(path.name[:2]) for path in (ROOT / "docs" / "changes").glob("[0-9][0-9]*.md"))
    for path, pattern in ((ROOT / "include" / "whemdrosk.h", r'#define WHEMDROSK_VERSION "(.*)"'), (ROOT / "tools" / "planner" / "command.py", r'VERSION = "(.*)"')):
        version = re.search(pattern, path.read_text()).group(1)
        if version != f"1.{last}.0":
            fault(f"{path.relative_to(ROOT)}: the version is {version}, and the last request is {last}")


NAME = r"[^\s:(){}\[\]«».,;|]+"
DECLARED = re.compile(rf"^\s*(?:(?:abbrev|unfoldable|opaque|irreducible)\s+)?(?:pub\s+)?({NAME})(?:\s*\{{[^}}]*\}})?\s+:(?:\s|$)")
TYPE = re.compile(rf"^\s*(?:(?:abbrev|pub)\s+)*(?:record|data)\s+({NAME})")
CASE = re.compile(rf"^\s*\| ({NAME})")


def antt_files():
    """The specifications and proofs; what rt made lies in out/ and is none of ours."""
    return sorted(path for part in ("specs", "proofs") for path in CRATES.glob(f"*/{part}/**/*.antt"))


@functools.cache
def law_names():
    """Every name that is declared in specifications and proofs, fields and cases included, and their files."""
    found = set()
    for path in antt_files():
        lines = path.read_text().splitlines()
        found.add(path.stem)
        for pattern in (DECLARED, TYPE, CASE):
            found.update(match.group(1) for match in map(pattern.match, lines) if match)
    return found


@functools.cache
def code_names():
    """The crates and the edits; what the code declares; the words of the header, of the tests and of the tools."""
    found = {path.name for path in CRATES.iterdir()} | {path.stem for path in CRATES.glob("*/must-fail/*.edit")}
    for path in CRATES.glob("*/src/**/*.rt"):
        text = path.read_text()
        found.update(re.findall(r"\b(?:fn|struct|enum|const|mod|type)\s+(\w+)", text))
        found.update(re.findall(r"\b(\w+)\s*:(?!:)", text))
        found.update(re.findall(r"\b[A-Z]\w*", text))
    for folder, kinds in (("include", "h"), ("tests", "c h py"), ("examples", "c"), ("tools", "py")):
        for kind in kinds.split():
            for path in (ROOT / folder).glob(f"**/*.{kind}"):
                if path != pathlib.Path(__file__).resolve():
                    found.update(re.findall(r"\w+", path.read_text()))
    return found


# What a clause says of its values. In a proof a definition that is not public may bear one of these names: no contract comes to it.
CLAUSE_WORDS = ("now", "old", "new", "result")


def library_names():
    """The names of the library that contracts and specifications use."""
    ours = {path.name for path in CRATES.iterdir()}
    found = set(CLAUSE_WORDS)
    for path in [*CRATES.glob("*/src/**/*.rt"), *CRATES.glob("*/specs/**/*.antt")]:
        for module, names in re.findall(r"^\s*(?:ghost )?(?:pub )?use ([\w.]+)\.\{([^}]*)\}", path.read_text(), re.M):
            parts = module.split(".")
            if parts[0] != "Rattle" or parts[1] not in ours:
                found.update(name.split(" as ")[-1].strip() for name in names.split(","))
    return found - {""}


def check_names():
    """No definition of ours bears the name of one of the library's that a contract or a specification uses."""
    library = library_names()
    for path in antt_files():
        for number, line in enumerate(path.read_text().splitlines(), 1):
            match = DECLARED.match(line.split("--")[0]) or TYPE.match(line)
            if match and match.group(1) in library and not (match.group(1) in CLAUSE_WORDS and path.parts[-2] != "specs" and "pub " not in match.group()):
                fault(f"{path.relative_to(ROOT)}:{number}: {match.group(1)} is a name of the library's that contracts use")


def main():
    for path in PAGES:
        if "--write" in sys.argv:
            write_counts(path)
        page, text = path.relative_to(ROOT), path.read_text()
        for check in (check_counts, check_files, check_edits, check_targets, check_laws, check_quotes):
            check(page, text)
    check_crates()
    check_version()
    check_names()
    for text in faults:
        print(text)
    print(f"the pages: {len(PAGES)} read, {len(faults)} faults")
    sys.exit(1 if faults else 0)


main()
