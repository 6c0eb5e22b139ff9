#!/usr/bin/env python3
"""answers.py NAMES CRATE..: turns each old proofs/F/Proof.antt of a crate into Invariants.antt and Answers.antt.

NAMES is a folder that `rt names NAMES` wrote at the top: by function, the old and the new name of each goal, place and step. A path that walked back
(`c.before.before.args.n`) becomes the field itself (`c.args.n`), since each place sees what came before it; a tuple that answered several clauses becomes a
record of the clauses' names; an answer that only searches goes. A line 'look:' names what is left to a person.
"""
import json
import os
import re
import subprocess
import sys

BEFORE = "132f1cc"

NAME = r"[^\s(){}.;,@\"«»\[\]\\:]+"
OWN = {"args", "requires", "ranges", "well-formed", "initial"}


def norm(s):
    return s.replace("_", "-")


def short(s):
    s = norm(s)
    return re.sub(r"^(overflow|nonzero)-", "", s)


class Function:
    def __init__(self, path, info):
        self.path, self.info, self.looks, self.helpers, self.goal = path, info, [], {}, None
        self.places = {norm(p[0]): i for i, p in enumerate(info["places"])}
        self.new_place = {norm(p[0]): n for p, n in zip(info["places"], info["places_by_name"])}
        self.raw, self.views, self.used_places = None, set(), []
        self.needs = {}
        for i, (old, new) in enumerate(info["needs"]):
            self.needs[short(old)] = (new, info["asked_at"][i][0] if i < len(info["asked_at"]) else None)
        self.args = {}
        for old, new in info["args"]:
            if old.startswith(".args "):
                self.args[norm(old.split(" .")[1])] = new.split(" .")[1]

    def look(self, text):
        self.looks.append(text)

    def chain(self, place):
        i = self.places.get(norm(place)) if place else None
        while i is not None:
            yield i
            parent = self.info["places"][i][1]
            i = self.places.get(norm(parent)) if parent else None

    def clause(self, fields, labels):
        """The old nested position as a clause's name, and what is left of the path."""
        n, k, at = len(labels), 0, 0
        while at < len(fields) and fields[at] in ("0", "1") and k < n - 1:
            if fields[at] == "0":
                return labels[k], fields[at + 1:]
            k, at = k + 1, at + 1
        if k == n - 1:
            return labels[k], fields[at:]
        return None, fields[at:]

    def fields(self, place, fields):
        fields = [f for f in fields if f != "before"]
        if not fields:
            return fields
        first = norm(fields[0])
        if first == "args" and len(fields) > 1:
            return ["args", self.args.get(norm(fields[1]), fields[1].replace("-", "_"))] + fields[2:]
        if first == "ranges" and len(fields) > 1:
            return ["ranges", self.args.get(norm(fields[1]), fields[1].replace("-", "_"))] + fields[2:]
        if first == "requires":
            pre = self.info["pre"]
            if pre and len(fields) > 1:
                label, rest = self.clause(fields[1:], pre["fields"])
                if label:
                    return ["requires", label] + rest
                self.look("part of requires: " + ".".join(fields))
            return fields
        if first in OWN:
            return [fields[0].replace("-", "_")] + fields[1:]
        for i in self.chain(place):
            old, new = self.info["places"][i][2]
            if norm(old) not in (first, re.sub("-lem$", "", first)) and norm(old).lower() != first.lower():
                continue
            rest = fields[1:]
            arm = self.info["arms"][i]
            if arm:
                for new_field, old_step, old_path in arm[2]:
                    if norm(old_step) == first and rest[: len(old_path)] == old_path:
                        return [arm[0], new_field] + rest[len(old_path):]
                if any(norm(o) == first and p[: len(rest)] == rest for _, o, p in arm[2]):
                    return None
                self.look("arm: " + ".".join(fields) + " " + json.dumps(arm))
                return [arm[0]] + rest
            params = self.info["params"].get(self.info["places"][i][3] or "")
            if rest and rest[0] == "new" and len(rest) > 1 and params:
                k = 1
                while k < len(rest) and rest[k] == "1":
                    k += 1
                if k < len(rest) and rest[k] == "0" and k - 1 < len(params):
                    rest = ["new", params[k - 1]] + rest[k + 1:]
            if rest and rest[0] == "ensures" and self.info["clauses"][i]:
                labels = self.info["clauses"][i]["fields"]
                if len(labels) == 1:
                    return [new, "ensures", labels[0]] + rest[1:]
                label, left = self.clause(rest[1:], labels)
                if label:
                    return [new, "ensures", label] + left
                if rest[1:]:
                    self.look("part of ensures: " + ".".join(fields))
            if rest and rest[0] in ("taken", "left"):
                rest = [{"taken": "true", "left": "false"}[rest[0]]] + rest[1:]
            return [new] + rest
        self.look("step not found: " + ".".join(fields) + " at " + str(place))
        return fields


PATHS = re.compile(rf"(?<![\w.'′-])({NAME})((?:\.(?:{NAME}))+)")


def convert_body(f, body, places):
    """places: variable -> old place name."""
    whole = set()  # names whose path stands only with what follows it
    alias = {}  # variable -> (base variable, place, old fields)
    base = dict(places)

    def resolve(var, fields):
        if var in alias:
            b, old = alias[var]
            return b, old + fields
        return var, fields

    out = []
    # lets that name a place or a part of one
    def one_let(m):
        name, var, path = m[1], m[2], m[3]
        fields = [x for x in path.split(".") if x]
        b, all_fields = resolve(var, fields)
        if b not in base:
            return m[0]
        if all(x == "before" for x in all_fields):
            alias[name] = (b, all_fields)
            return "\x01"  # the let goes
        alias[name] = (b, [x for x in all_fields])
        new = f.fields(base[b], all_fields)
        if new is None:
            whole.add(name)
            return "\x01"
        return f"let {name} = \x02{b}.{'.'.join(new)} in"

    pieces = re.split(rf"(let {NAME} = {NAME}(?:\.{NAME})* in)", body)
    done = ""
    let = re.compile(rf"let ({NAME}) = ({NAME})((?:\.{NAME})*) in")

    def path(m):
        var, fields = m[1], [x for x in m[2].split(".") if x]
        b, all_fields = resolve(var, fields)
        if b not in base:
            return m[0]
        if var in alias and var not in whole and not all(x == "before" for x in alias[var][1]):
            new = f.fields(base[b], all_fields)
            if new is None:
                f.look("part of an arm: " + ".".join(all_fields))
                return m[0]
            prefix = f.fields(base[b], alias[var][1])
            if new[: len(prefix)] == prefix:
                return ".".join([var] + new[len(prefix):])
            return ".".join([b] + new)
        if all(x == "before" for x in all_fields):
            return "\x03" + b + "".join(".before" for _ in all_fields) + "\x04"
        new = f.fields(base[b], all_fields)
        if new is None:
            f.look("part of an arm: " + ".".join(all_fields))
            return m[0]
        return ".".join([b] + new)

    for piece in pieces:
        m = let.fullmatch(piece)
        if m:
            done += one_let(m).replace("\x02", "")
        else:
            piece = PATHS.sub(path, piece)
            for v, (b, old) in alias.items():
                if all(x == "before" for x in old):
                    piece = re.sub(rf"(?<![\w.'-]){re.escape(v)}(?![\w.'-])", "\x03" + b + "".join(".before" for _ in old) + "\x04", piece)
            done += piece
    done = re.sub(r"\x01[ \n]*", "", done)

    def behind(m):
        """A field of what a lemma returns: it is found by the step's name alone."""
        fields = [x for x in m[1].split(".") if x and x != "before"]
        if not fields:
            return m[0]
        if fields[0] == "pre":
            fields[0] = "requires"
        first = norm(fields[0])
        if first in OWN:
            new = f.fields(None, fields)
        else:
            at = [p[0] for p in f.info["places"] if norm(p[2][0]) == first and (p[3] or re.match("loop|if", first))]
            new = f.fields(at[0], fields) if at else None
        return ")" + "".join("." + x for x in (new or fields))

    done = re.sub(rf"\)((?:\.{NAME})+)", behind, done)
    def placed(m):
        types = f.helpers.get(m[1], [])
        args = re.findall(r"\x03([^\x04]*)\x04", m[2])
        new = []
        for k, arg in enumerate(args):
            b = arg.split(".")[0]
            target = norm(types[k]) if k < len(types) else None
            names = [norm(f.info["places"][i][0]) for i in f.chain(base[b])]
            if f.raw and target in names:
                steps = names.index(target) + (1 if f.goal and f.new_place[norm(base[b])] in f.views else 0)
                new.append("\x05" + b + ".before" * steps)
            elif target in names and names.index(target) == 0:
                new.append("\x05" + b)
            elif target in names and f.goal:
                new.append(f"\x05(goal.at.{f.goal} {b}).{f.new_place[target]}")
            elif target in names:
                new.append("\x05" + b + ".before" * names.index(target))
                f.look(f"place in a lemma: {m[1]} {arg}: {target} from {base[b]}")
            else:
                new.append("\x05" + arg)
                f.look(f"bare place: {m[1]} {arg}: {target} from {base[b]}")
        return m[1] + "".join(" " + n for n in new)

    for h in f.helpers:
        for b in base:
            done = re.sub(rf"(?<![\w.'-]){re.escape(h)} {re.escape(b)}(?![\w.'′₀-])", f"{h} \x03{b}\x04", done)
    done = re.sub(rf"({NAME})((?: \x03[^\x04]*\x04)+)", placed, done)
    # a call such as `(helper c.before)`: the place goes on as a field
    if "\x03" in done:
        f.look("bare place: " + " ".join(re.findall(r"\x03\S+", done)).replace("\x03", "").replace("\x04", ""))
    for x in "\x03\x04\x05":
        done = done.replace(x, "")
    return done


def depth_split(text):
    parts, depth, start = [], 0, 0
    for i, ch in enumerate(text):
        if ch in "([{":
            depth += 1
        elif ch in ")]}":
            depth -= 1
        elif ch == "," and depth == 0:
            parts.append(text[start:i])
            start = i + 1
    parts.append(text[start:])
    return [p.strip() for p in parts if p.strip()]


def closes(text):
    depth = 0
    for i, ch in enumerate(text):
        if ch == "(":
            depth += 1
        elif ch == ")":
            depth -= 1
            if depth == 0:
                return i == len(text) - 1
    return False


def as_record(f, body, labels):
    """The trailing tuple of a body as a record of the clauses."""
    text = body.rstrip()
    m = re.match(r"((?:\s*let .*? in(?=\s))*)\s*", text, re.S)
    # the last ' in' outside of brackets
    depth, cut = 0, 0
    for t in re.finditer(r"[(\[{]|[)\]}]|(?<![\w.'-])in(?=\s)", text):
        if t[0] in "([{":
            depth += 1
        elif t[0] in ")]}":
            depth -= 1
        elif depth == 0:
            cut = t.end()
    head, tail = text[:cut], text[cut:].strip()
    if tail.startswith("(") and closes(tail):
        parts = depth_split(tail[1:-1])
        while len(parts) < len(labels) and parts[-1].startswith("(") and closes(parts[-1]):
            parts = parts[:-1] + depth_split(parts[-1][1:-1])
        if len(parts) == len(labels):
            fields = ";\n      ".join(f"{l} = {p}" for l, p in zip(labels, parts))
            return f"{head}\n    record {{\n      {fields};\n    }}" if head.strip() else f"\n    record {{\n      {fields};\n    }}"
        f.look(f"tuple of {len(parts)} for clauses {labels}")
    elif tail.strip() not in ("search rules",):
        f.look(f"no tuple for clauses {labels}: {tail[:80]}")
        at = ["all" + ".1" * k + (".0" if k < len(labels) - 1 else "") for k in range(len(labels))]
        fields = "; ".join(f"{l} = {p}" for l, p in zip(labels, at))
        return f"{head}\n    let all = {tail} in\n    record {{ {fields} }}"
    return body


def blocks_of(text):
    """Comment head, use lines, and declarations with the comments above them."""
    head, uses, decls, current, pending = [], [], [], None, []
    for line in text.split("\n"):
        if line.startswith("use "):
            uses.append(line)
        elif line.startswith("--"):
            if not uses and current is None:
                head.append(line)
            else:
                pending.append(line)
                current = None
        elif not line.strip():
            current = None
        elif line.startswith((" ", ")")) and decls:
            current = decls[-1]
            current.append(line)
        elif current is None or not re.match(rf"({re.escape(decl_name(current))})(?= )|unfolding", line):
            current = pending + [line]
            pending = []
            decls.append(current)
        else:
            current.append(line)
    return head, uses, decls


def decl_name(lines):
    for l in lines:
        if not l.startswith("--"):
            m = re.match(rf"(?:(?:abbrev|pub|unfoldable|record|data) )*({NAME})", l)
            return m[1]
    return ""


def generated(folder, loops):
    """How a place's record is written in full, from what the check generates: the arguments behind its name."""
    try:
        with open(os.path.join(folder, "Lts", "View.antt"), encoding="utf-8") as it:
            m = max(re.finditer(r"Lts\.[\w'-]+((?:\s+the-[\w'μ-]+)+)", it.read()), key=lambda m: len(m[1].split()), default=None)
    except OSError:
        return None
    if not m:
        return None
    full = {"the-claims": "tie.the-claims", "the-Pre": "reads.Pre", "the-Post": "reads.Post", "the-clauses": "tie.handed_clauses"}
    for k, loop in enumerate(loops):
        full[f"the-Inv-{k}"] = f"goal.the-invariant-{loop}"
        full[f"the-μ-{k}"] = f"goal.the-decreases-{loop}"
    with open(os.path.join(folder, "Goals.antt"), encoding="utf-8") as it:
        places = dict(re.findall(r"(?m)^abbrev pub (\S+) : Type 0\n\S+ =\s+(View\.In-|Lts\.)", it.read()))
    with open(os.path.join(folder, "Lts", "View.antt"), encoding="utf-8") as it:
        views = {v for v in re.findall(r"pub record In-(\S+) :", it.read()) if places.get(v) != "Lts."}
    return " ".join(full.get(a, a) for a in m[1].split() if a != "the-before"), views


def turn(crate, folder, path, info, raw=None):
    source = os.path.join(folder, "Proof.antt")
    if os.path.exists(source):
        with open(source, encoding="utf-8") as it:
            text = it.read()
    else:
        text = subprocess.run(["git", "show", f"{BEFORE}:{source}"], check=True, capture_output=True, text=True).stdout
        text = re.sub(r"(borrow.Author.Tests.\{.*)not_false", r"\1not-false", text)
        if "borrow.Author.Tests.{" in text and "not-false" in text:
            text = re.sub(r"\bnot_false\b", "not-false", text)
    # places that the old proof named itself
    for alias, place in re.findall(rf"(?m)^abbrev ({NAME}) : Type 0\n\1 = (tie\.{NAME}(?: (?:invariant|decreases)_{NAME})*)\n", text):
        text = text.replace(f"abbrev {alias} : Type 0\n{alias} = {place}\n", "")
        text = re.sub(rf"(let {NAME}) : {re.escape(alias)} =", r"\1 =", text)
        text = re.sub(rf"(?<![\w.'-]){re.escape(alias)}(?![\w'-])", place, text)
    text = re.sub(rf"(let {NAME}) : tie\.{NAME}(?: (?:invariant|decreases)_{NAME})* =", r"\1 =", text)
    head, uses, decls = blocks_of(text)
    f = Function(path, info)
    if raw:
        f.raw, f.views = raw
    module = f"Rattle.{crate}.proofs.{path}"
    uses = [u for u in uses if not re.match(rf"use {re.escape(module)}\.(Statement|Tie|Goals|Given)\b", u)]
    loops = {norm(a): (b, v, c) for ((a, b), v), c in zip(info["loops"], info["changed"])}
    invariants, answers, helpers = [], [], set()
    for lines in decls:
        text = "\n".join(l for l in lines if not l.startswith("--"))
        types = re.findall(rf"tie\.({NAME})", text.split("\n" + decl_name(lines) + " ")[0].split("\nunfolding")[0])
        if types and "tie.Need" not in text.split("\n")[0]:
            f.helpers[decl_name(lines)] = types
    for lines in decls:
        comment = [l for l in lines if l.startswith("--")]
        lines = [l for l in lines if not l.startswith("--")]
        text = "\n".join(lines)
        name = decl_name(lines)
        # the signature ends where the name stands again, or at 'unfolding'
        m = re.match(rf"((?:(?:abbrev|pub|unfoldable) )*){re.escape(name)} :(.*?)\n(?=unfolding |{re.escape(name)}[ \n])(.*)", text, re.S)
        if not m:
            f.look("not read: " + text[:60])
            answers.append("\n".join(comment + lines))
            continue
        marks, kind, rest = m[1], m[2].strip(), m[3]
        if "statement M" in kind:
            continue
        unfolding = ""
        if rest.startswith("unfolding "):
            unfolding, rest = rest.split("\n", 1)
        t = re.match(r"tie\.(invariant|decreases)_(\S+)", kind)
        if t:
            new, names, changed = loops[norm(t[2])]
            c = re.match(rf"{re.escape(name)} (.*?) =(?=\s)(.*)", rest, re.S)
            params = c[1].split()
            it = "l" if not re.search(r"(?<![\w.'-])l(?![\w.'-])", c[2]) else "loop"
            want = [f"{it}.{v}" if not ch else f"{it}.initial.{v}" for v, ch in zip(names, changed)] + [f"{it}.{v}" for v, ch in zip(names, changed) if ch]
            if len(params) != len(want):
                f.look(f"{name}: {params} for {want}")
                want += [f"{it}.?"] * len(params)
            body = c[2]
            table = dict(zip(params, want))
            body = re.sub(rf"(?<![\w.'-])({NAME})(?![\w'-])", lambda w: table.get(w[1], w[1]), body)
            label = f"{t[1]}-{new}"
            invariants.append("\n".join(comment + [f"abbrev pub {label} : goal.{label}"] + ([unfolding] if unfolding else []) + [f"{label} {it} ={body}"]))
            continue
        t = re.match(r"tie\.Need-(\S+)", kind)
        if t:
            key = short(t[1])
            if key not in f.needs:
                key = re.sub("^slice-bounds-", "part-", key)
            if key not in f.needs:
                f.look(f"need {t[1]} not found among {sorted(f.needs)}")
                answers.append("\n".join(comment + lines))
                continue
            new, place = f.needs[key]
            c = re.match(rf"{re.escape(name)}((?: {NAME})*?)( κs)?((?: {NAME})*?) =(?=\s)(.*)", rest, re.S)
            if not c:
                f.look(f"clauses of {name} not read")
                answers.append("\n".join(comment + lines))
                continue
            binders = [b for b in (c[1] + (c[2] or '') + c[3]).split() if b != 'κs']
            body = c[4]
            if body.strip() == "search rules" or new in info["settled"]:
                continue
            places = {binders[0]: place} if binders else {}
            f.goal = new
            body = convert_body(f, body, places)
            f.goal = None
            asked = {short(k): v for k, v in info["asked"].items()} if isinstance(info["asked"], dict) else {}
            labels = asked.get(key)
            if labels and len(labels) > 1:
                body = as_record(f, body, labels)
            answers.append("\n".join(comment + [f"pub {new} : goal.{new}"] + ([unfolding] if unfolding else []) + [f"{new} {' '.join(binders)} ={body}"]))
            continue
        # a lemma beside the needs
        places = {}
        for p in re.finditer(rf"(?:\(({NAME}) : )?tie\.({NAME})(?: [^()→]*)?", kind):
            places[p[1] or f"c{len(places)}"] = p[2]
        if "tie." in kind:
            def place_type(p):
                new = f.new_place.get(norm(p[1]), p[1])
                if f.raw:
                    f.used_places.append((norm(p[1]), new))
                    return new
                return "goal." + new

            places_named = rf"tie\.({NAME})((?: (?:invariant|decreases)_{NAME})*)"
            kind = re.sub(places_named, place_type, kind)
            kind = convert_body(f, kind, places) if places else kind
            c = re.match(rf"{re.escape(name)} ({NAME})", rest)
            by_order = {}
            if c and places:
                # the clause's own names for the places, by position
                binders = re.match(rf"{re.escape(name)}((?: {NAME})*) =", rest)
                if binders:
                    for q, p in zip(binders[1].split(), places.values()):
                        by_order[q] = p
            result = re.search(rf"tie\.({NAME})(?: (?:invariant|decreases)_{NAME})*$", m[2].strip())
            f.helpers["="] = [result[1]] if result else []
            rest = re.sub(places_named, place_type, convert_body(f, rest, by_order or places)) if "tie." in m[2] else convert_body(f, rest, by_order or places)
            f.helpers.pop("=")
            helpers.add(name)
        answers.append("\n".join(comment + [f"{marks}{name} : {kind}"] + ([unfolding] if unfolding else []) + [rest]))
    if not invariants and not [a for a in answers]:
        return f, [], [], head, uses
    return f, invariants, answers, head, uses


def used(uses, text):
    kept = []
    for u in uses:
        m = re.match(r"use ([^{]+)\.\{(.*)\}$", u)
        if not m:
            kept.append(u)
            continue
        names = [n.strip() for n in m[2].split(",")]
        keep = []
        for n in names:
            bare = n.split(" as ")[-1].strip().strip("«»")
            word = bare.strip("◌")
            if bare != word or "◌" in bare:
                parts = [p for p in bare.split("◌") if p]
                if all(p in text for p in parts):
                    keep.append(n)
            elif re.search(rf"(?<![\w'-]){re.escape(bare)}(?![\w'-])", text):
                keep.append(n)
        if keep:
            kept.append(f"use {m[1]}.{{{', '.join(keep)}}}")
    return kept


def main():
    names_dir, crates = sys.argv[1], [a for a in sys.argv[2:] if not a.startswith("--")]
    only = [a[7:] for a in sys.argv[2:] if a.startswith("--only=")]
    gen = [a[6:] for a in sys.argv[2:] if a.startswith("--gen=")]
    for crate in crates:
        with open(os.path.join(names_dir, "crates", crate, "names.json"), encoding="utf-8") as it:
            names = json.load(it)
        top = os.path.join("crates", crate, "proofs")
        for folder, _, files in sorted(os.walk(top)):
            path = os.path.relpath(folder, top).replace("/", ".")
            if "/+" in folder or (path not in only[0].split(",") if only else "Proof.antt" not in files):
                continue
            info = names.get(f"Rattle-{crate}-proofs.{path}.Lts")
            if info is None:
                print(f"look: {folder}: no names")
                continue
            raw = generated(os.path.join(gen[0], f"Rattle-{crate}-proofs", path.replace(".", "/")), [b for (a, b), v in info["loops"]]) if gen else None
            f, invariants, answers, head, uses = turn(crate, folder, path, info, raw)
            module = f"Rattle.{crate}.proofs.{path}"
            top_comment = "\n".join(head)
            # what an invariant speaks of stands beside it
            shared, text = [], "\n\n".join(invariants)
            grown = bool(invariants)
            while grown:
                grown = False
                for a in list(answers):
                    name = decl_name(a.split("\n"))
                    if "goal." not in a and re.search(rf"(?<![\w.'-]){re.escape(name)}(?![\w'-])", text):
                        answers.remove(a)
                        lines = a.split("\n")
                        at = next(i for i, l in enumerate(lines) if not l.startswith("--"))
                        if not re.match(r"(abbrev )?pub |record|data|module", lines[at]):
                            lines[at] = lines[at].replace("abbrev ", "abbrev pub ", 1) if lines[at].startswith("abbrev ") else "pub " + lines[at]
                        elif lines[at].startswith(("record", "data")):
                            lines[at] = "pub " + lines[at]
                        if "record " in lines[at]:
                            lines = [re.sub(rf"^  (?!pub )({NAME} :)", r"  pub \1", l) for l in lines]
                        shared.insert(0, (name if not lines[at].startswith("pub record") else lines[at].split()[2], "\n".join(lines)))
                        text = shared[0][1] + "\n\n" + text
                        grown = True
            if shared:
                uses.append(f"use {module}.Invariants.{{{', '.join(n for n, _ in shared)}}}")
                invariants = [t for _, t in shared] + invariants
            if invariants:
                text = "\n\n".join(invariants)
                lines = [top_comment] + used([u for u in uses if f"{module}.Invariants." not in u], text) + [f"use {module}.Given as goal", "", text, ""]
                with open(os.path.join(folder, "Invariants.antt"), "w", encoding="utf-8") as it:
                    it.write("\n".join(lines))
            if answers:
                text = "\n\n".join(answers)
                # a test of `!x` says now of x itself that it is true or false; the facts of a type are stated of the value itself
                text = re.sub(r"\(?not-(?:true|false) (?:_|[^\s()]+) (c\.if-not-[^\s()]+\.(?:true|false))\)?", lambda m: m[1] + (")" if m[0].endswith(")") and not m[0].startswith("(") else ""), text)
                text = text.replace("simp length-map at c.well_formed", "c.well_formed")
                places = []
                for old, new in dict.fromkeys(f.used_places):
                    lts = next(p[0] for p in info["places"] if norm(p[0]) == old)
                    places.append(f"abbrev {new} : Type 0\n{new} = lts.{lts} {raw[0]}")
                if places:
                    text = "\n\n".join(["-- places on the way that several answers speak of"] + places).replace("of\n\nabbrev", "of\nabbrev", 1) + "\n\n" + text
                    for m in ("Lts", "Tie", "Reads"):
                        if f"{m.lower()}." in text:
                            uses.append(f"use {module}.{m} as {m.lower()}")
                lines = [top_comment] + used(uses, text) + [f"use {module}.Goals as goal", "", text, ""]
                with open(os.path.join(folder, "Answers.antt"), "w", encoding="utf-8") as it:
                    it.write("\n".join(lines))
            if os.path.exists(os.path.join(folder, "Proof.antt")):
                os.remove(os.path.join(folder, "Proof.antt"))
            if not invariants and not answers and not os.listdir(folder):
                os.rmdir(folder)
            for l in f.looks:
                print(f"look: {folder}: {l}")


if __name__ == "__main__":
    main()
