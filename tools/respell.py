#!/usr/bin/env python3
"""Brings the repository's own names to today's spelling: words in snake case, types and modules in camel case.

usage: python3 tools/respell.py        once, at the top of the repository, right after the kit's port.py

Names of definitions, lemmas, fields and local facts: a dash becomes an underscore, and camel case that begins small becomes snake case.
Names of the library, of the code and of Rattle's making keep their spelling. In contracts, `before x` and `after x` of a lent row become
`x.old`, `x.new` and `x.now`, and the definitions that took lent rows which a call writes take what those rows hold.
"""

import os
import re
import sys

TOP = os.path.join(os.path.dirname(os.path.realpath(__file__)), "..")
CRATES = os.path.join(TOP, "crates")
TOKEN = re.compile(r"[^\s(){};,.@\"`\[\]]+")
DEFINES = re.compile(r"^(\s*)((?:abbrev |unfoldable |pub )*)([^\s(){};,.:`]+)\s*:(?=\s|$)")
USE = re.compile(r"^\s*(?:pub )?(?:ghost )?use ([^\s{;]+?)(?:\.\{([^}]*)\})?(?: as (\S+?))?;?$")
CAMEL = re.compile(r"^[a-z][a-z0-9]*(?:_[a-z0-9]+)*[A-Z]")

# Where two names would fall together, the one that is a lemma about the other.
SPECIAL = {
    name: name.replace("-", "_") + "_lem"
    for name in (
        "handed-over solved-text plain-solving at-place plain-check all-below least-far start-flow-at excess-at is-less "
        "new-label distances-in back-flow without-minimums not-above plain-text no_steps"
    ).split()
}
SPECIAL |= {"nodesFrom": "node_origins", "arcsFrom": "arc_origins", "table-of": "table_here"}

# Definitions that put what several lent rows hold after a call into a record, and the ones over what the rows hold that stand for them.
LENT = {
    "state_before": ("state_in", 1, "old"),
    "state_after": ("state_in", 1, "new"),
    "run_before": ("run_in", 1, "old"),
    "run_after": ("run_in", 1, "new"),
    "left_in": ("left", 1, "new"),
    "signed_left_in": ("signed_left", 1, "new"),
    "left_openings_in": ("left_openings", 1, "new"),
    "shown_in": ("shown_by", 1, "new"),
    "served_in": ("served", 1, "new"),
    "GivenRoom": ("GivenRoom", 1, "old"),
    "GivenRoomToReduce": ("GivenRoomToReduce", 1, "old"),
}


def held(name, kinds, when):
    """What the row `name` holds at that time: `x.now` where the call only reads it."""
    if name not in kinds:
        return name
    return name + ("." + when if kinds[name] else ".now")


def turn_clauses(head):
    """The signature and clauses of a function, with what lent rows hold as `x.old`, `x.new` and `x.now`."""
    kinds = {m.group(1): bool(m.group(2)) for m in re.finditer(r"(\w+): &(?:'\w+ )?(mut )?", head)}
    first = re.search(r"^    (?:requires|ensures)", head, re.M)
    if not first:
        return head
    signature, clauses = head[: first.start()], head[first.start() :]
    clauses = re.sub(
        r"let small = lent_small ((?:\w+ ?){5}) ?in",
        lambda m: "let small_old = small_rows " + " ".join(held(x, kinds, "old") for x in m.group(1).split()) + " in\n"
        + "        let small_new = small_rows " + " ".join(held(x, kinds, "new") for x in m.group(1).split()) + " in",
        clauses,
    )
    clauses = clauses.replace("small.entry", "small_old").replace("small.exit", "small_new")
    for word, (now, _, when) in LENT.items():
        clauses = re.sub(
            r"(?<![\w.])" + word + r"((?: [a-z_]\w*(?:\.\w+)*)+)",
            lambda m: now + "".join(" " + held(x, kinds, when) for x in m.group(1).split()),
            clauses,
        )
    def one(m):
        if m.group(2) not in kinds:
            return m.group(0)
        return held(m.group(2), kinds, "old" if m.group(1) == "before" else "new")
    clauses = re.sub(r"\((before|after) (\w+)\)", one, clauses)
    clauses = re.sub(r"(?<![\w.])(before|after) (\w+)", one, clauses)
    return signature + clauses


def turn_source(text):
    out, head, inside = [], [], False
    for line in text.split("\n"):
        if re.match(r"^(?:pub )?(?:unsafe )?(?:extern \"C\" )?fn |^#\[unsafe\(no_mangle\)\]$|^pub extern", line) and not inside:
            inside = True
        if inside:
            head.append(line)
            if line == "{" or line.endswith(" {"):
                out.append(turn_clauses("\n".join(head)))
                head, inside = [], False
        else:
            out.append(line)
    return "\n".join(out + head)


# Definitions over lent rows that go, since a call now names what its rows hold.
GONE = "state_before state_after run_before run_after lent_small left_in signed_left_in left_openings_in shown_in served_in after".split()


def turn_lent(path, text):
    """A file of specs/ without the definitions that go; the rooms are of what the rows hold."""
    for g in GONE:
        text = re.sub(r"(?:^-- .*\n)+abbrev pub " + g + r" : .*\n(?:.+\n)+\n?", "", text, flags=re.M)
    if not path.endswith("rows/specs/Lent.antt"):
        for word in GONE:
            text = re.sub(r"(use Rattle\.[\w.]+\.Lent\.\{[^}]*?)(?:, )?\b" + word + r"\b(?=[,}])", r"\1", text)
            text = text.replace(".Lent.{, ", ".Lent.{")
    for word in ("GivenRoom", "GivenRoomToReduce"):
        def room(m):
            return m.group(0).replace(": GivenRow)", ": List ℕ)").replace(".now", "")
        text = re.sub(r"abbrev pub " + word + r" : .*\n(?:.+\n)+", room, text)
    return text


def crates():
    return sorted(d for d in os.listdir(CRATES) if os.path.isdir(os.path.join(CRATES, d)))


def antt_files():
    for c in crates():
        for part in ("specs", "proofs"):
            for folder, dirs, files in os.walk(os.path.join(CRATES, c, part)):
                dirs.sort()
                for f in sorted(files):
                    if f.endswith(".antt"):
                        yield os.path.join(folder, f)


def is_function_proof(path):
    return os.path.basename(path) in ("Proof.antt", "Answers.antt", "Invariants.antt")


def turned(name):
    if name in SPECIAL:
        return SPECIAL[name]
    if not re.match(r"^[a-zα-ω]", name):
        return name
    out = name.replace("-", "_") if re.match(r"^[\w\-'₀-₉]+$", name) else name
    if CAMEL.match(out) or re.search(r"_[a-z0-9]*[A-Z]", out) and re.match(r"^[a-z]", name) and CAMEL.match(out):
        out = re.sub(r"([a-z0-9])([A-Z])", lambda m: m.group(1) + "_" + m.group(2).lower(), out)
        out = out[0] + re.sub(r"[A-Z]", lambda m: m.group(0).lower(), out[1:]) if CAMEL.match(out) else out
    return out


def imports(text, own):
    """The names that a file imports from elsewhere than this repository's crates, and the names of its module aliases."""
    outside, inside, alias = set(), set(), set()
    for line in text.split("\n"):
        m = USE.match(line)
        if not m:
            continue
        path, names, a = m.groups()
        mine = re.match(r"Rattle\.(\w+)\.", path + ".")
        mine = bool(mine and mine.group(1) in own)
        if a:
            alias.add(a)
        for n in (names or "").split(","):
            n = n.strip()
            if n:
                n2 = n.split(" as ")[-1].strip()
                (inside if mine else outside).add(n2)
                if " as " in n and not mine:
                    outside.add(n.split(" as ")[0].strip())
    return outside, inside, alias


def code_and_comment(line):
    m = re.match(r"^((?:[^\-\"]|-(?!- )|\"[^\"]*\")*)(-- .*|--)?$", line)
    if m:
        return m.group(1), m.group(2) or ""
    return line, ""


def turn_code(code, keep, fields, everything=True, only=None):
    out, last = [], 0
    for m in TOKEN.finditer(code):
        tok, at = m.group(0), m.start()
        out.append(code[last:at])
        last = m.end()
        behind_dot = at > 0 and code[at - 1] == "."
        # `λ x. f` has a blank after its dot; a field has none.
        if behind_dot:
            ok = tok in fields
        elif only is not None:
            ok = tok in only and tok not in keep
        else:
            ok = tok not in keep
        out.append(turned(tok) if ok else tok)
    out.append(code[last:])
    return "".join(out)


def turn_comment(text, known):
    def one(m):
        return "`" + TOKEN.sub(lambda t: turned(t.group(0)) if t.group(0) in known else t.group(0), m.group(1)) + "`"
    return re.sub(r"`([^`]*)`", one, text)


def turn_imports(text):
    """Imports of the definitions that went, as those that stand for them."""
    for word, (now, _, _) in list(LENT.items()) + [("lent_small", ("small_rows", 0, 0))]:
        if word == now:
            continue
        used = re.search(r"(?<![\w.])" + now + r"(?![\w])", re.sub(r"(?m)^ghost use .*$", "", text))
        def swap(m):
            names = [n.strip() for n in m.group(2).split(",")]
            if word not in names:
                return m.group(0)
            names = [n for n in names if n != word]
            if used and now not in names:
                names.append(now)
            return m.group(1) + "{" + ", ".join(names) + "}" if names else ""
        text = re.sub(r"(?m)^(ghost use [\w.]+\.)\{([^}]*)\}", swap, text)
    text = re.sub(r"(?m)^ghost use Rattle\.rows\.specs\.Lent\.\{(before, after|before|after)\};\n", "", text)
    return re.sub(r"(?m)^;\n", "", text)


def main():
    own = set(crates())
    known, fields, texts = set(), set(), {}
    for p in antt_files():
        with open(p, encoding="utf-8") as f:
            texts[p] = f.read()
        if is_function_proof(p):
            continue
        in_record = None
        for line in texts[p].split("\n"):
            m = DEFINES.match(line)
            head = re.match(r"^(\s*)(?:abbrev |pub )*(record|data) ([^\s(){}:]+)", line)
            if head:
                in_record = (len(head.group(1)), head.group(2))
                known.add(head.group(3))
                continue
            if line.strip() and in_record is not None and len(line) - len(line.lstrip()) <= in_record[0]:
                in_record = None
            if m:
                name = m.group(3)
                if in_record and in_record[1] == "record":
                    fields.add(name)
                if not name.startswith("◌"):
                    known.add(name)
    # Fields of the code's structs and names of its functions keep their spelling: they have none to change.
    clashes = 0
    for p, text in texts.items():
        outside, inside, alias = imports(text, own)
        proof = is_function_proof(p)
        lines = text.split("\n")
        new, seen = [], {}
        for line in lines:
            u = USE.match(line)
            if u:
                path, names, a = u.groups()
                mine = re.match(r"Rattle\.(\w+)\.", path + ".")
                if mine and mine.group(1) in own and names:
                    turned_names = ", ".join(" as ".join(turned(x.strip()) for x in n.split(" as ")) for n in names.split(","))
                    line = line.replace("{" + names + "}", "{" + turned_names + "}")
                new.append(line)
                continue
            if re.match(r"^\s*(?:pub )?mod ", line):
                new.append(line)
                continue
            code, comment = code_and_comment(line)
            for m in TOKEN.finditer(code):
                t = m.group(0)
                dot = m.start() > 0 and code[m.start() - 1] == "."
                if not dot and t not in outside:
                    seen.setdefault(turned(t), set()).add(t)
                elif not dot:
                    seen.setdefault(t, set()).add(t)
            new.append(turn_code(code, outside, fields) + turn_comment(comment, known))
        for t, olds in seen.items():
            if len(olds) > 1:
                clashes += 1
                print(f"falls together: {os.path.relpath(p, TOP)}: {', '.join(sorted(olds))} -> {t}")
        with open(p, "w", encoding="utf-8") as f:
            f.write(turn_lent(p, "\n".join(new)) if "/specs/" in p else "\n".join(new))
    # Sources: imports and clauses.
    for c in crates():
        for folder, dirs, files in os.walk(os.path.join(CRATES, c)):
            dirs[:] = [d for d in dirs if d != "out"]
            for f in files:
                p = os.path.join(folder, f)
                if f.endswith(".rt"):
                    with open(p, encoding="utf-8") as h:
                        t = h.read()
                    lines = []
                    for line in t.split("\n"):
                        m = re.match(r"^(.*?)(//.*)?$", line)
                        code, comment = m.group(1), m.group(2) or ""
                        lines.append(turn_code(code, set(), fields, only=known) + turn_comment(comment, known))
                    with open(p, "w", encoding="utf-8") as h:
                        h.write(turn_imports(turn_source("\n".join(lines))))
                elif f.endswith(".edit"):
                    with open(p, encoding="utf-8") as h:
                        t = h.read()
                    with open(p, "w", encoding="utf-8") as h:
                        h.write("\n".join(l if l.startswith("file:") else turn_code(l, set(), fields, only=known) for l in t.split("\n")))
    # Papers: names in backquotes.
    for p in [os.path.join(TOP, "README.md")] + [os.path.join(TOP, "docs", f) for f in os.listdir(os.path.join(TOP, "docs")) if f.endswith(".md")]:
        with open(p, encoding="utf-8") as h:
            t = h.read()
        fenced, lines = False, []
        for line in t.split("\n"):
            if line.startswith("```"):
                fenced = not fenced
            lines.append(line if fenced else turn_comment(line, known))
        with open(p, "w", encoding="utf-8") as h:
            h.write("\n".join(lines))
    print(f"{len(known)} names, {len(fields)} fields, {clashes} clashes")


main()
