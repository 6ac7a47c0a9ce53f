#!/usr/bin/env python3
"""Respells this repository's own definitions and lemmas in snake case, once, right after the kit's port.py.

usage: python3 tools/respell.py        at the top of the repository

What specs/ and proofs/*.antt declare in inner capitals or with dashes (definitions, lemmas, record fields, constructors) gets underscores,
in every .antt file, in the clauses of src/, in must-fail edits, and in the code spans of comments and pages. Types, modules, functions of
src/, strings and what Rattle makes keep their names. A lemma that would meet a definition, or another name of a file that has it, gets
`_lem` at its end. A second run changes nothing.
"""

import collections
import glob
import re

WORD = re.compile(r"[^\s(){}.;,@\"«»]+")
DECLARED = re.compile(r"^ *(?:\| *)?(?:(?:pub|abbrev|unfoldable|mutual) )*([^\s(){}.;,@\"«»:]+)(?: \{[^{}\n]*\})* :(?=\s|$)", re.M)
USE = re.compile(r"^(?:pub )?use ([^\s{]+)(?:\{([^}]*)\})?", re.M)
GHOST_USE = re.compile(r"ghost use ([^\s{;]+)(?:\{([^}]*)\})?", re.M)
SPAN = re.compile(r"`[^`\n]+`")
# Names that antt keeps for its tactics.
KEPT = {"first_of": "first_among"}
# Variables and names of imports in inner capitals.
LOCAL = {"belowStart", "pageSlotsOf"}


def snake(name):
    return re.sub(r"(?<=[a-z0-9])[A-Z]", lambda m: "_" + m[0].lower(), name).replace("-", "_")


def is_own(path, crates):
    steps = path.split(".")
    return steps[0] == "Rattle" and len(steps) > 1 and steps[1] in crates


def read(path):
    with open(path, encoding="utf-8") as f:
        return f.read()


def declared(paths):
    names = collections.defaultdict(set)
    for p in paths:
        for m in DECLARED.finditer(read(p)):
            names[m[1]].add(p)
    return names


def from_library(text, crates, pattern):
    """The names that a file takes from a library, by the name that it gives them."""
    taken = set()
    for m in pattern.finditer(text):
        if m[2] is not None and not is_own(m[1], crates):
            for item in m[2].split(","):
                taken.add(item.split(" as ")[-1].strip())
    return taken


def spellings(names, texts):
    """The new spelling of each name that gets one."""
    camel = {n for n in names if n[0].islower() and re.search("[a-z0-9][A-Z]", n) and "-" not in n} | LOCAL
    rest = {n for n in names if n[0].islower() and "-" in n}
    words = {p: set(WORD.findall(t)) for p, t in texts.items()}
    new = {n: KEPT.get(snake(n), snake(n)) for n in camel}
    new |= {n: to for n, to in KEPT.items() if n in names}
    taken = set(new.values()) | {n for n in names if n[0].islower() and n not in camel and n not in rest and n not in KEPT}
    for n in sorted(rest):
        to = snake(n)
        meets = any(n in w and to in w for w in words.values())
        if to in taken or meets or to in KEPT:
            to += "_lem"
        new[n] = to
    return new


def turn(text, new, kept):
    return WORD.sub(lambda m: new.get(m[0], m[0]) if m[0] not in kept else m[0], text)


def turn_code(text, new, kept, comment):
    """Turns the code, and the code spans of comments; text in quotes stays."""
    out = []
    for line in text.split("\n"):
        at = re.search(rf"(?<!\S){comment}", line)
        code, said = (line[: at.start()], line[at.start() :]) if at else (line, "")
        parts = re.split(r'("(?:[^"\\]|\\.)*")', code)
        code = "".join(p if k % 2 else turn(p, new, kept) for k, p in enumerate(parts))
        out.append(code + SPAN.sub(lambda m: turn(m[0], spans(new), set()), said))
    return "\n".join(out)


def spans(new):
    """The same spellings, also beside the quotes of a code span."""
    return {f"`{n}`": f"`{to}`" for n, to in new.items()} | {f"`{n}": f"`{to}" for n, to in new.items()} | {f"{n}`": f"{to}`" for n, to in new.items()} | new


def turn_edit(text, new):
    return "\n".join(turn_line(line, new) if line.startswith(("old: ", "new: ")) else line for line in text.split("\n"))


def turn_line(line, new):
    """A line of an edit: its names, and the older forms that port.py turns in the files that the edit is of."""
    line = turn(re.sub(r"(?<=[^\s(]) \.(?=[a-z0-9«])", ".", line), new, set())
    line = re.sub(r"(?<=[\s(])\(([\w']+(?:\.[\w']+)+)\)", r"\1", line)
    line = re.sub(r"⌜ ?| ?⌝", "", line)
    return line.replace("λ r. ", "").replace("λ _. ", "").replace("now (store.entry)", "store.now").replace("getD ", "get_or ")


def one_name(text):
    """An item `x as x` is written x."""
    return re.sub(r"(?<![^\s{,])([^\s{},]+) as \1(?=[,}])", r"\1", text)


def main():
    crates = {line.split(":")[0].strip() for line in open("crates.txt", encoding="utf-8") if ":" in line and not line.startswith("#")}
    antt = sorted(glob.glob("crates/*/specs/**/*.antt", recursive=True) + glob.glob("crates/*/proofs/**/*.antt", recursive=True))
    code = sorted(glob.glob("crates/*/src/**/*.rt", recursive=True))
    owned = [p for p in antt if "/specs/" in p or p.count("/") == 3]
    texts = {p: read(p) for p in antt + code}
    new = spellings(declared(owned), texts)
    changed = 0
    # What port.py turned itself stands in edits and pages still in the old spelling.
    told = collections.defaultdict(str, {snake(w): w for t in texts.values() for w in WORD.findall(t)})
    pages = ["README.md"] + sorted(glob.glob("docs/*.md"))
    edits = sorted(glob.glob("crates/*/must-fail/*.edit"))
    old = {w for p in pages + edits for w in WORD.findall(read(p).replace("`", " "))}
    also = {w: snake(w) for w in old if w not in new and w[0].islower() and snake(w) != w and told[snake(w)] == snake(w)}
    for p in antt + code:
        comment, pattern = ("--", USE) if p.endswith(".antt") else ("//", GHOST_USE)
        kept = from_library(texts[p], crates, pattern)
        turned = one_name(turn_code(texts[p], new, kept, comment))
        changed += write(p, turned, texts[p])
    for p in edits:
        changed += write(p, turn_edit(read(p), also | new), read(p))
    for p in pages:
        if p != "docs/PORT.md":
            changed += write(p, SPAN.sub(lambda m: turn_span(m[0], also | new), read(p)), read(p))
    print(f"respell: {len(new)} names, {changed} files")


def turn_span(span, new):
    """A code span of a page: its words, and the last word of a citation such as crate/Module.name."""
    return "`" + turn(span[1:-1], new, set()) + "`"


def write(path, text, old):
    if text == old:
        return 0
    with open(path, "w", encoding="utf-8") as f:
        f.write(text)
    return 1


if __name__ == "__main__":
    main()
