#!/usr/bin/env python3
"""Respells the names that this repository gives to its definitions and lemmas, as today's Rattle spells names.

usage: python3 tools/respell.py [--dry]     at the top of the checkout, once, after the port of the language's own words

A word is in snake case (`number-of` becomes `number_of`), a fact or a type in camel case (`Sorted-rises` becomes
`SortedRises`). Names that come from the library or that Rattle makes keep their dashes, and so do functions and
strings of src/, comments, and the names of the files. In pages the names between backticks follow. Where a new name
stood in a file before, a line 'look:' says so: a reader has to tell whether the two are one.
"""

import os
import re
import sys

DASHED = re.compile(r"(?<![\w'-])[^\W\d][\w']*(?:-[\w']+)+(?![\w'])")
USE = re.compile(r"^\s*(?:ghost )?use\s+([^\s{;]+?)(?:\.\{([^}]*)\}|\s+as\s+\S+)?;?\s*$", re.M)
PROOF_OF_A_FUNCTION = re.compile(r"crates/\w+/proofs/.+/(Answers|Invariants|Proof)\.antt$")
MADE_BY_RATTLE = {"declared", "Goals", "Given"}  # modules that stand in this repository's paths and are not its own


def new_name(name):
    parts = name.split("-")
    if name[0].isupper():
        return "".join(p[0].upper() + p[1:] for p in parts)
    return "_".join(parts)


def read(path):
    with open(path, encoding="utf-8") as f:
        return f.read()


def files(*endings):
    for folder, dirs, names in os.walk("crates"):
        dirs[:] = sorted(d for d in dirs if d not in ("out", "must-fail", "data"))
        for name in sorted(names):
            if name.endswith(endings):
                yield os.path.join(folder, name)


def lemma_files():
    """The files of specs/, and those of proofs/ that are not the proof of one function."""
    return [p for p in files(".antt") if not PROOF_OF_A_FUNCTION.search(p)]


def pages():
    return ["README.md"] + [os.path.join("docs", n) for n in sorted(os.listdir("docs")) if n.endswith(".md") and n != "PORT.md"]


def imported(text, crates):
    """The names that a file imports: from this repository's own files, and from elsewhere."""
    own, foreign = set(), set()
    for path, names in USE.findall(text):
        parts = path.split(".")
        here = parts[0] == "Rattle" and len(parts) > 1 and parts[1] in crates and not MADE_BY_RATTLE & set(parts)
        for name in (names or "").split(","):
            (own if here else foreign).add(name.split(" as ")[0].strip())
    return own, foreign


def defined(text):
    """The names that a lemma file gives at its top level, fields and constructors included."""
    found = set()
    for line in text.split("\n"):
        m = re.match(r"^(?:  )?(?:(?:abbrev|unfoldable|pub|record|data|instance)\s+)*([^\s:(]+)\s", line)
        if m and not line.startswith("use "):
            found.add(m.group(1))
    return found


def fields(text):
    """The fields and constructors that a lemma file declares."""
    return set(re.findall(r"^  (?:pub )?([^\s:(]+) :", text, re.M))


def bound(text):
    """The names that a proof binds inside, by `let` or `λ`."""
    found = set(re.findall(r"\blet\s+([^\s:=]+)", text))
    for names in re.findall(r"λ\s+([^.]*)\.", text):
        found |= set(names.split())
    return found


def test_of_own(path, text, crates, own_fields):
    """The test whether a dashed name of this file is this repository's own; its second argument: a dot stands before it."""
    own, foreign = imported(text, crates)
    if path.endswith(".rt"):
        return lambda name, after_dot: not after_dot and name in own
    if PROOF_OF_A_FUNCTION.search(path):
        own |= bound(text) - foreign
        return lambda name, after_dot: name in (own_fields if after_dot else own)
    foreign -= own | defined(text)
    return lambda name, after_dot: name not in foreign


def respelled(text, is_own, comment):
    """The text with each own name in its new spelling, outside comments and strings."""

    def code(part):
        return DASHED.sub(lambda m: new_name(m.group(0)) if is_own(m.group(0), part[: m.start()].endswith(".")) else m.group(0), part)

    def line(whole):
        cut = whole.find(comment)
        front, rest = (whole, "") if cut < 0 else (whole[:cut], whole[cut:])
        strings = re.split(r'("(?:[^"\\]|\\.)*")', front)
        return "".join(s if i % 2 else code(s) for i, s in enumerate(strings)) + rest

    return "\n".join(map(line, text.split("\n")))


def fallen_together(text, is_own):
    """The own names of a text whose new spelling stood in it already."""
    before = set(re.findall(r"[^\W\d][\w']*", text))
    return sorted({n for n in DASHED.findall(text) if is_own(n, False) and new_name(n) in before})


def main(dry):
    crates = {c for c in os.listdir("crates") if os.path.isdir(os.path.join("crates", c, "src"))}
    own_fields = set().union(*(fields(read(p)) for p in lemma_files()))
    new_names = set().union(*(defined(read(p)) for p in lemma_files()))
    new_names = {new_name(n) for n in new_names}
    turned = {}
    for path in files(".rt", ".antt"):
        text = read(path)
        is_own = test_of_own(path, text, crates, own_fields)
        for name in fallen_together(text, is_own):
            print(f"look: {path}: {name} falls together with {new_name(name)}")
        turned[path] = respelled(text, is_own, "//" if path.endswith(".rt") else "--")
    for path in pages():
        own_name = lambda m: new_name(m.group(0)) if new_name(m.group(0)) in new_names else m.group(0)
        turned[path] = re.sub(r"`[^`\n]*`", lambda m: DASHED.sub(own_name, m.group(0)), read(path))
    changed = [p for p in turned if turned[p] != read(p)]
    if not dry:
        for path in changed:
            with open(path, "w", encoding="utf-8") as f:
                f.write(turned[path])
    print(f"respell: {len(changed)} files changed")


if __name__ == "__main__":
    main("--dry" in sys.argv[1:])
