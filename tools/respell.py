#!/usr/bin/env python3
"""Brings the repository's own words of specs, proofs and clauses to snake case.

usage: python3 tools/respell.py        at the top, once, after the kit's port.py and before any edit by hand

- A word that begins small and has capitals within is written in snake case, in .antt and .rt files and in must-fail
  edits: firstNo is first_no.
- A dash between plain words of a name that the repository declares is an underscore: order-rule is order_rule. A dash
  stays beside a word that is itself the name of a definition, of the repository or of the library: first_no-append.
  A lemma that would have the name of a definition gets `_lem` at its end.
Functions of src/, strings, comments' prose and the names that Rattle makes in proof files stay.
With --list it writes nothing, and prints the table of dashes and the names of each file that fall together.
"""

import collections
import os
import re
import sys

WORD = re.compile(r"[A-Za-z_][A-Za-z0-9_']*(?:-[A-Za-z0-9_'≢≡]+)*")
DECLARED = re.compile(r"^ *(?:(?:abbrev|unfoldable|pub|mutual) )*([A-Za-z_][A-Za-z0-9_'≢≡-]*) :(?: |$)", re.M)

# functions of the library that names of lemmas begin or end with
LIBRARY = set("""length take drop append map filter foldl eqb leb ltb get_or set replicate all any find sum min max cond
mod div mul add sub pow""".split())


# lemmas that port.py left in snake case, and that would have the name of a definition
LEMMAS = {"crates/play/proofs/": ["is_digit"], "crates/player/proofs/": ["taken_back"]}


def files():
    for top, dirs, names in os.walk("crates"):
        dirs[:] = sorted(d for d in dirs if d not in ("out", "target"))
        for name in sorted(names):
            if name.endswith((".antt", ".rt", ".edit")):
                yield os.path.join(top, name)


def read(path):
    with open(path, encoding="utf-8") as f:
        return f.read()


def snake(word):
    if not re.match(r"[a-z_]", word) or not re.search("[A-Z]", word):
        return word
    word = re.sub(r"([a-z0-9])([A-Z])", r"\1_\2", word)
    return re.sub(r"([A-Z])([A-Z][a-z])", r"\1_\2", word).lower()


def made(path):
    """Whether the names that a file declares are local to the proof of one function."""
    return os.path.basename(path) == "Proof.antt" or "/Proof/" in path


def declared():
    names = set()
    for path in files():
        if path.endswith(".antt") and not made(path):
            names |= set(DECLARED.findall(read(path)))
    return names


def joined(name, plain):
    """The name with its dashes between plain words as underscores."""
    parts = [snake(p) for p in name.split("-")]
    out = parts[0]
    for left, right in zip(parts, parts[1:]):
        out += ("-" if left in plain or right in plain else "_") + right
    return out


def table():
    names = declared()
    whole = {snake(n) for n in names if "-" not in n}
    plain = {n for n in whole if "_" in n} | LIBRARY
    turned = {n: joined(n, plain) for n in names if "-" in n}
    return {old: new + ("_lem" if new in whole else "") for old, new in turned.items() if old != new}


def parts_of_line(path, line):
    """Code and comment of a line; in an edit all is code."""
    mark = "--" if path.endswith(".antt") else "//" if path.endswith(".rt") else None
    if mark is None:
        return line, ""
    at = line.find(mark) if path.endswith(".rt") else -1
    if path.endswith(".antt"):
        m = re.search(r"(?:^|\s)--(?:\s|$)", line)
        at = m.start() if m else -1
    return (line, "") if at < 0 else (line[:at], line[at:])


def respelled(path, text, names):
    def word(m):
        w, before = m.group(), text_before(m)
        if '"' in before and before.count('"') % 2 == 1:
            return w
        if before.endswith("."):
            return snake(w) if "-" not in w else "-".join(snake(p) for p in w.split("-"))
        if any(path.startswith(top) and w in words for top, words in LEMMAS.items()):
            return w + "_lem"
        if w in names and not (made(path) and w in local):
            return names[w]
        return "-".join(snake(p) for p in w.split("-"))

    def text_before(m):
        return m.string[: m.start()]

    def quoted(m):
        return "`" + turn(m.group(1)) + "`"

    def turn(code):
        return WORD.sub(word, code)

    local = set(DECLARED.findall(text)) if made(path) else set()
    out = []
    for line in text.split("\n"):
        if path.endswith(".edit") and line.startswith("file:"):
            out.append(line)
            continue
        code, comment = parts_of_line(path, line)
        out.append(turn(code) + re.sub(r"`([^`]*)`", quoted, comment))
    return "\n".join(out)


def fallen(path, before, names):
    seen = collections.defaultdict(set)
    for w in WORD.findall(before):
        seen[names.get(w, "-".join(snake(p) for p in w.split("-")))].add(w)
    return {new: old for new, old in seen.items() if len(old) > 1}


def main():
    names = table()
    if "--list" in sys.argv:
        for old, new in sorted(names.items()):
            print(old, "->", new)
        back = collections.defaultdict(set)
        for old, new in names.items():
            back[new].add(old)
        for new, old in back.items():
            if len(old) > 1 or new in declared():
                print("FALL", new, old, new in declared())
        for path in files():
            for new, old in fallen(path, read(path), names).items():
                print("fall:", path, new, sorted(old))
        return
    for path in files():
        text = read(path)
        new = respelled(path, text, names)
        if new != text:
            with open(path, "w", encoding="utf-8") as f:
                f.write(new)


main()
