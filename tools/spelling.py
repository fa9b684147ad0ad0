#!/usr/bin/env python3
"""Brings the definitions and lemmas of this repository to snake case: `usersFormed` becomes `users_formed`. It was run once, after
the kit's port.py, with no argument, at the top of the repository.

usage: tools/spelling.py [--list]      --list: prints each name, the old beside the new, and writes nothing

The names are those that the files of specs/ and proofs/ have with a capital inside, but for names of the library. A dash in a
lemma's name joins two names, as in the library, and stays. Rust's names have no capital inside; strings, inputs and outputs keep
theirs.
"""

import os
import re
import sys

TOKEN = re.compile(r"(?<![0-9])[A-Za-z_][\w'\-]*")  # and no part of a number, as of 0xAD
COMMENT = {".antt": "--", ".rt": "//"}
# port.py gave these lemmas the spelling that a definition has now: they have their dash again.
LEMMAS = {w: w.replace("_", "-") for w in ("first_byte", "goes_on", "held_in", "index_agrees", "in_order", "whole_in")}


def snake(name):
    return re.sub(r"([a-z'])([A-Z])", r"\1_\2", name).lower()


def files(top, *ends):
    for folder, dirs, names in os.walk(top):
        dirs[:] = sorted(d for d in dirs if d not in ("out", "target", ".git"))
        for name in sorted(names):
            if name.endswith(ends):
                yield os.path.join(folder, name)


def read(path):
    with open(path, encoding="utf-8") as f:
        return f.read()


def split(line, mark):
    """The line's code and its comment."""
    at = line.find(mark)
    return (line, "") if at < 0 else (line[:at], line[at:])


def dictionary():
    """The names with a capital inside a part, by part: `by-usersFormed` has `usersFormed`."""
    crates = set(os.listdir("crates"))
    library, own = set(), set()
    for path in files("crates", ".antt"):
        text = "\n".join(split(line, "--")[0] for line in read(path).splitlines())
        for m in re.finditer(r"use ([\w.]+)\.\{([^}]*)\}", text):
            parts = m.group(1).split(".")
            if not (parts[0] == "Rattle" and parts[1] in crates):
                library |= {n.strip().split(" as ")[0].strip() for n in m.group(2).split(",")}
        own |= set(TOKEN.findall(text))
    # A goal's name begins with `Need` and may end with the name of one of its variants.
    own = {w for w in own if re.match(r"[a-z]", w) and re.search(r"[a-z0-9][A-Z]", w) and w not in library}
    return {w: snake(w) for w in own}


def turned(text, words):
    return TOKEN.sub(lambda m: words.get(m.group(0), m.group(0)), text)


def turn_code(text, words, mark):
    """All but strings; in comments too."""
    out = []
    for line in text.split("\n"):
        body, comment = split(line, mark)
        parts = re.split(r'("(?:[^"\\]|\\.)*")', body)
        parts = [p if i % 2 else turned(p, words) for i, p in enumerate(parts)]
        out.append("".join(parts) + turned(comment, words))
    return "\n".join(out)


def turn_docs(text, words):
    return re.sub(r"`[^`\n]*`", lambda m: turned(m.group(0), words), text)


def main(argv):
    words = dictionary()
    if argv == ["--list"]:
        print("\n".join(f"{old} {new}" for old, new in sorted(words.items())))
        return 0
    todo = [(p, turn_code(read(p), {**words, **LEMMAS}, "--")) for p in files("crates", ".antt")]
    todo += [(p, turn_code(read(p), words, "//")) for p in files("crates", ".rt", ".edit", ".slip")]
    for top in ("README.md", "docs", "tests"):
        paths = [top] if os.path.isfile(top) else files(top, ".md")
        todo += [(p, turn_docs(read(p), words)) for p in paths]
    changed = 0
    for path, text in todo:
        if read(path) != text:
            changed += 1
            with open(path, "w", encoding="utf-8") as f:
                f.write(text)
    print(f"{len(words)} names, {changed} files")
    return 0


if __name__ == "__main__":
    raise SystemExit(main(sys.argv[1:]))
