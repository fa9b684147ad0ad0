#!/usr/bin/env python3
"""Lets the proofs follow a wrong program whose change renames goals: tools/renamed.py CRATE/EDIT..

A goal and a step are named after the test before them, so a wrong program that changes a test (`<` for `<=`) has other names, and
would be refused for an answer that no longer finds its goal. This appends to each edit what renames them in the proof files of the
function, and nothing else, so that the refusal is for the fact that fails. What an earlier call appended it takes away first.
The names are those that `rattle check --generated DIR --old-names` lists for the code as it is and as the edit leaves it.
"""

import json
import os
import re
import shutil
import subprocess
import sys
import tempfile

NOTE = "# the names that the changed test has, in the proof"


def read(path):
    with open(path, encoding="utf-8") as f:
        return f.read()


def apply(edit, folder):
    path = old = None
    for line in edit.split("\n"):
        if line.startswith("file: "):
            path = os.path.join(folder, line[6:].strip())
        elif line.startswith("old: "):
            old = line[5:]
        elif line.startswith("new:"):
            text = read(path)
            if text.count(old) != 1:
                raise SystemExit(f"{path}: its old text stands {text.count(old)} times: {old}")
            with open(path, "w", encoding="utf-8") as f:
                f.write(text.replace(old, line[4:].removeprefix(" ")))


def names(root, crate):
    """The names of each function's goals, steps and places, in the order of the code."""
    kit = os.path.dirname(os.path.dirname(os.path.realpath(shutil.which("rt"))))
    sys.path.insert(0, os.path.join(kit, "bin"))
    import rtlib

    here = os.getcwd()
    folder = os.path.join(root, "crates", crate)
    with tempfile.TemporaryDirectory() as out:
        os.chdir(folder)
        one = rtlib.Crate(folder, rtlib.root_above(folder), {})
        one.out = sys.stderr
        words = one.words(["--generated", out, "--old-names"], as_source=True)
        ran = subprocess.run([rtlib.RATTLE, "check", *words], stdout=subprocess.PIPE, stderr=subprocess.STDOUT, text=True)
        os.chdir(here)
        if not os.path.exists(os.path.join(out, "names.json")):
            raise SystemExit(ran.stdout[-2000:])
        found = json.loads(read(os.path.join(out, "names.json")))
    return {k: v for k, v in found.items() if isinstance(v, dict) and "needs" in v}


def listed(one):
    arms = [[arm[0], *[field[0] for field in arm[2]]] if arm else None for arm in one["arms"]]
    return (
        [new for _, new in one["needs"]],
        [place[2][1] for place in one["places"]],
        one["places_by_name"],
        [name for arm in arms if arm for name in arm],
        [loop[0][1] for loop in one["loops"]],
    )


def renames(was, now):
    found = {}
    for a, b in zip(listed(was), listed(now)):
        if len(a) != len(b):
            return None
        found.update({x: y for x, y in zip(a, b) if x != y})
    # a branch's name, as a join's `elim` has it
    found.update({f"{w}-{x[3:]}": f"{w}-{y[3:]}" for x, y in list(found.items()) if x.startswith("if-") for w in ("then", "else")})
    return found


def follow(label):
    crate, edit = label.split("/")
    path = f"crates/{crate}/must-fail/{edit}.edit"
    text = read(path).split(NOTE)[0].rstrip("\n") + "\n"
    with tempfile.TemporaryDirectory() as room:
        shutil.copytree("crates", f"{room}/crates", ignore=shutil.ignore_patterns("out"))
        shutil.copy("crates.txt", room)
        was = names(os.getcwd(), crate)
        apply(text, f"{room}/crates/{crate}")
        now = names(room, crate)
    added = []
    for key, one in was.items():
        names_of = renames(one, now[key])
        if names_of is None:
            print(f"{label}: {key} has another shape")
            continue
        if not names_of:
            continue
        folder = f"proofs/{'/'.join(key.split('proofs.')[1].split('.')[:-1])}"
        token = re.compile(r"(?<![\w'\-])(" + "|".join(re.escape(n) for n in sorted(names_of, key=len, reverse=True)) + r")(?![\w'\-])")
        for name in ("Answers.antt", "Invariants.antt"):
            file = f"crates/{crate}/{folder}/{name}"
            if not os.path.exists(file):
                continue
            lines = read(file).split("\n")
            pairs = []
            for line in lines:
                new = token.sub(lambda m: names_of[m.group(1)], line)
                if new != line:
                    if "\n".join(lines).count(line) != 1:
                        print(f"{label}: this stands more than once: {line}")
                    pairs.append(f"old: {line}\nnew: {new}")
            if pairs:
                added.append(f"file: {folder}/{name}\n" + "\n".join(pairs))
    with open(path, "w", encoding="utf-8") as f:
        f.write(text + (f"{NOTE}\n" + "\n".join(added) + "\n" if added else ""))
    print(f"{label}: {sum(a.count('old: ') for a in added)} lines of proofs follow")


def main(argv):
    if not argv:
        print(__doc__)
        return 2
    for label in argv:
        follow(label)
    return 0


if __name__ == "__main__":
    raise SystemExit(main(sys.argv[1:]))
