#!/usr/bin/env python3
"""The places of the design pass (docs/DESIGN-PASS.md): lines of crates/*/src that match a form, by the page's points.

    python3 tools/places.py         how many of each form
    python3 tools/places.py -l      and where

It goes by the text alone, comments left out: what it finds is to be read, and what it does not find may be there.
"""
import glob
import os
import re
import sys

# (point, what it is, pattern)
FORMS = [
    (1, "a refusal number or a flag in a struct beside a value", r"^\s+(pub(\(crate\))? )?(refusal|had|some): (u8|bool),$"),
    (1, "an enum of the shape of Option", r"\benum Found\b"),
    (1, "a function that answers a refusal by its number",
     r"fn (damage|whole|lowest|refusal|refusal_by|of_plan|of_fonts)\(.*(-> u8|\($)|fn of_\w+\(.*-> u8"),
    (1, "a refusal given by a number",
     r"\brefusal: [0-9]+,|\b(refused|untouched|Refused|naming_64)\([0-9]|answer\(Base::\w+, ([0-9]|got)|^\s+return unseen\(\)"),
    (1, "a refusal number looked at", r"\.refusal != 0|\bif (n|wrong|damage|refusal) != 0"),
    (1, "a kind or a flag by its number",
     r"set_pending\(\w+, [0-9]|match kind \{|set_(shown|scrolling|dimming)\(\w+, [01]\)|\(kind: u8, code: u8|if (on|kind) [!=]= [01]"),
    (1, "a failure said where it happens and answered by false", r"^\s+(lines::)?(fail|say_not_regular|say)\(rt, .*;$"),
    (2, "the lesser of two, or how far they are apart, for each width", r"fn (least|apart)\("),
    (2, "a flag as a number, for each width", r"fn (bit|one_if)\("),
    (2, "the same question but for the call in it", r"^pub fn (dot|underline|lit|view)\(block"),
    (2, "a file opened or read by a function of each program", r"^(pub(\(crate\))? )?fn (open|read_all|read_full)\b"),
    (2, "one step on a block and on the lounge module's head", r"fn (move_to|set_scrolling|set_pending|hold|release|held_of)\("),
    (3, "a loop that counts by hand", r"^\s*while "),
    (4, "numbers to bytes and back by hand", r"fn (join|byte_of|four_bytes|number_at)\("),
    (4, "a field copied to be lent or called",
     r"^\s*let (mut )?(u|users|bytes|codes|fonts|marks|held|chars|index|p|pending|s|stop|c|shows|level|condition|spent) = \w+(\.\w+)+;$"),
    (4, "a field named twice", r"^\s+(\w+): \1,$"),
    (4, "a case of a match for each that is as all others", r"^\s+(\w+::)?\w+(\(.*\))? => (false|0),$"),
    (4, "ones counted by hand", r"fn ones_in\("),
    (5, "a length in a clause that a type can have", r"requires \{.*(length \w+\.(old|now) ≡ \d+|\d+ ≤ length \w+\.(old|now))"),
    (5, "the bytes of user characters and their count",
     r"(bytes|users): &(mut )?\[u8\],.*count: u8|count: u8, (bytes|users): &|&(bytes|users), \w+\.count|\(users, n"),
    (5, "the head and the rows of the lounge module", r"\bh: &(mut )?\[u8\]|^\s+h: &mut \[u8\]"),
    (5, "wanted codes, fonts and a cursor", r"wanted: &\[u8\], fonts: &\[u8\]|^\s+fonts: &\[u8\],$"),
    (6, "a buffer and how much of it is written", r"out: &mut \[u8\], k: usize"),
    (6, "how much is written, handed from line to line", r"let (first|second|third|fourth|fifth|at|next|a|b|d) = (lines::)?add_\w+\("),
    (7, "a call chosen by its number", r"^\s+([0-9]|_) => of_\w+\("),
]


def code(path):
    """The lines of a file, numbered, without comments."""
    for n, line in enumerate(open(path, encoding="utf-8"), 1):
        yield n, re.sub(r"\s*//.*$", "", line.rstrip("\n"))


def main():
    where = sys.argv[1:] == ["-l"]
    top = os.path.dirname(os.path.dirname(os.path.abspath(__file__)))
    files = sorted(glob.glob(os.path.join(top, "crates", "*", "src", "*.rt")))
    for point, what, pattern in FORMS:
        found = [
            (os.path.relpath(path, top), n, line.strip())
            for path in files
            for n, line in code(path)
            if re.search(pattern, line)
        ]
        print(f"{point} {len(found):4} {what}")
        if where:
            for path, n, line in found:
                print(f"         {path}:{n}: {line}")


if __name__ == "__main__":
    main()
