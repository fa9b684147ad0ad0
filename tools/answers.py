#!/usr/bin/env python3
"""Turns proofs that walk the older tie (proofs/F/Proof.antt) into today's Invariants.antt and Answers.antt.

usage: tools/answers.py CRATE NAMES [FUNCTION..]      NAMES is the names.json that `rt check --generated DIR --old-names` writes

An answer keeps its text, but for the names of goals, steps and fields; `c.before.before.f.ensures` becomes `c.f.ensures`. An answer
that only searches goes, since the check searches by itself. What could not be turned is said, and wants a hand.
"""

import json
import os
import re
import sys

TOKEN = re.compile(r"[A-Za-z_µ][\w'\-]*(?:₀)?(?:\.[\w'\-]+)*|[^\sA-Za-z_]|\s+")
WORD = re.compile(r"^[A-Za-z_][\w'\-]*(?:₀)?$")
SEARCHES = re.compile(r"^\s*(search rules|omega arith|refl|search \(?tests\)?)\s*$")


def read(path):
    with open(path, encoding="utf-8") as f:
        return f.read()


def write(path, text):
    with open(path, "w", encoding="utf-8") as f:
        f.write(text)


def step_hits(steps, cited):
    """The steps that a citation may mean, by their older names: with dashes, a count after a dash, or `_lem` from port.py."""
    plain = lambda s: re.sub(r"_lem$", "", s).replace("-", "_")
    counted = lambda s: re.sub(r"-(\d+)$", r"\1", re.sub(r"_lem$", "", s)).replace("-", "_")
    bare = lambda s: re.sub(r"_?\d+$", "", plain(s))
    for like in (plain, counted, bare):
        hits = [k for k, old in enumerate(steps) if old and like(old) == like(cited)]
        if hits:
            return hits
    return []


def items(text):
    """The imports and the items of a proof file: each a list of lines, with the comments above it."""
    uses, found, now = [], [], []
    for line in text.split("\n"):
        if line.startswith("use ") or (uses and not found and not now and line.startswith("    ") and not uses[-1].rstrip().endswith("}")):
            uses.append(line)
            continue
        starts = re.match(r"(?:(?:abbrev|pub|unfoldable) )*[^\s()]+ :", line) or re.match(r"(pub )?record |(pub )?data |module ", line)
        has = any(not l.startswith("--") and l.strip() for l in now)
        if (starts and has) or (line.startswith("--") and has):
            found.append(now)
            now = []
        now.append(line)
    if any(l.strip() for l in now):
        found.append(now)
    return uses, [trim(it) for it in found if any(l.strip() for l in it)]


def trim(lines):
    while lines and not lines[0].strip():
        lines = lines[1:]
    while lines and not lines[-1].strip():
        lines = lines[:-1]
    return lines


class Fn:
    def __init__(self, crate, name, names):
        self.crate, self.name, self.names = crate, name, names
        self.said = []
        self.step = {}
        for i, (old, parent, (was, now), callee, _) in enumerate(names["places"]):
            self.step[old] = (parent, was, now, i)
        self.new_place = dict(zip([p[0] for p in names["places"]], names["places_by_name"]))
        self.loops = {}
        for (was, now), live in names["loops"]:
            self.loops[was] = (now, live)
        self.changed = {was: ch for ((was, _), _), ch in zip(names["loops"], names["changed"])}

    def say(self, text):
        self.said.append(text)

    def norm(self, place):
        for p in self.step:
            if p.replace("_", "-") == place.replace("_", "-"):
                return p
        return None

    def chain(self, place):
        """The places from this one back to the start."""
        while place is not None:
            yield place
            place = self.step[place][0]

    # A path from a place: its steps back, then a step and its fields. A place is the goal's, and how far back from there.
    def path(self, place, segs, goal, var):
        origin, at = place
        chain = list(self.chain(origin))
        k = 0
        while k < len(segs) and segs[k] == "before":
            k += 1
        at, rest = at + k, segs[k:]
        if not rest:
            return (origin, at), None
        if rest[0] in ("args", "requires", "ranges", "lifetimes"):
            return (origin, len(chain) - 1), rest
        hits = step_hits([self.step[p][1] for p in chain], rest[0])
        if not hits:
            self.say(f"{goal}: no step {rest[0]} from {origin}")
            return (origin, at), rest
        best = min(hits, key=lambda h: abs(h - at))
        if len(hits) > 1 and best != at:
            self.say(f"{goal}: which {rest[0]} from {origin}? {[chain[h] for h in hits]}")
        _, was, now, i = self.step[chain[best]]
        return (origin, best), self.fields(chain[best], i, now, rest[1:], was, origin)

    def named(self, place):
        origin, at = place
        chain = list(self.chain(origin))
        return self.new_place[chain[min(at, len(chain) - 1)]]

    def fields(self, place, i, now, rest, was, origin):
        """The step's new name and its fields; an arm's are looked up in the names."""
        for k in range(i, len(self.names["arms"])):
            arm = self.names["arms"][k]
            if not arm:
                continue
            for field, step, path in arm[2]:
                if step == was and path and rest[: len(path)] == path and self.below(k, place) and self.names["places"][k][0] in self.chain(origin):
                    return [arm[0], field, *rest[len(path) :]]
        if was == "match" and rest and rest[0] == "rest":
            return [now]
        return [now, *rest]

    def below(self, k, place):
        here = self.names["places"][k][0]
        while here is not None:
            if here == place:
                return True
            here = self.step[here][0]
        return False

    def flat(self, new, top):
        return ".".join([top, *new])

    def turn(self, body, env, goal, top="c"):
        """Paths in the text of an answer or a lemma."""
        env = dict(env)
        while True:
            m = re.search(r"(?:^|(?<=[\s(]))let ([\w'\-]+) = ([a-z][\w'\-]*(?:\.before)*) in\s*", body)
            if not m:
                break
            src = m.group(2).split(".")
            if src[0] in env and all(s == "before" for s in src[1:]):
                here, rest = self.path(env[src[0]], src[1:], goal, src[0])
                env[m.group(1)] = here
                body = body[: m.start()] + body[m.end() :]
            else:
                break
        out = []
        for m in re.finditer(r"[A-Za-z_][\w'\-]*₀?(?:\.[\w'\-]+)*|[^A-Za-z_]+", body):
            t = m.group(0)
            parts = t.split(".")
            if not re.match(r"[A-Za-z_]", t) or parts[0] not in env or (out and out[-1].endswith((".", "◌"))):
                out.append(t)
                continue
            here, new = self.path(env[parts[0]], parts[1:], goal, parts[0])
            if new is not None:
                out.append(self.flat(new, top))
            elif here[1] == 0:
                out.append(top)
            else:
                out.append(f"(goal.at.{goal} {top}).{self.named(here)}")
        return "".join(out)


def turn_function(crate, path, names, keep_searches=False):
    name = ".".join(os.path.relpath(os.path.dirname(path), f"crates/{crate}/proofs").split(os.sep))
    fn = Fn(crate, name, names)
    text = read(path)
    uses, found = items(text)
    close = re.search(r"tie\.close\s*\(?\s*(?:\(tie\.spec|tie\.spec)([\s\S]*)$", text)
    order = re.findall(r"[^\s()]+", close.group(1)) if close else []
    needs = names["needs"]
    n_inv = [a for a in order if re.match(r"(invariant|decreases)", a)]
    answers = order[len(n_inv) :]
    index = {}
    if len(answers) == len(needs):
        index = {a: i for i, a in enumerate(answers)}
    elif len([a for a in answers if not a.startswith("slice-aggregate")]) == len(needs):
        index = {a: i for i, a in enumerate([a for a in answers if not a.startswith("slice-aggregate")])}
    else:
        fn.say(f"{len(answers)} answers for {len(needs)} needs")
    olds = {}
    for i, (o, n) in enumerate(needs):
        olds[o.replace("_", "-")] = i
    inv, ans = [], []
    for it in found:
        code = trim([l for l in it if not l.startswith("--")])
        notes = [l for l in it if l.startswith("--")]
        if not code:
            continue
        head = code[0]
        m = re.match(r"((?:(?:abbrev|pub|unfoldable) )*)([^\s()]+) :(.*)$", head)
        if not m:
            fn.say(f"not turned: {head}")
            ans.append(("raw", "\n".join(it)))
            continue
        nm, sig = m.group(2), m.group(3)
        if "statement M" in sig:
            continue
        if re.match(r"invariant-|decreases-", nm):
            kind, loop = nm.split("-", 1)
            if loop not in fn.loops:
                fn.say(f"no loop {loop} among {list(fn.loops)}")
                inv.append("\n".join(it))
                continue
            now, live = fn.loops[loop]
            body = "\n".join(code[1:])
            mm = re.match(re.escape(nm) + r"((?:\s+[^\s=]+)*)\s*=([\s\S]*)$", body)
            vars_ = mm.group(1).split()
            ch = fn.changed[loop]
            # initial values of all that is live, then the current ones of what changes
            sub = {}
            want = len(live) + sum(ch)
            if len(vars_) != want:
                vars_ = [v for v in vars_ if not re.match(r"t\d+₀?$", v)]
            if len(vars_) != want:
                fn.say(f"{nm}: {len(vars_)} variables, {want} wanted: {vars_} for {live} {ch}")
            now_vars = [v for v, c in zip(live, ch) if c]
            for v, l, c in zip(vars_, live, ch):
                sub[v] = f"l.initial.{l}" if c else f"l.{l}"
            for v, l in zip(vars_[len(live) :], now_vars):
                sub[v] = f"l.{l}"
            new = re.sub(r"(?<![\w.'\-◌])([A-Za-z_][\w'\-]*₀?)((?:\.[\w'\-]+)*)", lambda k: sub.get(k.group(1), k.group(1)) + k.group(2), mm.group(2))
            inv.append("\n".join(notes + [f"abbrev pub {kind}-{now} : goal.{kind}-{now}", f"{kind}-{now} l ={new}"]))
            continue
        need = re.match(r"\s*(?:\([^)]*\)\s*→\s*)*tie\.Need-([\w'\-]+)", sig)
        if need:
            i = index.get(nm)
            if i is None:
                key = need.group(1)
                key = re.sub(r"^overflow-", "", key)
                key = re.sub(r"^slice-bounds-", "part-", key)
                i = olds.get(key.replace("_", "-"))
            if i is None and need.group(1).startswith("slice-aggregate"):
                continue
            if i is None:
                fn.say(f"no goal for {nm} ({sig.strip()})")
                ans.append(("raw", "\n".join(it)))
                continue
            new, place = needs[i][1], names["asked_at"][i][0]
            rest = code[1:]
            unf = [l for l in rest if l.startswith("unfolding")]
            rest = [l for l in rest if not l.startswith("unfolding")]
            body = "\n".join(rest)
            mm = re.match(re.escape(nm) + r"((?:\s+[^\s=]+)*)\s*=([\s\S]*)$", body)
            if not mm:
                fn.say(f"{nm}: no body read")
                ans.append(("raw", "\n".join(it)))
                continue
            bs = mm.group(1).split()
            term = mm.group(2)
            if SEARCHES.match(term) and not unf and not keep_searches:
                continue
            c = bs[0]
            t = fn.turn(term, {c: (place, 0)}, new, c)
            ans.append(("goal", "\n".join(notes + [f"pub {new} : goal.{new}"] + unf + [f"{new} {c} ={t}"]), new))
            continue
        # a lemma over a place
        mm = re.search(r"\((\w+) : tie\.([\w'\-]+)[^)]*\)", sig)
        if mm:
            var, pl = mm.group(1), fn.norm(mm.group(2))
            if pl is None:
                fn.say(f"lemma {nm}: no place {mm.group(2)}")
                ans.append(("raw", "\n".join(it)))
                continue
            newp = fn.new_place[pl]
            t = "\n".join(code)
            t = t.replace(mm.group(0), f"({var} : goal.{newp})", 1)
            lines = t.split("\n")
            head2 = lines[0]
            k = head2.index(f"({var} : goal.{newp})") + len(f"({var} : goal.{newp})")
            pre, post = t[:k], t[k:]
            # the variable's name in the clause
            cl = re.search(r"(?m)^" + re.escape(nm) + r"((?:\s+[^\s=]+)+)\s*=", post)
            env = {var: (pl, 0)}
            if cl:
                env[cl.group(1).split()[0]] = (pl, 0)
            t = pre + fn.turn(post, env, nm, var)
            ans.append(("lemma", "\n".join(notes) + ("\n" if notes else "") + t))
            continue
        mm = re.match(r"\s*tie\.([\w'\-]+)[^→]* → (.*)$", sig)
        if mm and fn.norm(mm.group(1)):
            pl = fn.norm(mm.group(1))
            body = "\n".join(code[1:])
            b2 = re.search(re.escape(nm) + r" (\w+)", body)
            var = b2.group(1) if b2 else "c"
            t = fn.turn(body, {var: (pl, 0)}, nm, var)
            ans.append(("lemma", "\n".join(notes + [f"{m.group(1)}{nm} : goal.{fn.new_place[pl]} → {mm.group(2)}", t])))
            continue
        if "tie." in "\n".join(code):
            fn.say(f"not turned: {head}")
        ans.append(("raw", "\n".join(it)))
    folder = os.path.dirname(path)
    keep = [u for u in uses if not re.search(r"\.(Statement|Tie)( as|\.\{)", u)]
    me = f"Rattle.{crate}.proofs.{name}"
    if inv:
        write(os.path.join(folder, "Invariants.antt"), "\n".join(keep + [f"use {me}.Given as goal", ""]) + "\n" + "\n\n".join(inv) + "\n")
    body = "\n\n".join(a[1] for a in ans)
    if ans:
        write(os.path.join(folder, "Answers.antt"), "\n".join(keep + [f"use {me}.Goals as goal", ""]) + "\n" + body + "\n")
    os.remove(path)
    if not inv and not ans:
        os.rmdir(folder)
    for s in fn.said:
        print(f"{crate} {name}: {s}")


def main(argv):
    crate, names = argv[0], json.loads(read(argv[1]))
    only = argv[2:]
    top = f"crates/{crate}/proofs"
    for folder, _, fs in os.walk(top):
        if "Proof.antt" not in fs:
            continue
        path = os.path.join(folder, "Proof.antt")
        name = ".".join(os.path.relpath(folder, top).split(os.sep))
        if only and name not in only:
            continue
        if "tie.close" not in read(path):
            print(f"{crate} {name}: walked by hand, not turned")
            continue
        key = f"Rattle-{crate}-proofs.{name}.Lts"
        if key not in names:
            print(f"{crate} {name}: no names")
            continue
        turn_function(crate, path, names[key])
    return 0


if __name__ == "__main__":
    raise SystemExit(main(sys.argv[1:]))
