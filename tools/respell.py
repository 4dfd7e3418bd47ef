#!/usr/bin/env python3
"""Brings this repository's definitions and lemmas to one spelling: words in snake case.

usage: python3 tools/respell.py        at the top, once, right after the kit's port.py
       python3 tools/respell.py --list prints the names, old and new, and changes nothing

Renamed are the names that specs/ and the lemma files of proofs/ declare: `sizesOk` becomes `sizes_ok`, `beside-right` becomes
`beside_right`. A dash stays where it stands between the outer call of a lemma's left side and the rest, as in `length-tabulate`.
Functions of src/, types, modules, record names, exported names, strings, inputs and outputs keep their names. The proofs of single
functions (proofs/F/) are followed, not judged: what they declare for themselves keeps its name. Two names that would fall together
end the run.
"""
import glob
import re
import sys
from collections import defaultdict

WORD = r"[^\W\d][\w'₀-₉-]*"
# The outer call of a left side, before a dash that stays.
OUTER = ("length", "gap", "manhattan", "beside")
# What would fall together with another name gets a name of its own.
OWN = {
    "leg-at": "leg_fair_at",
    "onFloor": "ends_on_floor",
    "parent-of": "parent_of_way",
    "raised_at": "raised_here",
    "stands-for": "stands_for_ending",
    "up-to": "within_up_to",
    "walk-refusal": "walk_refusal_is",
}


def shared():
    return sorted(glob.glob("crates/*/specs/*.antt") + glob.glob("crates/*/proofs/*.antt"))


def spelt(name):
    if name in OWN:
        return OWN[name]
    outer, dash, rest = name.partition("-")
    kept = outer + "-" if dash and outer in OUTER else ""
    rest = name[len(kept):].replace("-", "_")
    return kept + re.sub(r"(?<=[a-z0-9])([A-Z])", lambda m: "_" + m.group(1).lower(), rest) if rest[:1].islower() else kept + rest


def declared(text):
    """Names that a file declares: definitions, lemmas, fields and constructors."""
    for line in text.split("\n"):
        line = line.split("--")[0]
        m = re.match(rf"\s*(?:(?:pub|unfoldable|abbrev)\s+)*((?:{WORD}\s+)*{WORD})\s*:(?!:)\s", line)
        if m:
            for name in m.group(1).split():
                yield name
        m = re.match(rf"\s*(?:(?:pub|unfoldable|abbrev)\s+)*ruleset\s+({WORD})", line)
        if m:
            yield m.group(1)


def names():
    found = defaultdict(set)
    for path in shared():
        with open(path, encoding="utf-8") as f:
            for name in declared(f.read()):
                found[name].add(path)
    return found


def code(path, line, turn):
    """A line with its code turned and its words for readers left."""
    if path.endswith(".edit"):
        return turn(line) if re.match("old:|new:", line) else line
    mark = "//" if path.endswith(".rt") else "--"
    text, sign, comment = line.partition(mark)
    return turn(text) + sign + comment


def main(argv):
    found = names()
    turned = {n: spelt(n) for n in found if spelt(n) != n}
    clashes = sorted(n for n in turned if (turned[n] in found and turned[n] not in turned) or sum(v == turned[n] for v in turned.values()) > 1)
    if "--list" in argv:
        for n in sorted(turned):
            print(n, turned[n], "FALLS TOGETHER" if n in clashes else "")
        return 0
    if clashes:
        print("fall together: " + ", ".join(f"{n} as {turned[n]}" for n in clashes))
        return 1
    token = re.compile(rf"(?<![\w'-]){WORD}")
    for path in sorted(glob.glob("crates/*/specs/*.antt") + glob.glob("crates/*/proofs/**/*.antt", recursive=True) + glob.glob("crates/*/src/*.rt") + glob.glob("crates/*/must-fail/*.edit")):
        with open(path, encoding="utf-8") as f:
            old = f.read()
        new = "\n".join(code(path, line, lambda text: token.sub(lambda m: turned.get(m.group(0), m.group(0)), text)) for line in old.split("\n"))
        if new != old:
            with open(path, "w", encoding="utf-8") as f:
                f.write(new)
    return 0


if __name__ == "__main__":
    raise SystemExit(main(sys.argv[1:]))
