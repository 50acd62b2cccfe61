#!/usr/bin/env python3
"""Brings the names of this repository's own definitions and lemmas to snake case, once, after the kit's port.py.

usage: python3 tools/snake_names.py          at the top of the repository
       python3 tools/snake_names.py --dry    prints the names that would change, and those that would fall together

It goes by text: each name that specs/ or proofs/ declare (also under a `where`) with a hyphen or a capital inside is respelled wherever it stands as a whole word, in .antt files and .rt files.
What a proof answers (`pub NAME : goal.NAME`) and what stands behind a dot is made by the checker and keeps its spelling. Types and modules keep their capitals.
"""

import collections
import glob
import re
import sys

# Names whose plain snake case is taken by another name, or says a word of the older kit.
OTHERWISE = {
    "equalZ": "equal_int",
    "getD-meet": "get_or_meet",
    "valueAt-place": "value_at_place",
    "value-at": "is_value_at",
    "bit-and": "and_bits",
    "bit-or": "or_bits",
    "ofOrder": "answer_of_order",
    "ofPlain": "answer_of_plain",
    "ofSettle": "answer_of_settle",
    "in-from": "from_in_says",
}
WORD = r"[A-Za-z_][A-Za-z0-9_'\-]*"
DECLARED = re.compile(r"^[ ]*(?:abbrev |unfoldable |opaque )?(?:pub )?(" + WORD + r")(?: *[({][^\n]*?[)}])* *:(?!=)", re.M)


def files():
    found = glob.glob("crates/**/*.antt", recursive=True) + glob.glob("crates/**/*.rt", recursive=True)
    return sorted(p for p in found if "/out/" not in p)


def snake(name):
    if name in OTHERWISE:
        return OTHERWISE[name]
    name = re.sub(r"(?<=[a-z0-9])([A-Z])", lambda m: "_" + m.group(1).lower(), name)
    return name.replace("-", "_")


def declared(texts):
    """The names to turn: declared in specs/ or proofs/, and no goal."""
    names, goals = set(), set()
    for path, text in texts.items():
        if not path.endswith(".antt"):
            continue
        text = re.sub(r"--[^\n]*", "", text)
        for m in DECLARED.finditer(text):
            after = text[m.end():].split("\n")[0]
            (goals if re.match(r"\s*(goal|need|given)\.", after) else names).add(m.group(1))
    turned = {n for n in names if re.search(r"-|[a-z0-9][A-Z]", n) and n[0].islower()}
    return turned - goals


def main():
    texts = {p: open(p, encoding="utf-8").read() for p in files()}
    turned = {n: snake(n) for n in declared(texts)}
    token = re.compile(r"(?<![\w'.\-])" + WORD)
    words = {p: set(re.findall(r"(?<![\w'\-])" + WORD, re.sub(r"(--|//)[^\n]*", "", t))) for p, t in texts.items()}
    together = collections.defaultdict(set)
    for old, new in turned.items():
        for p, w in words.items():
            if old in w and new in w:
                together[(old, new)].add(p)
    for new, n in collections.Counter(turned.values()).items():
        if n > 1:
            together[("two names", new)].add("")
    for (old, new), where in sorted(together.items()):
        print("fall together:", old, new, *sorted(where))
    if "--dry" in sys.argv:
        for old, new in sorted(turned.items()):
            print(old, new)
        return 0
    n = 0
    for p, t in texts.items():
        turn = lambda m: turned.get(m.group(0), m.group(0))
        new = token.sub(turn, t)
        if new != t:
            open(p, "w", encoding="utf-8").write(new)
            n += 1
    print(f"{len(turned)} names turned in {n} files")
    return 0


if __name__ == "__main__":
    raise SystemExit(main())
