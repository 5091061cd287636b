#!/usr/bin/env python3
"""Brings the repository's own definitions and lemmas to the spelling of today's Rattle, after the kit's port.py.

usage: python3 tools/respell.py            at the top of the repository, once; prints old and new names

Types, records and modules are in upper camel case and stay. All else is in snake case: `finalSample` is `final_sample`, and of a lemma a
dash stays only where it joins two names, as in `sets-tab`; elsewhere it is `_`. Functions of src/, exported C names and strings keep their names.
Names that would fall together in one file stop the script before it writes.
"""

import collections
import os
import re
import sys

STOPS = "\\s(){};.,«»\"⌜⌝"
TOKEN = re.compile(f"[^{STOPS}]+")
HEAD = re.compile(r"^( *)((?:unfoldable |abbrev |pub |record |data |ruleset )*)([^\s(){}:.,;«»\"]+)((?: *[({][^\n]*?[)}])*) *:( |$)")
CAMEL = re.compile(r"^[a-z][A-Za-z0-9₀-₉'-]*$")
# what the kit's script made of the library's old names, where they are a part of a name of ours
PARTS = {"getD": "get_or"}
# a type with a small letter, and lemmas that would have the name of their definition
CHOSEN = {"joins": "Joins", "even-only": "even_only_lem", "saved-above": "saved_above_lem", "below_rows": "below_rows_lem"}


def files(ends):
    for folder, dirs, names in os.walk("crates"):
        dirs[:] = sorted(d for d in dirs if d != "out")
        for f in sorted(names):
            if f.endswith(ends):
                yield os.path.join(folder, f)


def snake(word):
    word = PARTS.get(word, word)
    word = re.sub(r"(?<=[a-z0-9₀-₉])([A-Z])", r"_\1", word)
    word = re.sub(r"(?<=[A-Z])([A-Z])(?=[a-z])", r"_\1", word)
    return word.lower()


def imported(text):
    """The names that a file takes from modules that are not the repository's."""
    own = set(os.listdir("crates"))
    out = set()
    for m in re.finditer(r"(?:ghost )?use ([^\s{;]+)\.\{([^}]*)\}", text):
        path = m.group(1).split(".")
        if path[0] == "Rattle" and path[1] in own and "declared" not in path:
            continue
        for item in m.group(2).split(","):
            out.add(item.split(" as ")[-1].strip())
    return out


def heads(text):
    """Lines that give a name its type: its indent, words before it, the name and the line."""
    for line in text.split("\n"):
        if line.lstrip().startswith("--"):
            continue
        m = HEAD.match(line)
        if m:
            yield m.group(1), m.group(2), m.group(3), line


def is_goal(line):
    return re.search(r": (tie|goal)\.", line) or re.search(r": .*\bstatement M$", line)


def main():
    own, definitions, goals = set(), set(), collections.defaultdict(set)
    texts = {p: open(p, encoding="utf-8").read() for p in files((".antt", ".rt"))}
    for p, t in texts.items():
        if not p.endswith(".antt"):
            continue
        for indent, words, name, line in heads(t):
            if is_goal(line):
                goals[p].add(name)
                continue
            own.add(name)
            if "abbrev" in words or "unfoldable" in words or "/specs/" in p:
                definitions.add(name)
    joined = {snake(d) for d in definitions} | {"suc", "get_or"}
    # bound names too: a token of small camel case that no file takes from elsewhere
    foreign = set().union(*(imported(t) for t in texts.values()))
    camel = set()
    for p, t in texts.items():
        for w in TOKEN.findall(t):
            if CAMEL.match(w) and re.search("[A-Z]", w):
                camel.add(w)
    names = {}
    for w in sorted(own | camel):
        if w in foreign or not w[:1].islower() or "◌" in w:
            continue
        if w in CHOSEN:
            names[w] = CHOSEN[w]
            continue
        if w not in own and "-" in w:
            continue
        parts = [snake(x) for x in w.split("-")]
        new = parts[0]
        for k in range(1, len(parts)):
            left = "_".join(parts[:k])
            right = "_".join(parts[k:])
            plain = all(re.match(r"^[a-z0-9_₀-₉']+$", x) for x in (parts[k - 1], parts[k]))
            keep = not plain or ((parts[k - 1] in joined or left in joined) and (parts[k] in joined or right in joined))
            new += ("-" if keep else "_") + parts[k]
        if new != w:
            names[w] = new
    # what falls together
    bad = 0
    back = collections.defaultdict(set)
    for w in own | camel:
        back[names.get(w, w)].add(w)
    where = collections.defaultdict(set)
    for p, t in texts.items():
        for w in set(TOKEN.findall(t)):
            where[w].add(p)
    for new, olds in sorted(back.items()):
        if len(olds) > 1:
            for p in sorted(set.union(*(where[o] for o in olds))):
                here = [o for o in olds if p in where[o]]
                if len(here) > 1:
                    print(f"falls together: {sorted(here)} as {new} in {p}")
                    bad += 1
    for w, new in names.items():
        if new in foreign:
            for p in where[w] & where[new]:
                if new in imported(texts[p]):
                    print(f"falls together with a name from elsewhere: {w} as {new} in {p}")
                    bad += 1
    for w in sorted(names):
        print(w, names[w])
    if bad and "--force" not in sys.argv:
        print(f"{bad} names fall together: nothing was written")
        return 1
    for p, t in texts.items():
        made = "Proof.antt" in p
        def turn(m):
            w = m.group(0)
            if w not in names:
                return w
            if "-" in w and p.endswith(".rt"):
                return w
            if made and "-" in w and (w in goals[p] or t[m.start() - 1 : m.start()] == "."):
                return w
            return names[w]

        # strings keep their text
        pieces = re.split(r'("(?:[^"\\\n]|\\.)*")', t) if p.endswith(".rt") else [t]
        if len(pieces) == 1:
            new = TOKEN.sub(turn, t)
        else:
            new = "".join(x if x.startswith('"') else TOKEN.sub(lambda m: names.get(m.group(0), m.group(0)) if "-" not in m.group(0) else m.group(0), x) for x in pieces)
        if new != t:
            with open(p, "w", encoding="utf-8") as f:
                f.write(new)
    return 0


if __name__ == "__main__":
    raise SystemExit(main())
