#!/usr/bin/env python3
"""Brings the names of this repository's own definitions, lemmas and fields to snake case: maxOf-cons becomes max_of_cons.

usage: python3 tools/port_names.py        at the top, once, after port.py

Names of functions of src/, of types and of modules stay, and so do names that Rattle makes in proofs/F/.
Prints each name that it turned, and stops where two names would fall together.
"""

import os
import re

NAME = r"[^\s(){}\[\];,.\"`⌜⌝]+"
TOKEN = re.compile(NAME)
KEPT = {"LET"}
# in_order and in_range name other things already, and these are fields or clash with them
SPECIAL = {"inOrder": "order_kept", "in-range": "in_range"}


def files(suffix):
    for d, ds, fs in os.walk("crates"):
        ds[:] = sorted(x for x in ds if x != "out")
        for f in sorted(fs):
            if f.endswith(suffix):
                yield os.path.join(d, f)


def is_of_a_function(path):
    parts = path.split("/")
    return parts[2] == "proofs" and len(parts) > 4


def own_names(text):
    """The definitions, lemmas, constructors and fields of a file."""
    found = set()
    for line in text.splitlines():
        m = re.match(rf"(?:abbrev |unfoldable )?(?:pub )?(?:data |record )?({NAME})(?=[\s(:{{])", line)
        if m and not line.startswith(("use ", "--", "unfolding", " ", "open ", "mod ", "pub mod ")) and re.match(r"[^=]*?:\s", line):
            found.add(m.group(1))
        m = re.match(rf"\s+(?:pub )?({NAME}) : ", line)
        if m:
            found.add(m.group(1))
    return found


def snake(name):
    name = re.sub(r"(?<=[a-z0-9])([A-Z]+)", lambda m: "_" + m.group(1).lower(), name)
    name = re.sub(r"-([A-Z]+)(?=$|[-_0-9])", lambda m: "-" + m.group(1).lower(), name)
    return name.replace("-", "_")


def foreign(text):
    """What a file imports from elsewhere."""
    names = set()
    for m in re.finditer(r"use ([\w.·+]+)\.\{([^}]*)\}", text):
        own = m.group(1).startswith("Rattle.") and os.path.isdir("crates/" + m.group(1).split(".")[1])
        if not own:
            names |= {n.strip() for n in m.group(2).split(",")}
    return names


def main():
    texts = {p: open(p, encoding="utf-8").read() for s in (".antt", ".rt") for p in files(s)}
    own = set()
    for p, t in texts.items():
        if p.endswith(".antt") and not is_of_a_function(p):
            own |= own_names(t)
    words = {n for t in texts.values() for n in foreign(t)}
    turned = {}
    for n in sorted(own):
        if n[0].islower() and snake(n) != n and n not in KEPT and re.fullmatch(r"[A-Za-z0-9_'-]+", n):
            turned[n] = SPECIAL.get(n, snake(n))
    # A definition keeps its plain name; a lemma that would have the name of a definition, of a word of std or of another lemma gets _lem.
    taken = (own - turned.keys()) | words | {to for n, to in turned.items() if "-" not in n}
    back = {}
    for n in sorted(turned, key=lambda n: "-" in n):
        if "-" in n and n not in SPECIAL and (turned[n] in taken or turned[n] in back):
            turned[n] += "_lem"
        to = turned[n]
        if n not in SPECIAL and (to in back or to in (own - turned.keys()) | words):
            raise SystemExit(f"falls together: {n} {back.get(to, '')} {to}")
        back[to] = n
    for p, t in texts.items():
        others = foreign(t)
        new = TOKEN.sub(lambda m: m.group(0) if m.group(0) in others else turned.get(m.group(0), m.group(0)), t)
        if new != t:
            with open(p, "w", encoding="utf-8") as f:
                f.write(new)
    for n, to in turned.items():
        print(n, to)


main()
