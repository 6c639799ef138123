#!/usr/bin/env python3
"""Brings this repository's own definitions and lemmas to the spelling of today's Rattle.

usage: python3 tools/respell.py [--list]     at the top of the repository, once, after the kit's port.py

Words become snake case (`verdictOf` to `verdict_of`, `after-all` to `after_all`), facts and types upper camel case (`One-verdict` to `OneVerdict`).
Names that Rattle makes (the goals of answers and invariants) and names of the library stay. Two crates get other names, since the kit has libraries of theirs:
`hex` becomes `hex_text`, and `log` becomes `log_lines`. With --list the names are printed and nothing is changed.
"""

import collections
import os
import re
import subprocess
import sys

IDENT = r"[^\s(){};:,.\"@]+"
CRATES = {"hex": "hex_text", "log": "log_lines"}
# lemmas that would fall together with the definition that they speak of, or with another
LEMMAS = "asn-text bit-count fused-from high-count length-octets one-prefix one-tail prefix-count prefix-text quad-parts record-by same-family some-rows v4-text v6-text high-half low-half"
CHOSEN = {n: n.replace("-", "_") + "_lem" for n in LEMMAS.split()}
# the same for lemmas that port.py brought to snake case, in their crates' proofs
HERE = {"ranges": "from_first", "route_text": "is_digit", "prefixes": "low_count", "layout": "on_row", "repeats": "place_after"}


def files(*endings):
    for folder, dirs, names in os.walk("crates"):
        dirs[:] = sorted(d for d in dirs if d != "out")
        for n in sorted(names):
            if n.endswith(endings):
                yield os.path.join(folder, n)


def read(p):
    with open(p, encoding="utf-8") as f:
        return f.read()


def declared():
    """The names that the repository's antt files declare, those that Rattle makes, and those of libraries."""
    own, made, library = collections.defaultdict(set), set(), set()
    for p in files(".antt"):
        text = read(p)
        for line in text.split("\n"):
            if line.startswith("--"):
                continue
            m = re.match(r"^\s*(?:abbrev |unfoldable |pub |private |mutual )*(?:data |record )?(" + IDENT + r")((?:\s+" + IDENT + r")*)?\s*(?:\{[^}]*\}\s*|\([^)]*\)\s*)*:\s", line)
            if m and " = " not in line.split(":")[0]:
                if re.search(r":\s*(goal|given|steps)\.", line):
                    made.add(m.group(1))
                else:
                    for n in [m.group(1)] + (m.group(2) or "").split():
                        own[n].add(p)
        for m in re.finditer(r"use (Rattle\.[^\s{]+)\.\{([^}]*)\}", text):
            if not os.path.isdir("crates/" + m.group(1).split(".")[1]):
                for n in m.group(2).split(","):
                    a = re.match(r"\s*(\S+) as (\S+)", n)
                    library.add(a.group(1) if a else n.strip())
                    if a:
                        own[a.group(2)].add(p)
    for p in files(".rt"):
        for m in re.finditer(r"(?m)^\s*ghost (" + IDENT + r"): ", read(p)):
            own[m.group(1)].add(p)
    return own, made, library


def spelling(n):
    if n in CHOSEN:
        return CHOSEN[n]
    if n[0].isupper():
        return "".join(w[:1].upper() + w[1:] for w in n.split("-"))
    n = re.sub(r"(?<=[a-z0-9])([A-Z])(?=[A-Z])", r"_\1", n)
    n = re.sub(r"(?<=[a-z0-9])([A-Z])", r"_\1", n)
    return n.replace("-", "_").replace("′", "'").lower()


def renamed():
    own, made, library = declared()
    names = {}
    for n in own:
        if n in made or n in library or not re.match(r"^[A-Za-z][A-Za-z0-9_'-]*$", n):
            continue
        if spelling(n) != n and (re.search(r"[a-z0-9][A-Z]", n) and n[0].islower() or "-" in n):
            names[n] = spelling(n)
    return names, own


def tokens(text):
    return set(re.findall(IDENT, text))


def turn(text, names):
    """Names behind `c.` or `w.` are Rattle's, which makes them of the source's."""
    return re.sub(r"(?<!\b[cw]\.)" + IDENT, lambda m: names.get(m.group(0), m.group(0)), text)


def turn_lemmas(text, names):
    """A lemma's name stands alone, and not in a path."""
    return re.sub(r"(?<![^\s(){};,\"@])" + IDENT + r"(?!\.)", lambda m: names.get(m.group(0), m.group(0)), text)


def turn_source(text, names):
    """In Rust text the names stand in clauses alone: strings stay as they are."""
    parts = re.split(r'("(?:[^"\\\n]|\\.)*")', text)
    return "".join(p if i % 2 else turn(p, names) for i, p in enumerate(parts))


def main():
    names, own = renamed()
    seen = collections.defaultdict(list)
    for p in files(".antt", ".rt"):
        for t in tokens(read(p)):
            seen[t].append(p)
    back = collections.defaultdict(list)
    for n, to in names.items():
        back[to].append(n)
    for to in sorted(back):
        if len(back[to]) > 1:
            print("together:", " ".join(back[to]), "->", to)
        for n in back[to]:
            both = [p for p in seen[n] if p in set(seen.get(to, []))]
            if both:
                print("beside:", n, "->", to, "in", both[0], "" if len(both) == 1 else f"and {len(both) - 1} more")
    if "--list" in sys.argv:
        for n in sorted(names):
            print(n, names[n])
        return
    for p in files(".antt", ".rt", ".edit"):
        old = read(p)
        here = HERE.get(p.split("/")[1], "").split() if "/proofs/" in p else []
        first = turn_lemmas(old, {n: n + "_lem" for n in here}) if here else old
        new = turn_source(first, names) if p.endswith((".rt", ".edit")) else turn(first, names)
        for a, b in CRATES.items():
            new = re.sub(r"Rattle\." + a + r"\.", f"Rattle.{b}.", new)
            if p.endswith((".rt", ".edit")):
                new = re.sub(r"(?<![\w:])" + a + "::", b + "::", new)
        if new != old:
            with open(p, "w", encoding="utf-8") as f:
                f.write(new)
    for a, b in CRATES.items():
        if os.path.isdir("crates/" + a):
            subprocess.run(["git", "mv", "crates/" + a, "crates/" + b], check=True)
    lines = []
    for line in read("crates.txt").split("\n"):
        if not line.startswith("#"):
            for a, b in CRATES.items():
                line = re.sub(r"(?<![\w])" + a + r"(?![\w])", b, line)
        lines.append(line)
    with open("crates.txt", "w", encoding="utf-8") as f:
        f.write("\n".join(lines))


main()
