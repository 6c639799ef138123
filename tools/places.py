#!/usr/bin/env python3
"""Lists the places in crates/*/src that a newer form of the language might serve, point by point.

    tools/places.py            the number of places of each kind
    tools/places.py KIND       the places of a kind, a line each
    tools/places.py KIND DIR   the same over another checkout

The kinds go by the points of docs/DESIGN-PASS.md: their first character is the point's number.
"""
import pathlib
import re
import sys
from collections import defaultdict

LINE_KINDS = {
    "1-sentinel": r"//.*(, 0 where|, and 0 where|: 0 where|0 past its last)",
    "1-kind-as-constant": r"^pub const [A-Z_]+: u8",
    "1-tag-as-number": r"(expect(::<[A-Za-z]+>)?\(.*0x|tag (==|!=) 0x|put_head\(0x|write_header\(0x|whole(::<[A-Za-z]+>)?\(.*0x|^\s+0x[0-9a-f]{2} => )",
    "1-number-as-kind": r"(before: u8|number: u8|-> u8$|\(u8, )",
    "1-flag": r"(: bool[,)]|\(bool, |let \([a-z_]+, breach\))",
    "3-counted-loop": r"^\s*for [a-z_]+ in [^\[{]*\.\.",
    "3-counted-by-enumerate": r"^\s*for \(i, ",
    "3-while": r"^\s*while ",
    "4-equality-by-hand": r"fn (same|same_[a-z]+|is_before)\b",
    "4-order-by-hand": r"fn (compare|at_most|precedes|outlasts)\b",
    "4-cast": r" as (u8|u16|u32|u64|u128|usize|char)\b",
    "4-conversion-by-hand": r"fn (v6|v6_number|width_of|family_named|big_endian|number_octet|length_of|sized)\b",
    "4-word-by-hand": r"fn (word|message)\b",
    "5-placed": r"Placed",
    "5-size-of-table": r"requires.*length [a-z0-9_]+\.(old|now) ≡ [0-9]+",
    "5-heap-beside-text": r"heap: Global",
    "5-area-and-place": r"area: &mut \[u8\], at: usize|\barea: &mut \[u8\],? ?$|^\s+at: usize,",
    "5-key-message-signature": r"(signature: &\[u8\]|signature: &'a \[u8\])",
    "5-route-and-origin": r"route: Prefix",
    "5-octets-and-unused": r"unused: u8",
    "6-count-beside-buffer": r"^\s*(pub )?count: usize,",
    "7-class-to-test": r"(class: Class|Name::[A-Z])",
}


def sources(root):
    return sorted(pathlib.Path(root).glob("crates/*/src/**/*.rt"))


def by_line(root, pattern):
    found = []
    for path in sources(root):
        for number, line in enumerate(path.read_text().split("\n"), 1):
            if re.search(pattern, line):
                found.append(f"{path.relative_to(root)}:{number}: {line.strip()}")
    return found


def functions(root):
    """Each function: its place, its name, its parameters' text, its clauses, its body."""
    head = re.compile(r"^( *)(pub )?fn (\w+)")
    for path in sources(root):
        lines = path.read_text().split("\n")
        i = 0
        while i < len(lines):
            m = head.match(lines[i])
            if not m:
                i += 1
                continue
            indent = m.group(1)
            j = i
            while j < len(lines) and lines[j] != indent + "}" and not (lines[j].rstrip().endswith(";") and lines[j].startswith(indent + "fn")):
                j += 1
            yield f"{path.relative_to(root)}:{i + 1}", m.group(3), lines[i : j + 1]
            i = j + 1


def normal(lines):
    """A function's text without its name, comments, clauses, type names, numbers and texts."""
    code = [l for l in lines if not re.match(r"\s*(//|requires|ensures)", l)]
    text = " ".join(code)
    text = re.sub(r"//.*", "", text)
    text = re.sub(r'b?"(\\.|[^"\\])*"', "T", text)
    text = re.sub(r"b'(\\.|[^'])'", "N", text)
    text = re.sub(r"\bfn \w+", "fn", text)
    text = re.sub(r"<[^<>]*>", "", text)
    text = re.sub(r"\b(0x[0-9a-f_]+|[0-9][0-9_]*)(u8|u64|usize)?\b", "N", text)
    text = re.sub(r"\b[A-Z]\w*\b", "K", text)
    text = re.sub(r"\b(u8|u16|u32|u64|u128|usize)\b", "K", text)
    return re.sub(r"\s+", "", text)


def twins(root):
    groups = defaultdict(list)
    for place, name, lines in functions(root):
        key = normal(lines)
        if len(key) > 30 and not re.search(r"\{(let\w+=)?true;?\w*\}$", key):
            groups[key].append(f"{place}: {name}")
    return [" | ".join(g) for g in groups.values() if len(g) > 1]


def repeated_facts(root):
    """Facts that stand in the clauses of three or more functions of one crate."""
    facts = defaultdict(set)
    for place, name, lines in functions(root):
        crate = place.split("/")[1]
        for line in lines:
            m = re.match(r"\s*(requires|ensures)( \w+)? \{ (.*) \}$", line)
            if m:
                fact = re.sub(r"\b[a-z_0-9]+(\.(now|old|new|entry))", r"X\1", m.group(3))
                if m.group(1) == "requires" or re.match(r"^(IfOk|IfSome|\(?result)", fact):
                    facts[(crate, m.group(1), fact)].add(name)
    return [f"{c}: {k} {{ {f} }}: {', '.join(sorted(n))}" for (c, k, f), n in sorted(facts.items()) if len(n) >= 3]


def travelling(root):
    """Pairs of parameters (name and type) that stand together in four or more functions of one crate."""
    pairs = defaultdict(set)
    for place, name, lines in functions(root):
        crate = place.split("/")[1]
        sig = []
        for line in lines:
            if re.match(r"\s*(requires|ensures|\{)", line) or line.strip() == "{":
                break
            sig.append(line)
        inside = re.search(r"\((.*)\)", " ".join(sig))
        if not inside:
            continue
        parts = re.findall(r"(\w+): ((?:[^,<>(]|<[^>]*>|\([^)]*\))+)", inside.group(1))
        parts = [f"{n}: {re.sub(chr(39) + r'[a-z_]+ ?', '', t).strip()}" for n, t in parts]
        for i in range(len(parts)):
            for j in range(i + 1, len(parts)):
                pairs[(crate, parts[i], parts[j])].add(name)
    return [f"{c}: {a}, {b}: {', '.join(sorted(n))}" for (c, a, b), n in sorted(pairs.items()) if len(n) >= 4]


def enums(root):
    return by_line(root, r"^ *(pub )?enum ")


SPECIAL = {
    "1-enum": enums,
    "2-same-text": twins,
    "5-repeated-fact": repeated_facts,
    "5-travelling-pair": travelling,
    "8-answer-file": lambda root: [str(p) for p in sorted(pathlib.Path(root).glob("crates/*/proofs/**/Answers.antt"))],
}


def places(kind, root):
    if kind in SPECIAL:
        return SPECIAL[kind](root)
    return by_line(root, LINE_KINDS[kind])


def main(words):
    root = words[1] if len(words) > 1 else "."
    if words:
        print("\n".join(places(words[0], root)))
        return
    for kind in sorted([*LINE_KINDS, *SPECIAL]):
        print(f"{kind:28} {len(places(kind, root)):5}")


main(sys.argv[1:])
