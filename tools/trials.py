#!/usr/bin/env python3
"""Writes the trials of the programs: a log of calls and the files it names, and the answers that the rules of docs/ENCODING.md, docs/RESOURCES.md
and docs/ORACLES.md give. crates/zapuhoti/data/ and stdout have the calls on elements, digests and verdicts, crates/list_replay/data/ and stdout
these and the calls on lists.

Outside the proved part. It and tools/reading.py read the rules on their own and share nothing with the program: dates come from
Python's calendar, lengths, lists and records from the rules as they stand in the documents.

    python3 tools/trials.py
"""
from pathlib import Path

from reading import formed, read

CRATES = Path(__file__).resolve().parent.parent / "crates"
HOME = CRATES / "zapuhoti"
DATA = HOME / "data"


def header(tag, n):
    if n < 128:
        return bytes([tag, n])
    if n < 256:
        return bytes([tag, 0x81, n])
    return bytes([tag, 0x82, n >> 8, n & 255])


def answer(s):
    """The first element of s, by trying every length that could be meant."""
    if s:
        for head in (2, 3, 4):
            for n in {s[1]} if head == 2 and len(s) > 1 else {s[2]} if head == 3 and len(s) > 2 else {s[2] * 256 + s[3]} if head == 4 and len(s) > 3 else ():
                if header(s[0], n) == s[:head] and head + n <= len(s) and formed(s[0], s[head:head + n]):
                    return f"element ok {s[0]:02x} {head}+{n} {head + n}+{len(s) - head - n}"
    return "element fault 1 at 0"


log, out = [], []


def save(home):
    """The trials so far, as the log and the answers of a program, with the files that they name."""
    (home / "data").mkdir(exist_ok=True)
    for made in DATA.iterdir():
        if home != HOME and made.name != "log.txt":
            (home / "data" / made.name).write_bytes(made.read_bytes())
    (home / "data" / "log.txt").write_text("\n".join(log) + "\n")
    (home / "stdout").write_text("\n".join(out) + "\n")


def trial(s):
    log.append("element hex:" + s.hex())
    out.append(answer(s))


def note(text):
    log.append("# " + text)


def files(name, s):
    (DATA / name).write_bytes(s)
    log.append("element @" + name)
    out.append(answer(s))


def element(tag, c):
    return header(tag, len(c)) + c


note("an element, the octets after it, and digits of either case")
for text in ("3003020105", "30030201050500", "0101FF", "0101ff", "1f00", "3f00", "bf00", "00", "0000"):
    log.append("element hex:" + text)
    out.append(answer(bytes.fromhex(text)))
log.append("")
note("truncation at every octet of a small element, and one octet past its end")
small = element(0x30, element(0x06, bytes.fromhex("2a864886f70d01010b")) + element(0x05, b""))
for n in range(len(small) + 1):
    trial(small[:n])
trial(small + b"\x00")
note("the boundary lengths")
for n in (126, 127, 128, 129, 254, 255, 256, 257):
    trial(element(0x04, b"a" * n))
    trial(element(0x04, b"a" * n)[:-1])
for n in (65534, 65535):
    files(f"length-{n}.der", element(0x04, b"a" * n))
files("length-65536.der", bytes([0x04, 0x83, 1, 0, 0]) + b"a" * 65536)
files("length-65535-cut.der", element(0x04, b"a" * 65535)[:-1])
note("lengths that are not the shortest, cut or of another form")
for text in ("048100", "04817f" + "61" * 127, "04820000", "048200ff" + "61" * 255, "0482007f" + "61" * 127, "0480", "04800000", "0483000001" + "61",
             "0484", "04ff", "04", "0481", "0482", "048201", "04850000000001" + "61"):
    trial(bytes.fromhex(text))
note("BOOLEAN")
for c in ("", "00", "ff", "01", "fe", "0000", "ff00"):
    trial(element(0x01, bytes.fromhex(c)))
note("INTEGER")
for c in ("", "00", "7f", "80", "ff", "0000", "007f", "0080", "00ff", "ff7f", "ff80", "ffff", "ff00", "0100", "8000", "000080", "00" * 20, "01" + "00" * 19):
    trial(element(0x02, bytes.fromhex(c)))
note("BIT STRING")
for c in ("", "00", "01", "07", "08", "ff", "0000", "0001", "0100", "0101", "0180", "0780", "0740", "07ff", "0880", "040a40", "040a41", "04fff0", "0200c00002", "0300c00002"):
    trial(element(0x03, bytes.fromhex(c)))
note("OCTET STRING and NULL")
for c in ("", "00", "ff" * 40):
    trial(element(0x04, bytes.fromhex(c)))
    trial(element(0x05, bytes.fromhex(c)))
note("OBJECT IDENTIFIER")
for c in ("", "2a", "80", "7f", "81", "8001", "8101", "2a80", "2a8001", "2a8180", "2a818001", "2a864886f70d", "2a864886f78d", "818080", "81808001", "ff7f80", "ff7f8001", "ffff7f"):
    trial(element(0x06, bytes.fromhex(c)))
note("IA5String")
for c in ("", "00", "7f", "80", "6162ff", "61626364"):
    trial(element(0x16, bytes.fromhex(c)))
note("UTCTime")
for t in ("500101000000Z", "491231235959Z", "000229000000Z", "010229000000Z", "260229000000Z", "240229000000Z", "991231235959Z", "991231235960Z", "991231236000Z",
          "991231240000Z", "991301000000Z", "990001000000Z", "990100000000Z", "990132000000Z", "990431000000Z", "990430000000Z", "9912312359Z", "991231235959z",
          "991231235959+", "99123123595Z", "9912312359599", "", "Z", "99123123595aZ", "19991231235959Z", "/91231235959Z", ":91231235959Z", "991231235959ZZ"):
    trial(element(0x17, t.encode()))
note("GeneralizedTime")
for t in ("00010101000000Z", "00000101000000Z", "99991231235959Z", "20000229000000Z", "19000229000000Z", "21000229000000Z", "24000229000000Z", "20230229000000Z",
          "20240229235959Z", "20240229235960Z", "20240229236000Z", "20240229240000Z", "20241301000000Z", "20240001000000Z", "20240100000000Z", "20240132000000Z",
          "20240631000000Z", "20240630000000Z", "202402292359Z", "20240229235959.5Z", "20240229235959z", "2024022923595Z", "202402292359599Z", "", "240229235959Z",
          "2024022923595 Z", "20240229235959"):
    trial(element(0x18, t.encode()))
note("what follows a broken form does not mend it, and other tags have no form")
trial(element(0x01, b"\x01") + element(0x01, b"\xff"))
for tag in (0x00, 0x07, 0x0C, 0x13, 0x30, 0x31, 0x80, 0x86, 0xA0, 0xFF):
    trial(element(tag, b"\x80\xff\x01"))



# oracles
def scheme_digest(s):
    blocks = [s[i:i + 32].ljust(32, b"\0") for i in range(0, len(s), 32)]
    whole = 0
    for b in blocks:
        whole ^= int.from_bytes(b, "big")
    return whole.to_bytes(32, "big")


def field(s):
    return len(s).to_bytes(3, "big") + s


def known(octets, digest):
    return b"\x44" + field(octets) + field(digest)


def signed(key, message, signature):
    return b"\x59" + field(key) + field(message) + field(signature)


def records(book):
    """The records of a book, found by trying where each field could end."""
    at = 0
    while at < len(book):
        want = {0x44: 2, 0x59: 3}.get(book[at])
        place, fields = at + 1, []
        while want and len(fields) < want:
            if place + 3 > len(book):
                return
            size = int.from_bytes(book[place:place + 3], "big")
            if place + 3 + size > len(book):
                return
            fields.append(book[place + 3:place + 3 + size])
            place += 3 + size
        if not want or (want == 2 and len(fields[1]) != 32):
            return
        yield fields
        at = place


def ask_digest(book, octets, file=None):
    log.append(f"digest book {file or 'hex:' + book.hex()} hex:{octets.hex()}")
    found = [f[1] for f in records(book) if len(f) == 2 and f[0] == octets]
    out.append("digest " + (found[0].hex() if found else "unknown"))


def ask_verdict(book, key, message, signature):
    log.append("verdict book hex:" + book.hex() + "".join(" hex:" + x.hex() for x in (key, message, signature)))
    out.append("verdict " + ("yes" if [key, message, signature] in [f for f in records(book) if len(f) == 3] else "no"))


note("the test scheme")
for n in (0, 1, 2, 31, 32, 33, 63, 64, 65, 100):
    octets = bytes((7 * i + 1) & 255 for i in range(n))
    log.append("digest scheme hex:" + octets.hex())
    out.append("digest " + scheme_digest(octets).hex())
for key, message in ((b"", b""), (b"k", b"m"), (b"k" * 31, b"mm"), (b"k" * 32, b"m" * 40), (b"k" * 33, b"")):
    good = scheme_digest(key + message)
    for signature in (good, good[:-1], good + b"\0", bytes([good[0] ^ 1]) + good[1:], scheme_digest(message + key)):
        log.append("verdict scheme" + "".join(" hex:" + x.hex() for x in (key, message, signature)))
        out.append("verdict " + ("yes" if signature == good else "no"))
note("verdict books: the first of equal octets, cut records, other shapes")
one, two = bytes(range(32)), bytes(range(32, 64))
book = known(b"ab", one) + signed(b"key", b"message", b"sig") + known(b"ab", two) + known(b"", two) + signed(b"", b"", b"")
for octets in (b"ab", b"", b"a", b"abc"):
    ask_digest(book, octets)
    ask_digest(b"", octets)
for cut in (1, 5, 33):
    ask_digest(book[:-cut], b"")
    ask_verdict(book[:-cut], b"", b"", b"")
for other in (known(b"ab", one[:31]) + known(b"ab", two), b"\x45" + book, known(b"x", one) + b"\x00" + book, known(b"ab", one + b"!") + book):
    ask_digest(other, b"ab")
    ask_digest(other, b"x")
for triple in ((b"key", b"message", b"sig"), (b"keym", b"essage", b"sig"), (b"key", b"message", b"si"), (b"key", b"messagf", b"sig"), (b"", b"", b""), (b"sig", b"message", b"key")):
    ask_verdict(book, *triple)
    ask_verdict(b"", *triple)
(DATA / "book.bin").write_bytes(book)
ask_digest(book, b"ab", "@book.bin")


# lists of ranges: points are numbers here
KINDS = {
    "v4": (1 << 32, lambda n: ".".join(str(b) for b in n.to_bytes(4, "big"))),
    "v6": (1 << 128, lambda n: ":".join(f"{n.to_bytes(16, 'big')[i:i + 2].hex()}" for i in range(0, 16, 2))),
    "as": (1 << 32, str),
}


def words(kind, ranges):
    return ",".join(KINDS[kind][1](a) + "-" + KINDS[kind][1](b) for a, b in ranges) or "none"


def is_lawful(ranges):
    return 1 <= len(ranges) <= 256 and all(a <= b for a, b in ranges) and all(x[1] + 1 < y[0] for x, y in zip(ranges, ranges[1:]))


def joined(one, other):
    """The maximal runs of the points of both."""
    edges = sorted([(a, 1) for a, b in one + other] + [(b + 1, -1) for a, b in one + other], key=lambda e: (e[0], -e[1]))
    runs, depth = [], 0
    for at, step in edges:
        if depth == 0:
            start = at
        depth += step
        if depth == 0:
            runs.append((start, at - 1))
    return runs


def ask_join(kind, one, other, text=None):
    log.append(f"join {kind} " + (text or words(kind, one) + " " + words(kind, other)))
    if not is_lawful(one) or not is_lawful(other):
        out.append("join refused 4")
    elif len(joined(one, other)) > 256:
        out.append("join refused 15")
    else:
        out.append("join ok " + words(kind, joined(one, other)))


def bits_of(text):
    """A string of bits as the content of a BIT STRING."""
    unused = -len(text) % 8
    whole = text + "0" * unused
    return bytes([unused]) + bytes(int(whole[i:i + 8], 2) for i in range(0, len(whole), 8))


def address_entry(width, a, b):
    low, high = format(a, f"0{width}b"), format(b, f"0{width}b")
    for n in range(width + 1):
        if low[:n] == high[:n] and "1" not in low[n:] and "0" not in high[n:]:
            return element(0x03, bits_of(low[:n]))
    return element(0x30, element(0x03, bits_of(low.rstrip("0"))) + element(0x03, bits_of(high.rstrip("1"))))


def number(n):
    return element(0x02, n.to_bytes(n.bit_length() // 8 + 1, "big"))


def number_entry(a, b):
    return number(a) if a == b else element(0x30, number(a) + number(b))


def entry(kind, a, b):
    return number_entry(a, b) if kind == "as" else address_entry(32 if kind == "v4" else 128, a, b)


def list_element(kind, ranges):
    return element(0x30, b"".join(entry(kind, a, b) for a, b in ranges))


def ask_write(kind, ranges, room=None):
    log.append(f"write {kind} {words(kind, ranges)}" + ("" if room is None else f" {room}"))
    if not is_lawful(ranges):
        out.append("write refused 4")
    elif room is not None and room < len(list_element(kind, ranges)):
        out.append("write refused 15")
    else:
        out.append("write ok " + list_element(kind, ranges).hex())


def ask_read(form, s, octets=None):
    log.append(f"read {form} {octets or 'hex:' + s.hex()}")
    fault = read(form, s)
    out.append("read ok" if fault is None else "read fault %d at %d in %s" % fault)


def spread(kind, count, start=0, gap=2):
    return [(start + gap * i, start + gap * i) for i in range(count)]


save(HOME)
note("joining: apart, touching, overlapping, one in the other, at the ends of the kind")
for kind, (top, _) in KINDS.items():
    for one, other in (([(1, 3)], [(4, 9)]), ([(1, 3)], [(5, 9)]), ([(1, 9)], [(3, 4), (20, 20)]), ([(5, 9)], [(1, 3)]), ([(4, 9)], [(1, 3)]),
                       ([(0, 0)], [(0, 0)]), ([(0, top - 1)], [(7, 7)]), ([(0, 0)], [(top - 1, top - 1)]), ([(top - 1, top - 1)], [(top - 2, top - 2)]),
                       ([(1, 1), (3, 3), (5, 5)], [(2, 2), (4, 4)]), ([(1, 2), (10, 20), (30, 30)], [(2, 9), (21, 25), (40, 50)]),
                       ([(0, 5), (7, 9)], [(6, 6)]), ([(0, 5), (7, 9)], [(0, 5), (7, 9)])):
        ask_join(kind, one, other)
note("joining: lists that no reading gives")
for kind, (top, _) in KINDS.items():
    for bad in ([], [(3, 2)], [(1, 3), (4, 9)], [(1, 3), (3, 9)], [(5, 6), (1, 2)], [(1, 9), (3, 4)], [(1, 1), (1, 1)], [(top - 1, 0)]):
        ask_join(kind, bad, [(1, 1)])
        ask_join(kind, [(1, 1)], bad)
    ask_join(kind, [], [])
    ask_join(kind, [(1, 1)], spread(kind, 257))
ask_join("as", spread("as", 257), [(3, 2)])
note("joining: up to 256 ranges and past them")
for kind in KINDS:
    ask_join(kind, spread(kind, 256), [(1, 1)])
    ask_join(kind, spread(kind, 256), [(513, 513)])
    ask_join(kind, spread(kind, 129, 0, 4), spread(kind, 128, 2, 4))
    if kind == "as":
        ask_join(kind, spread(kind, 256), [(0, 0)])
        ask_join(kind, spread(kind, 256), [(511, 511)])
        ask_join(kind, spread(kind, 128, 0, 4), spread(kind, 128, 2, 4))
        ask_join(kind, spread(kind, 256, 0, 4), spread(kind, 256, 2, 4))
        ask_join(kind, spread(kind, 256), spread(kind, 256, 1))
        ask_join(kind, spread(kind, 256), spread(kind, 255, 1))
note("joining: digits of either case, printed in lower case")
upper = "2001:0DB8:0000:0000:0000:0000:0000:00Af-2001:0db8:0000:0000:0000:0000:0000:FFFF"
low, high = (int(w.replace(":", ""), 16) for w in upper.split("-"))
ask_join("v6", [(low, high)], [(0, 0)], upper + " " + words("v6", [(0, 0)]))


note("writing: prefixes, ranges and numbers")
v4 = lambda text: int.from_bytes(bytes(int(x) for x in text.split(".")), "big")
for a, b in (("192.0.2.0", "192.0.2.255"), ("0.0.0.0", "255.255.255.255"), ("10.64.0.0", "10.79.255.255"), ("10.5.0.4", "10.5.0.23"), ("10.5.2.0", "10.5.2.128"),
             ("0.0.0.0", "0.0.0.0"), ("255.255.255.255", "255.255.255.255"), ("0.0.0.0", "1.255.255.255"), ("0.0.0.1", "255.255.255.255"), ("0.0.0.0", "255.255.255.254"),
             ("10.0.0.0", "10.255.255.255"), ("10.0.0.1", "10.0.0.2"), ("128.0.0.0", "255.255.255.255"), ("127.255.255.255", "128.0.0.0")):
    ask_write("v4", [(v4(a), v4(b))])
for a, b in ((0, (1 << 128) - 1), (1 << 127, (1 << 128) - 1), (0, 0), (1, 2), ((1 << 64) - 1, 1 << 64), (0x20010DB8 << 96, (0x20010DB9 << 96) - 1), ((1 << 128) - 1, (1 << 128) - 1)):
    ask_write("v6", [(a, b)])
for a, b in ((0, 0), (0, 127), (127, 127), (128, 128), (255, 256), (64496, 64511), (65535, 65536), (0, (1 << 32) - 1), ((1 << 32) - 1, (1 << 32) - 1), ((1 << 31) - 1, 1 << 31)):
    ask_write("as", [(a, b)])
note("writing: several ranges, the longest lists, and the room of the area")
for kind, (top, _) in KINDS.items():
    for ranges in ([(1, 2), (4, 9), (20, 20)], spread(kind, 12), spread(kind, 41), [(4 * i + 1, 4 * i + 2) for i in range(256)]):
        size = len(list_element(kind, ranges))
        rooms = (None, size, size - 1, size + 1, 0, 1, (1 << 64) - 1)
        for room in rooms if len(ranges) == 3 else (size, size - 1):
            ask_write(kind, ranges, room)
    for bad in ([], [(3, 2)], [(1, 3), (4, 9)], [(1, 3), (3, 9)], [(5, 6), (1, 2)]):
        ask_write(kind, bad)
        ask_write(kind, bad, 0)
    ask_write(kind, spread(kind, 257))
note("reading: the values of the two resource extensions")
null = element(0x05, b"")


def family(octets, *parts):
    return element(0x30, element(0x04, octets) + b"".join(parts))


def addresses(*families):
    return element(0x30, b"".join(families))


def asn(*parts):
    return element(0x30, element(0xA0, b"".join(parts)))


ONE, TWO = b"\x00\x01", b"\x00\x02"
nets = [(10 << 24, (11 << 24) - 1), (v4("192.0.2.4"), v4("192.0.2.23")), (v4("203.0.113.7"), v4("203.0.113.7"))]
wide = [(0x20010DB8 << 96, (0x20010DB9 << 96) - 1), ((1 << 127) + 4, (1 << 127) + 23)]
good = addresses(family(ONE, list_element("v4", nets)), family(TWO, list_element("v6", wide)))
numbers = asn(list_element("as", [(5, 5), (64496, 64511), ((1 << 32) - 1, (1 << 32) - 1)]))
for form, s in (("addresses", good), ("asn", numbers)):
    ask_read(form, s)
    for n in range(len(s)):
        ask_read(form, s[:n])
    for more in ("05", "0500", "00", "3000", "010101"):
        ask_read(form, s + bytes.fromhex(more))
    for at in range(len(s)):
        ask_read(form, s[:at] + bytes([s[at] ^ 1]) + s[at + 1:])
(CRATES / "list_replay" / "data" / "addresses.bin").write_bytes(good)
ask_read("addresses", good, "@addresses.bin")
note("reading: families")
for s in (addresses(), addresses(family(ONE, null)), addresses(family(TWO, null)), addresses(family(ONE, null), family(TWO, null)), addresses(family(TWO, null), family(ONE, null)),
          addresses(family(ONE, null), family(ONE, null)), addresses(family(TWO, null), family(TWO, null)), addresses(family(ONE + b"\x01", null)), addresses(family(b"\x00\x03", null)),
          addresses(family(b"", null)), addresses(family(b"\x01", null)), addresses(family(ONE)), addresses(element(0x30, b"")), addresses(element(0x30, null)),
          addresses(element(0x31, b"")), addresses(null), addresses(family(ONE, null, null)), addresses(family(ONE, null, b"\x05")), addresses(family(ONE, element(0x30, b""))),
          addresses(family(ONE, element(0x02, b"\x01"))), addresses(family(ONE, element(0x02, b""))), addresses(family(ONE, list_element("v4", nets), null)), addresses(family(ONE, element(0x05, b"\x00"))),
          addresses(family(ONE, null), family(TWO, null), family(TWO, null)), addresses(family(ONE, null), null), null, element(0x31, b""), element(0x30, b"\x30"), b"\x30",
          addresses(family(ONE, element(0x30, b""), null)), addresses(family(TWO, list_element("v4", nets))), addresses(family(ONE, list_element("v6", wide)))):
    ask_read("addresses", s)
note("reading: address entries")
for text in ("030100", "030400c00002", "0303040a40", "0303040a41", "03060000000000", "0306000a00000000", "0305000a000001", "300e0305020a0500040305030a050010", "300d0304010a05020305000a050280",
             "300703010003020100", "300e0305000a0500040305030a050010", "300e0305020a0500040305000a050017", "3006030100030100", "3000", "3003030100", "3003020100", "30060301000201ff",
             "300e0305030a0500100305020a050004", "300c0305000a0500050303000a05", "30100305020a0500040305030a0500100500", "300f0305020a0500040305030a05001005", "0500", "0201", "020101", "0300", "0303070a000303070a80",
             "03020080", "0302000a0302000a", "0302000b0302000a", "0302000a0302000c", "0302000a0302000b", "0302000a0500", "3004030100", "30080306000a00000000", "3005030205e0", "300b03010003060000000000"):
    ask_read("addresses", addresses(family(ONE, element(0x30, bytes.fromhex(text)))))
    ask_read("addresses", addresses(family(TWO, element(0x30, bytes.fromhex(text)))))
for n in (15, 16, 17, 18):
    ask_read("addresses", addresses(family(TWO, element(0x30, element(0x03, b"\x00" + b"\xff" * n)))))
note("reading: AS numbers")
for text in ("020100", "0203" + "00fbf0", "300a020300fbf0020300fbff", "02050100000000", "020500ffffffff", "0201ff", "3006020107020107", "3006020108020107", "3000", "3003020101", "3006020101030100", "3009020101020102020103",
             "30080201010201020500", "3007020101020102" + "05", "020101020102", "020101020103", "020103020101", "020101020101", "0500", "0200", "02020001", "30060201ff020101", "300a02010002050100000000", "020100300602010102010a",
             "0216" + "01" + "00" * 21):
    ask_read("asn", asn(element(0x30, bytes.fromhex(text))))
for s in (asn(), asn(null), asn(null, null), asn(element(0x30, b"")), asn(element(0x02, b"\x01")), asn(element(0x05, b"\x00")), element(0x30, b""), element(0x30, null), element(0x30, element(0xA1, null)), null,
          element(0x30, element(0xA0, null) + element(0xA1, null)), element(0x30, element(0xA0, null) + b"\x05"), asn(null) + null, asn(null, b"\x05")):
    ask_read("asn", s)
note("reading: the 256th and the 257th entry")
for kind in KINDS:
    whole = (lambda c: asn(element(0x30, c))) if kind == "as" else (lambda c, kind=kind: addresses(family(ONE if kind == "v4" else TWO, element(0x30, c))))
    form = "asn" if kind == "as" else "addresses"
    full = b"".join(entry(kind, a, b) for a, b in spread(kind, 256))
    few = [b"", entry(kind, 600, 600)]
    tails = few if kind == "v6" else few + [entry(kind, 511, 511), entry(kind, 3, 3), entry(kind, 601, 602), entry(kind, 5, 6), b"\x30\x00", null, b"\x05", b"\x01\x01\x01",
             element(0x30, entry(kind, 600, 600)), element(0x02, b"\xff"), element(0x03, b"\x00" + b"\xff" * 17), entry(kind, 601, 602)[:-1]]
    for tail in tails:
        ask_read(form, whole(full + tail))
save(CRATES / "list_replay")
print(f"{len(out)} trials")
