"""A second reading of docs/ENCODING.md, docs/RESOURCES.md and docs/FILES.md, for the trials.

Outside the proved part, and sharing nothing with the program. `read(kind, octets)` answers None, or the first fault as
(number, place, layer); kind is cer, crl, mft, roa, addresses or asn. Each rule is tried where the documents have it,
and the first that fails ends the reading.
"""
import datetime
import re


class Fault(Exception):
    pass


def fail(number, place, layer):
    raise Fault(number, place, layer)


def is_moment(text):
    try:
        datetime.datetime(*(int(text[a:b]) for a, b in ((0, 4), (4, 6), (6, 8), (8, 10), (10, 12), (12, 14))))
    except ValueError:
        return False
    return True


def moment(tag, c):
    """The digits YYYYMMDDhhmmss of a time, or None."""
    digits = 12 if tag == 0x17 else 14
    if not re.fullmatch(rb"[0-9]{%d}Z" % digits, c, re.S):
        return None
    text = c[:-1].decode()
    if tag == 0x17:
        text = ("19" if text[:2] >= "50" else "20") + text
    return text if is_moment(text) else None


def formed(tag, c):
    if tag == 0x01:
        return c in (b"\x00", b"\xff")
    if tag == 0x02:
        return len(c) > 0 and (len(c) == 1 or int.from_bytes(c, "big", signed=True) != int.from_bytes(c[1:], "big", signed=True))
    if tag == 0x03:
        if not c or c[0] > 7:
            return False
        return c[0] == 0 if len(c) == 1 else c[-1] & ((1 << c[0]) - 1) == 0
    if tag == 0x05:
        return c == b""
    if tag == 0x06:
        return len(c) > 0 and c[-1] < 0x80 and all(not (x == 0x80 and (i == 0 or c[i - 1] < 0x80)) for i, x in enumerate(c))
    if tag == 0x16:
        return all(x < 0x80 for x in c)
    if tag in (0x17, 0x18):
        return moment(tag, c) is not None
    return True


class Element:
    def __init__(self, octets, place, head, size):
        self.tag, self.place, self.at, self.size = octets[place], place, place + head, size
        self.content = octets[place + head:place + head + size]
        self.whole = octets[place:place + head + size]
        self.end = place + head + size


class Content:
    """A content that is being filled, from `at` to `end`, by a layout of one layer."""

    def __init__(self, octets, at, end, layer):
        self.octets, self.at, self.end, self.layer = octets, at, end, layer

    def more(self):
        return self.at < self.end

    def element(self):
        """The next element, whatever its tag."""
        s, p = self.octets, self.at
        if p >= self.end:
            fail(2, p, self.layer)
        left = self.end - p
        head = None
        if left >= 2:
            if s[p + 1] < 0x80:
                head, size = 2, s[p + 1]
            elif s[p + 1] == 0x81 and left >= 3 and s[p + 2] >= 0x80:
                head, size = 3, s[p + 2]
            elif s[p + 1] == 0x82 and left >= 4 and s[p + 2] > 0:
                head, size = 4, s[p + 2] * 256 + s[p + 3]
        if head is None or head + size > left or not formed(s[p], s[p + head:p + head + size]):
            fail(1, p, "element")
        e = Element(s, p, head, size)
        self.at = e.end
        return e

    def want(self, *tags):
        e = self.element()
        if e.tag not in tags:
            fail(2, e.place, self.layer)
        return e

    def inside(self, e, layer=None):
        return Content(self.octets, e.at, e.end, layer or self.layer)

    def enter(self, tag):
        return self.inside(self.want(tag))

    def close(self):
        if self.more():
            e = self.element()
            fail(2, e.place, self.layer)

    def value(self, e, lawful):
        if not lawful:
            fail(3, e.place, self.layer)

    # fields

    def number(self, n):
        e = self.want(0x02)
        self.value(e, int.from_bytes(e.content, "big", signed=True) == n)

    def serial(self, least=1):
        e = self.want(0x02)
        self.value(e, len(e.content) <= 20 and int.from_bytes(e.content, "big", signed=True) >= least)
        return e

    def time(self):
        e = self.want(0x17, 0x18)
        m = moment(e.tag, e.content)
        self.value(e, e.tag == 0x17 or int(m[:4]) >= 2050)
        return m

    def gtime(self):
        return moment(0x18, self.want(0x18).content)

    def whole_bits(self):
        e = self.want(0x03)
        self.value(e, e.content[0] == 0)
        return e

    def as_number(self):
        e = self.want(0x02)
        n = int.from_bytes(e.content, "big", signed=True)
        self.value(e, 0 <= n < 2 ** 32)
        return n


# sets of resources

def bit_string(c):
    return "".join(f"{x:08b}" for x in c[1:])[:8 * (len(c) - 1) - c[0]]


def one_prefix(a, z, width):
    """Whether the range is one prefix: its size is a power of two that divides its first address."""
    n = z - a + 1
    return n & (n - 1) == 0 and a % n == 0


def address_half(c, e, width, fill):
    """One end of a range: no trailing bit that filling would add."""
    bits = bit_string(e.content)
    c.value(e, len(bits) <= width and not bits.endswith(fill))
    return int((bits + fill * width)[:width], 2)


def address_entry(outer, e, width):
    if e.tag == 0x03:
        bits = bit_string(e.content)
        outer.value(e, len(bits) <= width)
        return int((bits + "0" * width)[:width], 2), int((bits + "1" * width)[:width], 2)
    if e.tag != 0x30:
        fail(2, e.place, "set")
    c = outer.inside(e)
    a = address_half(c, c.want(0x03), width, "0")
    last = c.want(0x03)
    z = address_half(c, last, width, "1")
    c.value(last, a < z and not one_prefix(a, z, width))
    c.close()
    return a, z


def number_entry(outer, e):
    if e.tag not in (0x02, 0x30):
        fail(2, e.place, "set")
    if e.tag == 0x02:
        n = int.from_bytes(e.content, "big", signed=True)
        outer.value(e, 0 <= n < 2 ** 32)
        return n, n
    c = outer.inside(e)
    a = c.as_number()
    at = c.at
    z = c.as_number()
    if not a < z:
        fail(3, at, "set")
    c.close()
    return a, z


def entries(c, entry):
    ranges = []
    while c.more():
        e = c.element()
        try:
            r = entry(c, e)
            if ranges and r[0] <= ranges[-1][1] + 1:
                fail(4, e.place, "set")
        except Fault as f:
            # a 257th entry is 5, but for faults at its own tag
            if len(ranges) == 256 and f.args[1] > e.place:
                fail(5, e.place, "set")
            raise
        if len(ranges) == 256:
            fail(5, e.place, "set")
        ranges.append(r)
    return ranges


def part(c, may, entry):
    """A part of the resources: "inherited", or its ranges."""
    e = c.want(0x05, 0x30)
    c.value(e, may != ("list" if e.tag == 0x05 else "inherit"))
    if e.tag == 0x05:
        return "inherited"
    c.value(e, e.size > 0)
    return entries(c.inside(e), entry)


def addresses(octets, at, end, may):
    c = Content(octets, at, end, "set")
    outer = c.enter(0x30)
    held, family = {}, 0
    while not held or outer.more():
        f = outer.enter(0x30)
        oct = f.want(0x04)
        f.value(oct, oct.content in (b"\0\1", b"\0\2") and oct.content[1] > family)
        family = oct.content[1]
        width = 32 if family == 1 else 128
        held[family] = part(f, may, lambda c, e: address_entry(c, e, width))
        f.close()
    c.close()
    return held


def as_numbers(octets, at, end, may):
    c = Content(octets, at, end, "set")
    outer = c.enter(0x30)
    inner = outer.enter(0xa0)
    held = part(inner, may, number_entry)
    inner.close()
    outer.close()
    c.close()
    return held


# names

def is_folder(s):
    return 1 <= len(s) <= 127 and all(0x21 <= x <= 0x7e for x in s) and s.endswith(b"/")


def is_name(s):
    return 1 <= len(s) <= 128 and all(0x21 <= x <= 0x7e for x in s) and b"/" in s and not s.endswith(b"/")


def is_bare(s):
    return re.fullmatch(rb"[A-Za-z0-9_-]+\.[a-z]{3}", s, re.S) is not None


def folder_of(s):
    return s[:s.rindex(b"/") + 1]


# certificates

CONSTRAINTS, OWN_KEY, ISSUER_KEY, USAGE, POLICIES, CRL_NUMBER = (bytes.fromhex(x) for x in ("551d13", "551d0e", "551d23", "551d0f", "551d20", "551d14"))
ACCESS, ADDRESSES, NUMBERS = (bytes.fromhex("2b0601050507010" + x) for x in "b78")
CRITICAL = {CONSTRAINTS, USAGE, POLICIES, ADDRESSES, NUMBERS}
KNOWN = CRITICAL | {OWN_KEY, ISSUER_KEY, ACCESS}
FOLDER, MANIFEST = bytes.fromhex("2b06010505073005"), bytes.fromhex("2b0601050507300a")


def access(c):
    """The folder and the manifest's name."""
    outer = c.enter(0x30)
    found = {}
    while outer.more():
        s = outer.want(0x30)
        d = outer.inside(s)
        oid = d.want(0x06).content
        if oid in found:
            fail(2, s.place, "certificate")
        name = d.want(0x86)
        if oid == FOLDER:
            d.value(name, is_folder(name.content))
            d.value(name, MANIFEST not in found or folder_of(found[MANIFEST]) == name.content)
            found[oid] = name.content
        if oid == MANIFEST:
            d.value(name, is_name(name.content) and is_bare(name.content[len(folder_of(name.content)):]) and name.content.endswith(b".mft"))
            d.value(name, FOLDER not in found or folder_of(name.content) == found[FOLDER])
            found[oid] = name.content
        d.close()
    if FOLDER not in found or MANIFEST not in found:
        fail(2, outer.end, "certificate")
    c.close()
    return found


def extension(outer, seen, allowed, critical):
    """One extension up to its value: its OID, and the OCT that holds the value."""
    s = outer.want(0x30)
    c = outer.inside(s)
    oid = c.want(0x06).content
    if oid in seen or not allowed(oid):
        fail(2, s.place, outer.layer)
    seen.add(oid)
    e = c.want(0x01, 0x04)
    if e.tag == 0x01:
        c.value(e, critical(oid) and e.content == b"\xff")
        e = c.want(0x04)
    else:
        c.value(e, not critical(oid))
    return c, oid, e


def key_id(c, e, front):
    c.value(e, e.content.startswith(front) and len(e.content) == len(front) + 20)
    return e.content[len(front):]


def value(c, oid, e, kind, cert):
    inside = c.inside(e)
    may = "inherit" if kind == "mft" else "list"
    if oid == CONSTRAINTS:
        c.value(e, e.content == bytes.fromhex("30030101ff"))
    elif oid == OWN_KEY:
        cert["own"] = key_id(c, e, b"\x04\x14")
    elif oid == ISSUER_KEY:
        cert["issuer"] = key_id(c, e, b"\x30\x16\x80\x14")
    elif oid == USAGE:
        c.value(e, e.content == bytes.fromhex("03020106" if kind == "cer" else "03020780"))
    elif oid == ACCESS and kind == "cer":
        access(inside)
    elif oid in (POLICIES, ACCESS):
        inside.want(0x30)
        inside.close()
    elif oid == ADDRESSES:
        addresses(c.octets, e.at, e.end, may)
    elif oid == NUMBERS:
        as_numbers(c.octets, e.at, e.end, may)


def extensions(c, kind, cert):
    seen = set()
    forbidden = {"cer": set(), "mft": {CONSTRAINTS}, "roa": {CONSTRAINTS, NUMBERS}}[kind]
    outer = c.enter(0x30)
    while outer.more():
        inner, oid, e = extension(outer, seen, lambda o: o not in forbidden, lambda o: o in CRITICAL)
        value(inner, oid, e, kind, cert)
        inner.close()
    needed = {OWN_KEY, USAGE, POLICIES} | ({CONSTRAINTS, ACCESS} if kind == "cer" else {ISSUER_KEY}) | ({ADDRESSES} if kind == "roa" else set())
    if not needed <= seen or not {ADDRESSES, NUMBERS} & seen:
        fail(2, outer.end, "certificate")


def certificate(c, kind):
    """The certificate that fills the content c; kind is cer, or what an end certificate signs."""
    cert = {}
    outer = c.enter(0x30)
    tbs = outer.enter(0x30)
    v = tbs.enter(0xa0)
    v.number(2)
    v.close()
    tbs.serial()
    algorithm = tbs.want(0x30)
    tbs.want(0x30)
    dates = tbs.enter(0x30)
    dates.time()
    dates.time()
    dates.close()
    tbs.want(0x30)
    tbs.want(0x30)
    a3 = tbs.enter(0xa3)
    extensions(a3, kind, cert)
    a3.close()
    tbs.close()
    again = outer.want(0x30)
    outer.value(again, again.whole == algorithm.whole)
    outer.whole_bits()
    outer.close()
    c.close()
    return cert


def crl(c):
    outer = c.enter(0x30)
    tbs = outer.enter(0x30)
    tbs.number(1)
    algorithm = tbs.want(0x30)
    tbs.want(0x30)
    tbs.time()
    tbs.time()
    e = tbs.want(0x30, 0xa0)
    if e.tag == 0x30:
        rows = tbs.inside(e)
        if not rows.more():
            fail(2, rows.at, "crl")
        while rows.more():
            row = rows.enter(0x30)
            row.serial()
            row.time()
            row.close()
        e = tbs.want(0xa0)
    a0 = tbs.inside(e)
    outer_ext = a0.enter(0x30)
    seen = set()
    while outer_ext.more():
        inner, oid, o = extension(outer_ext, seen, lambda x: x in (ISSUER_KEY, CRL_NUMBER), lambda x: False)
        if oid == ISSUER_KEY:
            key_id(inner, o, b"\x30\x16\x80\x14")
        else:
            number = inner.inside(o)
            number.serial(0)
            number.close()
        inner.close()
    if len(seen) < 2:
        fail(2, outer_ext.end, "crl")
    a0.close()
    tbs.close()
    again = outer.want(0x30)
    outer.value(again, again.whole == algorithm.whole)
    outer.whole_bits()
    outer.close()
    c.close()


# signed objects

SIGNED, CONTENT, ATTRIBUTE, SHA256 = (bytes.fromhex(x) for x in ("2a864886f70d010702", "2a864886f70d01091001", "2a864886f70d0109", "608648016503040201"))


def attributes(a0, content_oid):
    start, before, seen = a0.at, None, set()
    while a0.more():
        e = a0.want(0x30)
        c = a0.inside(e)
        try:
            oid = a0.inside(e).want(0x06).content
        except Fault:
            oid = None
        if oid in seen:
            fail(2, e.place, "shell")
        if before is not None and not before < e.whole:
            fail(3, e.place, "shell")
        if e.end - start > 256:
            fail(5, e.place, "shell")
        before = e.whole
        o = c.want(0x06)
        c.value(o, o.content[:-1] == ATTRIBUTE and o.content[-1] in (3, 4, 5))
        seen.add(o.content)
        t = c.enter(0x31)
        if o.content[-1] == 3:
            v = t.want(0x06)
            t.value(v, v.content == content_oid)
        elif o.content[-1] == 4:
            v = t.want(0x04)
            t.value(v, len(v.content) == 32)
        else:
            t.element()
        t.close()
        c.close()
    if not {ATTRIBUTE + b"\3", ATTRIBUTE + b"\4"} <= seen:
        fail(2, a0.end, "shell")


def shell(c, kind):
    content_oid = CONTENT + (b"\x1a" if kind == "mft" else b"\x18")
    outer = c.enter(0x30)
    oid = outer.want(0x06)
    outer.value(oid, oid.content == SIGNED)
    a0 = outer.enter(0xa0)
    s = a0.enter(0x30)
    s.number(3)
    t = s.enter(0x31)
    t.want(0x30)
    t.close()
    e = s.enter(0x30)
    oid = e.want(0x06)
    e.value(oid, oid.content == content_oid)
    inner = e.enter(0xa0)
    oct = inner.want(0x04)
    (manifest if kind == "mft" else roa)(inner.inside(oct, "content"))
    inner.close()
    e.close()
    holder = s.want(0xa0)
    cert = certificate(s.inside(holder, "certificate"), kind)
    t = s.enter(0x31)
    signer = t.enter(0x30)
    signer.number(3)
    key = signer.want(0x80)
    signer.value(key, key.content == cert["own"])
    signer.want(0x30)
    attributes(signer.enter(0xa0), content_oid)
    signer.want(0x30)
    signer.want(0x04)
    signer.close()
    t.close()
    s.close()
    a0.close()
    outer.close()
    c.close()


def manifest(c):
    s = c.enter(0x30)
    s.serial(0)
    s.gtime()
    s.gtime()
    oid = s.want(0x06)
    s.value(oid, oid.content == SHA256)
    rows = s.enter(0x30)
    names = set()
    while rows.more():
        row = rows.enter(0x30)
        name = row.want(0x16)
        row.value(name, is_bare(name.content) and name.content not in names)
        names.add(name.content)
        bits = row.want(0x03)
        row.value(bits, bits.content[0] == 0 and len(bits.content) == 33)
        row.close()
    s.close()
    c.close()


def roa(c):
    s = c.enter(0x30)
    s.as_number()
    families = s.enter(0x30)
    family = 0
    while not family or families.more():
        f = families.enter(0x30)
        oct = f.want(0x04)
        f.value(oct, oct.content in (b"\0\1", b"\0\2") and oct.content[1] > family)
        family = oct.content[1]
        width = 32 if family == 1 else 128
        rows = f.enter(0x30)
        count = 0
        while not count or rows.more():
            e = rows.want(0x30)
            if count == 256:
                fail(5, e.place, "content")
            count += 1
            row = rows.inside(e)
            bits = row.want(0x03)
            n = len(bit_string(bits.content))
            row.value(bits, n <= width)
            if row.more():
                m = row.want(0x02)
                row.value(m, n <= int.from_bytes(m.content, "big", signed=True) <= width)
            row.close()
        f.close()
    families.close()
    s.close()
    c.close()


def read(kind, octets):
    try:
        if kind == "cer":
            certificate(Content(octets, 0, len(octets), "certificate"), "cer")
        elif kind == "crl":
            crl(Content(octets, 0, len(octets), "crl"))
        elif kind in ("mft", "roa"):
            shell(Content(octets, 0, len(octets), "shell"), kind)
        elif kind == "addresses":
            addresses(octets, 0, len(octets), "either")
        elif kind == "asn":
            as_numbers(octets, 0, len(octets), "either")
        return None
    except Fault as f:
        return f.args
