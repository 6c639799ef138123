#!/usr/bin/env python3
"""Fill a verdict book for a folder of RPKI files, with SHA-256 and RSA.

    python3 tools/book_from_repository.py FOLDER OUT

OUTSIDE THE PROVED PART. Nothing here is proved: this script computes digests and checks signatures with the
Python package `cryptography`, and writes what it found. Whoever validates with the book trusts that the answers in
it are right; that the validator answers by the book, and only by it, is proved. docs/ORACLES.md has the format.

For each .cer, .crl, .mft and .roa file below FOLDER:
  - a digest record of the file's octets, unless it is a manifest or a self-signed certificate, which no manifest lists;
  - of a signed object (.mft, .roa) a digest record of its eContent, and a verdict record with the subjectPublicKeyInfo
    of its certificate, its signed attributes with the first octet A0 replaced by 31, and its signature;
  - of each certificate, in a file or in a signed object, and of each CRL a verdict record with the
    subjectPublicKeyInfo of the issuer, the to-be-signed SEQUENCE and the signature.
A verdict record is written only where the signature verifies (RSA, PKCS #1 v1.5, SHA-256). Equal records are
written once.
"""

import hashlib
import os
import sys
from collections import namedtuple

from cryptography.exceptions import InvalidSignature, UnsupportedAlgorithm
from cryptography.hazmat.primitives.asymmetric.padding import PKCS1v15
from cryptography.hazmat.primitives.asymmetric.rsa import RSAPublicKey
from cryptography.hazmat.primitives.hashes import SHA256
from cryptography.hazmat.primitives.serialization import load_der_public_key

DIGEST = 0x44
VERDICT = 0x59
LONGEST = 1 << 24

SEQUENCE = 0x30
SET = 0x31
OCTET_STRING = 0x04
CONSTRUCTED_OCTET_STRING = 0x24
BIT_STRING = 0x03
INTEGER = 0x02
OID = 0x06

SUBJECT_KEY_ID = bytes([0x55, 0x1D, 0x0E])
AUTHORITY_KEY_ID = bytes([0x55, 0x1D, 0x23])
SIGNED_DATA = bytes.fromhex("2a864886f70d010702")

# An element: its tag, its content, and all its octets.
Element = namedtuple("Element", "tag content octets")
# A certificate or a CRL: what is signed, the signature, who signed it and, of a certificate, whose it is.
Signed = namedtuple("Signed", "tbs signature issuer issuer_key_id subject key_id key")


class Malformed(Exception):
    """The octets are not the object that the file's name promises."""


def read_element(octets, place=0):
    """The element at a place, and the place after it."""
    if place + 2 > len(octets):
        raise Malformed("cut element")
    tag = octets[place]
    if tag & 0x1F == 0x1F:
        raise Malformed("long tag")
    size = octets[place + 1]
    start = place + 2
    if size >= 0x80:
        count = size & 0x7F
        if count == 0 or count > 4 or start + count > len(octets):
            raise Malformed("length form")
        size = int.from_bytes(octets[start:start + count], "big")
        start += count
    if start + size > len(octets):
        raise Malformed("cut content")
    return Element(tag, octets[start:start + size], octets[place:start + size]), start + size


def children(octets):
    """The elements of a content, one after another."""
    place = 0
    found = []
    while place < len(octets):
        element, place = read_element(octets, place)
        found.append(element)
    return found


def whole(octets, tag):
    """The one element that the octets are."""
    element, end = read_element(octets)
    if element.tag != tag or end != len(octets):
        raise Malformed("not one element of tag %02X" % tag)
    return element


def bits(element):
    """The octets of a BIT STRING that has no unused bits."""
    if element.tag != BIT_STRING or not element.content or element.content[0] != 0:
        raise Malformed("bit string")
    return element.content[1:]


def extensions(element):
    """The values of the extensions in a SEQUENCE of them, by their identifiers."""
    values = {}
    for extension in children(element.content):
        parts = children(extension.content)
        if parts and parts[0].tag == OID and parts[-1].tag == OCTET_STRING:
            values[parts[0].content] = parts[-1].content
    return values


def subject_key_id(values):
    value = values.get(SUBJECT_KEY_ID)
    return whole(value, OCTET_STRING).content if value else None


def authority_key_id(values):
    value = values.get(AUTHORITY_KEY_ID)
    if not value:
        return None
    for part in children(whole(value, SEQUENCE).content):
        if part.tag == 0x80:
            return part.content
    return None


def outer(octets):
    """The parts of a signed SEQUENCE: what is signed, and the signature."""
    parts = children(whole(octets, SEQUENCE).content)
    if len(parts) != 3 or parts[0].tag != SEQUENCE:
        raise Malformed("signed sequence")
    return parts[0], bits(parts[2])


def read_certificate(octets):
    tbs, signature = outer(octets)
    parts = children(tbs.content)
    if parts and parts[0].tag == 0xA0:
        parts = parts[1:]
    if len(parts) < 6 or any(parts[i].tag != SEQUENCE for i in (1, 2, 3, 4, 5)):
        raise Malformed("certificate")
    values = {}
    for part in parts[6:]:
        if part.tag == 0xA3:
            values = extensions(whole(part.content, SEQUENCE))
    return Signed(tbs.octets, signature, parts[2].octets, authority_key_id(values), parts[4].octets, subject_key_id(values),
                  parts[5].octets)


def read_crl(octets):
    tbs, signature = outer(octets)
    parts = children(tbs.content)
    if parts and parts[0].tag == INTEGER:
        parts = parts[1:]
    if len(parts) < 3 or parts[1].tag != SEQUENCE:
        raise Malformed("revocation list")
    values = {}
    for part in parts[2:]:
        if part.tag == 0xA0:
            values = extensions(whole(part.content, SEQUENCE))
    return Signed(tbs.octets, signature, parts[1].octets, authority_key_id(values), None, None, None)


def octet_string(element):
    """The octets of an OCTET STRING, also one in parts."""
    if element.tag == OCTET_STRING:
        return element.content
    if element.tag == CONSTRUCTED_OCTET_STRING:
        return b"".join(octet_string(part) for part in children(element.content))
    raise Malformed("octet string")


def read_signed_object(octets):
    """The eContent, the certificates, and the signed attributes with their signature of each signer."""
    info = children(whole(octets, SEQUENCE).content)
    if len(info) != 2 or info[0].content != SIGNED_DATA or info[1].tag != 0xA0:
        raise Malformed("content info")
    parts = children(whole(info[1].content, SEQUENCE).content)
    if len(parts) < 4 or parts[2].tag != SEQUENCE or parts[-1].tag != SET:
        raise Malformed("signed data")
    encapsulated = children(parts[2].content)
    if len(encapsulated) != 2 or encapsulated[1].tag != 0xA0:
        raise Malformed("no eContent")
    inner = children(encapsulated[1].content)
    if len(inner) != 1:
        raise Malformed("eContent")
    content = octet_string(inner[0])
    certificates = [c.octets for part in parts[3:-1] if part.tag == 0xA0 for c in children(part.content)]
    signers = []
    for signer in children(parts[-1].content):
        fields = children(signer.content)
        for i, field in enumerate(fields):
            if field.tag == 0xA0 and i + 2 < len(fields):
                signers.append((bytes([SET]) + field.octets[1:], octet_string(fields[i + 2])))
    return content, certificates, signers


def verifies(key, message, signature):
    """Whether the signature is one of the key, a whole subjectPublicKeyInfo, on the message."""
    try:
        loaded = load_der_public_key(key)
        if not isinstance(loaded, RSAPublicKey):
            return False
        loaded.verify(signature, message, PKCS1v15(), SHA256())
        return True
    except (InvalidSignature, UnsupportedAlgorithm, ValueError, TypeError):
        return False


def record(kind, *fields):
    out = bytearray([kind])
    for field in fields:
        if len(field) >= LONGEST:
            return None
        out += len(field).to_bytes(3, "big") + field
    return bytes(out)


class Book:
    """The records of a book, each once, in the order in which they came."""

    def __init__(self):
        self.records = {}

    def digest(self, octets):
        entry = record(DIGEST, octets, hashlib.sha256(octets).digest())
        if entry:
            self.records.setdefault(entry)

    def verdict(self, key, message, signature):
        entry = record(VERDICT, key, message, signature)
        if entry and entry not in self.records and verifies(key, message, signature):
            self.records[entry] = None
            return True
        return entry in self.records


def read_files(folder):
    """The files below the folder that have one of the four endings, by their paths."""
    files = []
    for top, folders, names in os.walk(folder):
        folders.sort()
        for name in sorted(names):
            if name.endswith((".cer", ".crl", ".mft", ".roa")):
                path = os.path.join(top, name)
                with open(path, "rb") as file:
                    files.append((path, file.read()))
    return files


def parse(path, octets):
    """What the file holds: certificates, CRLs, and signed objects with their certificates."""
    if path.endswith(".cer"):
        return [read_certificate(octets)], [], None
    if path.endswith(".crl"):
        return [], [read_crl(octets)], None
    content, certificates, signers = read_signed_object(octets)
    return [read_certificate(c) for c in certificates], [], (content, signers)


def make_book(files):
    book = Book()
    found = []
    issuers = {}
    for path, octets in files:
        try:
            certificates, lists, signed_object = parse(path, octets)
        except Malformed as why:
            book.digest(octets)
            print("%s: %s" % (path, why), file=sys.stderr)
            continue
        anchor = path.endswith(".cer") and all(c.issuer == c.subject for c in certificates)
        if not anchor and not path.endswith(".mft"):
            book.digest(octets)
        found.append((path, certificates, lists, signed_object))
        if path.endswith(".cer"):
            for certificate in certificates:
                for name in (certificate.subject, certificate.key_id):
                    if name is not None:
                        keys = issuers.setdefault(name, [])
                        if certificate.key not in keys:
                            keys.append(certificate.key)
    for path, certificates, lists, signed_object in found:
        if signed_object:
            content, signers = signed_object
            book.digest(content)
            for attributes, signature in signers:
                good = [c for c in certificates if book.verdict(c.key, attributes, signature)]
                if not good:
                    print("%s: no signature that verifies" % path, file=sys.stderr)
        for signed in certificates + lists:
            keys = issuers.get(signed.issuer, []) + issuers.get(signed.issuer_key_id, [])
            if signed.key is not None and signed.issuer == signed.subject:
                keys = keys + [signed.key]
            if not any([book.verdict(key, signed.tbs, signed.signature) for key in dict.fromkeys(keys)]):
                print("%s: no issuer whose signature verifies" % path, file=sys.stderr)
    return book


def main():
    if len(sys.argv) != 3:
        sys.exit("usage: book_from_repository.py FOLDER OUT")
    book = make_book(read_files(sys.argv[1]))
    with open(sys.argv[2], "wb") as out:
        for entry in book.records:
            out.write(entry)
    print("%d records" % len(book.records), file=sys.stderr)


if __name__ == "__main__":
    main()
