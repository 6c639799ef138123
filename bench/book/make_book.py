#!/usr/bin/env python3
"""Write a verdict book of 2,000 records and 16 MiB of arbitrary octets: python3 bench/book/make_book.py OUT"""

import os
import sys

RECORDS = 2000
OCTETS = 16 << 20


def field(octets):
    return len(octets).to_bytes(3, "big") + octets


def main():
    each = OCTETS // RECORDS
    with open(sys.argv[1], "wb") as out:
        for i in range(RECORDS):
            if i % 2:
                out.write(b"\x44" + field(os.urandom(each - 39)) + field(os.urandom(32)))
            else:
                message = b"M" * 64 + os.urandom(each - 10 - 294 - 256 - 64)
                out.write(b"\x59" + field(b"K" * 294) + field(message) + field(os.urandom(256)))


main()
