#!/bin/sh
# Walks every element of 16 MiB of small nested elements, beside openssl's asn1parse on the same input.
# Run it in the repository after `(cd crates/zapuhoti && rt run -- dump ../../examples/ca1.cer)`, which proves and builds the
# program. It proves nothing itself and is no part of the gate.
set -e
cd "$(dirname "$0")/.."
program=crates/zapuhoti/out/zapuhoti
mkdir -p target
input=target/bench-elements.der
python3 - "$input" <<'PY'
import sys
def el(tag, c):
    n = len(c)
    return bytes([tag]) + (bytes([n]) if n < 128 else bytes([0x81, n]) if n < 256 else bytes([0x82, n >> 8, n & 255])) + c
unit = el(0x30, el(0x06, bytes.fromhex("2a864886f70d01010b")) + el(0x05, b"")
          + el(0x30, el(0x02, b"\x05") + el(0x03, b"\x00\xc0\x00\x02") + el(0x01, b"\xff"))
          + el(0x30, el(0x30, el(0x04, b"\x01\x02\x03") + el(0x16, b"abc"))))
block = el(0x30, unit * (65000 // len(unit)))
open(sys.argv[1], "wb").write(block * ((16 << 20) // len(block)))
PY
best() {
    # the least of seven runs, in milliseconds of wall time
    python3 - "$@" <<'PY'
import subprocess, sys, time
least = 1e9
for _ in range(7):
    t = time.perf_counter()
    subprocess.run(sys.argv[1:], stdout=subprocess.DEVNULL, stderr=subprocess.DEVNULL, check=True)
    least = min(least, time.perf_counter() - t)
print(f"{least * 1000:9.1f} ms")
PY
}
echo "input: $(wc -c < $input) octets, $($program dump --quiet $input)"
echo "zapuhoti dump --quiet           $(best $program dump --quiet $input)   (reads, walks and checks every element)"
echo "openssl asn1parse -noout        $(best openssl asn1parse -inform DER -noout -in $input)   (reads the file; prints and walks nothing)"
echo "openssl asn1parse               $(best openssl asn1parse -inform DER -in $input)   (walks and prints)"
echo "zapuhoti dump                   $(best $program dump $input)   (walks, checks and prints)"
