#!/usr/bin/env python3
"""Compares parity bytes of the proved gsbench with those that ISA-L gives for the same code and bytes.

Run it at the top of the repository after `rt ci` or, in crates/gsbench, `rt run`, with the program
isal_bench of bench/speed.py: `bench/parity.py ISAL_BENCH`. That program prints, for `isal_bench parity`,
lines such as `random_73_15 HEX`: the parity of D data shards of 1,376 bytes (or of LEN, where a third
number stands in the name) from a generator whose seed is 1000 + D (or 77). For each such line gsbench
encodes the same bytes, and the checksums of the two are compared. Ends with status 1 where two differ.
"""
import pathlib
import re
import subprocess
import sys

PROGRAM = pathlib.Path(__file__).resolve().parent.parent / "crates/gsbench/out/gsbench"
LEN = 1376


def fnv1a(data):
    value = 0x811C9DC5
    for byte in data:
        value = (value ^ byte) * 0x01000193 & 0xFFFFFFFF
    return value


def main():
    if len(sys.argv) != 2:
        sys.exit(__doc__)
    text = subprocess.run([sys.argv[1], "parity"], capture_output=True, text=True, check=True).stdout
    different = 0
    for name, d, p, length, hexes in re.findall(r"^(random_(\d+)_(\d+)(?:_(\d+))?) ([0-9a-f]+)$", text, re.M):
        seed = 77 if length else 1000 + int(d)
        words = [PROGRAM, "parity", d, p, length or LEN, seed, 1]
        line = subprocess.run(list(map(str, words)), capture_output=True, text=True, check=True).stdout
        same = int(line.split()[1], 16) == fnv1a(bytes.fromhex(hexes))
        different += not same
        print(f"{name}: {'equal' if same else 'DIFFERENT'}")
    sys.exit(1 if different else 0)


if __name__ == "__main__":
    main()
