#!/usr/bin/env python3
"""Writes the example data book of docs/BOOK.md: tools/example_book.py FILE."""
import struct
import sys

COLUMNS = list(range(0, 6001, 500)) + [7000, 8000, 9000, 10000]
FUELS = [759, 1588, 2416, 3245, 4073, 4902, 5730, 6559, 7387, 8216, 9044, 9873, 10701, 12358, 14015, 15672, 17329]
AERODROMES = [(b"AAAA", 1), (b"BBBB", 2)]
MARKS = bytes([1, 1])


def book():
    columns = b"".join(struct.pack("<H", c) for c in COLUMNS)
    row = b"GL7T" + bytes([1, 1, len(FUELS), 0]) + struct.pack("<24I", *(FUELS + [0] * (24 - len(FUELS))))
    aerodromes = b"".join(code + struct.pack("<HH", state, 0) for code, state in AERODROMES)
    sections = [columns, b"", row, aerodromes, MARKS]
    offsets = [36]
    for section in sections:
        offsets.append(offsets[-1] + len(section))
    header = struct.pack("<6H", 2023, len(COLUMNS), 0, 1, len(AERODROMES), len(MARKS)) + struct.pack("<6I", *offsets)
    return header + b"".join(sections)


open(sys.argv[1], "wb").write(book())
