#!/usr/bin/env python3
"""Writes the data book of the published models out of data/published-2023.csv (docs/PUBLISHED.md):
tools/published_book.py data/published-2023.bin"""
import csv
import os
import struct
import sys

SOURCE = os.path.join(os.path.dirname(os.path.abspath(__file__)), "..", "data", "published-2023.csv")
DISTANCES = list(range(0, 6001, 500)) + [7000, 8000, 9000, 10000]
TIMES = list(range(0, 961, 60))
KINDS = {"D": 1, "T": 2}
MARKS = bytes([0])


def rows():
    with open(SOURCE, encoding="ascii", newline="") as source:
        for line in csv.DictReader(source):
            fuels = [int(fuel) for fuel in line["fuels"].split(" ")]
            yield line["type"].ljust(4).encode("ascii"), KINDS[line["kind"]], int(line["tier"]), fuels


def row(designator, kind, tier, fuels):
    return designator + bytes([kind, tier, len(fuels), 0]) + struct.pack("<24I", *(fuels + [0] * (24 - len(fuels))))


def book():
    table = sorted(rows(), key=lambda item: item[:2])
    columns = [struct.pack("<17H", *DISTANCES), struct.pack("<17H", *TIMES)]
    sections = columns + [b"".join(row(*item) for item in table), b"", MARKS]
    offsets = [36]
    for section in sections:
        offsets.append(offsets[-1] + len(section))
    numbers = struct.pack("<6H", 2023, len(DISTANCES), len(TIMES), len(table), 0, len(MARKS))
    return numbers + struct.pack("<6I", *offsets) + b"".join(sections)


open(sys.argv[1], "wb").write(book())
