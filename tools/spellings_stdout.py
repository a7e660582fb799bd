#!/usr/bin/env python3
"""Prints what the program `spellings` must print, from the rules of docs/FORMAT.md and docs/REFUSALS.md.

It shares nothing with the Rattle code: the sample entry is packed field by field by sample_entry.py, and
it is read and written out by oracle/definitions.py, and put on a page by the class below. Run it as: tools/spellings_stdout.py | diff - crates/spellings/stdout
"""
import struct
import sys
from pathlib import Path

sys.path.insert(0, str(Path(__file__).resolve().parent.parent / "oracle"))
import definitions
from sample_entry import CAUSES, LAYERS, attribute, entry, parts


def canonical(title, data):
    print(f"{title}, read with the shipped book:")
    try:
        reading = definitions.read(data)
    except definitions.Fault as fault:
        cause, place, layer, need, number = fault.args
        print(f"Refused: byte {place}, {LAYERS[layer]}: {CAUSES[cause]} (fault {cause} {place} {layer} {need} {number})")
        print("Not written out.\n")
        return None
    print("\n".join(definitions.tree(reading)))
    written = definitions.written(reading)
    print(f"Written out, {len(written)} bytes:")
    print(written.hex() + "\n")
    return written


class Refused(Exception):
    """A call that is refused, by its five numbers."""


class Page:
    """A page by the rules of docs/PAGE.md, as far as the calls below need them."""

    def __init__(self):
        self.bytes = b""
        self.nests = []

    def put(self, word, payload):
        self.bytes += attribute(word, payload)

    def open(self, kind):
        self.nests.append(len(self.bytes))
        self.bytes += struct.pack("<HH", 0, kind | (0x8000 if len(self.nests) == 3 else 0))

    def close(self):
        head = self.nests[-1]
        if len(self.nests) == 2:
            at, kinds = head + 4, 0
            while at < len(self.bytes):
                length, word = struct.unpack_from("<HH", self.bytes, at)
                kinds += word & 0x3FFF == 1
                at += (length + 3) // 4 * 4
            if kinds == 0:
                raise Refused(10, head, 2, 0, 0)
        self.nests.pop()
        self.bytes = self.bytes[:head] + struct.pack("<H", len(self.bytes) - head) + self.bytes[head + 2:]

    def strike(self):
        self.bytes = self.bytes[:self.nests.pop()]


def building(first, second):
    print("The same entry, put together on a page in memory of 100 bytes:")
    class_id, selector, right = (pair[1] for pair in parts())
    wrong = right[:-4] + struct.pack("<I", 8)
    page = Page()
    for name, *args in [("put", 1, class_id), ("put", 5, selector), ("open", 7), ("open", 1), ("close",), ("put", 1, b"mirred\0"), ("open", 2), ("put", 2, wrong),
                        ("strike",), ("open", 2), ("put", 2, right), ("close",), ("close",), ("close",)]:
        told = {"put": "put of word {:04X} with {} bytes", "open": "open of type {}"}.get(name, name)
        told = told.format(args[0], len(args[1])) if name == "put" else told.format(*args)
        try:
            getattr(page, name)(*args)
            print(f"{told}: accepted")
        except Refused as fault:
            cause, place, layer, need, number = fault.args
            print(f"{told}: refused, byte {place}, {LAYERS[layer]}: {CAUSES[cause]} (fault {cause} {place} {layer} {need} {number})")
    print()
    canonical("The page", page.bytes)
    same = page.bytes == first == second
    print("The page is the written form of both spellings, byte for byte." if same else "The page is not the written form of both spellings.")


def main():
    with_zero, without_zero = entry(b"mirred\0"), entry(b"mirred")
    print("A heat meter's mirror entry in two spellings: its kind text with and without a zero at the end.\n")
    first = canonical("With the zero", with_zero)
    second = canonical("Without the zero", without_zero)
    if first == second:
        print("The two are one entry: their readings are equal, and their written forms are the same bytes.\n")
    else:
        print("The two are two entries: their readings differ.\n")
    canonical("A copy with its last byte cut off", with_zero[:-1])
    building(first, second)


main()
