#!/usr/bin/env python3
"""Makes the lines that the program `trees` is run on: filters in hexadecimal that between them show every kind of line a tree can have.

    python3 tools/trees_stdin.py > crates/trees/stdin
    python3 oracle/definitions.py tree < crates/trees/stdin > crates/trees/stdout

The trees come from oracle/definitions.py, which is written from docs/FORMAT.md on its own.
"""
from struct import pack

from sample_entry import attribute

BYTES = bytes(range(0xA0, 0x100))


def action(kind, *options, tab=1, more=b""):
    inside = attribute(1, kind + b"\0") + more + attribute(0x8002, b"".join(attribute(*one) for one in options))
    return attribute(7, attribute(tab, inside))


def generic(outcome=3):
    return pack("<IIiii", 1, 2, outcome, -3, 4)


def filter_options():
    for word in list(range(14)) + [0x8001, 0x4006, 0xC00C, 0x3FFF, 0xFFFF]:
        yield attribute(word, b"")
        yield attribute(word, pack("<I", 0x80010002))
    for keys in ([], [(0xFFFF, 0x2711, 20, 0)], [(0, 1, -4, -1), (0xFFFFFFFF, 0x0A000001, 12, 2**31 - 1)]):
        head = pack(">BBBBH", 0x0F, 3, len(keys), 9, 0xFF00) + pack("<Hhh", 65535, -2, -32768) + pack(">I", 0xFF000000)
        yield attribute(5, head + b"".join(pack(">II", mask, value) + pack("<ii", *rest) for mask, value, *rest in keys) + b"tail")


def action_attributes():
    for word in list(range(2, 13)) + [0x8003, 0x4006, 0xC00B]:
        for payload in (b"", pack("<I", 4000000000)):
            yield attribute(7, attribute(5, attribute(word, payload) + attribute(1, b"gact")))
    for kind in (b"", b'a "quoted" \\ text', "h\u00e4t \u20ac \U0001F321".encode(), b"\0\x1f ~\x7f", b"nat\0\0", b"Mirred", b"\xc0"):
        yield attribute(7, attribute(0x4000 + 16383, attribute(1, kind)))
    yield attribute(7, b"")
    yield attribute(7, attribute(1, b""))
    yield attribute(7, attribute(1, attribute(1, b"nat") * 2))


def records():
    for number in range(-2, 11):
        yield action(b"mirred", (2, generic(number) + pack("<iI", 2, 7)))
    for number in (-2**31, -1, 0, 1, 2, 3, 4, 5, 2**31 - 1):
        yield action(b"mirred", (2, generic() + pack("<iI", number, 2**32 - 1) + b"tail"))
    for kind, parameters, times in ((b"mirred", 2, 1), (b"nat", 1, 2), (b"tunnel_key", 2, 1)):
        yield action(kind, (times, pack("<4Q", 1, 2, 3, 2**64 - 1)), (times, BYTES[:32]), (0x8000 + times, BYTES[:33]))
        yield action(kind, (times, BYTES[:31]))
        yield action(kind, (parameters, BYTES[:23]))
        yield action(kind, (0, b""), (3 if kind != b"tunnel_key" else 8, b"\xaa"), (0x8009 if kind != b"tunnel_key" else 0xC00B, b"\xaa\xbb"))
    for number in (-1, 0, 42):
        yield action(b"nat", (1, generic(number) + bytes([10, 0, 0, 1, 10, 0, 0, 2, 255, 255, 255, 0]) + pack("<I", 0x10001)))
        yield action(b"tunnel_key", (2, generic(number) + pack("<i", number)))


def tunnel_keys():
    address = bytes.fromhex("20010db8000000000000000000000001")
    for option in ((3, BYTES[:4]), (4, b"\x0a\0\0\1"), (5, address), (6, BYTES[:16]), (6, bytes(16)), (7, pack(">I", 42)), (9, pack(">H", 4789)),
                   (10, b"\0"), (10, b"\1"), (0x800A, b"\xff"), (12, b"\x10"), (13, b"\x40"), (3, b""), (5, address[:15]), (10, b""), (13, b"\0\0")):
        yield action(b"tunnel_key", option)
        yield action(b"gact", option, tab=32)


def main():
    print("")
    print("0")
    print("xx")
    for table in (filter_options, action_attributes, records, tunnel_keys):
        for data in table():
            print(data.hex())


main()
