#!/usr/bin/env python3
"""Shows each difference of docs/DIFFERENCES.md by its witness: what we say, and what each given oracle says.

Usage: witnesses.py ORACLE..   Each ORACLE is a program that build.sh made.
"""
import subprocess
import sys

import definitions
from generate import attribute, one_action

NAT = attribute(1, b"nat\0")


def grown(kinds, spare):
    """A filter whose type 7 option grows by 4 bytes for each of its kinds."""
    actions = b"".join(attribute(1, attribute(1, b"four")) for _ in range(kinds))
    filler = 65527 - spare - len(actions) - 16
    last = attribute(1, NAT + attribute(6, bytes(filler), padding=b""), padding=b"")
    return attribute(7, actions + last, padding=b"")


def tunnel_key(payload):
    return one_action(attribute(1, b"tunnel_key\0") + attribute(0x8002, attribute(7, payload)))


WITNESSES = [  # name, what to ask for, filter
    ("Selector fields by the header", "tree", attribute(5, bytes.fromhex("000000000f0000000000feff0000ff00"))),
    ("Tunnel key id of 4 bytes: 8 bytes", "lines", tunnel_key(bytes(7) + b"\x2a")),
    ("Tunnel key id of 4 bytes: 4 bytes", "lines", tunnel_key(bytes(3) + b"\x2a")),
    ("Both flags of a word are kept", "lines", attribute(0xC00C, b"\xaa")),
    ("A payload that is too long is refused: 65,532 bytes", "lines", grown(2, 3)),
    ("A payload that is too long is refused: 65,536 bytes", "lines", grown(3, 3)),
    ("The longest payload: 65,528 bytes", "lines", grown(1, 3)),
    ("A short buffer is refused", "short", attribute(0x0C, b"\xaa")),
    ("A filter has a limit: 65,532 zero bytes", "lines", bytes(65532)),
    ("A filter has a limit: 65,536 bytes, two options", "lines", attribute(6, bytes(32764)) + attribute(6, bytes(32764))),
    ("Statistics of an action are raw bytes: no attribute", "lines", one_action(attribute(4, b"\xaa") + NAT)),
    ("Statistics of an action are raw bytes: padding missing", "lines", one_action(attribute(4, bytes.fromhex("05000600aa")) + NAT)),
]


def brief(text):
    text = text.strip().replace("\n.", "").replace("\n", " | ")
    return text if len(text) < 230 else f"{text[:60]}.. ({len(text)} characters)"


def main():
    for name, mode, data in WITNESSES:
        line = data.hex()
        print(f"{name}\n  filter       {brief(line)}")
        ours = definitions.answer_tree if mode == "tree" else definitions.answer
        if mode != "short":
            print(f"  definitions  {brief(ours(line.encode()))}")
        for oracle in sys.argv[1:]:
            said = subprocess.run([oracle, mode], input=line + "\n", capture_output=True, text=True).stdout
            print(f"  {oracle}  {brief(said)}")


if __name__ == "__main__":
    main()
