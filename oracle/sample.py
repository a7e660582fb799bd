#!/usr/bin/env python3
"""Writes a small sample of lines and the answers expected for them.

Usage: sample.py ORACLE STDIN STDOUT [large]
Answers to accepted filters are the original's where it is compared; all others are our definitions'.
With `large` a line of cause 1 and one of cause 15 stand at the end, some 131 KB each.
"""
import random
import subprocess
import sys
from collections import defaultdict
from itertools import islice, zip_longest
from pathlib import Path

import definitions
import generate
from compare import has_statistics
from generate import attribute, one_action

SEED = 20
WANTED = {"short": 250, "filter_options": 330, "selectors": 250, "actions": 400, "action_options": 700, "texts": 250,
          "built": 420, "damaged": 300}
MOST = 72  # bytes of a chosen filter

NAT = attribute(1, b"nat\0")


def under(kind, word, payload):
    return one_action(attribute(1, kind) + attribute(0x8002, attribute(word, payload)))


EXAMPLES = [  # the worked examples of docs/
    "", "080001", "08000100020001", "03000100", "07000100020001", "0800010002000100", "070001000200010003",
    attribute(5, bytes(15)), attribute(5, b"\0\0\1" + bytes(28)), attribute(5, b"\0\0\1" + bytes(30)),
    attribute(5, b"\0\0\1" + bytes(13) + bytes.fromhex("0a00000000000000f4ffffff00000000")),
    "0800070004000100", "180007001400010007000100 6e617400 07000100 6e617400", "100007000c00010005000100c0000000",
    one_action(attribute(1, b"nat\0\0")), under(b"nat\0\0", 0x8001, b"\xaa"), under(b"nat\0", 0x8001, b"\xaa"),
    under(b"nat\0", 0x8009, b"\xaa"), under(b"tunnel_key\0", 10, b"\2"), under(b"tunnel_key\0", 0xC00A, b"\2"),
    under(b"mirred\0", 2, bytes(27)), under(b"mirred\0", 0x8002, bytes(range(30))), "00000700", "04000700",
    "1c000700180001000c00028005000900aa000000080001006e617400",
    one_action(attribute(0x8002, attribute(9, b"\xaa")) + attribute(1, b"tunnel_key\0")),
    one_action(attribute(0x8002, attribute(1, b"\xaa")) + NAT),
    attribute(5, bytes.fromhex("000000000f00000000 00feff0000ff00")),
    under(b"tunnel_key\0", 7, bytes(7) + b"\x2a"), under(b"tunnel_key\0", 7, bytes(3) + b"\x2a"),
    attribute(0xC00C, b"\xaa"), one_action(attribute(4, b"\xaa") + NAT),
]

ODD = ["0", "080", "08000100020001000", "xyz", "0g", "-", "0x08", "08 00010002000100", "0800010002000100.", "ok 0 0 0 -",
       " ", "   0800010002000100", "0800010002000100  ", "0800050A", "0800010a0b0c0D0E"]


def large():
    yield bytes(65532).hex()
    grows = b"".join(attribute(1, attribute(1, b"four")) for _ in range(3))
    last = attribute(1, NAT + attribute(6, bytes(65527 - len(grows) - 16), padding=b""), padding=b"")
    yield attribute(7, grows + last, padding=b"").hex()


def pool(rng):
    """Filters by the name of the table that they are from."""
    filters = {}
    for table in (generate.short, generate.filter_options, generate.selectors, generate.actions,
                  generate.action_options, generate.texts):
        filters[table.__name__] = list(table(rng))
    builder = generate.Builder(rng, 8)
    filters["built"] = [data for _ in range(20000) if len(data := builder.filter()) <= MOST]
    copies = filters["built"] + filters["action_options"]
    filters["damaged"] = [generate.damaged(rng, rng.choice(copies), rng.choice(copies)) for _ in range(20000)]
    return filters


def looks(data):
    """What filters are told apart by: the fault without its place, or the names in the tree."""
    try:
        lines = definitions.tree(definitions.read(data))
        known = [str(kind) for kind in generate.KINDS for line in lines if definitions.quoted(kind) in line]
        return tuple([line.split()[0] for line in lines[:-1]] + known[:1])
    except definitions.Fault as fault:
        cause, _, *others = fault.args
        return cause, *others


def chosen():
    """From each table as many as wanted: one of each look, then a second of each, and so on."""
    rng = random.Random(SEED)
    order = []
    for table, filters in pool(rng).items():
        groups = defaultdict(list)
        for data in filters:
            if len(data) <= MOST:
                groups[looks(data)].append(data)
        for group in groups.values():
            rng.shuffle(group)
        turns = zip_longest(*sorted(groups.values(), key=len, reverse=True))
        order += islice((data for turn in turns for data in turn if data is not None), WANTED[table])
    return order


def main():
    oracle, stdin, stdout, *more = sys.argv[1:]
    lines = [e.replace(" ", "") if isinstance(e, str) else e.hex() for e in EXAMPLES]
    lines += [data.hex() for data in chosen()] + ODD + (list(large()) if more == ["large"] else [])
    text = "".join(line + "\n" for line in lines)
    theirs = subprocess.run([oracle], input=text.encode(), capture_output=True, check=True).stdout.decode().split("\n")
    answers = []
    from_original = 0
    for line, original in zip(lines, theirs):
        answer = definitions.answer(line.encode())
        data = definitions.decoded(line.encode())
        if answer.startswith("ok ") and not has_statistics(data):
            answer = original
            from_original += 1
        answers.append(answer)
    Path(stdin).write_text(text)
    Path(stdout).write_text("".join(answer + "\n" for answer in answers))
    print(f"{len(lines)} lines, {from_original} answers from the original, {len(text)} + {sum(map(len, answers)) + len(answers)} bytes")


if __name__ == "__main__":
    main()
