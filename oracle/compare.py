#!/usr/bin/env python3
"""Compares the original (the oracle), our definitions and, if given, our tool on a file of filters.

Usage: compare.py [utils] ORACLE LINES [TOOL [TREES]]
ORACLE is the program that build.sh makes, LINES a file that generate.py makes. TOOL is asked for every line
(`TOOL lines`) and for the trees of TREES accepted filters, evenly chosen (`TOOL read FILE..`; 5000 if not given).
With `utils`, for an oracle built over netlink-packet-utils 0.5.1, what differs only by the flag 4000 of words that
have both flags is counted apart. The exit status is 0 if there is no other difference.
"""
import re
import subprocess
import sys
import tempfile
from collections import Counter
from itertools import islice
from pathlib import Path

import definitions

HERE = Path(__file__).resolve().parent
MASK = re.compile(r"(offmask 0x|offoff |hoff |hmask 0x)-?[0-9a-f]+")
SHOWN = 40  # differences printed in full
BATCH = 300  # files for one call of the tool


def ask(command, lines, answers):
    """Runs a program from a file of lines to a file of answers."""
    with open(lines, "rb") as source, open(answers, "wb") as target:
        done = subprocess.run(command, stdin=source, stdout=target)
    if done.returncode:
        sys.exit(f"{command} ended with {done.returncode}")


def answers(path):
    with open(path) as file:
        for line in file:
            yield line.rstrip("\n")


def trees(path):
    tree = []
    for line in answers(path):
        if line == ".":
            yield tree
            tree = []
        else:
            tree.append(line)


def has_statistics(data):
    """Whether an action, so far as it can be walked to, has an attribute of type 4."""
    try:
        for _, word, first, end in definitions.walk(data, 0, len(data), 1):
            if word & 0x3FFF != 7:
                continue
            for _, _, first2, end2 in definitions.walk(data, first, end, 2):
                for _, word3, _, _ in definitions.walk(data, first2, end2, 3):
                    if word3 & 0x3FFF == 4:
                        return True
    except definitions.Fault:
        pass
    return False


def masked(tree):
    """A tree without the four fields of a selector that the original takes in another way."""
    return [MASK.sub(r"\1*", line) if line.startswith("selector ") else line for line in tree]


def same_fault(ours, theirs, data):
    """Cause, layer, need and number are the same, and the place is in the option that fails there."""
    _, cause, place, layer, need, number = ours.split()
    if theirs.split()[:5] != ["refused", cause, layer, need, number]:
        return False
    option, place = int(theirs.split()[5]), int(place)
    if layer == "1":
        return place == option
    length = int.from_bytes(data[option : option + 2], "little")
    return option < place < option + length


def one_flag(word):
    return word & ~0x4000 if word & 0xC000 == 0xC000 else word


def with_one_flag(data):
    """Our answer, but of two flags of a default word only 8000 is written."""
    def attribute(one):
        case, word, value = one
        if case == "options":
            value = [(one_flag(inner), payload) for inner, payload in value]
        return case, one_flag(word), value

    def option(one):
        case, word, value = one
        if case == "actions":
            value = [(tab, text, list(map(attribute, inner))) for tab, text, inner in value[0]], value[1]
        return case, one_flag(word), value

    reading = list(map(option, definitions.read(data)))
    return "ok %d %d %d %s" % (*definitions.counts(reading), definitions.shown(definitions.written(reading)))


class Differences:
    def __init__(self):
        self.number = 0

    def note(self, line, *said):
        self.number += 1
        if self.number <= SHOWN:
            print(f"DIFFERENCE for {line[:400]}{'..' if len(line) > 400 else ''}")
            for words in said:
                print(f"    {str(words)[:800]}")


def compare_original(folder, lines, differences, utils):
    figures = Counter()
    each = zip(answers(lines), answers(folder / "definitions"), answers(folder / "oracle"), answers(folder / "why"),
               trees(folder / "definitions.tree"), trees(folder / "oracle.tree"), strict=True)
    for line, ours, theirs, why, our_tree, their_tree in each:
        figures["generated"] += 1
        data = definitions.decoded(line.encode())
        out = None
        if len(data) > definitions.LIMIT:
            out = "left out: more than 65,531 bytes (cause 1)"
        elif ours.startswith("fault 15 "):
            out = "left out: written payload too long (cause 15)"
        elif has_statistics(data):
            out = "left out: statistics of an action"
        if out:
            figures[out] += 1
            alike = ours == theirs or ours.startswith("fault") and theirs == "refused"
            figures[f"{out}, of these answered alike"] += alike
            continue
        figures["compared"] += 1
        if ours.startswith("ok "):
            figures["accepted"] += 1
            if ours != theirs and not (utils and with_one_flag(data) == theirs):
                differences.note(line, "definitions: " + ours, "original:    " + theirs)
                continue
            figures["accepted, written without the flag 4000 of a word that has both"] += ours != theirs
            if masked(our_tree) != masked(their_tree):
                differences.note(line, our_tree, their_tree)
        else:
            figures[f"refused, cause {int(ours.split()[1]):2}"] += 1
            if theirs != "refused" or not same_fault(ours, why, data):
                differences.note(line, "definitions: " + ours, "original:    " + why)
    return figures


def compare_tool(folder, lines, differences, figures):
    for line, ours, said in zip(answers(lines), answers(folder / "definitions"), answers(folder / "tool"), strict=True):
        figures["tool: lines compared"] += 1
        if ours != said:
            differences.note(line, "definitions: " + ours, "tool:        " + said)


def compare_tool_trees(folder, lines, tool, wanted, differences, figures):
    def accepted():
        for line, tree in zip(answers(lines), trees(folder / "definitions.tree"), strict=True):
            if not tree[0].startswith("fault "):
                yield line, tree

    step = max(1, sum(1 for _ in accepted()) // wanted)
    chosen = islice(accepted(), 0, None, step)
    while batch := list(islice(chosen, BATCH)):
        files = []
        for number, (line, _) in enumerate(batch):
            files.append(folder / f"{number}.hex")
            files[-1].write_text(line + "\n")
        said = subprocess.run([tool, "read", *files], capture_output=True, text=True).stdout
        want = "".join((f"{file}:\n" if len(files) > 1 else "") + "\n".join(tree) + "\n" for file, (_, tree) in zip(files, batch))
        figures["tool: trees compared"] += len(batch)
        if said == want:
            continue
        parts = said.split("\n")
        for file, (line, tree) in zip(files, batch):
            begin = parts.index(f"{file}:") + 1 if f"{file}:" in parts else 0
            if parts[begin : begin + len(tree)] != tree:
                differences.note(line, tree, parts[begin : begin + len(tree)])


def main():
    utils = sys.argv[1] == "utils"
    oracle, lines, *tool = sys.argv[2 if utils else 1 :]
    differences = Differences()
    with tempfile.TemporaryDirectory() as name:
        folder = Path(name)
        ask([oracle], lines, folder / "oracle")
        ask([oracle, "tree"], lines, folder / "oracle.tree")
        ask([oracle, "why"], lines, folder / "why")
        ask([sys.executable, HERE / "definitions.py"], lines, folder / "definitions")
        ask([sys.executable, HERE / "definitions.py", "tree"], lines, folder / "definitions.tree")
        figures = compare_original(folder, lines, differences, utils)
        if tool:
            ask([tool[0], "lines"], lines, folder / "tool")
            compare_tool(folder, lines, differences, figures)
            compare_tool_trees(folder, lines, tool[0], int((*tool, 5000)[1]), differences, figures)
    for what in sorted(what for what in figures if figures[what]):
        print(f"{figures[what]:9,}  {what}")
    print(f"{differences.number:9,}  differences")
    return 1 if differences.number else 0


if __name__ == "__main__":
    sys.exit(main())
