#!/usr/bin/env python3
"""Says which must-fail edits do not fit: the text to replace must stand just once in its file, and the new text must differ."""
import sys
from pathlib import Path

top = Path(__file__).resolve().parent.parent
bad = 0
count = 0
for edit in sorted(top.glob("crates/*/must-fail/*.edit")):
    count += 1
    path, old = None, ""
    for line in edit.read_text(encoding="utf-8").split("\n"):
        word, _, text = line.partition(": ")
        if word == "file":
            path = edit.parent.parent / text
        elif word == "old":
            old = text
        elif word == "new":
            times = path.read_text(encoding="utf-8").count(old) if path.exists() else 0
            if times != 1 or old == text:
                bad += 1
                print(f"{edit.relative_to(top)}: the old text stands {times} times in {path.name}")
print(f"{count} edits, {bad} that do not fit")
sys.exit(bad != 0)
