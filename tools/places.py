#!/usr/bin/env python3
"""Lists the places in crates/*/src that an older language left behind, by the eight points of docs/DESIGN-PASS.md, each with how it is found.

    python3 tools/places.py [FOLDER]      the tree to look at (this repository if none is given)
    python3 tools/places.py --counts ..   only how many there are
"""
import re
import sys
from collections import defaultdict
from pathlib import Path

args = [a for a in sys.argv[1:] if not a.startswith("--")]
top = Path(args[0]) if args else Path(__file__).resolve().parent.parent
counts_only = "--counts" in sys.argv
files = sorted(top.glob("crates/*/src/**/*.rt"))
text = {f: f.read_text(encoding="utf-8") for f in files}


def where(f, at):
    return f"{f.relative_to(top / 'crates')}:{text[f].count(chr(10), 0, at) + 1}"


def block(s, at):
    """The text from `at` to the brace that closes the first one behind it."""
    i = s.index("{", at)
    depth = 0
    for j in range(i, len(s)):
        depth += {"{": 1, "}": -1}.get(s[j], 0)
        if depth == 0:
            return s[i:j + 1], j + 1
    return s[i:], len(s)


def functions():
    """Each function: file, place, name, text of signature with clauses, body (none where a trait only declares it)."""
    for f in files:
        s = text[f]
        for m in re.finditer(r"\bfn (\w+)", s):
            line = s.rfind("\n", 0, m.start()) + 1
            if "//" in s[line:m.start()]:
                continue
            at = m.end()
            body = None
            while True:
                n = re.compile(r"[{;]|\b(?:requires|ensures)\b[^{]*").search(s, at)
                if not n:
                    break
                if n.group() == ";":
                    at = n.end()
                    break
                if n.group().startswith(("requires", "ensures")):
                    _, at = block(s, n.start())
                    continue
                body, end = block(s, n.start())
                at = n.start()
                break
            yield f, m.start(), m.group(1), s[m.start():at], body


funs = list(functions())
# a trait's function counts once, where the trait declares it
bound = {f: [(m.start(), block(text[f], m.start())[1]) for m in re.finditer(r"^impl\b[^{;]*? for ", text[f], re.M)] for f in files}


def of_a_trait(f, at):
    return any(a < at < b for a, b in bound[f])


found = defaultdict(list)


def put(point, what, f, at, note=""):
    found[(point, what)].append(f"{where(f, at)} {note}".rstrip())


def each(point, what, pattern, skip=None):
    for f in files:
        for m in re.finditer(pattern, text[f], re.M):
            line = text[f][text[f].rfind("\n", 0, m.start()) + 1:text[f].find("\n", m.end())]
            if skip and re.search(skip, line):
                continue
            put(point, what, f, m.start(), line.strip()[:90])


# ── 1: own Option, own Result, a flag with a value, numbers for kinds or refusals ──
for f in files:
    for m in re.finditer(r"\benum (\w+)[^{;]*", text[f]):
        inside, _ = block(text[f], m.start())
        inside = re.sub(r"//.*|#\[.*?\]", "", inside)
        cases = [c.strip() for c in re.split(r",(?![^(]*\))(?![^{]*\}[^}]*$)", inside[1:-1]) if c.strip()]
        bare = [c for c in cases if re.fullmatch(r"\w+( = \d+)?", c)]
        if len(cases) <= 3 and bare and len(bare) < len(cases):
            put(1, "an enum of at most three cases of which some hold nothing and some a value", f, m.start(), m.group(1))
for f, at, name, sig, body in funs:
    if re.search(r"-> (io::Result<)?bool\b", sig) and "&mut" in sig and not of_a_trait(f, at):
        put(1, "a function that changes something and answers `bool`", f, at, name)
    if body is not None and re.fullmatch(r"\{\s*0\s*\}", body) and "-> u8" in sig:
        put(1, "a law on a function that answers the number 0", f, at, name)
each(1, "a bare number for a type of attribute", r"kind\(\) == \d+|^\s+\d+ => (?!Cause|Tc\w+Type)\{|Leaf::Number\(\d+|\bbytes\(\d+, value|^const \w+_WORD: u16 = ")
each(1, "a field or constant that repeats a type's number of another file", r"^const TCA_(U32_ACT|ACT_OPTIONS|U32_SEL|ACT_KIND): u16")

# ── 2: twins ──
keywords = set("as break const continue crate else enum extern false fn for if impl in let loop match mod move mut pub ref return self Self static struct super trait true type unsafe use where while requires ensures ghost".split())


def shape(s):
    """Tokens, with names, types, numbers and texts made alike."""
    s = re.sub(r"//.*", "", s)
    out = []
    for t in re.findall(r'b?"(?:\\.|[^"\\])*"|b?\'(?:\\.|[^\'\\])\'|\w+|[^\w\s]', s):
        if t[0] in "\"'" or t[:2] in ('b"', "b'"):
            out.append("S")
        elif t in keywords:
            out.append(t)
        elif re.fullmatch(r"[\w]+", t):
            out.append("I" if not t[0].isdigit() else "N")
        else:
            out.append(t)
    return " ".join(out)


groups = defaultdict(list)
for f, at, name, sig, body in funs:
    if body is None:
        continue
    code = re.sub(r"\b(requires|ensures)\b[^{]*\{(?:[^{}]|\{[^{}]*\})*\}", "", sig) + body
    s = shape(re.sub(r"\[(\*?\w+(, )?)+\]", "[..]", code))
    if len(s.split()) >= 24:
        groups[s].append((f, at, name))
for s, members in groups.items():
    if len(members) > 1:
        for f, at, name in members:
            put(2, "a function of just the shape of another", f, at, f"{name} ({len(members)} alike)")
types = defaultdict(list)
for f in files:
    for m in re.finditer(r"\b(enum|struct) (\w+)[^{;(]*(?=\{)", text[f]):
        inside, _ = block(text[f], m.start())
        inside = re.sub(r"//.*|ghost.*|pub(\(crate\))? ", "", inside)
        names = re.findall(r"^\s*(\w+)", inside[1:], re.M)
        types[(m.group(1), tuple(names))].append((f, m.start(), m.group(2)))
for members in types.values():
    if len(members) > 1:
        for f, at, name in members:
            put(2, "a struct or enum with just the fields or cases of another", f, at, f"{name} ({len(members)} alike)")
for f, at, name, sig, body in funs:
    if body and re.fullmatch(r"\{\s*(Err\()?(Fault|DecodeError) \{[^{}]*\}\)?\s*\}", body):
        put(2, "a function that only makes a fault or an error", f, at, name)
    if body and re.fullmatch(r"\{\s*\w+ == \w+(\.as_slice\(\))?(b\"\w+\"\.as_slice\(\))?\s*\}|\{\s*kind == b\"gact\"\.as_slice\(\)\s*\}", body):
        put(2, "a function that only compares two rows of bytes", f, at, name)
each(2, "a constant for 65,531", r"^(pub )?(pub\(crate\) )?const \w+: usize = 65531;")
each(2, "a constant of three zeros", r"^(pub )?const ZEROS")

# ── 3: loops that count by hand ──
each(3, "a `for` over a range", r"^\s*for \w+ in [\w.]*\.\.[^{]*")
each(3, "a `while`", r"^\s*while .*")

# ── 4: equality, order, copying, conversion, printing by hand ──
each(4, "a hand-written impl of a trait that can be derived", r"^impl\b.*\b(Drop|Clone|Copy|PartialEq|Eq|Ord|PartialOrd|Hash|Debug|Default) for")
each(4, "a conversion by a method of its own name", r"^\s*pub fn (from_number|number)\b.*")
each(4, "a default attribute made from an attribute by hand", r"DefaultNla \{\s*word: buf\.word")
each(4, "a fault made field by field", r"(?<![\w:>] )\bFault \{\n?\s*cause", skip=r"^pub struct|^impl|->|let Fault")
each(4, "an error made of another by a match", r"^\s*Err\((error|refusal|fault)\) => (return )?(Err\()?(Err\(Fault|Err\(Refusal|Err\(Unwritten|Unwritten)")
each(4, "text put together by hand", r"push_str\(")

# ── 5: facts in several contracts, parameters that travel together ──
facts = defaultdict(list)
for f, at, name, sig, body in funs:
    for m in re.finditer(r"\brequires\b[^{]*\{((?:[^{}]|\{[^{}]*\})*)\}", sig):
        facts[re.sub(r"\s+", " ", m.group(1).replace(".entry", "").replace(".old", "").replace(".now", "")).strip()].append((f, at, name))
for fact, members in facts.items():
    if len({(str(f), n) for f, _, n in members}) >= 3:
        for f, at, name in members:
            put(5, "a `requires` that stands on three functions or more", f, at, f"{name}: {fact}")
together = defaultdict(list)
for f, at, name, sig, body in funs:
    if of_a_trait(f, at):
        continue
    m = re.match(r"fn \w+(<[^(]*>)?\(([^)]*)\)", sig, re.S)
    if not m:
        continue
    ps = sorted({re.sub(r"\s+", " ", p.split(":")[0]).strip().removeprefix("mut ") for p in m.group(2).split(",") if ":" in p})
    for i in range(len(ps)):
        for j in range(i + 1, len(ps)):
            together[(ps[i], ps[j])].append((f, at, name))
travels = defaultdict(set)
for (a, b), members in together.items():
    if len(members) >= 4:
        for member in members:
            travels[member].add(f"{a}+{b}")
for (f, at, name), pairs in travels.items():
    put(5, "a function with parameters that stand together in four functions or more", f, at, f"{name}: {' '.join(sorted(pairs))}")

# ── 6: buffers with a length beside them, and the like ──
for f in files:
    for m in re.finditer(r"\bstruct (\w+)[^{;(]*(?=\{)", text[f]):
        inside, _ = block(text[f], m.start())
        if re.search(r"\[u8\]|\[u8;|Vec<", inside) and re.search(r": (usize|u8)\b", inside):
            put(6, "a struct that holds bytes and a number", f, m.start(), m.group(1))
        elif re.search(r": usize", inside) and "Page" in m.group(1):
            put(6, "a struct that holds lengths of memory that others hold", f, m.start(), m.group(1))
each(6, "a sort, a binary search, an index kept for an element", r"sort|binary_search|swap_remove")

# ── 7: a switch on which step to run, tables of functions ──
each(7, "a match on a family, a call or a command that only chooses what to call", r"^\s*match (named\(kind\)|call|\(command, files\)|\(self\.level, call\)|inside\(&?\w+(\.nla)?\)\?)")
each(7, "a function pointer", r"\bfn\(")

titles = ["", "own Option or Result, flags with values, numbers for kinds or refusals", "twins", "loops that count by hand", "equality, order, copying, conversion, printing by hand",
          "facts in several contracts, parameters that travel together", "buffers with a length beside them", "switches on steps, tables of functions"]
for point in range(1, 8):
    rows = [(what, places) for (p, what), places in found.items() if p == point]
    print(f"{point}. {titles[point]}: {sum(len(places) for _, places in rows)}")
    for what, places in rows:
        print(f"   {what}: {len(places)}")
        if not counts_only:
            for place in places:
                print(f"      {place}")
answers = list(top.glob("crates/*/proofs/**/Answers.antt"))
own = [p for p in top.glob("crates/*/proofs/**/*.antt") if p.name not in ("Answers.antt", "Invariants.antt", "Lib.antt")]
lines = sum(len(p.read_text(encoding="utf-8").split("\n")) - 1 for p in answers)
lemmas = sum(len(re.findall(r"^pub [\w'-]+ :", p.read_text(encoding="utf-8"), re.M)) for p in own)
print(f"8. proofs: {len(answers)} files of answers with {lines} lines; {len(own)} files of lemmas with {lemmas} lemmas that are passed on")
