# Holds the tables of docs/FORMAT.md, and the layouts and numbers in crates/model/specs, to the installed Linux uapi headers.
# Run: python3 headers/check.py [root of the repository]. Last line: `N checks, M differences`. The status is 0 only if all is well.
import re, subprocess, sys, tempfile
from pathlib import Path

HERE = Path(__file__).resolve().parent
ROOT = Path(sys.argv[1]) if len(sys.argv) > 1 else HERE.parent
DOC, RECORDS, SELECTOR, OUTCOMES = "docs/FORMAT.md", *(f"crates/model/specs/{n}.antt" for n in ("Records", "Selector", "Outcomes"))
LEAST = 412  # the checks there are at present; fewer means that something is no longer found
# constants that the document names though the uapi headers lack them; the document must say so
ABSENT = ["TCA_ACT_FLAGS_" + n for n in ("POLICE", "BIND", "REPLACE", "NO_RTNL", "AT_INGRESS")]
LAYOUTS = {"key": "tc_u32_key", "generic": "common_head", "tunnel_key": "tc_tunnel_key", "mirror": "tc_mirred", "times": "tcf_t", "nat": "tc_nat"}
KIND = {"le": "u", "be": "be", "signed": "i"}
checks, differences, seen = 0, 0, set()  # seen: (file, constant), and (document or direction, structure, field)

def run(*command):
    done = subprocess.run(command, stdout=subprocess.PIPE, text=True)
    return done.stdout if done.returncode == 0 else sys.exit(f"headers/check.py: {' '.join(command)} failed")

def report(where, message):
    global differences
    differences += 1
    print(f"{where}: {message}")

def hold(where, what, found, wanted):
    global checks
    checks += 1
    if found != wanted:
        report(where, f"{what} is {found}, by the headers {wanted}")

def source(name):
    if not (ROOT / name).is_file():
        sys.exit(f"headers/check.py: there is no file {ROOT / name}")
    return (ROOT / name).read_text(encoding="utf-8")

def number(cell):
    return int(cell.replace("−", "-"), 0) if re.fullmatch(r"−?(0x[0-9A-Fa-f]+|0|[1-9]\d*)", cell) else cell

def constant(where, file, found, name):
    seen.add((file, name))
    absent = name in ABSENT and not re.search(rf"\b{name}\b", text)
    hold(where, name, found, found if absent else constants.get(name, "not known (layouts.c lists those that are)"))

def field(where, part, struct, name, *found):
    seen.add((part, struct, name))
    for what, f, w in zip(("offset", "size", "type"), found, fields[struct].get(name, ["none"] * 3)):
        hold(where, f"{what} of {name} in {struct}", f, w)

def common(where, part, struct):
    seen.update((part, struct, f) for f in head)
    hold(where, f"common head of {struct}", head, {f: fields[struct].get(f) for f in head})

# The headers: sizes, constants, and fields as offset, size and type. Only the text, its macros expanded, tells __be16 and __be32.
text = run("cc", "-E", "-dD", "-P", str(HERE / "layouts.c"))
with tempfile.TemporaryDirectory() as folder:
    run("cc", "-o", folder + "/layouts", str(HERE / "layouts.c"))
    printed = [line.split() for line in run(folder + "/layouts").splitlines()]
constants, sizes = ({p[1]: int(p[2]) for p in printed if p[0] == what} for what in ("constant", "size"))
constants["NLA_TYPE_MASK"] &= 0xFFFF
fields = {struct: {} for struct in sizes}
for struct in sizes:
    declared = {n: t for t, n in re.findall(r"(\w+)\s+(\w+)(?:\[\])?;", re.search(rf"struct {struct}\s+{{(.*?)}}", text, re.S)[1])}
    for f, offset, size, sign in (p[2:] for p in printed if p[:2] == ["field", struct]):
        kind = "be" if declared.get(f) in ("__be16", "__be32") else "i" if sign == "signed" else "u"
        fields[struct][f] = int(offset), int(size), kind + str(8 * int(size))
    hold("headers/layouts.c", f"list of the fields of {struct}", sorted(fields[struct]), sorted(declared))
head, (keys_at, key_size, _) = fields["common_head"], fields["tc_u32_sel"].pop("keys")
free = set(range(keys_at)) - {b for offset, size, _ in fields["tc_u32_sel"].values() for b in range(offset, offset + size)}
# the rows of the document's field tables that are no fields of the headers: offset, size, and which structure they are
parts = {"payload": (sizes["nlattr"], f"length − {sizes['nlattr']}", None), "padding": ("length", f"0 to {constants.pop('NLA_ALIGNTO') - 1}", None),
         "common head": (0, sizes["common_head"], "common_head"), "(none)": (*free, 1, None), "key i": (f"{keys_at} + {key_size} × i", key_size, "tc_u32_key")}

# The document: every table row that names a field or a constant, the records' sizes, and the selector's length.
struct, header, types, records = None, None, [], {}
for n, line in enumerate(source(DOC).splitlines() + [""], 1):
    where, row = f"{DOC}:{n}", [c.strip() for c in line.strip()[1:-1].split("|")]
    for m in re.finditer(r"(\d+) \+ (\d+) × (nkeys|i)\b", line):
        hold(where, "length of a selector", (int(m[1]), int(m[2])), (keys_at, key_size))
    if not line.startswith("|"):
        if types:
            hold(where, "list of types in the table above", sorted(types), list(range(len(types))))
        header, types, struct = None, [], None if line.startswith("#") else struct
        for m in re.finditer(r"(?:(`\w+`)|attribute) \((?:`struct (\w+)`|the fields of the macro `tc_gen`).*?(\d+) bytes", line):
            struct = records[m[1]] = m[2] or "common_head"
            hold(where, f"size of {struct}", int(m[3]), sizes.get(struct))
    elif header is None or not line.strip("|-: "):
        header = header or row
    elif header == ["Offset", "Size", "Type", "Field", "Meaning"] and struct in sizes and len(row) == 5:
        offset, size, kind, name = number(row[0]), number(row[1]), row[2], re.sub(r".*\(`(\w+)`\)", r"\1", row[3])
        if name == "common head":
            common(where, DOC, struct)
        if name in parts:
            hold(where, f"{name} in {struct}", (offset, size, records.get(kind)), parts[name])
        else:
            field(where, DOC, struct, name, offset, size, kind)
        for m in re.finditer(r"(\d+) \w+ \(`([A-Z]\w+)`\)", row[4]):
            constant(where, DOC, int(m[1]), m[2])
    elif "Constant" in header or header[0] == "Bits of the word":
        cells = dict(zip(header, row))
        name = "`NLA_TYPE_MASK`" if row[1].startswith("the type, ") else cells.get("Constant", row[1])
        pairs = [(number(cells.get("Bit", row[0])), c) for c in re.findall(r"`([A-Z]\w+)`", name)]
        pairs += [(int(t), c) for t, c in re.findall(r"(\d+) \(`([A-Z]\w+)`\)", row[0])]
        for found, name in pairs:
            constant(where, DOC, found, name)
        if not pairs and row[0] != "any other":
            report(where, "no constant is found in this row")
        types += [int(t) for t in re.findall(r"\d+", re.sub("`.*?`", "", row[0]))] if header[0] == "Type" else []
        for m in re.finditer(r"^at least (\d+)", cells.get("Length", "")):
            hold(where, f"size of {cells['Payload']}", int(m[1]), sizes.get(records.get(cells["Payload"])))
    elif re.search(r"`(TCA?|NLA)_", line) or header[0] == "Offset":
        report(where, "this row names a constant or field, but its table is not understood")
hold(DOC, "a note on absent constants", bool(re.search("`TCA_ACT_FLAGS_` constants .* do not stand in the uapi headers", source(DOC))), True)

# The specification: how records and the selector are read and written, and the numbers of outcomes and mirror actions.
def layout(file, struct, pattern):
    block, at = re.search(pattern, source(file), re.S | re.M), 0
    token = r"(\w+) = (le|be|signed) (\d+) (\d+) \w|(le|be|signed)_bytes (\d+) \w+\.(\w+)|generic\.(decode|encode)|0 ∷|size = (\d+);"
    for m in re.finditer(token, block[0] if block else ""):
        where = f"{file}:{source(file).count(chr(10), 0, block.start() + m.start()) + 1}"
        if m[2]:
            field(where, "specs, decode", struct, m[1], int(m[3]), int(m[4]), KIND[m[2]] + str(8 * int(m[4])))
        elif m[5]:
            field(where, "specs, encode", struct, m[7], at, int(m[6]), KIND[m[5]] + str(8 * int(m[6])))
        elif m[8]:
            common(where, "specs, " + m[8], struct)
        elif m[9]:
            hold(where, f"size of {struct}", int(m[9]), sizes[struct])
        at += int(m[6] or 0) + (m[8] == "encode") * sizes["common_head"] + (m[0] == "0 ∷")
    hold(file, f"length written for {struct}", at, sizes[struct])

for name, struct in LAYOUTS.items():
    layout(RECORDS, struct, rf"^{name} = record \{{.*?^\}}")
layout(SELECTOR, "tc_u32_sel", r"^decode x = record \{.*")
nkeys = "le %d %d x" % fields["tc_u32_sel"]["nkeys"][:2]
for line in f"wanted x = {keys_at} + {key_size} * {nkeys}\n", f"keys_in n (drop {key_size} bs)\n", f"keys = keys_in ({nkeys}) (drop {keys_at} x);":
    hold(SELECTOR, f"presence of `{line.strip()}`", line in source(SELECTOR), True)
for kind, name, sign, n in re.findall(r"^(outcome|mirror_action)_number ([a-z_]+) = (pos|negsuc) (\d+)$", source(OUTCOMES), re.M):
    name = {"outcome": "TC_ACT_", "mirror_action": "TCA_"}[kind] + name.upper()
    constant(OUTCOMES, OUTCOMES, int(n) if sign == "pos" else -1 - int(n), name)

# Nothing may be missing.
due = [(part, s, f) for part in (DOC, "specs, decode", "specs, encode") for s in fields for f in fields[s] if part == DOC or s != "nlattr"]
due += [(DOC, c) for c in constants] + [(OUTCOMES, c) for c in constants if re.match("TC_ACT_|TCA_(E|IN)GRESS_", c)]
for place, *name in (d for d in due if d not in seen):
    report(place, f"{' '.join(name)} is not found")
if checks < LEAST:
    report("headers/check.py", f"only {checks} of at least {LEAST} checks are made")
print(f"{checks} checks, {differences} differences")
sys.exit(differences > 0)
