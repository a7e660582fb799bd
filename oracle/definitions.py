#!/usr/bin/env python3
"""Our definitions (docs/FORMAT.md, docs/REFUSALS.md, docs/BOOKS.md with the shipped book), once more and on their own.

Reads lines of hexadecimal, each a filter; an empty line is the empty filter. Answers for each
`ok OPTIONS ACTIONS ACTION-OPTIONS WRITTEN`, or `fault CAUSE PLACE LAYER NEED NUMBER`, or `not hex`.
With the argument `tree` it answers the reading as a tree instead, and a line `.` behind each.
"""
import sys
from struct import unpack_from

LIMIT = 65531


class Fault(Exception):
    """Five numbers: cause, place, layer, need, book's number."""

    def __init__(self, cause, place, layer, need=0, number=0):
        super().__init__(cause, place, layer, need, number)


# -- the walk ---------------------------------------------------------------------------------------

def walk(data, start, end, layer):
    """Yields (place, word, first byte of the payload, end of the payload)."""
    at = start
    while at < end:
        if end - at < 4:
            raise Fault(6, at, layer)
        length = data[at] | data[at + 1] << 8
        if length > end - at:
            raise Fault(7, at, layer)
        if length < 4:
            raise Fault(8, at, layer)
        yield at, data[at + 2] | data[at + 3] << 8, at + 4, at + length
        at += (length + 3) // 4 * 4


# -- texts ------------------------------------------------------------------------------------------

SECOND = {0xE0: (0xA0, 0xBF), 0xED: (0x80, 0x9F), 0xF0: (0x90, 0xBF), 0xF4: (0x80, 0x8F)}


def first_length(byte):
    if byte <= 0x7F:
        return 1
    if 0xC2 <= byte <= 0xDF:
        return 2
    if 0xE0 <= byte <= 0xEF:
        return 3
    if 0xF0 <= byte <= 0xF4:
        return 4
    return 0


def is_text(text):
    at = 0
    while at < len(text):
        length = first_length(text[at])
        if length == 0 or at + length > len(text):
            return False
        if length > 1:
            low, high = SECOND.get(text[at], (0x80, 0xBF))
            if not low <= text[at + 1] <= high:
                return False
        if any(not 0x80 <= byte <= 0xBF for byte in text[at + 2 : at + length]):
            return False
        at += length
    return True


# -- the shipped book -------------------------------------------------------------------------------

EXACTLY, AT_LEAST, FLAG = range(3)

BOOK = {
    b"mirred": {1: (AT_LEAST, 32), 2: (AT_LEAST, 28)},
    b"nat": {1: (AT_LEAST, 36), 2: (AT_LEAST, 32)},
    b"tunnel_key": {
        1: (AT_LEAST, 32), 2: (AT_LEAST, 24),
        3: (EXACTLY, 4), 4: (EXACTLY, 4), 5: (EXACTLY, 16), 6: (EXACTLY, 16), 7: (EXACTLY, 4),
        9: (EXACTLY, 2), 10: (FLAG, 1), 12: (EXACTLY, 1), 13: (EXACTLY, 1),
    },
}


class Refusal(Exception):
    """Two numbers: the book's number and its need."""


def judge(kind, word, payload):
    """The word and payload that are written."""
    form, size = BOOK.get(kind, {}).get(word & 0x3FFF, (None, 0))
    if form is None:
        return word, payload
    if form == AT_LEAST:
        if len(payload) < size:
            raise Refusal(13, size)
        return word & 0x3FFF, payload[:size]
    if len(payload) != size:
        raise Refusal(12, size)
    if form == FLAG:
        payload = b"\0" if payload == b"\0" else b"\1"
    return word & 0x3FFF, payload


# -- reading ----------------------------------------------------------------------------------------
# A reading is a list of options (case, value); a list of actions has with it the place that it came from.

RAW = {6: "police", 8: "indev", 9: "pcnt", 10: "mark"}
WHOLE = {1: "class", 2: "hash", 3: "link", 4: "divisor", 11: "flags"}


def read(data):
    if len(data) > LIMIT:
        raise Fault(1, 0, 1)
    return [read_option(data, *found) for found in walk(data, 0, len(data), 1)]


def whole(data, place, first, end, layer):
    if end - first != 4:
        raise Fault(12, place, layer, 4)
    return unpack_from("<I", data, first)[0]


def read_option(data, place, word, first, end):
    kind = word & 0x3FFF
    if kind in WHOLE:
        return WHOLE[kind], kind, whole(data, place, first, end, 1)
    if kind in RAW:
        return RAW[kind], kind, data[first:end]
    if kind == 5:
        if end - first < 16:
            raise Fault(13, place, 1, 16)
        wanted = 16 + 16 * data[first + 2]
        if end - first < wanted:
            raise Fault(13, place, 1, wanted)
        payload = data[first : first + wanted]
        return "selector", kind, payload[:3] + b"\0" + payload[4:]
    if kind == 7:
        actions = [read_action(data, *found) for found in walk(data, first, end, 2)]
        return "actions", kind, (actions, place)
    return "default", word, data[first:end]


def read_action(data, place, word, first, end):
    kinds = []
    for at, inner, begin, stop in walk(data, first, end, 3):
        if inner & 0x3FFF == 1:
            text = data[begin:stop]
            if text.endswith(b"\0"):
                text = text[:-1]
            if not is_text(text):
                raise Fault(9, at, 3)
            kinds.append(text)
    if not kinds:
        raise Fault(10, place, 2)
    if len(kinds) > 1:
        raise Fault(11, place, 2)
    attributes = [read_attribute(data, kinds[0], *found) for found in walk(data, first, end, 3)]
    return word & 0x3FFF, kinds[0], attributes


def read_attribute(data, text, place, word, first, end):
    kind = word & 0x3FFF
    if kind == 1:
        return "kind", kind, text
    if kind == 2:
        options = []
        for at, inner, begin, stop in walk(data, first, end, 4):
            try:
                options.append(judge(text, inner, data[begin:stop]))
            except Refusal as refusal:
                number, need = refusal.args
                raise Fault(14, at, 4, need, number) from None
        return "options", kind, options
    if kind == 3 or kind == 10:
        return "index" if kind == 3 else "in hardware", kind, whole(data, place, first, end, 3)
    if kind == 4 or kind == 6:
        return "statistics" if kind == 4 else "cookie", kind, data[first:end]
    return "default", word, data[first:end]


def counts(reading):
    actions = [action for case, _, value in reading if case == "actions" for action in value[0]]
    inner = sum(len(value) for _, _, list_ in actions for case, _, value in list_ if case == "options")
    return len(reading), len(actions), inner


# -- writing ----------------------------------------------------------------------------------------

def attribute(word, payload):
    length = 4 + len(payload)
    return (length & 0xFFFF).to_bytes(2, "little") + word.to_bytes(2, "little") + payload + bytes(-length % 4)


def write_option(case, word, value):
    if case in WHOLE.values():
        return attribute(word, value.to_bytes(4, "little"))
    if case == "actions":
        actions, place = value
        payload = b"".join(map(write_action, actions))
        if len(payload) > LIMIT:
            raise Fault(15, place, 1)
        return attribute(word, payload)
    return attribute(word, value)


def write_action(action):
    tab, _, attributes = action
    return attribute(tab, b"".join(write_attribute(*one) for one in attributes))


def write_attribute(case, word, value):
    if case == "kind":
        return attribute(1, value + b"\0")
    if case == "options":
        return attribute(0x8002, b"".join(attribute(*option) for option in value))
    if case in ("index", "in hardware"):
        return attribute(word, value.to_bytes(4, "little"))
    return attribute(word, value)


def written(reading):
    return b"".join(write_option(*option) for option in reading)


# -- trees ------------------------------------------------------------------------------------------

OUTCOMES = dict(enumerate(
    ["Unspec", "Ok", "Reclassify", "Shot", "Pipe", "Stolen", "Queued", "Repeat", "Redirect", "Trap"], -1))
MIRRORS = dict(enumerate(["EgressRedir", "EgressMirror", "IngressRedir", "IngressMirror"], 1))


def shown(data):
    return data.hex() or "-"


def quoted(text):
    plain = (chr(b) if 0x20 <= b <= 0x7E and b not in b'"\\' else f"\\x{b:02x}" for b in text)
    return '"' + "".join(plain) + '"'


def tree(reading):
    lines = []
    for option in reading:
        lines += tree_option(*option)
    return lines + ["%d options, %d actions, %d action options" % counts(reading)]


def tree_option(case, word, value):
    if case == "class":
        return [f"class {value >> 16:x}:{value & 0xFFFF:x}"]
    if case == "divisor":
        return [f"divisor {value}"]
    if case in ("hash", "link", "flags"):
        return [f"{case} 0x{value:08x}"]
    if case == "selector":
        return tree_selector(value)
    if case == "actions":
        return ["actions"] + [line for action in value[0] for line in tree_action(*action)]
    if case == "default":
        return [f"attribute 0x{word:04x} {shown(value)}"]
    return [f"{case} {shown(value)}"]


def tree_selector(data):
    flags, shift, keys = data[:3]
    offmask, = unpack_from(">H", data, 4)
    off, offoff, hoff = unpack_from("<Hhh", data, 6)
    hmask, = unpack_from(">I", data, 12)
    lines = [f"selector flags 0x{flags:02x}, offshift {shift}, offmask 0x{offmask:04x}, off {off}, "
             f"offoff {offoff}, hoff {hoff}, hmask 0x{hmask:08x}, keys {keys}"]
    for at in range(16, 16 + 16 * keys, 16):
        mask, value = unpack_from(">II", data, at)
        off, offmask = unpack_from("<ii", data, at + 8)
        lines.append(f"  match {value:08x}/{mask:08x} at {off}, offmask {offmask}")
    return lines


def tree_action(tab, text, attributes):
    lines = [f"  action {tab} {quoted(text)}"]
    for case, word, value in attributes:
        if case == "kind":
            lines.append(f"    kind {quoted(value)}")
        elif case == "options":
            lines.append("    options")
            lines += [f"      {tree_action_option(text, *option)}" for option in value]
        elif case in ("index", "in hardware"):
            lines.append(f"    {case} {value}")
        elif case == "default":
            lines.append(f"    attribute 0x{word:04x} {shown(value)}")
        else:
            lines.append(f"    {case} {shown(value)}")
    return lines


def named(names, number):
    return names.get(number, f"Other({number})")


def head(data):
    index, capab, action, refcnt, bindcnt = unpack_from("<IIiii", data)
    return f"outcome {named(OUTCOMES, action)}, index {index}, capab {capab}, refcnt {refcnt}, bindcnt {bindcnt}"


def ipv4(data):
    return ".".join(map(str, data))


def ipv6(data):
    return ":".join(f"{group:x}" for group in unpack_from(">8H", data))


def tree_times(data):
    return "times install %d, lastuse %d, expires %d, firstuse %d" % unpack_from("<4Q", data)


def tree_mirror(data):
    eaction, interface = unpack_from("<iI", data, 20)
    return f"mirror {named(MIRRORS, eaction)} to interface {interface}, {head(data)}"


def tree_nat(data):
    flags, = unpack_from("<I", data, 32)
    return (f"nat {ipv4(data[20:24])} to {ipv4(data[24:28])} mask {ipv4(data[28:32])}, "
            f"flags 0x{flags:08x}, {head(data)}")


def tree_tunnel_key(data):
    return f"tunnel key action {unpack_from('<i', data, 20)[0]}, {head(data)}"


TREES = {
    b"mirred": {1: tree_times, 2: tree_mirror},
    b"nat": {1: tree_nat, 2: tree_times},
    b"tunnel_key": {
        1: tree_times,
        2: tree_tunnel_key,
        3: lambda data: f"source {ipv4(data)}",
        4: lambda data: f"destination {ipv4(data)}",
        5: lambda data: f"source {ipv6(data)}",
        6: lambda data: f"destination {ipv6(data)}",
        7: lambda data: f"key id {int.from_bytes(data, 'big')}",
        9: lambda data: f"destination port {int.from_bytes(data, 'big')}",
        10: lambda data: "with checksum" if data == b"\0" else "without checksum",
        12: lambda data: f"tos 0x{data[0]:02x}",
        13: lambda data: f"ttl {data[0]}",
    },
}


def tree_action_option(text, word, payload):
    shape = TREES.get(text, {}).get(word)
    return shape(payload) if shape else f"attribute 0x{word:04x} {shown(payload)}"


# -- lines ------------------------------------------------------------------------------------------

DIGITS = frozenset(b"0123456789abcdefABCDEF")


def decoded(line):
    """The bytes of a line, or None if it is not hexadecimal."""
    line = line.strip(b" \t\r\n")
    if len(line) % 2 or not DIGITS.issuperset(line):
        return None
    return bytes.fromhex(line.decode())


def fault_line(fault):
    return "fault %d %d %d %d %d" % fault.args


def answer(line):
    data = decoded(line)
    if data is None:
        return "not hex"
    try:
        reading = read(data)
        return "ok %d %d %d %s" % (*counts(reading), shown(written(reading)))
    except Fault as fault:
        return fault_line(fault)


def answer_tree(line):
    data = decoded(line)
    if data is None:
        return "not hex\n."
    try:
        return "\n".join(tree(read(data))) + "\n."
    except Fault as fault:
        return fault_line(fault) + "\n."


def main():
    say = answer_tree if sys.argv[1:] == ["tree"] else answer
    for line in sys.stdin.buffer:
        print(say(line))


if __name__ == "__main__":
    main()
