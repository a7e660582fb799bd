#!/usr/bin/env python3
"""Makes filters to compare with, a line of hexadecimal for each; the same seed makes the same lines.

Usage: generate.py SEED BUILT DAMAGED LARGE
First every case of the listed tables (short filters, types and lengths, texts, options), then BUILT filters
made by the rules, DAMAGED copies of such, and at least LARGE filters around 65,531 bytes.
"""
import random
import sys
from struct import pack

FLAGS = (0, 0x4000, 0x8000, 0xC000)
KINDS = (b"mirred", b"nat", b"tunnel_key")
OTHERS = (b"", b"gact", b"mirre", b"mirred2", b"Nat", b"na", b"natt", b"tunnel_ke", b"tunnel-key", b"\xc3\xa4", b"nat ")
SIZES = {  # the lengths that the shipped book asks for
    b"mirred": {1: 32, 2: 28},
    b"nat": {1: 36, 2: 32},
    b"tunnel_key": {1: 32, 2: 24, 3: 4, 4: 4, 5: 16, 6: 16, 7: 4, 9: 2, 10: 1, 12: 1, 13: 1},
}


def attribute(word, payload, length=None, padding=None):
    """An attribute; its length field and padding may be false."""
    right = 4 + len(payload)
    length = right if length is None else length
    padding = bytes(-right % 4) if padding is None else padding
    return pack("<HH", length & 0xFFFF, word) + payload + padding


def one_action(inside, tab=1):
    return attribute(7, attribute(tab, inside))


# -- every case of a table --------------------------------------------------------------------------

def short(rng):
    yield b""
    for a in range(256):
        yield bytes([a])
    for _ in range(600):
        yield rng.randbytes(2)
        yield rng.randbytes(3)
    for length in (*range(10), 255, 256, 0xFFFC, 0xFFFF):
        for kind in range(21):
            for flags in FLAGS:
                yield pack("<HH", length, kind | flags)
    for total in range(5, 14):
        for length in range(0, 15):
            for kind in range(14):
                yield pack("<HH", length, kind) + rng.randbytes(total - 4)


def filter_options(rng):
    """Every type, flags, payload length and state of the padding; alone and before another."""
    for kind in (*range(21), 0x3FFF):
        if kind == 7:
            continue
        for flags in FLAGS:
            for size in range(41):
                payload = rng.randbytes(size)
                if kind == 5 and size > 2:
                    payload = payload[:2] + bytes([rng.choice((0, 0, 1, 1, 2, 255))]) + payload[3:]
                whole = attribute(kind | flags, payload, padding=rng.randbytes(-size % 4))
                yield whole
                yield whole[: rng.randrange(4 + size, len(whole) + 1)]
                if size % 5 == 0:
                    yield whole + attribute(rng.randrange(13), rng.randbytes(4))


def selectors(rng):
    for keys in (0, 1, 2, 3, 4, 255):
        wanted = 16 + 16 * keys
        for size in sorted({*range(0, 72), *range(max(0, wanted - 3), wanted + 6)}):
            payload = bytearray(rng.randbytes(size))
            if size > 2:
                payload[2] = keys
            yield attribute(5 | rng.choice(FLAGS), bytes(payload))
    for at in range(16):  # each byte of the head in turn
        for value in (0, 1, 0x7F, 0x80, 0xFF):
            payload = bytearray(48)
            payload[2] = 2
            payload[at] = value if at != 2 else min(value, 2)
            yield attribute(5, bytes(payload))
    for word in (0, 1, 0x7FFFFFFF, 0x80000000, 0xFFFFFFFF, 0xFFFFFFF4, 0x0000000A):
        for at in range(16, 32, 4):  # each word of a key
            payload = bytearray(32)
            payload[2] = 1
            payload[at : at + 4] = pack("<I", word)
            yield attribute(5, bytes(payload))


def actions(rng):
    """Heads of actions, their attributes by type and length, none, one and two kinds."""
    yield attribute(7, b"")
    for tab in (0, 1, 2, 32, 33, 0x3FFF):
        for flags in FLAGS:
            yield one_action(attribute(1, b"nat\0"), tab | flags)
            yield one_action(b"", tab | flags)
    for size in range(13):
        yield attribute(7 | rng.choice(FLAGS), rng.randbytes(size))
        yield one_action(rng.randbytes(size))
        yield one_action(attribute(1, b"gact\0") + attribute(2, rng.randbytes(size)))
        for length in range(15):
            inside = pack("<HH", length, rng.randrange(12)) + rng.randbytes(size)
            yield attribute(7, inside)
            yield one_action(inside)
            yield one_action(attribute(1, b"nat") + inside)
            yield one_action(attribute(2, inside) + attribute(1, b"nat"))
    for kind in (*range(16), 0x3FFF):
        for flags in FLAGS:
            for size in range(21):
                if kind == 2:
                    continue
                inside = attribute(kind | flags, rng.randbytes(size))
                name = attribute(1 | rng.choice(FLAGS), rng.choice(KINDS) + bytes(rng.randrange(3)))
                yield one_action(rng.choice((name + inside, inside + name)))
    name = attribute(1, b"nat\0")
    for parts in ([name, name], [name, attribute(6, b"x"), name], [name] * 3, [attribute(1, b""), name],
                  [name, attribute(1, b"\xff")], [attribute(1, b"\xff"), name], [attribute(3, b"xx"), attribute(1, b"\xff")],
                  [attribute(3, b"xx")], [attribute(3, b"xx"), name, name], [name, attribute(3, b"xx")],
                  [attribute(2, b"xx"), attribute(3, b"xx")], [attribute(2, b"xx"), name], [name, b"xx"], [b"", b"xx"]):
        yield one_action(b"".join(parts))
        yield attribute(7, attribute(1, name) + attribute(2, b"".join(parts)))


def action_options(rng):
    """Under every kind each type, flags and length, with the kind before or behind."""
    for name in (*KINDS, b"gact", b"nat\0", b""):
        for kind in (*range(17), 0x3FFF):
            for flags in FLAGS:
                for size in range(41):
                    payload = rng.randbytes(size)
                    if rng.randrange(2):
                        payload = bytes(b & 3 for b in payload)
                    options = attribute(rng.choice((2, 0x8002, 0x4002)), attribute(kind | flags, payload))
                    text = attribute(1, name + b"\0" * rng.choice((1, 1, 0) if not name.endswith(b"\0") else (1,)))
                    yield one_action(rng.choice((text + options, options + text)))
    for name, kind in ((b"mirred", 2), (b"nat", 1), (b"tunnel_key", 2)):
        for number in (*range(-3, 12), 0x7FFFFFFF, -0x80000000):  # outcomes, mirror actions, tunnel key actions
            for at in (0, 4, 8, 12, 16, 20, 24, 28, 32):
                payload = bytearray(36)
                payload[at : at + 4] = pack("<i", number)
                option = attribute(kind, bytes(payload))
                yield one_action(attribute(1, name) + attribute(2, option))
    for number in range(256):
        for kind in (10, 12, 13):
            yield one_action(attribute(1, b"tunnel_key") + attribute(2, attribute(kind, bytes([number]))))


def texts(rng):
    """All texts of one and two bytes, and the edges of those of three and four."""
    def kind(text):
        return one_action(attribute(1, text))

    for a in range(256):
        yield kind(bytes([a]))
        for zeros in (b"\0", b"\0\0"):
            yield kind(bytes([a]) + zeros)
        for b in range(256):
            yield kind(bytes([a, b]))
    edges = (0x00, 0x7F, 0x80, 0x8F, 0x90, 0x9F, 0xA0, 0xBF, 0xC0, 0xFF)
    for a in range(0xDF, 0xF0):
        for b in range(256):
            for c in (0x7F, 0x80, 0xBF, 0xC0):
                yield kind(bytes([a, b, c]))
    for a in range(0xEF, 0xF7):
        for b in edges:
            for c in edges:
                for d in (0x7F, 0x80, 0xBF, 0xC0):
                    yield kind(bytes([a, b, c, d]))
    good = "aé€😀\u07ff\u0800\ud7ff\ue000\uffff\U00010000\U0010ffff".encode()
    for end in range(len(good) + 1):
        yield kind(good[:end])
        yield kind(good[:end] + b"\0")
        yield kind(good[end:])
    for name in (*KINDS, *OTHERS):
        for zeros in range(4):
            yield kind(name + bytes(zeros))
            yield one_action(attribute(1, name + bytes(zeros)) + attribute(2, attribute(1, b"\xaa" * 33)))


# -- filters made by the rules ----------------------------------------------------------------------

class Builder:
    """Mostly filters that are accepted; about one part in `slip` has a wrong length."""

    def __init__(self, rng, slip):
        self.rng = rng
        self.slip = slip

    def bytes(self, most):
        return self.rng.randbytes(self.rng.randrange(most + 1))

    def flags(self):
        return self.rng.choice((0, 0, 0, *FLAGS))

    def size(self, right):
        return max(0, right + (self.rng.choice((-1, 1)) if self.rng.randrange(self.slip) == 0 else 0))

    def numbers(self, size):
        """Bytes of which many are small numbers or the edges of signed ones."""
        words = (pack("<i", self.rng.choice((-1, 0, 1, 2, 3, 4, 7, 8, 9, -2, 0x7FFFFFFF, -0x80000000))) for _ in range(size // 4 + 1))
        return b"".join(words)[:size] if self.rng.randrange(2) else self.rng.randbytes(size)

    def pad(self, payload):
        """Padding that is mostly zero."""
        return self.rng.randbytes(-len(payload) % 4) if self.rng.randrange(6) == 0 else None

    def attribute(self, kind, payload):
        return attribute(kind | self.flags(), payload, padding=self.pad(payload))

    def joined(self, attributes):
        """A list of attributes; the last may lack its padding."""
        data = b"".join(attributes)
        if attributes and self.rng.randrange(8) == 0:
            length = int.from_bytes(attributes[-1][:2], "little")
            lack = len(attributes[-1]) - length
            if 0 < lack < 4:
                data = data[: len(data) - self.rng.randrange(lack + 1)]
        return data

    def selector(self):
        keys = self.rng.choice((0, 1, 1, 1, 2, 3, 5))
        payload = bytearray(self.numbers(self.size(16 + 16 * keys)) + self.bytes(self.rng.choice((0, 0, 0, 5))))
        if len(payload) > 2:
            payload[2] = keys
        return bytes(payload)

    def action_option(self, name):
        sizes = SIZES.get(name)
        if sizes and self.rng.randrange(5):
            kind = self.rng.choice(list(sizes))
            payload = self.numbers(self.size(sizes[kind]))
            if sizes[kind] > 16 and self.rng.randrange(5) == 0:
                payload += self.bytes(6)
            return self.attribute(kind, payload)
        kind = self.rng.choice((0, 3, 8, 11, 14, 15, 20, 0x3FFF) if sizes else (*range(16), 0x3FFF))
        if name == b"tunnel_key" and kind == 3:
            kind = 8
        return self.attribute(kind, self.bytes(12))

    def action(self, statistics):
        name = self.rng.choice(KINDS) if self.rng.randrange(4) else self.rng.choice(OTHERS)
        text = name + bytes(self.rng.choice((1, 1, 1, 0, 0, 2)))
        asked = text[:-1] if text.endswith(b"\0") else text
        parts = [self.attribute(1, text)]
        if self.rng.randrange(4 * self.slip) == 0:
            parts *= self.rng.choice((0, 2))
        for _ in range(self.rng.choice((0, 1, 1, 1, 1, 2))):
            inside = self.joined([self.action_option(asked) for _ in range(self.rng.randrange(4))])
            parts.append(attribute(self.rng.choice((2, 0x8002, 0x8002, 0xC002, 0x4002)), inside, padding=self.pad(inside)))
        for _ in range(self.rng.choice((0, 0, 1, 2))):
            kind = self.rng.choice((3, 3, 6, 6, 10, 0, 5, 7, 8, 9, 11, 0x3FFF))
            parts.append(self.attribute(kind, self.numbers(self.size(4)) if kind in (3, 10) else self.bytes(10)))
        if statistics:
            parts.append(self.attribute(4, self.bytes(16)))
        self.rng.shuffle(parts)
        inside = self.joined(parts)
        return attribute(self.rng.choice((1, 1, 2, 3, 32, 0, 0x3FFF)) | self.flags(), inside, padding=self.pad(inside))

    def option(self):
        kind = self.rng.choice((1, 2, 3, 4, 5, 5, 6, 7, 7, 7, 7, 8, 9, 10, 11, 0, 12, 13, 0x3FFF))
        if kind in (1, 2, 3, 4, 11):
            return self.attribute(kind, self.numbers(self.size(4)))
        if kind == 5:
            return self.attribute(kind, self.selector())
        if kind == 7:
            statistics = self.rng.randrange(25) == 0
            return self.attribute(kind, self.joined([self.action(statistics) for _ in range(self.rng.choice((0, 1, 1, 1, 2, 3)))]))
        return self.attribute(kind, self.bytes(9))

    def filter(self):
        return self.joined([self.option() for _ in range(self.rng.choice((1, 1, 2, 2, 3, 4, 6)))])


# -- damaged copies ---------------------------------------------------------------------------------

def damaged(rng, data, other):
    data = bytearray(data or b"\0")
    for _ in range(rng.choice((1, 1, 1, 2, 3))):
        at = rng.randrange(len(data)) if data else 0
        way = rng.randrange(7)
        if not data:
            break
        if way == 0:  # one bit
            data[at] ^= 1 << rng.randrange(8)
        elif way == 1:  # one byte
            data[at] = rng.choice((0, 1, 2, 4, 7, 8, 0x7F, 0x80, 0xFF, rng.randrange(256)))
        elif way == 2:  # cut off
            del data[at:]
        elif way == 3:  # a field, where heads stand, a little more or less
            at = at // 4 * 4
            data[at] = (data[at] + rng.choice((-8, -4, -2, -1, 1, 2, 4, 8))) % 256
        elif way == 4:  # bytes put in or taken out
            if rng.randrange(2):
                data[at:at] = rng.randbytes(rng.choice((1, 2, 3, 4)))
            else:
                del data[at : at + rng.choice((1, 2, 3, 4))]
        elif way == 5:  # a type
            at = at // 4 * 4 + 2
            if at < len(data):
                data[at] = rng.randrange(16)
        else:  # the beginning of this with the end of another
            cut = rng.randrange(len(other) + 1) // 4 * 4
            data = data[: at // 4 * 4] + bytearray(other[cut:])
    return bytes(data)


# -- large ones -------------------------------------------------------------------------------------

def large(rng, count):
    made = [
        attribute(6, bytes(65527), padding=b""),  # 65,531 bytes: the most
        attribute(6, bytes(65528), padding=b""),  # one more
        bytes(65532),
        bytes(65531),
        attribute(6, rng.randbytes(65531), padding=b"\0"),  # the most that a length field can tell
        attribute(9, rng.randbytes(32760)) + attribute(5, bytes(32763), padding=b""),
    ]
    for spare in range(12, -1, -1):  # the payload of type 7 grows by 4 for each kind: 15 from some length on
        for names in (1, 2, 3):
            kinds = b"".join(attribute(1, attribute(1, b"four")) for _ in range(names))
            filler = 65527 - spare - len(kinds) - 4 - 8 - 4
            last = attribute(1, attribute(1, b"nat\0") + attribute(6, rng.randbytes(filler), padding=b""), padding=b"")
            made.append(attribute(7, kinds + last, padding=b""))
            made.append(attribute(1, b"abcd") + attribute(7, kinds + last, padding=b""))
    builder = Builder(rng, 400)
    while len(made) < count:
        data = b""
        while len(data) < rng.choice((8000, 30000, 64000)):
            data += attribute(7, b"".join(builder.action(False) for _ in range(40)))
        made.append(data)
        made.append(damaged(rng, data, data))
    return made


def main():
    seed, built, spoilt, big = map(int, sys.argv[1:5])
    rng = random.Random(seed)
    out = sys.stdout

    def say(data):
        out.write(data.hex() + "\n")

    for table in (short, filter_options, selectors, actions, action_options, texts):
        for data in table(rng):
            say(data)
    sound, rough = Builder(rng, 60), Builder(rng, 6)
    kept = [b"\0"]
    for number in range(built):
        data = (rough if number % 4 == 0 else sound).filter()
        kept.append(data)
        say(data)
    for _ in range(spoilt):
        say(damaged(rng, rng.choice(kept), rng.choice(kept)))
    for data in large(rng, big):
        say(data)


if __name__ == "__main__":
    main()
