#!/usr/bin/env python3
"""Prints what the walkthrough must print, from the rules of docs/FORMAT.md and docs/REFUSALS.md.

It shares nothing with the Rattle code: the sample entry is packed field by field by sample_entry.py, and walked by
an own reading of the rules. Run it as: tools/walkthrough_stdout.py | diff - crates/walkthrough/stdout
"""
import struct

from sample_entry import CAUSES, LAYERS, attribute, entry


def walk(data, place):
    """Yields (place, word, payload), or (place, cause) as the last."""
    at = 0
    while at < len(data):
        if len(data) - at < 4:
            yield place + at, 6
            return
        length, word = struct.unpack_from("<HH", data, at)
        if length > len(data) - at:
            yield place + at, 7
            return
        if length < 4:
            yield place + at, 8
            return
        yield place + at, word, data[at + 4 : at + length]
        at += -(-length // 4) * 4


def holds_attributes(layer, kind):
    return layer == 1 and kind == 7 or layer == 2 or layer == 3 and kind == 2


def shown(layer, kind, payload):
    if holds_attributes(layer, kind):
        return f"{len(payload)} bytes of attributes"
    text = payload.hex(" ").upper()
    if layer == 3 and kind == 1:
        stripped = payload[:-1] if payload.endswith(b"\0") else payload
        text += f', the text "{stripped.decode()}"'
    return text


def listing(data, place=0, layer=1):
    for found in walk(data, place):
        if len(found) == 2:
            yield f"place {found[0]}, {LAYERS[layer]}: {CAUSES[found[1]]} (cause {found[1]}, layer {layer})"
            return
        at, word, payload = found
        kind = word & 0x3FFF
        yield f"{'  ' * (layer - 1)}place {at}, word {word:04X}, type {kind}: {shown(layer, kind, payload)}"
        if holds_attributes(layer, kind):
            yield from listing(payload, at + 4, layer + 1)


def show(title, data):
    print(f"{title}, {len(data)} bytes:")
    for line in listing(data):
        print("  " + line)
    options = list(walk(data, 0))
    if options and len(options[-1]) == 2:
        print(f"Not written again: {CAUSES[options[-1][1]]}.")
    else:
        written = b"".join(attribute(word, payload) for _, word, payload in options)
        verdict = "the same bytes" if written == data else "other bytes"
        print(f"Written again by the one writer, {len(written)} bytes: {verdict}.")
    print()


OUTCOMES = {-1: "Unspec", 0: "Ok", 1: "Reclassify", 2: "Shot", 3: "Pipe", 4: "Stolen", 5: "Queued", 6: "Repeat", 7: "Redirect", 8: "Trap"}
MIRRORS = {1: "EgressRedir", 2: "EgressMirror", 3: "IngressRedir", 4: "IngressMirror"}


def judgement(kind, at, word, payload):
    """One option under the shipped book; the sample has only a mirror record."""
    said = f'place {at}, word {word:04X}, {len(payload)} bytes under "{kind}": '
    if kind != "mirred" or word & 0x3FFF != 2:
        raise NotImplementedError
    if len(payload) < 28:
        yield said + "refused by number 13, 28 bytes are wanted"
        return
    yield said + "written as word 0002 with 28 bytes"
    index, capab, action, refcnt, bindcnt, eaction, interface = struct.unpack("<IIiiiiI", payload[:28])
    yield f"  index {index}, capab {capab}, outcome {OUTCOMES[action]} ({action}), refcnt {refcnt}, bindcnt {bindcnt}"
    yield f"  mirror action {MIRRORS[eaction]} ({eaction}), interface {interface}"


def judge(title, data):
    print(title + ":")
    for at, word, payload in walk(data, 0):
        if word & 0x3FFF != 7:
            continue
        for action_at, _, action in walk(payload, at + 4):
            attributes = list(walk(action, action_at + 4))
            kind = next(p for _, w, p in attributes if w & 0x3FFF == 1).removesuffix(b"\0").decode()
            for options_at, w, options in attributes:
                if w & 0x3FFF == 2:
                    for option in walk(options, options_at + 4):
                        for line in judgement(kind, *option):
                            print("  " + line)
    print()


def fields(title, data):
    print(title + ":")
    for _, word, payload in walk(data, 0):
        if word == 1:
            minor, major = struct.unpack("<HH", payload)
            print(f"  class {major:x}:{minor:x}")
        if word == 5:
            flags, offshift, nkeys, _ = payload[:4]
            offmask, = struct.unpack(">H", payload[4:6])
            off, offoff, hoff = struct.unpack("<Hhh", payload[6:12])
            hmask, = struct.unpack(">I", payload[12:16])
            print(f"  selector: flags {flags:02X}, offshift {offshift}, offmask {offmask:04X}, off {off}, offoff {offoff}, hoff {hoff}, hmask {hmask:08X}, keys {nkeys}")
            for i in range(nkeys):
                mask, val = struct.unpack_from(">II", payload, 16 + 16 * i)
                off, offmask = struct.unpack_from("<ii", payload, 24 + 16 * i)
                print(f"    key {i}: mask {mask:08X}, val {val:08X}, off {off}, offmask {offmask}")
    print()


def main():
    with_zero, without_zero = entry(b"mirred\0"), entry(b"mirred")
    print("A heat meter's mirror entry in two spellings: its kind text with and without a zero at the end.\n")
    show("With the zero", with_zero)
    show("Without the zero", without_zero)
    print("What differs:")
    for one, other in zip(listing(with_zero), listing(without_zero)):
        if one != other:
            print("- " + one)
            print("+ " + other)
    print()
    fields("Class and selector of both", with_zero)
    judge("The shipped book on the action option of the first", with_zero)
    judge("And of the second", without_zero)
    print('Both kinds are the text "mirred". Attributes written as they stand keep the two spellings apart.\n')
    show("A copy with its last byte cut off", with_zero[:-1])


main()
