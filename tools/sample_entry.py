"""The sample entry, packed field by field from the rules of docs/FORMAT.md, and the words of docs/REFUSALS.md that it needs.

It shares nothing with the Rattle code. The scripts beside it, which print what programs must print, import it.
"""
import struct

CAUSES = {
    6: "fewer than 4 bytes remain where an attribute must begin",
    7: "the length field exceeds the bytes remaining",
    8: "the length field is below 4",
    10: "the action has no kind",
}
LAYERS = {1: "filter option", 2: "action", 3: "action attribute", 4: "action option"}


def attribute(word, payload):
    """Head, payload, and zeros up to a multiple of 4; the length does not count the zeros."""
    length = 4 + len(payload)
    return struct.pack("<HH", length, word) + payload + bytes(-length % 4)


def parts():
    """Word and payload of class 1:1, of a selector with one key, and of the parameters of a mirror action."""
    class_id = struct.pack("<HH", 1, 1)  # minor, major
    head = struct.pack("<BBBB", 1, 0, 1, 0) + struct.pack(">H", 0) + struct.pack("<Hhh", 0, 0, 0) + struct.pack(">I", 0)
    key = struct.pack(">II", 0xFFFF, 10001) + struct.pack("<ii", 20, 0)
    mirror = struct.pack("<IIiii", 1, 0, 3, 0, 0) + struct.pack("<iI", 2, 7)
    return (1, class_id), (5, head + key), (2, mirror)


def entry(kind):
    """Class 1:1, a selector with one key, and one mirror action with its kind spelt so."""
    class_id, selector, mirror = parts()
    action = attribute(1, attribute(1, kind) + attribute(0x8002, attribute(*mirror)))
    return attribute(*class_id) + attribute(*selector) + attribute(7, action)
