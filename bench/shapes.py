"""The shapes of messages that bench/show and bench/make measure: heartbeats, the messages of cases/samples one after the other, and
messages of one operation with 1,000 PATH-DATA: a SET of one ID and 4 bytes, of two IDs and 8 bytes (a row of a table), of a key, of a
SPARSEDATA with one ILV and of one PATH-DATA in another, and a GET of two IDs."""
import os
import struct
from collections import namedtuple

TOP = os.path.dirname(os.path.dirname(os.path.abspath(__file__)))
HEARTBEAT = bytes.fromhex("100F0006 40000001 00000002 00000000 00000000 00000000")
PATHS = 1000

# The bytes of a shape that are repeated, how many messages and PATH-DATA of an operation they hold, and the greatest part that `show`
# may take of the time of `xxd -p`.
Shape = namedtuple("Shape", "name reach block messages paths")


def canonical_samples():
    """The messages of cases/samples, as their canonical bytes."""
    with open(os.path.join(TOP, "cases", "make-samples", "stdout"), "rb") as file:
        return file.read()


def samples():
    """The messages of cases/samples."""
    digits = ""
    with open(os.path.join(TOP, "cases", "samples", "stdin.hex")) as file:
        for line in file:
            digits += line.split("#")[0]
    return bytes.fromhex("".join(digits.split()))


def tlv(kind, value):
    """A TLV, with its padding."""
    return struct.pack(">HH", kind, 4 + len(value)) + value + bytes(-len(value) % 4)


def path(ids, body, key=b""):
    """A PATH-DATA."""
    flags = 0x8000 if key else 0
    return tlv(0x0110, struct.pack(f">HH{len(ids)}I", flags, len(ids), *ids) + key + body)


def full(value):
    return tlv(0x0112, value)


def message(kind, operation, of):
    """A message with one operation of 1,000 PATH-DATA, each made of its number from 0."""
    oper = tlv(operation, b"".join(of(at) for at in range(PATHS)))
    select = tlv(0x1000, struct.pack(">II", 0x1001, 1) + oper)
    header = struct.pack(">BBHIIQI", 0x10, kind, 6 + len(select) // 4, 0x40000001, 2, 0, 0xC0400000)
    return header + select


def word(number):
    return struct.pack(">I", number)


def pair(number):
    return struct.pack(">Q", number)


def shapes(of_samples=samples):
    """All shapes, as they are to be measured."""
    key = lambda at: tlv(0x0111, word(1) + full(word(at)))
    ilv = lambda at: tlv(0x0113, struct.pack(">III", 2, 12, at))
    of_paths = [
        ("SET, one ID, 4 bytes", 0.30, 3, 1, lambda at: path([at + 1], full(word(at)))),
        ("SET, two IDs, 8 bytes", 0.20, 3, 1, lambda at: path([1, at], full(pair(at)))),
        ("SET, one ID and a key, 4 bytes", 0.30, 3, 1, lambda at: path([4], full(word(at)), key(at))),
        ("SET, one ID, one ILV", 0.30, 3, 1, lambda at: path([at + 1], ilv(at))),
        ("SET, one in another, 4 bytes", 0.30, 3, 1, lambda at: path([at + 1], path([2], full(word(at))))),
        ("GET, two IDs", 0.30, 4, 7, lambda at: path([1, at], b"")),
    ]
    whole = [Shape("heartbeats", 0.16, HEARTBEAT, 1, 0), Shape("samples", 0.22, of_samples(), 15, 0)]
    return whole + [Shape(name, reach, message(kind, operation, of), 1, PATHS) for name, reach, kind, operation, of in of_paths]
