"""The messages of `forces` and the values of its libraries, in Python (3.9 or newer) and its standard library alone.

As a filter, from standard input to standard output:

    python3 forces.py json < messages      each message as one JSON object, one a line
    python3 forces.py bytes < lines        the bytes of such lines
    python3 forces.py show < messages      what `forces show` writes
    python3 forces.py make < text          what `forces make` writes

Bytes that are no message end `json` and `show` with status 6, and their last line tells why; what is no text ends `make` with status 5
and one line, and lines that are no messages end `bytes` with status 5 and one on standard error that tells why.

As a module, a query and what comes back:

    query = forces.Message("Query", 0x40000001, 2, correlator=7)
    query.selects = [forces.Select(1, 1, [forces.Operation("GET", [forces.Path([7])])])]
    connection.sendall(query.encode())
    answer = forces.receive(connection)

and a value of a library, which is read from its TOML document (this needs Python 3.11):

    library = forces.Library(open("port.toml", encoding="utf-8").read())
    ports = library.type_at(0x1001, [4])
    ports.write({1: {1: "eth0", 2: 100, 3: True}})

docs/FORMATS.md tells the formats, and this file was written by it alone.
"""
from __future__ import annotations

import json
import re
import struct
import sys
from dataclasses import dataclass, field
from enum import IntEnum

TYPES = {
    "AssociationSetup": 0x01, "AssociationTeardown": 0x02, "Config": 0x03, "Query": 0x04, "EventNotification": 0x05,
    "Heartbeat": 0x0F, "AssociationSetupResponse": 0x11, "ConfigResponse": 0x13, "QueryResponse": 0x14,
}
OPERATIONS = {
    "SET": 1, "SET-PROP": 2, "SET-RESPONSE": 3, "SET-PROP-RESPONSE": 4, "DEL": 5, "DEL-RESPONSE": 6, "GET": 7, "GET-PROP": 8,
    "GET-RESPONSE": 9, "GET-PROP-RESPONSE": 10, "REPORT": 11, "COMMIT": 12, "COMMIT-RESPONSE": 13, "TRCOMP": 14,
}
TYPE_NAMES = {number: name for name, number in TYPES.items()}
OPERATION_NAMES = {number: name for name, number in OPERATIONS.items()}
# the word for the number of a message that has one, and the type of the TLV in which it stands
NUMBERED = {"AssociationTeardown": ("reason", 0x0011), "AssociationSetupResponse": ("result", 0x0010)}
# the operations of each message that has selects
STANDS_IN = {
    "AssociationSetup": {"REPORT"},
    "Config": {"SET", "SET-PROP", "DEL", "COMMIT", "TRCOMP"},
    "Query": {"GET", "GET-PROP"},
    "EventNotification": {"REPORT"},
    "ConfigResponse": {"SET-RESPONSE", "SET-PROP-RESPONSE", "DEL-RESPONSE", "COMMIT-RESPONSE"},
    "QueryResponse": {"GET-RESPONSE", "GET-PROP-RESPONSE"},
}
REDIRECT = 0x06
SELECT, PATH_DATA, KEYINFO, FULLDATA, SPARSEDATA, RESULT = 0x1000, 0x0110, 0x0111, 0x0112, 0x0113, 0x0114
KNOWN = {0x0001, 0x0010, 0x0011, SELECT, *range(0x0110, 0x0117)}
# what the PATH-DATA of each operation may hold beside others, where None is nothing; the other operations have no PATH-DATA
LEAVES = {
    "SET": {FULLDATA, SPARSEDATA}, "SET-PROP": {SPARSEDATA}, "SET-RESPONSE": {RESULT}, "SET-PROP-RESPONSE": {RESULT},
    "DEL": {None}, "DEL-RESPONSE": {RESULT}, "GET": {None}, "GET-PROP": {None}, "GET-RESPONSE": {FULLDATA, SPARSEDATA, RESULT},
    "GET-PROP-RESPONSE": {FULLDATA, SPARSEDATA, RESULT}, "REPORT": {FULLDATA},
}
# the first words of the lines of what a PATH-DATA holds
LEAF_WORDS = {FULLDATA: "full", SPARSEDATA: "sparse", RESULT: "code"}
DECIMAL = b"0|[1-9][0-9]{0,9}"
HEADER = 24
DEEPEST = 16
ALL_CONTROL_ELEMENTS = 0xFFFFFFFD

ALWAYS_ACK = 0xC0000000
USED_FLAGS = 0xF8F80000
KEYED = 0x8000


class Code(IntEnum):
    """The result codes (RFC 5810, section 7.1.7)."""

    SUCCESS = 0x00
    INVALID_DESTINATION_PID = 0x04
    LFB_UNKNOWN = 0x05
    LFB_INSTANCE_ID_NOT_FOUND = 0x07
    INVALID_PATH = 0x08
    COMPONENT_DOES_NOT_EXIST = 0x09
    EXISTS = 0x0A
    NOT_FOUND = 0x0B
    READ_ONLY = 0x0C
    INVALID_ARRAY_CREATION = 0x0D
    VALUE_OUT_OF_RANGE = 0x0E
    CONTENTS_TOO_LONG = 0x0F
    INVALID_PARAMETERS = 0x10
    INVALID_FLAGS = 0x12
    INVALID_TLV = 0x13
    EVENT_ERROR = 0x14
    NOT_SUPPORTED = 0x15
    UNSPECIFIED_ERROR = 0xFF


class Refused(Exception):
    """Bytes are no message: the first rule that they break, and the offset at which."""

    def __init__(self, place, reason):
        super().__init__(place, reason)
        self.place, self.reason = place, reason

    def __str__(self):
        return f"refused {self.place} {self.reason}"


class NoValue(Exception):
    """Bytes are no value of a type, or a value is none that the type has: the result code of the first failure."""

    def __init__(self, code):
        super().__init__(code)
        self.code = code

    def __str__(self):
        return self.code.name


# Messages


@dataclass
class Path:
    """A PATH-DATA: the IDs, a key with its number and its value, and at most one of a whole value, parts, a result and other paths."""

    ids: list[int]
    key: tuple[int, bytes] | None = None
    full: bytes | None = None
    sparse: list[tuple[int, bytes]] | None = None
    code: int | None = None
    paths: list[Path] = field(default_factory=list)

    def encode(self):
        if len(self.ids) > 0xFFFF:
            raise ValueError("a PATH-DATA has at most 65,535 IDs")
        key = b""
        if self.key is not None:
            key = tlv(KEYINFO, struct.pack(">I", self.key[0]) + tlv(FULLDATA, self.key[1]))
        body = b"".join(path.encode() for path in self.paths)
        if self.full is not None:
            body += tlv(FULLDATA, self.full)
        if self.sparse is not None:
            body += tlv(SPARSEDATA, b"".join(ilv(*part) for part in self.sparse))
        if self.code is not None:
            body += result(self.code)
        flags = KEYED if key else 0
        return tlv(PATH_DATA, struct.pack(f">HH{len(self.ids)}I", flags, len(self.ids), *self.ids) + key + body)


@dataclass
class Operation:
    """An operation by its name, with its paths; a COMMIT-RESPONSE has a result code in their place."""

    name: str
    paths: list[Path] = field(default_factory=list)
    code: int | None = None

    def encode(self):
        body = b"".join(path.encode() for path in self.paths)
        if self.code is not None:
            body += result(self.code)
        return tlv(OPERATIONS[self.name], body)


@dataclass
class Select:
    """An LFB select: the class and the instance, and what is done there."""

    lfb_class: int
    instance: int
    operations: list[Operation]

    def encode(self):
        return tlv(SELECT, struct.pack(">II", self.lfb_class, self.instance) + b"".join(each.encode() for each in self.operations))


@dataclass
class Message:
    """A message by the name of its type. `number` is the result of an AssociationSetupResponse and the reason of an
    AssociationTeardown; the other messages but a Heartbeat have selects."""

    name: str
    sender: int
    addressee: int
    correlator: int = 0
    flags: int = 0
    number: int | None = None
    selects: list[Select] = field(default_factory=list)

    def encode(self):
        """The canonical bytes. What may not stand in such a message raises Refused, a name that is none KeyError, and what is too long for
        its field ValueError."""
        body = b"".join(select.encode() for select in self.selects)
        if self.number is not None:
            body += tlv(NUMBERED[self.name][1], struct.pack(">I", self.number))
        words = (HEADER + len(body)) // 4
        if words > 0xFFFF:
            raise ValueError("a message has at most 65,535 words")
        ends = self.sender, self.addressee, self.correlator, self.flags & USED_FLAGS
        data = struct.pack(">BBHIIQI", 0x10, TYPES[self.name], words, *ends) + body
        Reader(data).message()
        return data


def tlv(kind, value):
    """A TLV with its padding."""
    if len(value) > 0xFFFF - 4:
        raise ValueError("a TLV has at most 65,535 bytes")
    return struct.pack(">HH", kind, 4 + len(value)) + value + bytes(-len(value) % 4)


def ilv(ident, value):
    """An ILV with its padding."""
    return struct.pack(">II", ident, 8 + len(value)) + value + bytes(-len(value) % 4)


def result(code):
    """A RESULT."""
    return tlv(RESULT, bytes([code, 0, 0, 0]))


def rounded(length):
    return (length + 3) // 4 * 4


@dataclass
class Item:
    """A TLV or an ILV in a message: where it begins, where its value does, and where that ends without and with its padding."""

    kind: int
    place: int
    value: int
    end: int
    padded: int


class Reader:
    """Reads the one message that bytes spell. Every test stands where docs/FORMATS.md has it, so that the first that fails is told."""

    def __init__(self, data):
        self.data = data

    def number(self, place, size=4):
        return int.from_bytes(self.data[place : place + size], "big")

    def items(self, place, end, head=4):
        """The TLVs from a place to an end, each only once it is asked for; or the ILVs, whose heads have 8 bytes."""
        while place < end:
            length = self.number(place + head // 2, head // 2) if end - place >= head else 0
            if length < head:
                raise Refused(place, "tlv-short")
            if length > end - place:
                raise Refused(place, "tlv-past")
            yield Item(self.number(place, head // 2), place, place + head, place + length, place + rounded(length))
            place += rounded(length)

    def misplaced(self, item, reason="wrong-body", known=KNOWN):
        raise Refused(item.place, reason if item.kind in known else "unknown-tlv")

    def only(self, items, kind, end):
        """The first TLV, which has to be of this type."""
        for item in items:
            if item.kind != kind:
                self.misplaced(item)
            return item
        raise Refused(end, "wrong-body")

    def no_more(self, items, reason):
        for item in items:
            self.misplaced(item, reason)

    def message(self):
        """The message, or what is refused first."""
        size = len(self.data)
        if size < HEADER:
            raise Refused(0, "truncated")
        if self.data[0] >> 4 != 1:
            raise Refused(0, "version")
        told = 4 * self.number(2, 2)
        if told < HEADER:
            raise Refused(2, "short-length")
        if size < told:
            raise Refused(0, "truncated")
        if size > told:
            raise Refused(told, "trailing")
        if self.data[1] == REDIRECT:
            raise Refused(1, "not-built")
        if self.data[1] not in TYPE_NAMES:
            raise Refused(1, "unknown-type")
        sender, addressee, correlator, flags = struct.unpack(">IIQI", self.data[4:HEADER])
        message = Message(TYPE_NAMES[self.data[1]], sender, addressee, correlator, flags & USED_FLAGS)
        self.body(message, size)
        return message

    def body(self, message, end):
        items = self.items(HEADER, end)
        if message.name in NUMBERED:
            item = self.only(items, NUMBERED[message.name][1], end)
            if item.end - item.value != 4:
                raise Refused(item.place, "wrong-body")
            message.number = self.number(item.value)
        elif message.name in STANDS_IN:
            message.selects = [self.select(message.name, item) for item in items]
            if not message.selects and message.name != "AssociationSetup":
                raise Refused(end, "wrong-body")
        self.no_more(items, "trailing")

    def select(self, message, item):
        if item.kind != SELECT:
            self.misplaced(item)
        if item.end - item.value < 8:
            raise Refused(item.place, "tlv-short")
        select = Select(self.number(item.value), self.number(item.value + 4), [])
        select.operations = [self.operation(message, inner) for inner in self.items(item.value + 8, item.padded)]
        if not select.operations:
            raise Refused(item.padded, "wrong-body")
        return select

    def operation(self, message, item):
        name = OPERATION_NAMES.get(item.kind)
        if name not in STANDS_IN[message]:
            self.misplaced(item, known=KNOWN | set(OPERATION_NAMES))
        operation = Operation(name)
        if name in ("COMMIT", "TRCOMP"):
            if item.end != item.value:
                raise Refused(item.place, "wrong-body")
            return operation
        items = self.items(item.value, item.padded)
        if name == "COMMIT-RESPONSE":
            operation.code = self.result(self.only(items, RESULT, item.padded))
            self.no_more(items, "trailing")
            return operation
        operation.paths = list(self.paths(name, 1, items, "wrong-body"))
        if not operation.paths:
            raise Refused(item.padded, "wrong-body")
        return operation

    def paths(self, operation, depth, items, reason):
        for item in items:
            if item.kind != PATH_DATA:
                self.misplaced(item, reason)
            yield self.path(operation, depth, item)

    def path(self, operation, depth, item):
        if depth > DEEPEST:
            raise Refused(item.place, "deep")
        room = item.padded - item.value
        count = self.number(item.value + 2, 2) if room >= 4 else 0
        if room < 4 + 4 * count:
            raise Refused(item.place, "count-past")
        body = item.value + 4 + 4 * count
        path = Path([self.number(at) for at in range(item.value + 4, body, 4)])
        keyed = self.number(item.value, 2) & KEYED != 0
        first = next(self.items(body, item.padded), None)
        if first is not None and first.kind not in KNOWN:
            raise Refused(first.place, "unknown-tlv")
        if keyed != (first is not None and first.kind == KEYINFO):
            raise Refused(item.place + 4, "key-flag")
        if keyed:
            path.key = self.key(first)
            body = first.padded
        self.leaf_or_paths(operation, depth, path, body, item.padded)
        return path

    def key(self, item):
        if item.end - item.value < 4:
            raise Refused(item.place, "tlv-short")
        items = self.items(item.value + 4, item.padded)
        value = self.only(items, FULLDATA, item.padded)
        self.no_more(items, "trailing")
        return self.number(item.value), self.data[value.value : value.end]

    def leaf_or_paths(self, operation, depth, path, place, end):
        items = self.items(place, end)
        item = next(items, None)
        if item is None:
            if None not in LEAVES[operation]:
                raise Refused(end, "wrong-body")
        elif item.kind == PATH_DATA:
            path.paths = [self.path(operation, depth + 1, item), *self.paths(operation, depth + 1, items, "two-bodies")]
        else:
            self.leaf(operation, path, item)
            self.no_more(items, "two-bodies")

    def leaf(self, operation, path, item):
        if item.kind not in LEAVES[operation]:
            self.misplaced(item)
        if item.kind == FULLDATA:
            path.full = self.data[item.value : item.end]
        elif item.kind == RESULT:
            path.code = self.result(item)
        else:
            parts = self.items(item.value, item.padded, 8)
            path.sparse = [(part.kind, self.data[part.value : part.end]) for part in parts]

    def result(self, item):
        if item.end - item.value != 4:
            raise Refused(item.place, "wrong-body")
        return self.data[item.value]


def decode(data):
    """The message that the bytes spell; Refused where they spell none."""
    return Reader(data).message()


def frames(data):
    """The bytes of each message in a stream, with the offset at which they begin."""
    place = 0
    while place < len(data):
        size = max(HEADER, 4 * int.from_bytes(data[place + 2 : place + 4], "big"))
        yield place, data[place : place + size]
        place += size


def messages(data):
    """The messages of a stream, up to what is none: then Refused, with its offset in the stream."""
    for place, frame in frames(data):
        try:
            message = decode(frame)
        except Refused as refused:
            raise Refused(place + refused.place, refused.reason) from None
        yield message


def receive(connection):
    """The next message from a socket, and None where the peer has hung up before a whole one."""
    header = received(connection, HEADER)
    rest = max(0, 4 * int.from_bytes(header[2:4], "big") - HEADER)
    body = received(connection, rest)
    return decode(header + body) if len(header) == HEADER and len(body) == rest else None


def received(connection, count):
    """So many bytes from a socket, or fewer where the peer has hung up."""
    data = b""
    while len(data) < count and (piece := connection.recv(count - len(data))):
        data += piece
    return data


# Text, as `forces show` writes it and `forces make` reads it


def text(message):
    """The lines of a message."""
    ends = f"from={message.sender:08X} to={message.addressee:08X} corr={message.correlator:016X}"
    lines = [f"{message.name} {ends} flags={message.flags & USED_FLAGS:08X}"]
    if message.name in NUMBERED:
        lines.append(f"  {NUMBERED[message.name][0]} {message.number}")
    for select in message.selects:
        lines.append(f"  lfb {select.lfb_class:08X} {select.instance:08X}")
        for operation in select.operations:
            lines.append(f"    {operation.name}")
            if operation.code is not None:
                lines.append(f"      code {operation.code:02X}")
            for path in operation.paths:
                lines += path_lines(path, "      ")
    return "".join(line + "\n" for line in lines)


def path_lines(path, indent):
    words = ["path", *map(str, path.ids)]
    if path.key is not None:
        words += ["key", str(path.key[0]), digits(path.key[1])]
    yield indent + " ".join(words)
    indent += "  "
    if path.full is not None:
        yield f"{indent}full {digits(path.full)}"
    if path.sparse is not None:
        yield f"{indent}sparse"
        for ident, value in path.sparse:
            yield f"{indent}  ilv {ident} {digits(value)}"
    if path.code is not None:
        yield f"{indent}code {path.code:02X}"
    for inner in path.paths:
        yield from path_lines(inner, indent)


def digits(data):
    return data.hex().upper() or "-"


class Misfit(Exception):
    """A text is no text of messages: the first line that does not fit, and there the column of the first word that does not."""

    def __init__(self, line, column):
        super().__init__(line, column)
        self.line, self.column = line, column

    def __str__(self):
        return f"refused text {self.line} {self.column}"


class Line:
    """The words of a line behind its indentation, which are taken from left to right."""

    def __init__(self, number, line):
        self.number = number
        self.indentation = len(line) - len(line.lstrip(b" "))
        self.words = line[self.indentation :].split(b" ")
        self.column = self.indentation + 1

    def misfit(self):
        return Misfit(self.number, self.column)

    def fits(self, pattern):
        """The next word where it fits the pattern, as it is and not yet taken; else None."""
        found = self.words and re.fullmatch(pattern, self.words[0])
        return self.words[0].decode() if found else None

    def take(self, pattern):
        """The next word, which has to fit the pattern."""
        word = self.fits(pattern)
        if word is None:
            raise self.misfit()
        self.column += len(self.words.pop(0)) + (1 if self.words else 0)
        return word

    def one_of(self, names):
        return self.take("|".join(sorted(names)).encode())

    def hexadecimal(self, count, prefix=b""):
        return int(self.take(prefix + b"[0-9A-Fa-f]{%d}" % count)[len(prefix) :], 16)

    def decimal(self):
        if int(self.fits(DECIMAL) or 1 << 32) > 0xFFFFFFFF:
            raise self.misfit()
        return int(self.take(DECIMAL))

    def octets(self):
        word = self.take(b"-|([0-9A-Fa-f]{2})+")
        return b"" if word == "-" else bytes.fromhex(word)

    def end(self):
        """The line has no more words."""
        if self.words:
            raise self.misfit()


class TextReader:
    """Reads the messages that a text tells."""

    def __init__(self, data):
        lines = data.removesuffix(b"\n").split(b"\n") if data else []
        self.lines = [Line(number, line) for number, line in enumerate(lines, 1)]
        self.at = 0

    def stands(self, level):
        """Whether the next line is there, and indented by so many levels."""
        return self.at < len(self.lines) and self.lines[self.at].indentation == 2 * level

    def line(self, level):
        """The next line, which has to be there and indented so."""
        if not self.stands(level):
            raise Misfit(self.at + 1, 1)
        self.at += 1
        return self.lines[self.at - 1]

    def messages(self):
        found = []
        while self.at < len(self.lines):
            first = self.at + 1
            message = self.message()
            if self.at < len(self.lines) and not self.stands(0):
                raise Misfit(self.at + 1, 1)
            try:
                message.encode()
            except ValueError:
                raise Misfit(first, 1) from None
            found.append(message)
        return found

    def message(self):
        line = self.line(0)
        name = line.one_of(TYPES)
        ends = [line.hexadecimal(8, b"from="), line.hexadecimal(8, b"to="), line.hexadecimal(16, b"corr=")]
        message = Message(name, *ends, line.hexadecimal(8, b"flags=") & USED_FLAGS)
        line.end()
        if name in NUMBERED:
            line = self.line(1)
            line.take(NUMBERED[name][0].encode())
            message.number = line.decimal()
            line.end()
        elif name in STANDS_IN and (name != "AssociationSetup" or self.stands(1)):
            message.selects = self.some(1, self.select, name)
        return message

    def some(self, level, read, *given):
        """One or more of what begins with a line of this level."""
        found = [read(*given)]
        while self.stands(level):
            found.append(read(*given))
        return found

    def select(self, message):
        line = self.line(1)
        line.take(b"lfb")
        ends = line.hexadecimal(8), line.hexadecimal(8)
        line.end()
        return Select(*ends, self.some(2, self.operation, message))

    def operation(self, message):
        line = self.line(2)
        operation = Operation(line.one_of(STANDS_IN[message]))
        line.end()
        if operation.name == "COMMIT-RESPONSE":
            line = self.line(3)
            line.take(b"code")
            operation.code = line.hexadecimal(2)
            line.end()
        elif operation.name in LEAVES:
            operation.paths = self.some(3, self.path, operation.name, 1)
        return operation

    def path(self, operation, depth):
        line = self.line(2 + depth)
        line.take(b"path")
        path = Path([])
        while line.words and not line.fits(b"key"):
            path.ids.append(line.decimal())
        if line.words:
            line.take(b"key")
            path.key = line.decimal(), line.octets()
        line.end()
        self.leaf_or_paths(operation, depth, path)
        return path

    def leaf_or_paths(self, operation, depth, path):
        level = 3 + depth
        words = {LEAF_WORDS[leaf] for leaf in LEAVES[operation] if leaf is not None}
        nests = depth < DEEPEST and self.stands(level)
        if nests and (not words or self.lines[self.at].fits(b"path")):
            path.paths = self.some(level, self.path, operation, depth + 1)
        elif words:
            self.leaf(level, words, path)

    def leaf(self, level, words, path):
        line = self.line(level)
        word = line.one_of(words)
        if word == "full":
            path.full = line.octets()
        elif word == "code":
            path.code = line.hexadecimal(2)
        line.end()
        if word == "sparse":
            path.sparse = []
            while self.stands(level + 1):
                path.sparse.append(self.part(level + 1))

    def part(self, level):
        line = self.line(level)
        line.take(b"ilv")
        part = line.decimal(), line.octets()
        line.end()
        return part


def read_text(data):
    """The messages that a text in bytes tells, as `forces make` reads it; Misfit where it tells none."""
    return TextReader(data).messages()


# JSON: identifiers, correlators, flags, codes and values as hexadecimal digits, and all else as numbers; what is not there is left out


def to_json(message):
    """A message as what `json.dumps` takes."""
    made = {
        "type": message.name,
        "from": f"{message.sender:08X}",
        "to": f"{message.addressee:08X}",
        "correlator": f"{message.correlator:016X}",
        "flags": f"{message.flags & USED_FLAGS:08X}",
    }
    if message.name in NUMBERED:
        made[NUMBERED[message.name][0]] = message.number
    elif message.name in STANDS_IN:
        made["selects"] = [
            {
                "class": f"{select.lfb_class:08X}",
                "instance": f"{select.instance:08X}",
                "operations": [operation_to_json(operation) for operation in select.operations],
            }
            for select in message.selects
        ]
    return made


def operation_to_json(operation):
    made = {"operation": operation.name}
    if operation.code is not None:
        made["code"] = f"{operation.code:02X}"
    if operation.paths:
        made["paths"] = [path_to_json(path) for path in operation.paths]
    return made


def path_to_json(path):
    made = {"ids": path.ids}
    if path.key is not None:
        made["key"] = {"id": path.key[0], "value": path.key[1].hex().upper()}
    if path.full is not None:
        made["full"] = path.full.hex().upper()
    if path.sparse is not None:
        made["sparse"] = [{"id": ident, "value": value.hex().upper()} for ident, value in path.sparse]
    if path.code is not None:
        made["code"] = f"{path.code:02X}"
    if path.paths:
        made["paths"] = [path_to_json(inner) for inner in path.paths]
    return made


class NoMessage(ValueError):
    """What stands as JSON tells no message, and why."""


def told_once(pairs):
    """The object of these keys with their values. A key may stand in it once."""
    made = {}
    for key, value in pairs:
        if key in made:
            raise NoMessage(f"the key {json.dumps(key)} stands twice")
        made[key] = value
    return made


def read_json(line):
    """What stands in a line as JSON."""
    try:
        return json.loads(line, object_pairs_hook=told_once)
    except NoMessage:
        raise
    except ValueError:
        raise NoMessage("it is no JSON") from None


def an_object(made):
    if not isinstance(made, dict):
        raise NoMessage(f"{json.dumps(made)} is no object")
    return made


def known_keys(made, *keys):
    """The object, which has no other keys."""
    for key in an_object(made):
        if key not in keys:
            raise NoMessage(f"the key {json.dumps(key)} may not stand here")
    return made


def needed(made, key):
    """What stands at a key of an object, where something has to."""
    if made.get(key) is None:
        raise NoMessage(f"the key {json.dumps(key)} is missing")
    return made[key]


def name_in(made, key, names, what):
    """The name at a key of an object, which is one of these."""
    name = needed(made, key)
    if not isinstance(name, str) or name not in names:
        raise NoMessage(f"no {what} is called {json.dumps(name)}")
    return name


def elements(made):
    """What stands in a list, which may be left out."""
    if made is None:
        return []
    if not isinstance(made, list):
        raise NoMessage(f"{json.dumps(made)} is no list")
    return made


def hexadecimal(word, count):
    """The number of a string of so many digits."""
    if not isinstance(word, str) or not re.fullmatch("[0-9A-Fa-f]{%d}" % count, word):
        raise NoMessage(f"{json.dumps(word)} is not {count} hexadecimal digits")
    return int(word, 16)


def octets(word):
    """The bytes of a string of two digits for each."""
    if not isinstance(word, str) or not re.fullmatch("([0-9A-Fa-f]{2})*", word):
        raise NoMessage(f"{json.dumps(word)} is not two hexadecimal digits for each byte")
    return bytes.fromhex(word)


def decimal(number):
    """A number of 32 bits."""
    if type(number) is not int or not 0 <= number <= 0xFFFFFFFF:
        raise NoMessage(f"{json.dumps(number)} is no number of 32 bits")
    return number


def from_json(made):
    """The message that such an object tells, or NoMessage."""
    name = name_in(an_object(made), "type", TYPES, "type of message")
    held = NUMBERED[name][0] if name in NUMBERED else "selects"
    known_keys(made, "type", "from", "to", "correlator", "flags", held)
    message = Message(name, hexadecimal(needed(made, "from"), 8), hexadecimal(needed(made, "to"), 8))
    if made.get("correlator") is not None:
        message.correlator = hexadecimal(made["correlator"], 16)
    if made.get("flags") is not None:
        message.flags = hexadecimal(made["flags"], 8) & USED_FLAGS
    if name in NUMBERED:
        message.number = decimal(needed(made, held))
    else:
        message.selects = [select_from_json(select) for select in elements(made.get(held))]
    return message


def select_from_json(made):
    known_keys(made, "class", "instance", "operations")
    operations = [operation_from_json(operation) for operation in elements(needed(made, "operations"))]
    return Select(hexadecimal(needed(made, "class"), 8), hexadecimal(needed(made, "instance"), 8), operations)


def operation_from_json(made):
    known_keys(made, "operation", "code", "paths")
    name = name_in(made, "operation", OPERATIONS, "operation")
    operation = Operation(name, [path_from_json(path) for path in elements(made.get("paths"))])
    if made.get("code") is not None:
        operation.code = hexadecimal(made["code"], 2)
    return operation


def path_from_json(made):
    known_keys(made, "ids", "key", "full", "sparse", "code", "paths")
    inner = [path_from_json(each) for each in elements(made.get("paths"))]
    path = Path([decimal(ident) for ident in elements(needed(made, "ids"))], paths=inner)
    if made.get("key") is not None:
        path.key = part_from_json(made["key"])
    if made.get("full") is not None:
        path.full = octets(made["full"])
    if made.get("sparse") is not None:
        path.sparse = [part_from_json(part) for part in elements(made["sparse"])]
    if made.get("code") is not None:
        path.code = hexadecimal(made["code"], 2)
    return path


def part_from_json(made):
    known_keys(made, "id", "value")
    return decimal(needed(made, "id")), octets(needed(made, "value"))


# Values of declared types (RFC 5812, section 4.5). In Python they are bool, int, str for a text, bytes for octets and bytes, a dict by
# the IDs of the fields for a struct, and a dict by subscripts for an array.


class Cursor:
    """Bytes that are taken from left to right."""

    def __init__(self, data):
        self.data, self.place = data, 0

    def left(self):
        return len(self.data) - self.place

    def take(self, count):
        if count > self.left():
            raise NoValue(Code.INVALID_TLV)
        self.place += count
        return self.data[self.place - count : self.place]

    def number(self, count):
        return int.from_bytes(self.take(count), "big")


class Type:
    """A declared type. `read` and `write` go between a value and its full form by itself, as a FULLDATA or an ILV has it."""

    # whether a value stands in a FULLDATA of its own inside a struct or an entry
    wrapped = False

    def read(self, data):
        """The value; NoValue with the code of the first failure where the bytes are none."""
        cursor = Cursor(data)
        value = self.take(cursor)
        if cursor.left():
            raise NoValue(Code.INVALID_TLV)
        return value

    def write(self, value):
        """The canonical bytes of the value. One that the type does not have raises NoValue or ValueError."""
        data = self.put(value)
        if self.read(data) != value:
            raise ValueError(f"{value!r} is no value of this type")
        return data

    def take_inside(self, cursor):
        if not self.wrapped:
            return self.take(cursor)
        kind, length = cursor.number(2), cursor.number(2)
        if kind != FULLDATA or length < 4:
            raise NoValue(Code.INVALID_TLV)
        value = self.take(Cursor(cursor.take(length - 4)))
        cursor.take(-length % 4)
        return value

    def put_inside(self, value):
        return tlv(FULLDATA, self.put(value)) if self.wrapped else self.put(value)

    def part(self, ident):
        """The type of the field or the entry at an identifier of the sparse form, and None where there is none."""
        return None

    def read_parts(self, parts):
        """The values that the parts of a sparse form tell, each an identifier and bytes, by their identifiers."""
        if not isinstance(self, (Struct, Array)):
            raise NoValue(Code.INVALID_TLV)
        values = {}
        for ident, data in parts:
            part = self.part(ident)
            if part is None or ident in values:
                raise NoValue(Code.INVALID_TLV)
            values[ident] = part.read(data)
        return values

    def write_parts(self, values):
        """The parts of a sparse form, as a Path has them."""
        parts = [(ident, self.part(ident).write(value)) for ident, value in values.items()]
        self.read_parts(parts)
        return parts


@dataclass
class Bool(Type):
    """One byte, 00 or 01."""

    def take(self, cursor):
        number = cursor.number(1)
        if number > 1:
            raise NoValue(Code.VALUE_OUT_OF_RANGE)
        return number == 1

    def put(self, value):
        return bytes([value])


@dataclass
class Number(Type):
    """So many bytes, the highest first, with or without a sign, in a range."""

    size: int
    signed: bool
    least: int
    greatest: int

    def take(self, cursor):
        number = int.from_bytes(cursor.take(self.size), "big", signed=self.signed)
        if not self.least <= number <= self.greatest:
            raise NoValue(Code.VALUE_OUT_OF_RANGE)
        return number

    def put(self, value):
        return value.to_bytes(self.size, "big", signed=self.signed)


@dataclass
class Text(Type):
    """A text in UTF-8 of at most so many bytes."""

    length: int
    wrapped = True

    def take(self, cursor):
        data = cursor.take(cursor.left())
        try:
            value = data.decode()
        except UnicodeDecodeError:
            raise NoValue(Code.INVALID_PARAMETERS) from None
        if len(data) > self.length:
            raise NoValue(Code.VALUE_OUT_OF_RANGE)
        return value

    def put(self, value):
        return value.encode()


@dataclass
class Octets(Type):
    """At most so many bytes."""

    length: int
    wrapped = True

    def take(self, cursor):
        data = cursor.take(cursor.left())
        if len(data) > self.length:
            raise NoValue(Code.VALUE_OUT_OF_RANGE)
        return data

    def put(self, value):
        return value


@dataclass
class Bytes(Type):
    """Exactly so many bytes."""

    length: int

    def take(self, cursor):
        return cursor.take(self.length)

    def put(self, value):
        return value


@dataclass
class Struct(Type):
    """The types of the fields by their IDs, in their order."""

    fields: dict[int, Type]

    def take(self, cursor):
        return {ident: part.take_inside(cursor) for ident, part in self.fields.items()}

    def put(self, value):
        return b"".join(part.put_inside(value[ident]) for ident, part in self.fields.items())

    def part(self, ident):
        return self.fields.get(ident)


@dataclass
class Array(Type):
    """The type of the entries, how many there may be, and the fields of each key by the ID of the key."""

    entry: Type
    entries: int
    keys: dict[int, list[int]]
    wrapped = True

    def take(self, cursor):
        value = {}
        while cursor.left():
            subscript = cursor.number(4)
            if subscript in value:
                raise NoValue(Code.INVALID_TLV)
            if len(value) == self.entries:
                raise NoValue(Code.VALUE_OUT_OF_RANGE)
            value[subscript] = self.entry.take_inside(cursor)
        for key in self.keys:
            if len({self.key_value(key, entry) for entry in value.values()}) < len(value):
                raise NoValue(Code.INVALID_PARAMETERS)
        return dict(sorted(value.items()))

    def put(self, value):
        return b"".join(struct.pack(">I", subscript) + self.entry.put_inside(entry) for subscript, entry in sorted(value.items()))

    def part(self, ident):
        return self.entry

    def key_value(self, key, entry):
        """The value of a key in an entry, as a KEYINFO has it."""
        fields = self.keys[key]
        if len(fields) == 1:
            return self.entry.fields[fields[0]].put(entry[fields[0]])
        return b"".join(self.entry.fields[ident].put_inside(entry[ident]) for ident in fields)


# Libraries as documents

NUMBERS = {f"{sign}{8 * size}": (size, sign == "i") for size in (1, 2, 4, 8) for sign in "ui"}


def declared(table):
    """The type that a component, a field or an entry of a document has."""
    name = table["type"]
    if name == "bool":
        return Bool()
    if name in NUMBERS:
        size, signed = NUMBERS[name]
        least, greatest = (-(1 << 8 * size - 1), (1 << 8 * size - 1) - 1) if signed else (0, (1 << 8 * size) - 1)
        return Number(size, signed, table.get("min", least), table.get("max", greatest))
    if name in ("string", "octets", "bytes"):
        return {"string": Text, "octets": Octets, "bytes": Bytes}[name](table["length"])
    if name == "struct":
        return Struct({each["id"]: declared(each) for each in table["fields"]})
    if name == "array":
        keys = {key["id"]: key["fields"] for key in table.get("keys", [])}
        return Array(declared(table["entry"]), table["entries"], keys)
    raise ValueError(f"no type is called {name!r}")


@dataclass
class Component:
    """A component of a class: its name, its type, its access (1 to read, 2 to write, 3 both), and whether it may be absent."""

    name: str
    type: Type
    access: int
    optional: bool


@dataclass
class LfbClass:
    """A class: its name, its components by their IDs, and the ID under which its events stand."""

    name: str
    components: dict[int, Component]
    event_base: int


class Library:
    """The classes of a document by their IDs, and its instances as pairs of class and ID. It is not checked: a document that `forces element`
    refuses may be read here, or raise KeyError or ValueError."""

    def __init__(self, document):
        import tomllib

        tables = tomllib.loads(document)
        self.classes = {table["id"]: self.lfb_class(table) for table in tables.get("class", [])}
        self.instances = {(table["class"], table["id"]) for table in tables.get("instance", [])}

    def lfb_class(self, table):
        components = {
            each["id"]: Component(each["name"], declared(each), each.get("access", 3), each.get("optional", False))
            for each in table.get("component", [])
        }
        return LfbClass(table["name"], components, table.get("event_base", 0))

    def type_at(self, lfb_class, ids):
        """The type to which a path of IDs leads in a class: a component, and then fields and entries. KeyError where it leads nowhere."""
        found = self.classes[lfb_class].components[ids[0]].type
        for ident in ids[1:]:
            found = found.part(ident)
            if found is None:
                raise KeyError(ident)
        return found


# The filter: each of its words reads bytes, writes bytes to `out` and gives a status


def filter_show(data, out):
    """What `forces show` writes of a stream."""
    try:
        for message in messages(data):
            out.write(text(message).encode())
    except Refused as refused:
        out.write(f"{refused}\n".encode())
        return 6
    return 0


def filter_make(data, out):
    """What `forces make` writes of a text."""
    try:
        made = b"".join(message.encode() for message in read_text(data))
    except Misfit as misfit:
        out.write(f"{misfit}\n".encode())
        return 5
    out.write(made)
    return 0


def filter_json(data, out):
    """The messages of a stream as JSON, one a line; what is none ends them with its place and reason."""
    try:
        for message in messages(data):
            out.write(json.dumps(to_json(message)).encode() + b"\n")
    except Refused as refused:
        out.write(json.dumps({"refused": refused.reason, "place": refused.place}).encode() + b"\n")
        return 6
    return 0


def filter_bytes(data, out):
    """The bytes of messages that stand as JSON, one a line; or nothing, and why the first line that is none is so."""
    made = []
    for number, line in enumerate(data.splitlines(), 1):
        try:
            made.append(from_json(read_json(line)).encode())
        except RecursionError:
            print(f"line {number} is no message: it nests too deep", file=sys.stderr)
            return 5
        except (Refused, ValueError) as error:
            print(f"line {number} is no message: {error}", file=sys.stderr)
            return 5
    out.write(b"".join(made))
    return 0


FILTERS = {"json": filter_json, "bytes": filter_bytes, "show": filter_show, "make": filter_make}


def main():
    if len(sys.argv) != 2 or sys.argv[1] not in FILTERS:
        sys.exit(__doc__.split("\n\n")[2])
    return FILTERS[sys.argv[1]](sys.stdin.buffer.read(), sys.stdout.buffer)


if __name__ == "__main__":
    sys.exit(main())
