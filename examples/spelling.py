"""The messages that rules.py tells, as those of docs/FORMATS.md: what `forces element` and `forces control` send.

    world.happen(step)
    spelling.message(world, world.sent[0]).encode()
"""
import functools
import struct

import forces
from forces import Operation, Path, Select

MASTERSHIP = 0x0001F001
EPOCH, RECORDS, OPENING, SUBJECT, FLOOR, HELD = 1, 3, 4, 5, 6, 7
STATES = {"started": 1, "prepared": 2, "completed": 3, "aborted": 4}
# an answer is wanted, and all is done or none; in a transaction its phase stands beside that
PLAIN, START, MIDDLE, END, ABORT = 0xC0400000, 0xC0600000, 0xC0680000, 0xC0700000, 0xC0780000
FLAGS = {"claim": PLAIN, "floor": PLAIN, "plain": PLAIN, "sot": START, "mot": MIDDLE, "eot": END, "trcomp": END, "abt": ABORT}
ENDS = {"eot": [Operation("COMMIT")], "trcomp": [Operation("TRCOMP")]}
NAMES = {
    "setup": "AssociationSetup", "accept": "AssociationSetupResponse", "beat": "Heartbeat", "ask": "Query", "record": "Query",
    "holds": "QueryResponse", "tells": "QueryResponse", "reply": "ConfigResponse",
}


def message(world, sent):
    """What was sent in a world, as a message with its ends, its correlator and its flags."""
    said = sent.message
    name = NAMES.get(said.kind, "Config")
    ends = [sent.element, world.ids[sent.controller]]
    sender, addressee = ends if sent.is_up else reversed(ends)
    if said.kind == "setup":
        # whichever control element is at the other end
        addressee = forces.ALL_CONTROL_ELEMENTS
    life, count = said.stamp or (0, 0)
    flags = FLAGS.get(said.kind, forces.ALWAYS_ACK if name in ("AssociationSetup", "Query") else 0)
    number = 0 if said.kind == "accept" else None
    return forces.Message(name, sender, addressee, life << 32 | count, flags, number, selects_of(world, sent.element, said))


def selects_of(world, element, said):
    if said.kind in ("setup", "accept", "beat"):
        return []
    if said.kind in ("ask", "record"):
        return [mastership(Operation("GET", [Path([EPOCH]), asked(said)]))]
    if said.kind in ("holds", "tells"):
        return [mastership(Operation("GET-RESPONSE", [Path([EPOCH], full=words(said.number)), told(said)]))]
    if said.kind == "reply":
        return responses(selects_of(world, element, said.request), iter(codes_of(said)))
    if said.kind == "plain":
        return body_of(world.changing[element, said.stamp], element, 1)
    component, value = set_by(said)
    first = mastership(Operation("SET", [Path([component], full=value)]), *ENDS.get(said.kind, []))
    return [first, *(body_of(world.begun[said.txn], element, said.number) if said.kind == "mot" else [])]


def mastership(*operations):
    return Select(MASTERSHIP, 1, list(operations))


def words(*numbers):
    return struct.pack(f">{len(numbers)}I", *numbers)


def array(entries):
    """The full form of an array inside another value, with subscripts from 1."""
    return forces.tlv(forces.FULLDATA, b"".join(words(place, *entry) for place, entry in enumerate(entries, 1)))


def set_by(said):
    """The component of the Mastership that a Config sets, and the value."""
    if said.kind == "claim":
        return EPOCH, words(said.number)
    if said.kind == "sot":
        return OPENING, words(*said.txn) + array([(part,) for part in said.parts]) + array(said.scope)
    return FLOOR if said.kind == "floor" else SUBJECT, words(*said.txn)


def body_of(plan, element, number):
    """The selects of the change of this number, from 1, that a transaction has for an element."""
    return selects_in(plan.bodies[element][number - 1])


@functools.cache
def selects_in(body):
    lines = "".join(f"  {line}\n" for line in body.splitlines())
    text = f"Config from={0:08X} to={0:08X} corr={0:016X} flags={0:08X}\n{lines}"
    return forces.read_text(text.encode())[0].selects


def asked(said, **leaf):
    """The place of what is asked for, with what it holds where that is told."""
    if said.kind in ("ask", "holds"):
        return Path([HELD], **leaf)
    return Path([RECORDS], key=(1, words(*said.txn)), **leaf)


def record(txn, parts, state):
    return words(*txn, STATES[state]) + array([(part,) for part in parts])


def told(said):
    """What is answered to a Query, at its place."""
    if said.kind == "holds":
        held = [words(place) + record(*each) for place, each in enumerate(said.held, 1)]
        return asked(said, full=b"".join(held))
    if said.state == "absent":
        return asked(said, code=forces.Code.NOT_FOUND)
    return asked(said, full=record(said.txn, said.parts, said.state))


def codes_of(reply):
    """The codes in a response, in the order of the operations that it answers, and so on: the last one stands for all behind it."""
    codes = [reply.number]
    if reply.codes:
        codes = [*([0] if reply.request.kind == "mot" else []), *reply.codes]
    elif reply.request.kind == "mot" and reply.number in (forces.Code.NOT_FOUND, forces.Code.INVALID_FLAGS):
        # what came with a phase that is refused is not looked at
        codes.append(forces.Code.UNSPECIFIED_ERROR)
    yield from codes
    while True:
        yield codes[-1]


def responses(selects, codes):
    """The selects of a Config as its response repeats them, with the codes in their order. A TRCOMP is left out."""
    return [
        Select(select.lfb_class, select.instance, [response(each, codes) for each in select.operations if each.name != "TRCOMP"])
        for select in selects
    ]


def response(operation, codes):
    if operation.name == "COMMIT":
        return Operation("COMMIT-RESPONSE", code=next(codes))
    return Operation(f"{operation.name}-RESPONSE", [answered(path, codes) for path in operation.paths])


def answered(path, codes):
    if path.paths:
        return Path(path.ids, path.key, paths=[answered(inner, codes) for inner in path.paths])
    return Path(path.ids, path.key, code=next(codes))
