"""A control element that changes a forwarding element by transactions: it claims the element, prepares the speed of a port and a route and
completes both, prepares another speed and aborts it, and asks what stands then. Each request and each answer is printed as text.

Use: python3 examples/transactions.py HOST PORT

The element that it talks to is started as
`crates/forces/out/forces element 2 40000001 HOST:PORT 1 1000 < examples/router.toml`.
"""
import struct
import sys

import controller
import forces
from configure import PORT, ROUTES, SPEED, TABLE, get, route

# One life of a control element has an epoch: a round that it has never had before, and its number.
EPOCH = 1 << 8 | controller.CONTROL & 0xFF
MASTERSHIP = 0x0001F001
CLAIM, OPENING, SUBJECT, TRANSACTIONS = 1, 4, 5, 3
# An answer is wanted, and all is done or none; in a transaction its phase stands beside that.
ALL_OR_NONE, TRANSACTION = 0xC0400000, 0x00200000
START, CHANGE, END, ABORT = (ALL_OR_NONE | TRANSACTION | phase << 19 for phase in range(4))


def mastership(component, value, *operations):
    """What is asked of the element itself: a value of its Mastership, and operations behind it."""
    return forces.Select(MASTERSHIP, 1, [forces.Operation("SET", [forces.Path([component], full=value)]), *operations])


def name(number):
    return struct.pack(">II", EPOCH, number)


def start(number, element):
    """Opens a transaction over all instances, in which this element alone takes part."""
    participants = forces.tlv(0x0112, struct.pack(">II", 1, element))
    return START, [mastership(OPENING, name(number) + participants + forces.tlv(0x0112, b""))]


def change(number, lfb_class, path):
    put = forces.Select(lfb_class, 1, [forces.Operation("SET", [path])])
    return CHANGE, [mastership(SUBJECT, name(number)), put]


def prepare(number):
    return END, [mastership(SUBJECT, name(number), forces.Operation("COMMIT"))]


def complete(number):
    return END, [mastership(SUBJECT, name(number), forces.Operation("TRCOMP"))]


def abort(number):
    return ABORT, [mastership(SUBJECT, name(number))]


def speed(value):
    return PORT, forces.Path([SPEED], full=struct.pack(">I", value))


def configs(element):
    """What is asked, in its order: the flags and the selects. The first one claims the element."""
    yield ALL_OR_NONE, [mastership(CLAIM, struct.pack(">I", EPOCH))]
    yield start(1, element)
    yield change(1, *speed(10000))
    yield change(1, TABLE, forces.Path([ROUTES, 1], full=route("192.0.2.0", 24, 8)))
    yield prepare(1)
    yield complete(1)
    yield start(2, element)
    yield change(2, *speed(100))
    yield prepare(2)
    yield abort(2)


def main():
    with controller.connect(sys.argv[1], int(sys.argv[2])) as connection:
        element = forces.receive(connection).sender
        connection.sendall(forces.Message("AssociationSetupResponse", controller.CONTROL, element, number=0).encode())

        def ask(kind, correlator, flags, selects):
            request = forces.Message(kind, controller.CONTROL, element, correlator, flags, selects=selects)
            connection.sendall(request.encode())
            print(forces.text(request) + forces.text(forces.receive(connection)))

        # the correlator of each Config has the epoch and its place, the claim's the place 0
        for place, (flags, selects) in enumerate(configs(element)):
            ask("Config", EPOCH << 32 | place, flags, selects)
        for count, (kind, selects) in enumerate(
            [get(MASTERSHIP, forces.Path([TRANSACTIONS])), get(PORT, forces.Path([SPEED])), get(TABLE, forces.Path([ROUTES]))],
            start=1,
        ):
            ask(kind, EPOCH << 32 | count, 0xC0000000, selects)


if __name__ == "__main__":
    main()
