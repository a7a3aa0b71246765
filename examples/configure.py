"""A control element that configures the blocks of router.toml: it reads which blocks there are, sets the speed of a port and reads it back,
adds two routes, reads one back by its key, is refused a third with a key that is there, and deletes one. Each request and each answer is
printed as text.

Use: python3 examples/configure.py HOST PORT

The element that it talks to is started as
`crates/forces/out/forces element 2 40000001 HOST:PORT 1 1000 < examples/router.toml`.
"""
import socket
import struct
import sys

import controller
import forces

FE_OBJECT, PORT, TABLE = 1, 0x2001, 0x2003
LFB_SELECTORS, SPEED = 2, 10
ROUTES = 1


def route(prefix, length, next_hop):
    """An entry of the forwarding table: its prefix and length are its key."""
    return socket.inet_aton(prefix) + struct.pack(">BIH", length, next_hop, 1)


def key(prefix, length):
    return 1, socket.inet_aton(prefix) + bytes([length])


def get(lfb_class, path):
    return "Query", [forces.Select(lfb_class, 1, [forces.Operation("GET", [path])])]


def put(lfb_class, path):
    return "Config", [forces.Select(lfb_class, 1, [forces.Operation("SET", [path])])]


def delete(lfb_class, path):
    return "Config", [forces.Select(lfb_class, 1, [forces.Operation("DEL", [path])])]


REQUESTS = [
    get(FE_OBJECT, forces.Path([LFB_SELECTORS])),
    put(PORT, forces.Path([SPEED], full=struct.pack(">I", 10000))),
    get(PORT, forces.Path([SPEED])),
    put(TABLE, forces.Path([ROUTES, 1], full=route("10.0.0.0", 8, 7))),
    put(TABLE, forces.Path([ROUTES, 2], full=route("192.0.2.0", 24, 8))),
    get(TABLE, forces.Path([ROUTES], key=key("192.0.2.0", 24))),
    put(TABLE, forces.Path([ROUTES, 3], full=route("10.0.0.0", 8, 9))),
    delete(TABLE, forces.Path([ROUTES, 1])),
    get(TABLE, forces.Path([ROUTES])),
]


def main():
    with controller.connect(sys.argv[1], int(sys.argv[2])) as connection:
        for request in controller.asked(connection, REQUESTS):
            print(forces.text(request) + forces.text(forces.receive(connection)))


if __name__ == "__main__":
    main()
