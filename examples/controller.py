"""A control element of a few lines: it associates with one forwarding element, asks it for a heartbeat, and hangs up.

Use: python3 examples/controller.py HOST PORT

It needs Python's standard library and forces.py beside it. The element that it talks to is started as
`crates/forces/out/forces element 2 40000001 HOST:PORT 1 100 < /dev/null`.
"""
import socket
import sys
import time

import forces

CONTROL = 0x40000001

# An answer is always wanted, and all operations of a Config are done or none.
FLAGS = {"Query": 0xC0000000, "Config": 0xC0400000}


def connect(host, port):
    """The element binds its port once it runs: a few tries are enough."""
    for _ in range(50):
        try:
            return socket.create_connection((host, port), timeout=10)
        except ConnectionRefusedError:
            time.sleep(0.1)
    sys.exit("connection refused")


def received(connection):
    """The next message, whose bytes are printed."""
    message = forces.receive(connection)
    if message is None:
        sys.exit("the element hung up")
    print("from the element:", message.encode().hex(" ", 4).upper())
    return message


def asked(connection, requests):
    """Associates with the element and sends it the requests, a name and selects each. Gives each message once it was sent."""
    element = forces.receive(connection).sender
    connection.sendall(forces.Message("AssociationSetupResponse", CONTROL, element, number=0).encode())
    for count, (name, selects) in enumerate(requests, start=1):
        message = forces.Message(name, CONTROL, element, count, FLAGS[name], selects=selects)
        connection.sendall(message.encode())
        yield message


def main():
    with connect(sys.argv[1], int(sys.argv[2])) as connection:
        element = received(connection).sender
        accepted = forces.Message("AssociationSetupResponse", CONTROL, element, number=0)
        asked = forces.Message("Heartbeat", CONTROL, element, flags=forces.ALWAYS_ACK)
        connection.sendall(accepted.encode() + asked.encode())
        received(connection)


if __name__ == "__main__":
    main()
