"""A control element that is told of an event: it registers that the speed of a port of port.toml passes 100, and that it has to fall by 10
before that is told again, asks which properties the event has then, and changes the speed five times. Behind each request stands what the
element sends then: its answer, and behind that a notice where the event has happened.

Use: python3 examples/events.py HOST PORT

The element that it talks to is started as
`crates/forces/out/forces element 2 40000001 HOST:PORT 1 1000 < examples/port.toml`.
"""
import struct
import sys

import controller
import forces

PORT, SPEED = 0x1001, 1
EVENT = [60, 1]
REGISTERED, THRESHOLD, HYSTERESIS = 2, 3, 4


def word(number):
    return struct.pack(">I", number)


def request(name, operation, path):
    return name, [forces.Select(PORT, 1, [forces.Operation(operation, [path])])]


def speed(number):
    return request("Config", "SET", forces.Path([SPEED], full=word(number)))


REQUESTS = [
    request("Config", "SET-PROP", forces.Path(EVENT, sparse=[(REGISTERED, word(1)), (THRESHOLD, word(100)), (HYSTERESIS, word(10))])),
    request("Query", "GET-PROP", forces.Path(EVENT)),
    speed(101),
    speed(95),
    speed(101),
    speed(90),
    speed(101),
]


def sent(connection, element):
    """What the element sends until it answers a heartbeat."""
    connection.sendall(forces.Message("Heartbeat", controller.CONTROL, element, flags=forces.ALWAYS_ACK).encode())
    while (message := forces.receive(connection)).name != "Heartbeat":
        yield message


def main():
    with controller.connect(sys.argv[1], int(sys.argv[2])) as connection:
        for message in controller.asked(connection, REQUESTS):
            print(forces.text(message) + "".join(forces.text(answer) for answer in sent(connection, message.addressee)))


if __name__ == "__main__":
    main()
