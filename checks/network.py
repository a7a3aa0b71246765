"""Elements and control elements over TCP on this machine, for the checks that run them."""
import atexit
import selectors
import socket
import subprocess
import time

PATIENCE = 60
AT_ONCE = 20
PORT, SPEED = 0x1001, 1


def free_ports(count):
    """So many ports that are free."""
    sockets = [socket.create_server(("127.0.0.1", 0)) for _ in range(count)]
    ports = [each.getsockname()[1] for each in sockets]
    for each in sockets:
        each.close()
    return ports


def address(port):
    return f"127.0.0.1:{port}"


def listener():
    """A socket that listens, and its port."""
    server = socket.create_server(("127.0.0.1", 0), backlog=64)
    return server, server.getsockname()[1]


def connected(port, process):
    """A connection to the process, once it listens, or None where it has ended."""
    end = time.monotonic() + PATIENCE
    while process.poll() is None and time.monotonic() < end:
        try:
            return socket.create_connection(("127.0.0.1", port), timeout=PATIENCE)
        except OSError:
            time.sleep(0.002)
    return None


def plan(elements, transactions=()):
    """A plan of these elements. A transaction has a name and, for each element that it changes, the speed of port 1 there."""
    lines = [f"[[element]]\nid = {element}\n" for element in elements]
    for name, speeds in transactions:
        lines.append(f'[[transaction]]\nname = "{name}"\n')
        for element, speed in speeds.items():
            body = f"lfb {PORT:08X} 00000001\n  SET\n    path {SPEED}\n      full {speed:08X}\n"
            lines.append(f'[[transaction.change]]\nelement = {element}\nbody = """\n{body}"""\n')
    return "".join(lines).encode()


def begun(words, **ends):
    """A process, which is killed where the check ends before it. Who has seen it end calls `forget`."""
    process = subprocess.Popen(words, **ends)
    atexit.register(process.kill)
    return process


def forget(process):
    """Kills a process that has not ended, and keeps nothing of it."""
    process.kill()
    atexit.unregister(process.kill)


class Element:
    """A forwarding element that runs, for so many connections."""

    def __init__(self, program, number, library, connections):
        self.number = number
        self.port = free_ports(1)[0]
        words = [program, "element", str(number), "40000001", address(self.port), str(connections), "4294967295"]
        with open(library, "rb") as source:
            self.process = begun(words, stdin=source, stdout=subprocess.PIPE)

    def report(self):
        """Uses up the connections that are left, some at once, and gives the status and the report. An element that does not end is killed."""
        end = time.monotonic() + PATIENCE
        while self.process.poll() is None and time.monotonic() < end:
            tried = [connected(self.port, self.process) for _ in range(AT_ONCE)]
            for connection in filter(None, tried):
                connection.close()
        try:
            report, _ = self.process.communicate(timeout=PATIENCE)
        finally:
            self.kill()
        return self.process.returncode, report.decode()

    def kill(self):
        forget(self.process)
        self.process.communicate()


class Visit:
    """A connection of a control element to an element: what went over, as who sent it and which bytes, and when the last of it came."""

    def __init__(self, place, control, side):
        self.parts = []
        self.place, self.control, self.side = place, control, side
        self.last = time.monotonic()

    def passed(self, who):
        """Passes on what one of both sends, unless it hangs up."""
        source, other = (self.control, self.side) if who == "control" else (self.side, self.control)
        try:
            piece = source.recv(65536)
            if piece:
                other.sendall(piece)
        except OSError:
            return False
        if piece:
            self.parts.append((who, piece))
            self.last = time.monotonic()
        return bool(piece)


class Relay:
    """Stands between a control element and elements, over all their connections at once, and ends each that was silent for a while."""

    def __init__(self, elements, silence):
        self.elements, self.silence = elements, silence
        self.listeners = [listener() for _ in elements]
        # the place of the element and what went over, for each connection
        self.visits = []
        self.open = []
        self.selector = selectors.DefaultSelector()
        for place, (server, _) in enumerate(self.listeners):
            self.selector.register(server, selectors.EVENT_READ, place)

    def addresses(self):
        return [address(port) for _, port in self.listeners]

    def serve(self, process):
        """Serves a control element until it ends."""
        end = time.monotonic() + PATIENCE
        while process.poll() is None and time.monotonic() < end:
            for key, _ in self.selector.select(0.01):
                if isinstance(key.data, int):
                    self.begin(key.fileobj.accept()[0], key.data)
                elif key.data[0] in self.open and not key.data[0].passed(key.data[1]):
                    self.end(key.data[0])
            for visit in [visit for visit in self.open if time.monotonic() - visit.last > self.silence]:
                self.end(visit)
        for visit in list(self.open):
            self.end(visit)

    def begin(self, control, place):
        element = self.elements[place]
        side = connected(element.port, element.process)
        if side is None:
            control.close()
            return
        control.settimeout(PATIENCE)
        visit = Visit(place, control, side)
        self.visits.append((place, visit.parts))
        self.open.append(visit)
        self.selector.register(control, selectors.EVENT_READ, (visit, "control"))
        self.selector.register(side, selectors.EVENT_READ, (visit, "element"))

    def end(self, visit):
        self.open.remove(visit)
        for each in (visit.control, visit.side):
            self.selector.unregister(each)
            each.close()

    def close(self):
        self.selector.close()
        for server, _ in self.listeners:
            server.close()
