"""Stands between a control element and forwarding elements, and kills the control element as it is to complete a transaction at any.

Use: python3 examples/stopper.py PORT[,PORT].. COMMAND..

Each PORT is that of a forwarding element on this machine. COMMAND runs the control element; the words STOPPER in it are replaced, in turn, by
the addresses at which this stands for them. All that both sides send goes through, but for a Config with a TRCOMP. It needs Python's standard
library and forces.py beside it.
"""
import socket
import subprocess
import sys
import threading

import forces


def completes(message):
    """Whether the message completes a transaction."""
    return any(operation.name == "TRCOMP" for select in message.selects for operation in select.operations)


def hand_back(element, control):
    """Hands on all that the element sends."""
    try:
        while piece := element.recv(65536):
            control.sendall(piece)
    except OSError:
        pass


def hand_on(control, element):
    """Hands on what the control element sends, and tells whether it was to complete a transaction."""
    while message := forces.receive(control):
        if completes(message):
            return True
        element.sendall(message.encode())
    return False


def stop(listener, port, process):
    """Serves one connection of the control element after the other, until it is to complete a transaction, and then kills it."""
    try:
        while True:
            control, _ = listener.accept()
            with control, socket.create_connection(("127.0.0.1", port), timeout=60) as element:
                threading.Thread(target=hand_back, args=(element, control), daemon=True).start()
                if hand_on(control, element):
                    process.kill()
                    return
    except OSError:
        pass


def main():
    ports = [int(port) for port in sys.argv[1].split(",")]
    listeners = [socket.create_server(("127.0.0.1", 0)) for _ in ports]
    addresses = ["127.0.0.1:%d" % listener.getsockname()[1] for listener in listeners]
    command = [addresses.pop(0) if word == "STOPPER" else word for word in sys.argv[2:]]
    with subprocess.Popen(command) as process:
        for listener, port in zip(listeners, ports):
            threading.Thread(target=stop, args=(listener, port, process), daemon=True).start()
        try:
            process.wait(timeout=60)
        finally:
            process.kill()
    print("as it is to complete its transaction, by signal", -process.returncode)


if __name__ == "__main__":
    main()
