"""Sends what comes in to a forwarding element, and writes out all that the element answers, byte for byte.

Use: forces make < TEXT | python3 examples/talk.py HOST PORT | forces show
"""
import socket
import sys

import controller


def main():
    with controller.connect(sys.argv[1], int(sys.argv[2])) as connection:
        connection.sendall(sys.stdin.buffer.read())
        connection.shutdown(socket.SHUT_WR)
        while piece := connection.recv(65536):
            sys.stdout.buffer.write(piece)


if __name__ == "__main__":
    main()
