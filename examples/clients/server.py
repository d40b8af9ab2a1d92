"""Starts `crbd emulator` for the scripts beside it, and connects to it."""
import os
import socket
import subprocess
import sys
import time

HERE = os.path.dirname(os.path.abspath(__file__))
BUILT = os.path.join(HERE, "..", "..", "crates", "crbd", "out", "crbd")
PROGRAM = os.path.abspath(sys.argv[1] if len(sys.argv) > 1 else BUILT)


def free_ports():
    """Two ports of 127.0.0.1 on which nobody listens."""
    sockets = [socket.socket() for _ in range(2)]
    for each in sockets:
        each.bind(("127.0.0.1", 0))
    ports = [each.getsockname()[1] for each in sockets]
    for each in sockets:
        each.close()
    return ports


def start(begin="new"):
    """A server, with the ports of its control channel and of its channel of commands."""
    ctrl, data = free_ports()
    words = [PROGRAM, "emulator", str(ctrl), str(data), begin]
    return subprocess.Popen(words, stdout=subprocess.PIPE, stderr=subprocess.PIPE), ctrl, data


def connect(port, seconds=10):
    """A connection to a server that may still be starting."""
    end = time.monotonic() + seconds
    while True:
        try:
            link = socket.create_connection(("127.0.0.1", port), seconds)
            link.setsockopt(socket.IPPROTO_TCP, socket.TCP_NODELAY, 1)
            return link
        except OSError:
            if time.monotonic() > end:
                raise
            time.sleep(0.002)


def receive(link, count):
    """So many bytes, or fewer where the connection ends."""
    got = b""
    while len(got) < count:
        more = link.recv(count - len(got))
        if not more:
            break
        got += more
    return got


def response(link):
    """One response of a TPM: its size field says how long it is."""
    head = receive(link, 10)
    return head + receive(link, int.from_bytes(head[2:6], "big") - len(head))


def request(code, *fields):
    """A control request of numbers of 32 bits."""
    return b"".join(number.to_bytes(4, "big") for number in (code, *fields))


INIT, SHUTDOWN, CANCEL = request(2, 0), request(3), request(9)
STARTUP = bytes.fromhex("80010000000c000001440000")
