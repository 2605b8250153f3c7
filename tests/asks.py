"""A client of `tool_dav_stand` that sends requests as no good client does, for `tests/dav`.

    asks.py PORT packet      two requests in one packet
    asks.py PORT bytes       one byte a packet
    asks.py PORT many        10,000 requests on one connection

It prints the status of each response, those of `many` counted.
"""

import collections
import socket
import sys

PUT = b"PUT /info.json HTTP/1.1\r\nHost: h\r\nContent-Length: 3\r\n\r\nabc"
GET = b"GET /info.json HTTP/1.1\r\nHost: h\r\nContent-Length: 0\r\n\r\n"


def statuses(peer, count):
    """The statuses of so many responses."""
    kept = b""
    for _ in range(count):
        while b"\r\n\r\n" not in kept:
            kept += receive(peer)
        head, kept = kept.split(b"\r\n\r\n", 1)
        length = 0
        for line in head.split(b"\r\n"):
            if line.lower().startswith(b"content-length:"):
                length = int(line.split(b":")[1])
        while len(kept) < length:
            kept += receive(peer)
        kept = kept[length:]
        yield int(head.split(b" ")[1])


def receive(peer):
    piece = peer.recv(65536)
    if not piece:
        raise EOFError("the server closed the connection")
    return piece


def main():
    port, how = sys.argv[1:]
    peer = socket.create_connection(("127.0.0.1", int(port)))
    peer.setsockopt(socket.IPPROTO_TCP, socket.TCP_NODELAY, 1)
    if how == "packet":
        peer.sendall(PUT + GET)
        print(*statuses(peer, 2))
    elif how == "bytes":
        for byte in PUT + GET:
            peer.sendall(bytes([byte]))
        print(*statuses(peer, 2))
    elif how == "many":
        count = collections.Counter()
        for turn in range(10_000):
            peer.sendall(PUT if turn % 2 == 0 else GET)
            count.update(statuses(peer, 1))
        print(*(f"{status}: {times}" for status, times in sorted(count.items())))


main()
