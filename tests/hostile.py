"""A server that answers a client badly, for `tests/dav`.

    hostile.py FILE

It listens on ports of 127.0.0.1, one for each way of answering badly, and writes a line into FILE for each, `PORT WAY NTH`, and
then `ready`. It answers the calls of `jop check` as a server should, but for the one of number NTH, counted from 1 at the first of the
check. It serves until it is ended.
"""

import itertools
import socket
import struct
import sys
import threading
import time

DATE = b"Date: Thu, 01 Jan 1970 00:00:01 GMT\r\n"
BEGIN = b"""<?xml version="1.0" encoding="utf-8"?>
<d:multistatus xmlns:d="DAV:">
<d:response><d:href>/%s/</d:href><d:propstat><d:prop><d:resourcetype><d:collection/></d:resourcetype></d:prop>\
<d:status>HTTP/1.1 200 OK</d:status></d:propstat></d:response>
"""
ENTRY = b"""<d:response><d:href>%s</d:href><d:propstat><d:prop>\
<d:getlastmodified>Thu, 01 Jan 1970 00:00:01 GMT</d:getlastmodified><d:resourcetype/></d:prop>\
<d:status>HTTP/1.1 200 OK</d:status></d:propstat></d:response>
"""
END = b"</d:multistatus>\n"

LOCKS = [b"/locks/1_3_%s.json" % (digit * 32) for digit in (b"2", b"3")]

# How many seconds a server that says nothing does so.
SILENCE = 120


def listing(names, folder=b"locks"):
    return BEGIN % folder + b"".join(ENTRY % name for name in names) + END


def response(line, body=b"", date=DATE, length=None, fields=b""):
    """A response, with another line of its length if one is given."""
    if length is None:
        length = b"Content-Length: %d\r\n" % len(body)
    return b"HTTP/1.1 " + line + b"\r\n" + date + fields + length + b"\r\n" + body


def right(head, files):
    """The response that a server should give."""
    method, path, _ = head.split(b" ", 2)
    if method == b"MKCOL":
        return b"201 Created", b""
    if method == b"PROPFIND":
        return b"207 Multi-Status", listing(sorted(files))
    if method == b"PUT":
        files.add(path)
        return b"201 Created", b""
    files.discard(path)
    return b"204 No Content", b""


# Ways to answer one call, by the line and body of the right response: they are no responses of that call.
WRONG = {
    "no-date": lambda line, body: response(line, body, date=b""),
    "two-dates": lambda line, body: response(line, body, date=DATE + DATE),
    "bad-date": lambda line, body: response(line, body, date=b"Date: yesterday\r\n"),
    "late-date": lambda line, body: response(line, body, date=b"Date: Fri, 01 Jan 10000 00:00:00 GMT\r\n"),
    "no-length": lambda line, body: response(line, body, length=b""),
    "two-lengths": lambda line, body: response(line, body, fields=b"Content-Length: %d\r\n" % len(body)),
    "bad-length": lambda line, body: response(line, body, length=b"Content-Length: +%d\r\n" % len(body)),
    "great-length": lambda line, body: response(line, body, length=b"Content-Length: 18446744073709551616\r\n"),
    "long-length": lambda line, body: response(line, body, length=b"Content-Length: 100000\r\n"),
    "chunked": lambda line, body: response(line, body, fields=b"Transfer-Encoding: chunked\r\n"),
    "continue": lambda line, body: b"HTTP/1.1 100 Continue\r\n\r\n" + response(line, body),
    "redirect": lambda line, body: response(b"302 Found", body, fields=b"Location: /x/\r\n"),
    "other-status": lambda line, body: response(b"200 OK", body),
    "server-error": lambda line, body: response(b"500 Internal Server Error", body),
    "old-version": lambda line, body: response(line, body).replace(b"HTTP/1.1", b"HTTP/0.9"),
    "many-fields": lambda line, body: response(line, body, fields=b"".join(b"X%d: y\r\n" % n for n in range(200))),
    "garbage": lambda line, body: bytes(range(256)),
    "nothing-and-close": lambda line, body: b"",
}

# Ways to list a folder: none is the listing of it.
UNLISTED = {
    "short-length": lambda body: response(b"207 Multi-Status", body, length=b"Content-Length: %d\r\n" % (len(body) - 1)),
    "other-folder": lambda body: response(b"207 Multi-Status", listing([], folder=b"temp")),
    "no-listing": lambda body: response(b"207 Multi-Status", b"<html></html>\n"),
    "falling": lambda body: response(b"207 Multi-Status", listing(LOCKS[::-1])),
    "twice": lambda body: response(b"207 Multi-Status", listing(LOCKS[:1] * 2)),
    "long-body": lambda body: response(b"207 Multi-Status", b"y" * 16_777_216),
    "head-alone": lambda body: response(b"207 Multi-Status", length=b"Content-Length: %d\r\n" % len(body)),
}


def many_locks():
    """The longest listing that a client keeps."""
    count = (16_777_216 - 500) // len(ENTRY % (b"/locks/1_3_%032x.json" % 0))
    return response(b"207 Multi-Status", listing(b"/locks/1_3_%032x.json" % number for number in range(count)))


class Ended(Exception):
    """The connection ends here."""


class Server:
    """A way of answering badly, on a port of its own."""

    def __init__(self, way, nth):
        self.way = way
        self.nth = nth
        self.listener = socket.create_server(("127.0.0.1", 0))
        self.connections = 0
        self.answered = 0
        self.files = set()

    def port(self):
        return self.listener.getsockname()[1]

    def serve(self):
        while True:
            peer, _ = self.listener.accept()
            self.connections += 1
            # How many bytes this connection may send, if it is cut.
            self.left = self.connections
            try:
                while True:
                    self.answer(peer, read_request(peer))
            except (OSError, Ended):
                peer.close()

    def answer(self, peer, head):
        # A check begins.
        if head.startswith(b"MKCOL"):
            self.answered = 0
            self.files.clear()
        self.answered += 1
        line, body = right(head, self.files)
        whole = response(line, body, length=b"" if line.startswith(b"204") else None)
        if self.way in ALWAYS:
            ALWAYS[self.way](self, peer, whole)
        elif self.answered != self.nth:
            peer.sendall(whole)
        elif self.way in GOOD:
            peer.sendall(GOOD[self.way](whole))
        else:
            self.answer_badly(peer, line, body, whole)
            raise Ended

    def answer_badly(self, peer, line, body, whole):
        if self.way in WRONG:
            peer.sendall(WRONG[self.way](line, body))
        elif self.way in UNLISTED:
            peer.sendall(UNLISTED[self.way](body))
        else:
            ENDLESS[self.way](peer, whole)

    def send_cut(self, peer, whole):
        peer.sendall(whole[: self.left])
        self.left -= len(whole)
        if self.left < 0:
            raise Ended

    def close_behind(self, peer, whole):
        # So the end comes in the packet of the response.
        peer.setsockopt(socket.IPPROTO_TCP, socket.TCP_CORK, 1)
        peer.sendall(whole)
        raise Ended


# Ways to answer all calls.
ALWAYS = {"cut": Server.send_cut, "closes-idle": Server.close_behind}

# Ways to answer a call that a client goes on behind: with bytes that nobody asked for, and with the longest listing it keeps.
GOOD = {"unasked": lambda whole: whole + whole, "many-locks": lambda whole: many_locks()}


def send_for_ever(peer, first, piece):
    peer.sendall(first)
    while True:
        peer.sendall(piece)


def endless_head(peer, _):
    send_for_ever(peer, b"HTTP/1.1 207 Multi-Status\r\n", b"X: " + b"y" * 1_000 + b"\r\n")


def endless_body(peer, _):
    send_for_ever(peer, response(b"207 Multi-Status", length=b"Content-Length: 9999999999\r\n"), b"y" * 65_536)


def slow(peer, whole):
    for byte in whole:
        peer.sendall(bytes([byte]))
        time.sleep(2)


def silent(_, __):
    time.sleep(SILENCE)


def reset(peer, _):
    peer.setsockopt(socket.SOL_SOCKET, socket.SO_LINGER, struct.pack("ii", 1, 0))


ENDLESS = {"endless-head": endless_head, "endless-body": endless_body, "slow": slow, "silent": silent, "reset": reset}


def read_request(peer):
    """The head of a request, whose body is read too."""
    kept = b""
    while b"\r\n\r\n" not in kept:
        kept += receive(peer)
    head, kept = kept.split(b"\r\n\r\n", 1)
    length = int(head.lower().split(b"content-length:")[1].split(b"\r\n")[0])
    while len(kept) < length:
        kept += receive(peer)
    return head


def receive(peer):
    piece = peer.recv(65_536)
    if not piece:
        raise Ended
    return piece


def ways():
    """Each way, and the number of the call at which it is taken: of a check the second and the fourth list the locks."""
    yield from itertools.product(WRONG, range(1, 5))
    yield from itertools.product(UNLISTED, (2, 4))
    yield from itertools.product((*ALWAYS, *GOOD, *ENDLESS), (2,))


def main():
    servers = [Server(way, nth) for way, nth in ways()]
    for server in servers:
        threading.Thread(target=server.serve, daemon=True).start()
    with open(sys.argv[1], "w") as file:
        for server in servers:
            print(server.port(), server.way, server.nth, file=file)
        print("ready", file=file)
    threading.Event().wait()


main()
