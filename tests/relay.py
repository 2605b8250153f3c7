"""Stands between cadaver and the server `tool_dav_stand`, for `tests/dav`.

    relay.py PORT_FILE SERVER_PORT LOG

It listens on a free port of 127.0.0.1, whose number it writes into PORT_FILE. What cadaver asks before its calls, and a target
needn't know (OPTIONS, and PROPFIND of depth 0), it answers by itself. All else it hands to the server, and the response back; of
each it writes a line into LOG: method, target and status. It serves one connection after the other until it is ended.
"""

import re
import socket
import sys

PLAIN = (
    b'<?xml version="1.0" encoding="utf-8"?>\n<d:multistatus xmlns:d="DAV:">\n<d:response><d:href>%s</d:href><d:propstat>'
    b"<d:prop><d:resourcetype>%s</d:resourcetype></d:prop><d:status>HTTP/1.1 200 OK</d:status></d:propstat></d:response>\n"
    b"</d:multistatus>\n"
)


def read_message(peer, kept):
    """A message from a peer, of which these bytes came already: its head, all its bytes, and those behind it."""
    while b"\r\n\r\n" not in kept:
        kept += receive(peer)
    head, body = kept.split(b"\r\n\r\n", 1)
    length = re.search(rb"\r\ncontent-length: *(\d+)", head.lower())
    length = int(length.group(1)) if length else 0
    while len(body) < length:
        body += receive(peer)
    return head, head + b"\r\n\r\n" + body[:length], body[length:]


def receive(peer):
    piece = peer.recv(65_536)
    if not piece:
        raise EOFError
    return piece


def own_answer(method, target, head):
    """The response to what a target needn't know, or None."""
    if method == b"OPTIONS":
        return b"HTTP/1.1 200 OK\r\nDAV: 1\r\nContent-Length: 0\r\n\r\n"
    if method == b"PROPFIND" and re.search(rb"\r\ndepth: *0", head.lower()):
        body = PLAIN % (target, b"<d:collection/>" if target.endswith(b"/") else b"")
        return b"HTTP/1.1 207 Multi-Status\r\nContent-Type: text/xml\r\nContent-Length: %d\r\n\r\n" % len(body) + body
    return None


def serve(peer, server, log):
    asked = told = b""
    while True:
        head, request, asked = read_message(peer, asked)
        method, target = head.split(b" ")[:2]
        response = own_answer(method, target, head)
        if response is None:
            server.sendall(request)
            line, response, told = read_message(server, told)
            print(method.decode(), target.decode(), line.split(b" ")[1].decode(), file=log, flush=True)
        peer.sendall(response)


def main():
    port_file, port, log_file = sys.argv[1:]
    listener = socket.create_server(("127.0.0.1", 0))
    with open(port_file, "w") as file:
        print(listener.getsockname()[1], file=file)
    with open(log_file, "w") as log:
        while True:
            peer, _ = listener.accept()
            with peer, socket.create_connection(("127.0.0.1", int(port))) as server:
                try:
                    serve(peer, server, log)
                except (EOFError, OSError):
                    pass


if __name__ == "__main__":
    main()
