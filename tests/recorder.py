#!/usr/bin/env python3
"""A small WebDAV server that keeps the bytes of each request: recorder.py PORT_FILE FOLDER.

It writes its port into PORT_FILE, answers so that a client goes on, and puts the requests into FOLDER as 00, 01, ..
in the order in which they came. It ends when PORT_FILE is removed.
"""
import os
import re
import socket
import sys
import threading
import time

PLAIN = (
    '<?xml version="1.0" encoding="utf-8"?>\n<d:multistatus xmlns:d="DAV:">\n'
    "<d:response><d:href>%s</d:href><d:propstat><d:prop><d:resourcetype><d:collection/></d:resourcetype></d:prop>"
    "<d:status>HTTP/1.1 200 OK</d:status></d:propstat></d:response>\n</d:multistatus>\n"
)
lock = threading.Lock()
count = 0


def answer(method, target):
    """The status line and the body for a request."""
    if method == "PROPFIND":
        return "207 Multi-Status", PLAIN % target
    if method == "OPTIONS":
        return "200 OK", ""
    if method == "GET":
        return "200 OK", "got\n"
    return {"PUT": "201 Created", "MKCOL": "201 Created", "DELETE": "204 No Content"}.get(method, "405 Method Not Allowed"), ""


def whole(data):
    """How many bytes the request at the front takes, or 0 if it isn't whole."""
    end = data.find(b"\r\n\r\n")
    if end < 0:
        return 0
    head = data[:end].decode("latin-1").lower()
    if "transfer-encoding: chunked" in head:
        last = data.find(b"0\r\n\r\n", end + 4)
        return last + 5 if last >= 0 else 0
    length = re.search(r"\r\ncontent-length: *(\d+)", head)
    size = end + 4 + (int(length.group(1)) if length else 0)
    return size if len(data) >= size else 0


def serve(link, folder):
    global count
    data = b""
    told = False
    while True:
        size = whole(data)
        if size == 0:
            if not told and b"\r\n\r\n" in data and b"100-continue" in data.lower():
                link.sendall(b"HTTP/1.1 100 Continue\r\n\r\n")
                told = True
            piece = link.recv(65536)
            if not piece:
                return
            data += piece
            continue
        request, data, told = data[:size], data[size:], False
        with lock:
            with open(os.path.join(folder, "%02d" % count), "wb") as file:
                file.write(request)
            count += 1
        method, target = request.split(b" ")[:2]
        status, body = answer(method.decode(), target.decode("latin-1"))
        head = "HTTP/1.1 %s\r\nDate: Thu, 01 Jan 1970 00:00:01 GMT\r\nDAV: 1\r\n" % status
        if not status.startswith("204"):
            head += "Content-Length: %d\r\n" % len(body)
        link.sendall((head + "\r\n" + body).encode())


def main():
    port_file, folder = sys.argv[1:]
    listener = socket.create_server(("127.0.0.1", 0))
    with open(port_file + ".new", "w") as file:
        file.write(str(listener.getsockname()[1]))
    os.rename(port_file + ".new", port_file)

    def accept():
        while True:
            link, _ = listener.accept()
            threading.Thread(target=serve, args=(link, folder), daemon=True).start()

    threading.Thread(target=accept, daemon=True).start()
    while os.path.exists(port_file):
        time.sleep(0.05)


main()
