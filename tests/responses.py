#!/usr/bin/env python3
"""Reads the responses of `probe responses` by http.client: responses.py FILE. Prints `all read` last."""
import email.utils
import http.client
import io
import sys
import xml.etree.ElementTree as tree

WANTED = [
    ("MKCOL", 201, "Created", b""),
    ("PUT", 201, "Created", b""),
    ("PROPFIND", 207, "Multi-Status", None),
    ("GET", 200, "OK", b"content"),
    ("DELETE", 204, "No Content", b""),
    ("GET", 404, "Not Found", b""),
    ("PUT", 201, "Created", b""),
    ("GET", 200, "OK", b"blob"),
    ("GET", 400, "Bad Request", b""),
    ("PUT", 403, "Forbidden", b""),
    ("GET", 404, "Not Found", b""),
    ("POST", 405, "Method Not Allowed", b""),
    ("PUT", 413, "Content Too Large", b""),
    ("GET", 500, "Internal Server Error", b""),
]


class Kept(io.BytesIO):
    """A stream that goes on after a response that was read from it is closed."""

    def close(self):
        pass


class Link:
    def __init__(self, data):
        self.data = Kept(data)

    def makefile(self, *_args, **_more):
        return self.data


def files_of(body):
    dav = "{DAV:}"
    return [
        (one.find(dav + "href").text, one.find(".//" + dav + "getlastmodified").text)
        for one in tree.fromstring(body)
        if one.find(".//" + dav + "getlastmodified") is not None
    ]


def main():
    link = Link(open(sys.argv[1], "rb").read())
    for place, (method, status, reason, body) in enumerate(WANTED):
        response = http.client.HTTPResponse(link, method=method)
        response.begin()
        got = response.read()
        assert (response.status, response.reason) == (status, reason), (place, response.status, response.reason)
        second = email.utils.parsedate_to_datetime(response.getheader("Date")).timestamp()
        assert second == (place if place < 8 else 1), (place, second)
        assert (response.getheader("Content-Length") is None) == (status == 204), place
        if body is None:
            assert files_of(got) == [("/info.json", "Thu, 01 Jan 1970 00:00:01 GMT")], files_of(got)
        else:
            assert got == body, (place, got)
    assert link.data.read() == b""
    print("all read")


main()
