#!/usr/bin/env python3
"""Writes the response that lists so many notes: listing.py COUNT [swapped]. If swapped, the last two have changed places."""
import sys

LINE = (
    "<d:response><d:href>/%032x.md</d:href><d:propstat><d:prop><d:getlastmodified>Thu, 01 Jan 1970 00:00:01 GMT"
    "</d:getlastmodified><d:resourcetype/></d:prop><d:status>HTTP/1.1 200 OK</d:status></d:propstat></d:response>\n"
)
START = (
    '<?xml version="1.0" encoding="utf-8"?>\n<d:multistatus xmlns:d="DAV:">\n'
    "<d:response><d:href>/</d:href><d:propstat><d:prop><d:resourcetype><d:collection/></d:resourcetype></d:prop>"
    "<d:status>HTTP/1.1 200 OK</d:status></d:propstat></d:response>\n"
)
END = "</d:multistatus>\n"


def main():
    count = int(sys.argv[1])
    numbers = list(range(count))
    if sys.argv[2:] == ["swapped"]:
        numbers[-2:] = reversed(numbers[-2:])
    size = len(START) + count * len(LINE % 0) + len(END)
    sys.stdout.write("HTTP/1.1 207 Multi-Status\r\nDate: Thu, 01 Jan 1970 00:00:01 GMT\r\nContent-Length: %d\r\n\r\n" % size)
    sys.stdout.write(START)
    for number in numbers:
        sys.stdout.write(LINE % number)
    sys.stdout.write(END)


main()
