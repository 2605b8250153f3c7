"""Days of two clients over a server, for `tests/dav`.

    days.py PROGRAM STAND FOLDER alike | closing | midway | late | long

STAND is the server `tool_dav_stand`. The first client has a notebook, notes and a resource, which both then have. Then both change one note,
and each removes one; where one sync alone is looked at, each adds one too, and the first attaches a file.

    alike    over servers that are quick, that answer late, and whose clock runs fast, all comes to what it comes to over a folder, with a
             resource of 5 MB
    closing  over servers that close the connection behind each answer, behind every tenth and behind every hundredth, all comes to what it
             comes to over a folder, with more notes, so that a day has more than a hundred calls
    midway   at each call of a sync in turn the server ends: before the call is made, amid the request, before the response and amid it
    late     at each call of a sync in turn the answer comes later than a client waits for it
    long     a file, a blob and a listing are announced that are longer than a client keeps

Behind a sync that failed another comes to what the first would have. Times of change are left out where texts are compared. The last line
is a note of what was tried.
"""

import contextlib
import hashlib
import os
import re
import shutil
import socket
import sqlite3
import subprocess
import sys
import threading
import time

sys.dont_write_bytecode = True
from relay import read_message  # noqa: E402

PROGRAM, STAND, FOLDER = (os.path.abspath(word) for word in sys.argv[1:4])

# How many seconds an answer is late: a little, and more than a client waits.
LATE, TOO_LATE = 0.03, 40


def fail(text):
    sys.exit(text)


# ------------------------------------------------------------------------------------------------------------- clients


class Client:
    """Tables in a file."""

    def __init__(self, tables):
        self.tables = tables

    def try_to(self, *words, given=b""):
        """How a command ends, and what it prints."""
        ran = subprocess.run([PROGRAM, "--profile", self.tables, *words], input=given, capture_output=True, timeout=100)
        return ran.returncode, ran.stdout.decode(), ran.stderr.decode()

    def run(self, *words, given=b""):
        status, out, err = self.try_to(*words, given=given)
        if status:
            fail(f"{self.tables}: {words}: status {status}: {out}{err}")
        return out.strip()

    def outcome(self):
        """Rows, conflict notes, deletions and bytes of resources."""
        base = sqlite3.connect(self.tables)
        told = [
            sorted((it, plain(text), pending) for it, text, pending in base.execute(
                "select id, coalesce(nullif(content, x''), base), pending from rows")),
            sorted(plain(text) for (text,) in base.execute("select content from conflicts")),
            sorted(base.execute("select id from deletions")),
            sorted((it, digest(data)) for it, data in base.execute("select id, bytes from blobs")),
        ]
        base.close()
        return told


def plain(text):
    """A text without its times of change, in short."""
    return digest(re.sub(rb"(?m)^(user_)?updated_time: .*$", b"", text))


def digest(data):
    return hashlib.sha256(data).hexdigest()[:16]


def world(folder, *tables):
    """A new folder with copies of these tables, as clients. Tables that aren't there are of a client that has nothing."""
    os.makedirs(folder)
    for it in filter(os.path.exists, tables):
        shutil.copy(it, folder)
    return [Client(f"{folder}/{os.path.basename(it)}") for it in tables]


def begin(folder, size, more=0):
    """The tables with which the days begin, with a resource of so many bytes and so many notes more, and the ids of the notebook and the
    notes that both will have."""
    os.makedirs(folder)
    first = Client(f"{folder}/first.sqlite")
    book = first.run("mkbook", "Home")
    for number in range(more):
        first.run("add", book, f"Note {number}", given=b"text")
    notes = [first.run("add", book, title, given=title.encode()) for title in ("Milk", "Lost", "Gone")]
    first.run("attach", "photo.png", "image/png", given=os.urandom(size))
    return (first.tables, f"{folder}/second.sqlite"), book, notes


def share(first, second, target):
    """Both have what the first began with."""
    return [first.run("upgrade", target), first.run("sync", target), second.run("sync", target)]


def work(first, second, book, notes, target):
    """A day of each, of which the second has synced its own."""
    milk, lost, gone = notes
    second.run("edit", milk, given=b"from the second")
    second.run("rm", lost)
    report = second.run("sync", target)
    first.run("edit", milk, given=b"from the first")
    first.run("rm", gone)
    return report


def settle(first, second, target):
    return [it.run("sync", target) for it in (first, second, first, second)]


# ------------------------------------------------------------------------------------------------------------- targets


def files_in(root):
    """The files of a folder by their paths, but for locks and temporary files."""
    found = {}
    for path, _, names in os.walk(root):
        for name in names:
            file = os.path.relpath(os.path.join(path, name), root)
            if not file.startswith(("locks/", "temp/")):
                with open(os.path.join(root, file), "rb") as content:
                    found[file] = plain(content.read())
    return found


class Stand:
    """A server, which ends with a `with`."""

    def __init__(self, step=1_000):
        self.process = subprocess.Popen([STAND, str(step)], stdout=subprocess.PIPE, stderr=subprocess.DEVNULL)
        self.port = int(self.process.stdout.readline().split()[1])
        self.target = f"dav:http://127.0.0.1:{self.port}/"

    def __enter__(self):
        return self

    def __exit__(self, *_):
        self.process.kill()
        self.process.wait()
        self.process.stdout.close()

    def ask(self, requests):
        """The responses to these requests, one after the other."""
        kept, told = b"", []
        with socket.create_connection(("127.0.0.1", self.port)) as peer:
            for request in requests:
                peer.sendall(request)
                head, whole, kept = read_message(peer, kept)
                told.append((head, whole[len(head) + 4 :]))
        return told

    def files(self):
        found = {}
        folders = [b"/", b"/.resource/", b"/.sync/"]
        for _, body in self.ask(b"PROPFIND %s HTTP/1.1\r\nDepth: 1\r\n\r\n" % it for it in folders):
            for path in re.findall(rb"<d:href>/(.*?[^/])</d:href>", body):
                _, content = self.ask([b"GET /%s HTTP/1.1\r\n\r\n" % path])[0]
                found[path.decode()] = plain(content)
        return found


class Relay(threading.Thread):
    """Hands what clients ask on to a server, and its answers back, and keeps what was asked. `way`, if there is one, is taken at the call
    of number `nth`, counted from 1. Each answer is so many seconds late. Behind each answer to a call whose number `every` divides, it says
    that it closes the connection, and does."""

    def __init__(self, port, way=None, nth=0, late=0.0, every=0):
        super().__init__(daemon=True)
        self.port, self.way, self.nth, self.late, self.every = port, way, nth, late, every
        self.asked, self.closed = [], 0
        self.listener = socket.create_server(("127.0.0.1", 0))
        self.target = f"dav:http://127.0.0.1:{self.listener.getsockname()[1]}/"
        self.start()

    def run(self):
        while True:
            peer, _ = self.listener.accept()
            with peer, contextlib.suppress(EOFError, OSError):
                self.serve(peer)

    def serve(self, peer):
        kept = told = b""
        with socket.create_connection(("127.0.0.1", self.port)) as server:
            while True:
                _, request, kept = read_message(peer, kept)
                self.asked.append(request)
                if len(self.asked) == self.nth or (self.way and not self.nth):
                    self.way(peer, server, request)
                server.sendall(request)
                _, response, told = read_message(server, told)
                if self.late:
                    time.sleep(self.late)
                if self.every and len(self.asked) % self.every == 0:
                    self.closed += 1
                    peer.sendall(closing_head(response))
                    return
                peer.sendall(response)


def closing_head(response):
    """The same response, which says that the connection is closed behind it."""
    line, rest = response.split(b"\r\n", 1)
    return line + b"\r\nConnection: close\r\n" + rest


def halves(message):
    return message[: len(message) // 2]


def before_the_call(peer, server, request):
    raise EOFError


def amid_the_request(peer, server, request):
    server.sendall(halves(request))
    raise EOFError


def response_to(server, request):
    """It ends the connection to the server, which serves one after the other."""
    server.sendall(request)
    _, response, _ = read_message(server, b"")
    server.close()
    return response


def before_the_response(peer, server, request):
    response_to(server, request)
    raise EOFError


def amid_the_response(peer, server, request):
    peer.sendall(halves(response_to(server, request)))
    raise EOFError


def too_late(peer, server, request):
    response = response_to(server, request)
    time.sleep(TOO_LATE)
    peer.sendall(response)
    raise EOFError


ENDS = [before_the_call, amid_the_request, before_the_response, amid_the_response]


# --------------------------------------------------------------------------------------------------------------- alike


def days(folder, tables, book, notes, target, files):
    """What all days come to over a target."""
    first, second = world(folder, *tables)
    told = share(first, second, target)
    told.append(work(first, second, book, notes, target))
    told += settle(first, second, target)
    return told, first.outcome(), second.outcome(), files()


def alike():
    tables, book, notes = begin(f"{FOLDER}/begin", 5_000_000)
    root = f"{FOLDER}/target"
    os.makedirs(root)
    wanted = days(f"{FOLDER}/folder", tables, book, notes, f"dir:{root}", lambda: files_in(root))
    if sum("conflicts 1" in it for it in wanted[0]) != 1 or not any("gone 1" in it for it in wanted[0]):
        fail(f"no conflict or no deletion: {wanted[0]}")
    # Of a clock that runs fast a lease is due at each third call.
    for name, step, late in (("quick", 1_000, 0), ("late", 1_000, LATE), ("fast", 25_000, 0)):
        with Stand(step) as stand:
            relay = Relay(stand.port, late=late)
            got = days(f"{FOLDER}/{name}", tables, book, notes, relay.target, stand.files)
            if got != wanted:
                fail(f"{name}: {got}\nover a folder: {wanted}")
            print(f"note: {len(wanted[3])} files, {len(relay.asked)} calls")


# ------------------------------------------------------------------------------------------------------------- closing


def closing():
    tables, book, notes = begin(f"{FOLDER}/begin", 5_000, 60)
    root = f"{FOLDER}/target"
    os.makedirs(root)
    wanted = days(f"{FOLDER}/folder", tables, book, notes, f"dir:{root}", lambda: files_in(root))
    told = []
    for every in (1, 10, 100):
        with Stand() as stand:
            relay = Relay(stand.port, every=every)
            got = days(f"{FOLDER}/every {every}", tables, book, notes, relay.target, stand.files)
            if got != wanted:
                fail(f"every {every}: {got}\nover a folder: {wanted}")
            if relay.closed < 2:
                fail(f"every {every}: closed {relay.closed} times in {len(relay.asked)} calls")
            told.append(f"{relay.closed} times in {len(relay.asked)} calls")
    print(f"note: closed {', '.join(told)}")


# ------------------------------------------------------------------------------------------------------- one sync again


class Morning:
    """Where a sync begins that has work of each kind: tables, and the requests by which the target came to be."""

    def __init__(self):
        tables, book, notes = begin(f"{FOLDER}/begin", 5_000)
        first, second = world(f"{FOLDER}/morning", *tables)
        with Stand() as stand:
            relay = Relay(stand.port)
            share(first, second, relay.target)
            second.run("add", book, "New", given=b"of the second")
            work(first, second, book, notes, relay.target)
            first.run("add", book, "Newer", given=b"of the first")
            first.run("attach", "list.txt", "text/plain", given=b"list")
            self.tables, self.requests = first.tables, list(relay.asked)
        self.wanted, self.calls = self.whole()

    @contextlib.contextmanager
    def again(self, name, way=None, nth=0):
        """The client and the server as they were then, and a relay before it."""
        (client,) = world(f"{FOLDER}/{name}", self.tables)
        with Stand() as stand:
            stand.ask(self.requests)
            yield client, stand, Relay(stand.port, way, nth)

    def whole(self):
        """What a whole sync comes to, and how many calls it takes."""
        with self.again("whole") as (client, stand, relay):
            report = client.run("sync", relay.target)
            for line in ("put 2", "removed 1", "taken 1", "gone 1", "conflicts 1"):
                if line not in report.split("\n"):
                    fail(f"a sync with other work: {report}")
            return (client.outcome(), stand.files()), len(relay.asked)

    def broken(self, way, nth):
        """A sync whose call of this number goes wrong, and another."""
        name = f"{way.__name__} at call {nth}"
        with self.again(name, way, nth) as (client, stand, relay):
            told = client.try_to("sync", relay.target)
            if told != (9, "", "target fault\n"):
                fail(f"{name}: {told}")
            client.run("sync", stand.target)
            got = client.outcome(), stand.files()
            if got != self.wanted:
                fail(f"{name}: {got}\nwithout: {self.wanted}")
        shutil.rmtree(f"{FOLDER}/{name}")


def midway():
    morning = Morning()
    for nth in range(1, morning.calls + 1):
        for way in ENDS:
            morning.broken(way, nth)
    print(f"note: {morning.calls} calls, {len(ENDS)} ways each")


def late():
    morning, wrong = Morning(), []

    def broken(nth):
        try:
            morning.broken(too_late, nth)
        except (SystemExit, Exception) as error:  # pylint: disable=broad-except
            wrong.append(str(error))

    runs = [threading.Thread(target=broken, args=(nth,)) for nth in range(1, morning.calls + 1)]
    for run in runs:
        run.start()
    for run in runs:
        run.join()
    if wrong:
        fail(wrong[0])
    print(f"note: {morning.calls} calls")


# ---------------------------------------------------------------------------------------------------------------- long


def announces(start, line, length):
    """The way of a server that announces a body of so many bytes to requests that begin so."""

    def way(peer, server, request):
        if request.startswith(start):
            peer.sendall(b"HTTP/1.1 %s\r\nDate: Thu, 01 Jan 1970 00:00:01 GMT\r\nContent-Length: %d\r\n\r\n" % (line, length))
            raise EOFError

    return way


def long():
    tables, _, notes = begin(f"{FOLDER}/begin", 5_000)
    first, _ = world(f"{FOLDER}/first", *tables)
    with Stand() as stand:
        first.run("upgrade", stand.target)
        first.run("sync", stand.target)
        item = b"GET /%s.md " % notes[0].encode()
        for name, way, wanted in (
            ("item", announces(item, b"200 OK", 16_777_217), (0, f"bad {notes[0]}", "")),
            ("blob", announces(b"GET /.resource/", b"200 OK", 67_108_865), (0, "", "")),
            ("absent item", announces(item, b"404 Not Found", 16_777_217), (9, "", "target fault")),
            ("listing", announces(b"PROPFIND / ", b"207 Multi-Status", 268_435_457), (9, "", "target fault")),
            ("locks", announces(b"PROPFIND /locks/ ", b"207 Multi-Status", 16_777_217), (9, "", "target fault")),
        ):
            (client,) = world(f"{FOLDER}/{name}", tables[1])
            status, out, err = client.try_to("sync", Relay(stand.port, way).target)
            if (status, err.strip()) != (wanted[0], wanted[2]) or not out.startswith(wanted[1]):
                fail(f"{name}: {status} {out}{err}")
    print("note: an item, a blob and listings")


{"alike": alike, "closing": closing, "midway": midway, "late": late, "long": long}[sys.argv[4]]()
