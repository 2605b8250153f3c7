"""WebDAV servers for `tests/webdav`: one that answers badly, and days of two clients on one that is given.

    sites.py PROGRAM FOLDER days TARGET ROOT    days of two clients on TARGET, whose files are in the folder ROOT, and over a folder
    sites.py PROGRAM FOLDER many TARGET ROOT    a first sync of 400 items
    sites.py PROGRAM FOLDER badly               one sync with each way of answering badly, and one with each of behaving well but oddly
    sites.py PROGRAM FOLDER cut                 syncs with a listing that is cut behind each of its bytes, several at a time
    sites.py PROGRAM FOLDER slowly              one sync with answers that end by the program's own limits alone

Behind each sync with a server that answers badly all rows are there that were there before. The last line is a note of what was tried.
"""

import copy
import email.utils
import gzip
import os
import re
import shutil
import sqlite3
import socketserver
import subprocess
import sys
import threading
import time
from concurrent.futures import ThreadPoolExecutor

sys.dont_write_bytecode = True

PROGRAM, FOLDER = (os.path.abspath(word) for word in sys.argv[1:3])
OWN = "1" * 32

# How long a run may take that is answered badly at once, in seconds, and how much memory, in KiB.
MOST_SECONDS, MOST_MEMORY = 10, 29_297


def fail(text):
    sys.exit(text)


class Client:
    """Tables in a file."""

    def __init__(self, tables):
        self.tables = tables

    def try_to(self, *words, given=b"", within=100):
        """How a command ends, what it prints, and how much memory it took, in KiB."""
        measure = [sys.executable, os.path.join(os.path.dirname(__file__), "peak.py"), self.tables + ".peak"]
        ran = subprocess.run([*measure, PROGRAM, "--profile", self.tables, *words], input=given, capture_output=True, timeout=within)
        with open(self.tables + ".peak") as peak:
            return ran.returncode, ran.stdout.decode(), ran.stderr.decode(), int(peak.read())

    def run(self, *words, given=b""):
        status, out, err, _ = self.try_to(*words, given=given)
        if status:
            fail(f"{self.tables}: {words}: status {status}: {out}{err}")
        return out.strip()

    def ask(self, question):
        base = sqlite3.connect(self.tables)
        told = sorted(base.execute(question))
        base.close()
        return told

    def outcome(self):
        """Rows, conflict notes, deletions and resources."""
        return [
            sorted((it, plain(text), pending) for it, text, pending in self.ask(
                "select id, coalesce(nullif(content, x''), base), pending from rows")),
            sorted(plain(text) for (text,) in self.ask("select content from conflicts")),
            self.ask("select id from deletions"),
            self.ask("select id, bytes from blobs"),
        ]


def plain(text):
    """A text without its times of change."""
    return re.sub(rb"(?m)^(user_)?updated_time: .*$", b"", text)


def world(folder, *tables):
    """A new folder with copies of these tables, as clients. Tables that aren't there are of a client that has nothing."""
    os.makedirs(folder)
    for it in filter(os.path.exists, tables):
        shutil.copy(it, folder)
    return [Client(f"{folder}/{os.path.basename(it)}") for it in tables]


def begin(folder, count, size):
    """The tables with which the days begin, the notebook, and the first notes."""
    os.makedirs(folder)
    first = Client(f"{folder}/first.sqlite")
    book = first.run("mkbook", "Home")
    notes = [first.run("add", book, title, given=title.encode()) for title in ("Milk", "Lost", "Gone")]
    first.run("tag", notes[0], "Food")
    for number in range(count - 6):
        first.run("add", book, f"Note {number}", given=b"text")
    first.run("attach", "photo.png", "image/png", given=os.urandom(size))
    return (first.tables, f"{folder}/second.sqlite"), book, notes


# ---------------------------------------------------------------------------------------------------------------- days


def files_in(root):
    """The files of a folder by their paths, but for locks and temporary files."""
    found = {}
    for path, _, names in os.walk(root):
        for name in names:
            file = os.path.relpath(os.path.join(path, name), root)
            if not file.startswith(("locks/", "temp/", ".DAV")) and "/.DAV/" not in file:
                with open(os.path.join(root, file), "rb") as content:
                    found[file] = plain(content.read())
    return found


def days_on(folder, tables, notes, target, root):
    """What all days come to over a target."""
    first, second = world(folder, *tables)
    milk, lost, gone = notes
    told = [first.run("check", target, OWN), first.run("upgrade", target)]
    told += [it.run("sync", target) for it in (first, second)]
    second.run("edit", milk, given=b"from the second")
    second.run("rm", lost)
    told.append(second.run("sync", target))
    first.run("edit", milk, given=b"from the first")
    first.run("rm", gone)
    told += [it.run("sync", target) for it in (first, second, first, second)]
    return told, first.outcome(), second.outcome(), files_in(root)


def begin_target(folder):
    root = f"{folder}/target"
    os.makedirs(root)
    return root


def days(target, root):
    tables, _, notes = begin(f"{FOLDER}/begin", 130, 300_000)
    folder = begin_target(FOLDER)
    wanted = days_on(f"{FOLDER}/folder", tables, notes, f"dir:{folder}", folder)
    if sum("conflicts 1" in it for it in wanted[0]) != 1 or not any("gone 1" in it for it in wanted[0]):
        fail(f"no conflict or no deletion: {wanted[0]}")
    got = days_on(f"{FOLDER}/server", tables, notes, target, root)
    for which, one, other in zip(("reports", "first client", "second client", "files"), got, wanted):
        if one != other:
            fail(f"{which}: {one}\nover a folder: {other}")
    print(f"note: {len(got[3])} files")


def many(target, root):
    tables, _, _ = begin(f"{FOLDER}/begin", 400, 1_000)
    first, second = world(f"{FOLDER}/many", *tables)
    first.run("upgrade", target)
    told = [it.run("sync", target) for it in (first, second)]
    if "put 401" not in told[0] or "taken 401" not in told[1] or first.outcome() != second.outcome():
        fail(f"{told}")
    print(f"note: {len(files_in(root))} files")


# -------------------------------------------------------------------------------------------------------------- a site


def date_of(moment):
    return email.utils.formatdate(moment, usegmt=True).encode()


def entry(href, stamp, folder=False):
    kind = b"<D:resourcetype><D:collection/></D:resourcetype>" if folder else b"<D:resourcetype/>"
    date = b"<D:getlastmodified>" + date_of(stamp) + b"</D:getlastmodified>"
    return (b"<D:response><D:href>" + href + b"</D:href><D:propstat><D:prop>" + date + kind
            + b"</D:prop><D:status>HTTP/1.1 200 OK</D:status></D:propstat></D:response>")


def multistatus(entries):
    return b'<?xml version="1.0"?><D:multistatus xmlns:D="DAV:">' + b"".join(entries) + b"</D:multistatus>"


class Answer:
    """A response, whose parts a way of answering changes."""

    def __init__(self, status, body=b"", entries=None):
        self.status, self.body, self.entries = status, body, entries
        self.fields = [b"Date: " + date_of(time.time())]
        self.framing = "length"
        self.before = b""
        self.ends = False

    def text(self):
        body = self.body if self.entries is None else multistatus(self.entries)
        fields = list(self.fields)
        if self.framing == "length":
            fields.append(b"Content-Length: %d" % len(body))
        elif self.framing == "chunked":
            fields.append(b"Transfer-Encoding: chunked")
            body = b"".join(b"%x\r\n%s\r\n" % (len(it), it) for it in pieces(body)) + b"0\r\n\r\n"
        else:
            self.ends = True
        return self.before + b"HTTP/1.1 %d X\r\n" % self.status + b"\r\n".join(fields) + b"\r\n\r\n" + body


def pieces(body):
    return [body[at : at + 100] for at in range(0, len(body), 100)]


class Site(socketserver.ThreadingTCPServer):
    """A server that holds files in memory below `/dav/`. `way` changes its answers."""

    daemon_threads = True
    allow_reuse_address = True
    request_queue_size = 64

    def __init__(self, files=None, way=None):
        super().__init__(("127.0.0.1", 0), Talk)
        self.files = files if files is not None else {b"/dav/": None}
        self.way = way
        self.calls = 0
        self.target = f"webdav:http://127.0.0.1:{self.server_address[1]}/dav/"
        threading.Thread(target=self.serve_forever, args=(0.01,), daemon=True).start()

    def handle_error(self, request, client_address):
        pass

    def answer(self, method, path, body):
        now = int(time.time())
        if method == b"PROPFIND":
            if path not in self.files:
                return Answer(404)
            inside = [it for it in self.files if re.fullmatch(re.escape(path) + rb"[^/]+/?", it)]
            return Answer(207, entries=[entry(path, now, True)] + [
                entry(it, (self.files[it] or (now,))[0], self.files[it] is None) for it in inside])
        if method == b"MKCOL":
            there = path in self.files
            self.files.setdefault(path, None)
            return Answer(405 if there else 201)
        if method == b"PUT":
            there = path in self.files
            self.files[path] = (now, body)
            return Answer(204 if there else 201)
        if path not in self.files:
            return Answer(404)
        if method == b"DELETE":
            del self.files[path]
            return Answer(204)
        return Answer(200, self.files[path][1])


class Talk(socketserver.StreamRequestHandler):
    def handle(self):
        while True:
            line = self.rfile.readline()
            if not line:
                return
            method, path, _ = line.split(b" ")
            length = 0
            while (field := self.rfile.readline()) not in (b"\r\n", b""):
                if field.lower().startswith(b"content-length:"):
                    length = int(field.split(b":")[1])
            body = self.rfile.read(length)
            self.server.calls += 1
            answer = self.server.answer(method, path, body)
            if self.server.way:
                answer = self.server.way(method, path, answer, self.wfile) or answer
            self.wfile.write(answer.text())
            if answer.ends:
                return


# ------------------------------------------------------------------------------------------------------ what is changed

ROOT, LOCKS = b"/dav/", b"/dav/locks/"


def on(wanted, path, change, files=False):
    """The way that changes the answers to these calls. Of files each that isn't a lock and isn't `info.json`."""

    def way(method, at, answer, out):
        file = not at.endswith(b"/") and b"locks" not in at and not at.endswith(b"info.json")
        if method == wanted and (file if files else at == path):
            return change(answer, out)
        return None

    return way


def lists(change, path=ROOT):
    return on(b"PROPFIND", path, lambda answer, out: change(answer))


def entries(change):
    def changed(answer):
        answer.entries = change(answer.entries)

    return lists(changed)


def body(change):
    def changed(answer):
        answer.body, answer.entries = change(multistatus(answer.entries)), None

    return lists(changed)


def last(change):
    """The last resource of a listing is another."""
    return entries(lambda all_of_them: all_of_them[:-1] + [change(all_of_them[-1])])


def status(number):
    def changed(answer, out=None):
        answer.status = number

    return changed


def field(text):
    def changed(answer, out=None):
        answer.fields.append(text)

    return changed


def dates(shift):
    """Each answer tells a moment that is so many seconds off."""

    def way(method, path, answer, out):
        answer.fields[0] = b"Date: " + date_of(time.time() + shift)

    return way


def no_date(answer, out=None):
    answer.fields = []


def two_framings(answer, out=None):
    answer.fields.append(b"Transfer-Encoding: chunked")


def coded(answer, out=None):
    answer.body = gzip.compress(answer.body if answer.entries is None else multistatus(answer.entries))
    answer.entries = None
    answer.fields.append(b"Content-Encoding: gzip")


def cut_until_close(answer, out):
    answer.framing = "none"
    answer.body = answer.body[: len(answer.body) // 2]


def cut_length(answer, out):
    out.write(answer.text()[:-3])
    raise EOFError


def cut_chunks(answer, out):
    answer.framing = "chunked"
    out.write(answer.text()[:-5])
    raise EOFError


def for_ever(first, piece):
    def changed(answer, out):
        out.write(first)
        while True:
            out.write(piece)

    return changed


HEAD = b"HTTP/1.1 207 X\r\nDate: " + date_of(0) + b"\r\n"

BAD = {
    "403 for a member": last(lambda it: re.sub(rb"<D:propstat>.*</D:propstat>", b"<D:status>HTTP/1.1 403 Forbidden</D:status>", it)),
    "507 for the folder": entries(lambda it: it + [b"<D:response><D:href>/dav/</D:href><D:status>HTTP/1.1 507 X</D:status></D:response>"]),
    "an empty multistatus": entries(lambda it: []),
    "no folder itself": entries(lambda it: it[1:]),
    "the folder twice": entries(lambda it: it + it[:1]),
    "hrefs of another path": body(lambda it: it.replace(b"/dav/", b"/other/")),
    "one href of another path": last(lambda it: it.replace(b"/dav/", b"/other/")),
    "relative hrefs": last(lambda it: it.replace(b"/dav/", b"")),
    "hrefs with a query": last(lambda it: it.replace(b"</D:href>", b"?x=1</D:href>")),
    "a file below a folder": last(lambda it: it.replace(b"/dav/", b"/dav/a/")),
    "no date": last(lambda it: re.sub(rb"<D:getlastmodified>.*</D:getlastmodified>", b"", it)),
    "an odd date": last(lambda it: re.sub(rb"<D:getlastmodified>.*</D:getlastmodified>", b"<D:getlastmodified>2026-12-01T00:00:00Z</D:getlastmodified>", it)),
    "no type": last(lambda it: it.replace(b"<D:resourcetype/>", b"")),
    "a propstat of 404": last(lambda it: it.replace(b"200 OK", b"404 Not Found")),
    "no propstat": last(lambda it: re.sub(rb"<D:propstat>.*</D:propstat>", b"", it)),
    "a file twice": entries(lambda it: it + it[-1:]),
    "a file that is a folder": last(lambda it: it.replace(b"<D:resourcetype/>", b"<D:resourcetype><D:collection/></D:resourcetype>")),
    "names in capitals": body(lambda it: it.replace(b".md", b".MD")),
    "names escaped twice": last(lambda it: it.replace(b".md", b"%252Emd")),
    "an entity by number": last(lambda it: it.replace(b".md", b"&#46;md")),
    "a warning behind the body": body(lambda it: it + b"<br /><b>Warning</b>"),
    "a warning before it": body(lambda it: b"<br /><b>Warning</b>" + it),
    "an error in it": body(lambda it: it.replace(b"</D:multistatus>", b"<D:error/></D:multistatus>")),
    "no listing": body(lambda it: b"<html></html>"),
    "nothing": body(lambda it: b""),
    "a document type": body(lambda it: it.replace(b"?>", b"?><!DOCTYPE x>", 1)),
    "a listing of 404": lists(status(404)),
    "a listing of 200": lists(status(200)),
    "a listing of 301": lists(status(301)),
    "a listing of 302": lists(status(302)),
    "a listing of 307": lists(status(307)),
    "a listing of 308": lists(status(308)),
    "a listing of 401": lists(status(401)),
    "a listing of 403": lists(status(403)),
    "a listing of 503": lists(status(503)),
    "a coded listing": lists(coded),
    "a kept listing": lists(field(b"Age: 100")),
    "no date of the response": lists(no_date),
    "two dates": lists(field(b"Date: " + date_of(0))),
    "two framings": lists(two_framings),
    "a clock ten seconds ahead": dates(10),
    "a clock ten minutes behind": dates(-600),
    "a text until close that breaks": on(b"GET", b"", cut_until_close, True),
    "a text that is cut": on(b"GET", b"", cut_length, True),
    "chunks that are cut": on(b"GET", b"", cut_chunks, True),
    "a coded text": on(b"GET", b"", coded, True),
    "a kept text": on(b"GET", b"", field(b"Age: 100"), True),
    "a text of 206": on(b"GET", b"", status(206), True),
    "a text of 410": on(b"GET", b"", status(410), True),
    "a text of 304": on(b"GET", b"", status(304), True),
    "a put of 202": on(b"PUT", b"", status(202), True),
    "a put of 301": on(b"PUT", b"", status(301), True),
    "a put of 507": on(b"PUT", b"", status(507), True),
    "a delete of 207": on(b"DELETE", b"", status(207), True),
    "a folder of 409": on(b"MKCOL", LOCKS, status(409)),
    "a folder of 301": on(b"MKCOL", LOCKS, status(301)),
    "locks without end": on(b"PROPFIND", LOCKS, for_ever(HEAD + b"Content-Length: 9999999999\r\n\r\n", b"y" * 65_536)),
    "locks in chunks without end": on(b"PROPFIND", LOCKS, for_ever(HEAD + b"Transfer-Encoding: chunked\r\n\r\n", b"10000\r\n" + b"y" * 65_536 + b"\r\n")),
    "a line of chunks without end": on(b"PROPFIND", LOCKS, for_ever(HEAD + b"Transfer-Encoding: chunked\r\n\r\n1;", b"x" * 65_536)),
    "a head without end": on(b"PROPFIND", LOCKS, for_ever(HEAD, b"X: " + b"y" * 1_000 + b"\r\n")),
    "heads of 1xx without end": on(b"PROPFIND", LOCKS, for_ever(b"", b"HTTP/1.1 102 Processing\r\n\r\n")),
}


def framed(framing):
    def way(method, path, answer, out):
        if not (method == b"GET" and framing == "none"):
            answer.framing = framing

    return way


def closing(method, path, answer, out):
    answer.fields.append(b"Connection: close")
    answer.ends = True


def early(method, path, answer, out):
    answer.before = b"HTTP/1.1 103 Early Hints\r\nLink: x\r\n\r\n"


def other_host(method, path, answer, out):
    if answer.entries:
        answer.entries = [it.replace(b"<D:href>/", b"<D:href>http://other.example:81/") for it in answer.entries]


def escaped(method, path, answer, out):
    if answer.entries:
        answer.entries = [it.replace(b".md<", b"%2Em%64<") for it in answer.entries][::-1]


def more(method, path, answer, out):
    if answer.entries and path == ROOT:
        answer.entries += [entry(b"/dav/%C3%A4.txt", 1), entry(b"/dav/a&amp;b", 1), entry(b"/dav/folder/", 1, True)]


GOOD = {
    "lengths": framed("length"), "chunks": framed("chunked"), "bodies until close": framed("none"), "one call a connection": closing,
    "heads of 1xx": early, "hrefs of another host": other_host, "escaped hrefs in falling order": escaped, "other files beside": more,
}

# Ends by the limits of the program alone.
SLOW = {
    "locks in chunks of a byte without end": on(b"PROPFIND", LOCKS, for_ever(HEAD + b"Transfer-Encoding: chunked\r\n\r\n", b"1\r\na\r\n" * 1_000)),
    "nothing at all": on(b"PROPFIND", LOCKS, lambda answer, out: time.sleep(200)),
}


class Evening:
    """Where a sync begins that has work of each kind, over a site."""

    def __init__(self):
        tables, book, notes = begin(f"{FOLDER}/begin", 6, 1_000)
        first, second = world(f"{FOLDER}/evening", *tables)
        site = Site()
        first.run("upgrade", site.target)
        for it in (first, second):
            it.run("sync", site.target)
        second.run("add", book, "New", given=b"of the second")
        second.run("edit", notes[0], given=b"from the second")
        second.run("sync", site.target)
        first.run("rm", notes[2])
        first.run("add", book, "Newer", given=b"of the first")
        self.tables, self.files = first.tables, site.files
        self.rows = first.ask("select id from rows")
        self.wanted = self.sync("whole", None)

    def sync(self, name, way, within=100):
        """How a sync with a site ends that answers so, and the client behind it."""
        folder = f"{FOLDER}/{re.sub('[^a-z0-9]', '_', name)}"
        (client,) = world(folder, self.tables)
        site = Site(copy.deepcopy(self.files), way)
        began = time.monotonic()
        told = client.try_to("sync", site.target, within=within)
        took = time.monotonic() - began
        site.shutdown()
        site.server_close()
        result = told, client.outcome(), client.ask("select id from rows"), took
        shutil.rmtree(folder)
        return result

    def is_refused(self, name, way, most=MOST_SECONDS):
        (state, out, err, memory), _, rows, took = self.sync(name, way)
        lines = err.splitlines()
        if (state, out) != (9, "") or lines[-1:] != ["target fault"] or not lines[0].startswith("webdav: "):
            fail(f"{name}: {state} {out}{err}")
        if [it for it in self.rows if it not in rows]:
            fail(f"{name}: a row is gone")
        if took > most or memory > MOST_MEMORY:
            fail(f"{name}: {took} s, {memory} KiB")

    def is_taken(self, name, way):
        told, outcome, _, _ = self.sync(name, way)
        if (told[:3], outcome) != (self.wanted[0][:3], self.wanted[1]):
            fail(f"{name}: {told}")


def badly():
    evening = Evening()
    for name, way in BAD.items():
        evening.is_refused(name, way)
    for name, way in GOOD.items():
        evening.is_taken(name, way)
    print(f"note: {len(BAD)} ways, and {len(GOOD)} that are well")


def slowly():
    evening = Evening()
    for name, way in SLOW.items():
        evening.is_refused(name, way, 115)
    print(f"note: {len(SLOW)} ways")


def cut():
    evening = Evening()
    listing = multistatus(Site(copy.deepcopy(evening.files)).answer(b"PROPFIND", ROOT, b"").entries)
    framings = ("length", "chunked", "none")

    def is_refused_after(at):
        def way(method, path, answer, out):
            if (method, path) == (b"PROPFIND", ROOT):
                answer.body, answer.entries = multistatus(answer.entries)[:at], None
                answer.framing = framings[at % 3]

        evening.is_refused(f"cut after {at} bytes", way)

    with ThreadPoolExecutor(max_workers=os.cpu_count()) as pool:
        for _ in pool.map(is_refused_after, range(len(listing))):
            pass
    print(f"note: after each of {len(listing)} bytes")


{"days": days, "many": many, "badly": badly, "cut": cut, "slowly": slowly}[sys.argv[3]](*sys.argv[4:])
