"""The second reading of the formats, for `bench/fuzz`: what `tool_probe answers` is to say of an input. It shares nothing with the crates that
read them.
"""
import base64
import datetime
import json
import math
import re
import sys

sys.setrecursionlimit(100_000)
if hasattr(sys, "set_int_max_str_digits"):
    sys.set_int_max_str_digits(0)
BLANKS = b" \t\x0b\x0c\r"
ID = re.compile(rb"[0-9a-f]{32}\Z")
LAST_TIME = 253402300799999

# ------------------------------------------------------------------------------------------------- items, infos and sealed texts


def item_answer(text):
    try:
        text.decode()
    except UnicodeDecodeError:
        return "bad line 0 NotText"
    lines = text.split(b"\n")
    empty = len(lines) - 1
    while empty >= 0 and lines[empty].strip(BLANKS):
        if b":" not in lines[empty]:
            return f"bad line {empty + 1} NoColon"
        empty -= 1
    pairs = [[part.strip(BLANKS) for part in line.split(b":", 1)] for line in lines[empty + 1 :]]
    numbers = [number for number, (key, _) in enumerate(pairs) if key == b"type_"]
    if not numbers:
        return "bad line 0 NoType"
    if not re.fullmatch(rb"[0-9]{1,3}", pairs[numbers[0]][1]):
        return f"bad line {empty + 2 + numbers[0]} TypeValue"
    above = lines[: max(empty, 0)]
    written = above[0] + b"\n\n" if above else b""
    body = b"\n".join(above[2:])
    written += body + b"\n\n" if body else b""
    written += b"\n".join(b": ".join(pair) for pair in pairs)
    return f"item of {len(pairs)} pairs, {len(written)} bytes, {'true' if written == text else 'false'}"


def topmost_id(text):
    for line in re.split(rb"\n[ \t\x0b\x0c\r]*(?=\n)", text)[-1].split(b"\n"):
        key, _, value = line.partition(b":")
        if key.strip(BLANKS) == b"id":
            return value.strip(BLANKS)
    return None


class Odd:
    """A number that is read as a fraction."""


def fraction(text):
    if math.isinf(float(text)):
        raise ValueError(text)
    return Odd()


def whole(text):
    number = int(text)
    return fraction(text) if text == "-0" or not -(2**63) <= number < 2**64 else number


def has_odd(value):
    if isinstance(value, dict):
        return any(map(has_odd, value.values()))
    return any(map(has_odd, value)) if isinstance(value, list) else isinstance(value, Odd)


def is_whole(value, most):
    return type(value) is int and 0 <= value <= most


def is_id(value):
    return isinstance(value, str) and bool(ID.match(value.encode()))


def is_timed(value, fits):
    return isinstance(value, dict) and is_whole(value.get("updatedTime"), LAST_TIME) and fits(value.get("value"))


def is_key(value):
    return (
        isinstance(value, dict) and is_id(value.get("id")) and isinstance(value.get("content"), str)
        and ("updated_time" not in value or is_whole(value["updated_time"], LAST_TIME))
    )


def json_in(text):
    """What a text of JSON is, or None, which stands for `null` too."""
    try:
        found = json.loads(text.decode(), parse_float=fraction, parse_int=whole, parse_constant=lambda _: 1 / 0)
        json.dumps(found, default=lambda _: 0, ensure_ascii=False).encode()
    except (ValueError, ZeroDivisionError, RecursionError, UnicodeError):
        return None
    return found if deepest(text) <= 127 else None


def deepest(text):
    """How deep brackets stand in one another, outside of strings."""
    level = most = 0
    for bracket in re.findall(rb"[\[\]{}]", re.sub(rb'"(?:[^"\\]|\\.)*"', b"", text)):
        level += 1 if bracket in b"[{" else -1
        most = max(most, level)
    return most


def info_answer(text):
    found = json_in(text)
    if not isinstance(found, dict) or has_odd(found) or not is_whole(found.get("version"), 2**64 - 1):
        return "bad"
    if "e2ee" in found and not is_timed(found["e2ee"], lambda value: isinstance(value, bool)):
        return "bad"
    if "activeMasterKeyId" in found and not is_timed(found["activeMasterKeyId"], lambda value: value == "" or is_id(value)):
        return "bad"
    keys = found.get("masterKeys", [])
    if not isinstance(keys, list) or not all(map(is_key, keys)) or len({key["id"] for key in keys}) < len(keys):
        return "bad"
    return f"version {found['version']}"


def lock_answer(text):
    return text.decode() if re.fullmatch(rb"[12]_[0-9]_[0-9a-f]{32}\.json", text) else "none"


def bytes_in(text):
    """What a text of base64 is, which is padded wholly or not at all, or None."""
    bare = text.rstrip("=") if isinstance(text, str) else "-"
    if not re.fullmatch("[A-Za-z0-9+/]*", bare) or len(bare) % 4 == 1:
        return None
    found = base64.b64decode(bare + "=" * (-len(bare) % 4))
    padded = base64.b64encode(found).decode()
    return found if text in (padded, padded.rstrip("=")) else None


def is_chunk(found):
    """Whether a sealed piece is whole, whatever its mode is."""
    if not isinstance(found, dict) or found.get("cipher", "aes") != "aes" or found.get("adata", "") != "" or not is_whole(found.get("v", 1), 1):
        return False
    nonce, salt, sealed = (bytes_in(found.get(name)) for name in ("iv", "salt", "ct"))
    return (
        found.get("v", 1) == 1 and is_whole(found.get("iter"), 100_000) and found["iter"] > 0 and isinstance(found.get("mode"), str)
        and is_whole(found.get("ks"), 256) and found["ks"] in (128, 192, 256) and is_whole(found.get("ts"), 128) and found["ts"] in (64, 96, 128)
        and None not in (nonce, salt, sealed) and 7 <= len(nonce) <= 64 and len(salt) <= 64 and len(sealed) >= found["ts"] // 8
    )


def jed_header(text):
    """The method that a sealed text names, or what it is answered for its header."""
    for at, field in ((0, rb"JED01"), (5, rb"000022"), (11, rb"[0-9a-fA-F]{2}"), (13, rb"[0-9a-f]{32}")):
        if not re.compile(field).match(text, at):
            return f"NotJed {{ at: {at} }}"
    method = int(text[11:13], 16)
    return method if method in (1, 2, 3, 4, 5, 7) else f"UnsupportedMethod({method})"


def jed_answer(text):
    method, at, count = jed_header(text), 45, 0
    if isinstance(method, str):
        return method
    while at < len(text):
        count += 1
        length = re.compile(rb"[0-9a-fA-F]{6}").match(text, at)
        end = at + 6 + int(length.group(), 16) if length else len(text) + 1
        found = json_in(text[at + 6 : end]) if end <= len(text) else None
        if not is_chunk(found):
            return f"BadChunk {{ n: {count} }}"
        if found["mode"] != "ccm":
            return f"UnsupportedMode {{ n: {count} }}"
        at = end
    return f"method {method}, {count} chunks"


# --------------------------------------------------------------------------------------------------------- messages of WebDAV

FIELDS = rb"((?:[A-Za-z][A-Za-z0-9-]*:[ \t]*(?:[!-~](?:[ -~]*[!-~])?)?[ \t]*\r\n)*)\r\n"
# Heads without anything that may be written in several ways.
STATUS_HEAD = re.compile(rb"HTTP/1\.1 ([2-5][0-9]{2}) [A-Za-z -]*\r\n" + FIELDS)
REQUEST_HEAD = re.compile(rb"([A-Z]+) (/[A-Za-z0-9._/-]*) HTTP/1\.1\r\n" + FIELDS)
LONGEST_HEAD, MOST_FIELDS, LONGEST_FILE, LONGEST_BLOB = 2**14, 128, 2**24, 2**26

DATE = re.compile(rb"(Mon|Tue|Wed|Thu|Fri|Sat|Sun), (\d\d) (Jan|Feb|Mar|Apr|May|Jun|Jul|Aug|Sep|Oct|Nov|Dec) (\d{4}) (\d\d):(\d\d):(\d\d) GMT")
DAYS = (b"Mon", b"Tue", b"Wed", b"Thu", b"Fri", b"Sat", b"Sun")
MONTHS = (b"Jan", b"Feb", b"Mar", b"Apr", b"May", b"Jun", b"Jul", b"Aug", b"Sep", b"Oct", b"Nov", b"Dec")
SHOWN = b"</d:resourcetype></d:prop><d:status>HTTP/1.1 200 OK</d:status></d:propstat></d:response>\n"
FOLDER = (
    b'<?xml version="1.0" encoding="utf-8"?>\n<d:multistatus xmlns:d="DAV:">\n<d:response><d:href>/</d:href><d:propstat><d:prop>'
    b"<d:resourcetype><d:collection/>" + SHOWN
)
ENTRY = re.compile(
    rb"<d:response><d:href>/(info\.json|[0-9a-f]{32}\.md)</d:href><d:propstat><d:prop><d:getlastmodified>([^<]{29})</d:getlastmodified>"
    + re.escape(SHOWN.replace(b"</d:resourcetype>", b"<d:resourcetype/>"))
)


def fields_in(head):
    """The values under each name of a head whose last group are its fields."""
    found = {}
    for line in head.group(head.lastindex).split(b"\r\n")[:-1]:
        name, _, value = line.partition(b":")
        found.setdefault(name.lower(), []).append(value.strip(b" \t"))
    return found


def is_crowded(head, fields):
    return head.end() > LONGEST_HEAD or sum(map(len, fields.values())) > MOST_FIELDS


def is_decimal(text):
    return bool(re.fullmatch(rb"[0-9]+", text)) and int(text) < 2**64


def is_date(text):
    """Whether a text shows a moment since 1970 with its right day of the week, in the one form in which dates are written."""
    found = DATE.fullmatch(text)
    if not found:
        return False
    day, month, year, *clock = (found.group(2), MONTHS.index(found.group(3)) + 1, *found.groups()[3:])
    try:
        shown = datetime.datetime(int(year), month, int(day), *map(int, clock))
    except ValueError:
        return False
    return shown.year >= 1970 and DAYS[shown.weekday()] == found.group(1)


def files_in(body):
    """How many files the body of a listing of the root shows, in rising order. None if it is none."""
    at, names = len(FOLDER), []
    if not body.startswith(FOLDER):
        return None
    while body[at:] != b"</d:multistatus>\n":
        entry = ENTRY.match(body, at)
        if not entry or not is_date(entry.group(2)) or names and names[-1] >= entry.group(1):
            return None
        names.append(entry.group(1))
        at = entry.end()
    return len(names)


def listing_answer(text):
    """What a response to a listing of the root is answered that begins with such a head and a date in that form. None for others."""
    head = STATUS_HEAD.match(text)
    fields = fields_in(head) if head else {}
    dates, lengths = fields.get(b"date", []), fields.get(b"content-length", [])
    if not head or len(dates) == 1 and not DATE.fullmatch(dates[0]):
        return None
    if is_crowded(head, fields) or b"transfer-encoding" in fields or head.group(1) != b"207":
        return "bad"
    if len(dates) != 1 or not is_date(dates[0]) or len(lengths) != 1 or not is_decimal(lengths[0]):
        return "bad"
    end = head.end() + int(lengths[0])
    if end > len(text):
        return "more"
    count = files_in(text[head.end() : end])
    return "bad" if count is None else f"listed {count}"


def listing_allows(text, answer):
    wanted = listing_answer(text)
    return answer == wanted if wanted else bool(re.fullmatch(r"bad|more|listed \d+", answer))


REQUEST = re.compile(
    r"(more, \d+ missing|bad (400|413)|refused (400|403|404|405|413|500), \d+ bytes(, then closes)?|"
    r"(GET|PUT|DELETE|MKCOL|PROPFIND) \S* HTTP/1\.1, \d+ bytes(, then closes)?)\Z"
)
FOLDERS = (b"/", b"/.resource/", b"/.sync/", b"/locks/", b"/temp/", b"/deleted/")
FILE = re.compile(
    rb"/(info\.json|\.sync/version\.txt|[0-9a-f]{32}\.md|(\.resource|deleted)/[0-9a-f]{32}|"
    rb"locks/[12]_[0-9]_[0-9a-f]{32}\.json|temp/[0-9a-f]{32}\.tmp)"
)


def length_in(head, fields):
    """How long the body is that a head announces, or the status for it."""
    lengths, puts = fields.get(b"content-length", []), head.group(1) == b"PUT"
    if b"transfer-encoding" in fields or len(lengths) != 1 and (lengths or puts) or not all(map(is_decimal, lengths)):
        return "bad 400"
    length = int(lengths[0]) if lengths else 0
    limit = LONGEST_BLOB if re.fullmatch(rb"/\.resource/[0-9a-f]{32}", head.group(2)) else LONGEST_FILE
    return "bad 413" if puts and length > limit else length


def refusal(head, fields):
    """The status for a head that asks for nothing that there is, or None."""
    method, target = head.group(1), head.group(2)
    if method not in (b"GET", b"PUT", b"DELETE", b"MKCOL", b"PROPFIND"):
        return 405
    if method == b"PROPFIND" and fields.get(b"depth") != [b"1"]:
        return 400
    if target in FOLDERS if method in (b"MKCOL", b"PROPFIND") else FILE.fullmatch(target):
        return None
    return 403 if method in (b"MKCOL", b"PUT") else 404


def request_answer(text):
    """What a request is answered that begins with such a head. None for others."""
    head = REQUEST_HEAD.match(text)
    if not head:
        return None
    fields = fields_in(head)
    if is_crowded(head, fields):
        return "bad 400"
    length = length_in(head, fields)
    if isinstance(length, str):
        return length
    if head.end() + length > len(text):
        return f"more, {head.end() + length - len(text)} missing"
    status = refusal(head, fields)
    asked = f"refused {status}" if status else f"{head.group(1).decode()} {head.group(2).decode()} HTTP/1.1"
    closes = ", then closes" if b"close" in map(bytes.lower, fields.get(b"connection", [])) else ""
    return f"{asked}, {head.end() + length} bytes{closes}"


def request_allows(text, answer):
    wanted, used = request_answer(text), re.search(r"(\d+) bytes", answer)
    if wanted:
        return answer == wanted
    return bool(REQUEST.match(answer)) and (not used or int(used.group(1)) <= len(text))


# --------------------------------------------------------------------------------------------------------------- what is judged

EXACT = {"item": item_answer, "info": info_answer, "jed": jed_answer, "lock": lock_answer}
ALLOWED = {"listing": listing_allows, "request": request_allows}


def otherwise(kind, text, answer):
    """What is otherwise about an answer, if anything is."""
    if kind in EXACT:
        wanted = EXACT[kind](text)
        return None if answer == wanted else f"'{answer}', not '{wanted}'"
    return None if ALLOWED[kind](text, answer) else f"'{answer}'"
