"""What the proxy answers, reckoned from its rules: the model that the program `acng_serve_table` is compared with.

The rules are those of docs/FORMATS.md (configuration, targets, classes, requests, replies, answers of an origin), of the
download as docs/ARCHITECTURE.md tells it, of RFC 9110 and RFC 9112. What the indexes of a cache reach is the model of reach's
(tests/model/reach.py). Nothing here was taken from what the program prints.
The model reads whole texts where the program reads pieces, and has one list where the program has a keeper and a desk.

    proxy.py < SCRIPTS > EXPECTED
"""
import calendar
import hashlib
import re
import sys
from urllib.parse import unquote_to_bytes, urljoin, urlsplit

from reach import Reach

NEVER = None
MOST_HEAD = 16384
MOST_TEXT = 1200
MOST_ANSWER = 1 << 41


# ---- dates (RFC 9110, section 5.6.7)

DAYS = ["Mon", "Tue", "Wed", "Thu", "Fri", "Sat", "Sun"]
LONG_DAYS = ["Monday", "Tuesday", "Wednesday", "Thursday", "Friday", "Saturday", "Sunday"]
MONTHS = ["Jan", "Feb", "Mar", "Apr", "May", "Jun", "Jul", "Aug", "Sep", "Oct", "Nov", "Dec"]


def date_text(moment):
    import datetime
    at = datetime.datetime(1970, 1, 1) + datetime.timedelta(seconds=moment)
    return "%s, %02d %s %04d %02d:%02d:%02d GMT" % (
        DAYS[at.weekday()], at.day, MONTHS[at.month - 1], at.year, at.hour, at.minute, at.second)


def date_of(text):
    """The moment of an HTTP date in its three forms; None for every other text."""
    found = re.fullmatch(r"(\w{3}), (\d\d) (\w{3}) (\d{4}) (\d\d):(\d\d):(\d\d) GMT", text)
    if found:
        day, date, month, year, hour, minute, second = found.groups()
        days = DAYS
    else:
        found = re.fullmatch(r"(\w+), (\d\d)-(\w{3})-(\d\d) (\d\d):(\d\d):(\d\d) GMT", text)
        if found:
            day, date, month, year, hour, minute, second = found.groups()
            year = str(1900 + int(year) if int(year) >= 70 else 2000 + int(year))
            days = LONG_DAYS
        else:
            found = re.fullmatch(r"(\w{3}) (\w{3}) ([ \d]\d) (\d\d):(\d\d):(\d\d) (\d{4})", text)
            if not found:
                return None
            day, month, date, hour, minute, second, year = found.groups()
            days = DAYS
    if month not in MONTHS or day not in days:
        return None
    at = (int(year), MONTHS.index(month) + 1, int(date), int(hour), int(minute), int(second))
    moment = calendar.timegm(at + (0, 0, 0))
    if calendar.weekday(*at[:3]) != days.index(day):
        return None
    return moment


# ---- the configuration

class Group:
    def __init__(self, name):
        self.name, self.entries, self.targets = name, [], []


class Conf:
    """The keys that the scripts use. A text that is refused is None."""

    def __init__(self, text):
        self.offline, self.fresh_age, self.redir_max, self.maint = False, 27, 5, False
        self.days, self.most_problems = 4, 1
        self.solid = self.volatile = None
        self.page = "acng-report.html"
        self.refused = False
        self.groups = {}
        for line in text.split("\n"):
            line = line.strip(" \t")
            if line and not line.startswith("#"):
                self.take(line)

    def take(self, line):
        key, value = line.split(":", 1)
        value = value.strip(" \t")
        low = key.lower()
        numbers = {"offlinemode": ("offline", 0, 1), "freshindexmaxage": ("fresh_age", 0, 31536000),
                   "redirmax": ("redir_max", 0, 15), "maintoverhttp": ("maint", 0, 1), "port": ("port", 1, 65535),
                   "exthreshold": ("days", 0, 36500), "exabortonproblems": ("most_problems", 0, 1000000)}
        if low in numbers:
            name, least, most = numbers[low]
            if not re.fullmatch(r"\d{1,9}", value) or not least <= int(value) <= most:
                self.refused = True
            else:
                setattr(self, name, int(value))
        elif low == "pfilepatternex":
            self.solid = value
        elif low == "vfilepatternex":
            self.volatile = value
        elif low == "reportpage":
            self.page = value
        elif low.startswith("remap-"):
            self.take_group(key[6:], value)

    def take_group(self, name, value):
        group = self.groups.setdefault(name, Group(name))
        sections = [[]]
        for word in value.split():
            if word == ";" and len(sections) < 3:
                sections.append([])
            else:
                sections[-1].append(word)
        for word in sections[0]:
            group.entries.append(entry_of(word))
        for word in (sections[1] if len(sections) > 1 else []):
            host, port, path = url_place(word)
            group.targets.append("http://" + host_text(host, port) + "".join("/" + encode(s) for s in path))


def host_text(host, port):
    return host if port == 80 else "%s:%d" % (host, port)


def segments(path):
    return [s for s in unquote_to_bytes(path).split(b"/") if s]


def url_place(url):
    if "://" not in url:
        url = "http://" + url
    parts = urlsplit(url)
    return parts.hostname.lower(), parts.port or 80, segments(parts.path)


def entry_of(word):
    """A prefix, or the place of a URL with its host first."""
    if word.startswith("/"):
        return ("prefix", segments(word))
    host, port, path = url_place(word)
    return ("place", [host_text(host, port).encode()] + path)


def entry_bytes(entry):
    kind, parts = entry
    text = b"/".join(parts)
    return len(text) + (1 if kind == "prefix" else 0)


def encode(segment):
    plain = b"abcdefghijklmnopqrstuvwxyzABCDEFGHIJKLMNOPQRSTUVWXYZ0123456789-._~/+,:=@!$&'()*;"
    return "".join(chr(b) if b in plain else "%%%02X" % b for b in segment)


# ---- targets

class Refused(Exception):
    """A request that gets a line: its cause."""


class Visit(Exception):
    """A request for the report page: its query."""


def path_of(text):
    """A path of the cache, or why the text is none."""
    if not text:
        raise Refused("BadPath Empty")
    if len(text) > 1024:
        raise Refused("BadPath TooLong %d" % len(text))
    for at, byte in enumerate(text):
        if not 0x21 <= byte <= 0x7E:
            raise Refused("BadPath BadByte %d" % at)
    at = 0
    for part in text.split(b"/"):
        if part in (b"", b".", b".."):
            raise Refused("BadPath BadSegment %d" % at)
        at += len(part) + 1
    return text.decode()


def read_target(conf, method, target):
    """The path and the origins of a target (docs/FORMATS.md, Targets)."""
    low = target.lower()
    if method == "CONNECT":
        raise Refused("Connect")
    if low.startswith("https://") or target.startswith("/HTTPS///"):
        raise Refused("Tls")
    page = "/" + conf.page
    if target == page or target.startswith(page + "?"):
        raise Visit(target[len(page) + 1:])
    if not (low.startswith("http://") or target.startswith("/")) or "#" in target:
        raise Refused("BadTarget")
    if "?" in target:
        raise Refused("Query")
    if target.startswith("/"):
        parts = segments(target)
        best = None
        for group in conf.groups.values():
            for entry in group.entries:
                if entry[0] == "prefix" and group.targets and parts[:len(entry[1])] == entry[1]:
                    if best is None or entry_bytes(entry) > best[0]:
                        best = (entry_bytes(entry), group, parts[len(entry[1]):])
        if best:
            return in_group(best[1], best[2])
        rest = target.lstrip("/")
    else:
        rest = target[7:]
    host, slash, path = rest.partition("/")
    found = re.fullmatch(r"([A-Za-z0-9.\-_]{1,253})(?::(\d{1,5}))?", host)
    if not found:
        raise Refused("BadTarget")
    name, port = found.group(1).lower(), int(found.group(2) or "80")
    if not 1 <= port <= 65535:
        raise Refused("BadTarget")
    parts = segments(path)
    place = [host_text(name, port).encode()] + parts
    best = None
    for group in conf.groups.values():
        for entry in group.entries:
            if entry[0] == "place" and place[:len(entry[1])] == entry[1]:
                if best is None or entry_bytes(entry) > best[0]:
                    best = (entry_bytes(entry), group, place[len(entry[1]):])
    if best:
        if best[1].targets:
            return in_group(best[1], best[2])
        return place_path(best[1].name, best[2], name, port, parts)
    if name in conf.groups and port == 80:
        if not conf.groups[name].targets:
            raise Refused("BadTarget")
        return in_group(conf.groups[name], parts)
    return place_path(host_text(name, port), parts, name, port, parts)


def place_path(front, rest, name, port, parts):
    if not rest:
        raise Refused("BadPath Empty")
    path = path_of(front.encode() + b"/" + b"/".join(rest))
    return path, ["http://" + host_text(name, port) + "".join("/" + encode(s) for s in parts)]


def in_group(group, rest):
    if not rest:
        raise Refused("BadPath Empty")
    path = path_of(group.name.encode() + b"/" + b"/".join(rest))
    return path, [target + "".join("/" + encode(s) for s in rest) for target in group.targets]


# ---- classes

PACKED = (".gz", ".xz", ".bz2", ".lzma", ".zst")


def base_name(segment):
    for ending in PACKED:
        if segment.endswith(ending):
            return segment[:-len(ending)]
    return segment


def class_of(conf, path):
    parts = path.split("/")
    last, base = parts[-1], base_name(parts[-1])
    if len(parts) >= 3 and parts[-3] == "by-hash" and parts[-2] in ("MD5Sum", "SHA1", "SHA256", "SHA512") \
            and re.fullmatch(r"[0-9A-Fa-f]+", last):
        return "solid"
    if len(parts) >= 2 and parts[-2].endswith(".diff") and base != "Index":
        return "solid"
    if base in ("Release", "InRelease", "Release.gpg", "Packages", "Sources", "Index", "ls-lR", "MD5SUMS", "SHA256SUMS") \
            or base.startswith(("Contents-", "Translation-", "Components-", "Commands-", "icons-")) \
            or any(part.startswith("installer-") for part in parts):
        return "volatile"
    if conf.volatile is not None and re.search(conf.volatile, path):
        return "volatile"
    if last.endswith((".deb", ".udeb", ".ddeb", ".dsc", ".gz", ".xz", ".bz2", ".lzma", ".zst", ".asc", ".changes", ".buildinfo")):
        return "solid"
    if conf.solid is not None and re.search(conf.solid, path):
        return "solid"
    raise Refused("Forbidden")


# ---- head blocks, which requests and answers share

def block_len(text):
    """The length of the head block at the front of a text: through the first empty line behind one that isn't."""
    at, begun = 0, False
    while True:
        end = text.find(b"\n", at)
        if end < 0:
            return None
        line = text[at:end]
        if line.endswith(b"\r"):
            line = line[:-1]
        at = end + 1
        if line:
            begun = True
        elif begun:
            return at


def block_lines(block):
    lines = [line[:-1] if line.endswith(b"\r") else line for line in block.split(b"\n")[:-1]]
    while lines and not lines[0]:
        lines.pop(0)
    return lines[:-1]


TOKEN = rb"[!#$%&'*+\-.^_`|~0-9A-Za-z]+"


def fields_of(lines):
    """The fields by name in lower case; None where a line isn't a field."""
    fields = {}
    for line in lines:
        found = re.fullmatch(rb"(" + TOKEN + rb"):[ \t]*(.*?)[ \t]*", line, re.S)
        if not found or re.search(rb"[\x00-\x08\x0a-\x1f\x7f]", found.group(2)):
            return None
        fields.setdefault(found.group(1).lower().decode(), []).append(found.group(2).decode("latin-1"))
    return fields


def only(fields, name):
    values = fields.get(name, [])
    return values[0] if len(values) == 1 else None


# ---- requests

class Request:
    def __init__(self, method, target, minor, fields):
        self.method, self.target, self.minor = method, target, minor
        self.part = None
        found = re.fullmatch(r"bytes=(\d{1,19})-(\d{1,19})?", only(fields, "range") or "")
        if found:
            first, last = int(found.group(1)), found.group(2)
            if last is None or first <= int(last):
                self.part = (first, None if last is None else int(last))
        self.if_range = only(fields, "if-range")
        since = only(fields, "if-modified-since")
        self.since = date_of(since) if since is not None and "if-none-match" not in fields else None
        words = [word.strip(" \t").lower() for word in (only(fields, "connection") or "").split(",")]
        self.close = minor == 0 or "close" in words


def read_head(block):
    """The request of a head block, or its refusal."""
    lines = block_lines(block)
    if len(lines) - 1 > 64:
        raise Refused("TooLarge")
    found = re.fullmatch(rb"(" + TOKEN + rb") ([\x21-\x7e]+) HTTP/1\.([01])", lines[0])
    fields = fields_of(lines[1:])
    if not found or fields is None:
        raise Refused("BadHead")
    method = found.group(1).decode()
    if method not in ("GET", "HEAD", "CONNECT"):
        raise Refused("Method")
    lengths = fields.get("content-length", [])
    if "transfer-encoding" in fields or any(not re.fullmatch(r"0+", value) for value in lengths):
        raise Refused("HasBody")
    return Request(method, found.group(2).decode(), int(found.group(3)), fields)


# ---- answers of an origin

class Reading:
    """What a text reads as, where the connection ended behind it or not."""

    def __init__(self, text, ended):
        self.head = self.status = None
        self.body, self.outcome, self.at = b"", "Open", None
        self.fields = {}
        place = 0
        while True:
            length = block_len(text[place:])
            if length is None or length > MOST_HEAD:
                if len(text) - place >= MOST_HEAD:
                    self.bad(place)
                elif ended:
                    self.outcome = "Early"
                return
            lines = block_lines(text[place:place + length])
            found = re.fullmatch(rb"HTTP/1\.[01] (\d{3})(?: .*)?", lines[0])
            fields = fields_of(lines[1:])
            if not found or fields is None or len(lines) - 1 > 64:
                return self.bad(place)
            status = int(found.group(1))
            if not 100 <= status <= 199:
                break
            place += length
        self.fields, self.status = fields, status
        rest = text[place + length:]
        framing = self.framing(place)
        if self.outcome == "Bad":
            self.status = None
            return
        self.head = True
        body_at = place + length
        if framing == "none":
            self.outcome = "Whole"
        elif framing == "chunks":
            self.chunks(rest, body_at, ended)
        elif framing == "end":
            self.body = rest
            self.outcome = "Whole" if ended else "Open"
            self.check_range(body_at, ended)
        else:
            self.body = rest[:framing]
            self.outcome = "Whole" if len(rest) >= framing else ("Early" if ended else "Open")

    def bad(self, at):
        self.outcome, self.at = "Bad", at

    def framing(self, place):
        if self.status in (204, 304):
            return "none"
        codings = self.fields.get("transfer-encoding", [])
        if codings:
            if len(codings) == 1 and codings[0].lower() == "chunked":
                return "chunks"
            return self.bad(place)
        lengths = self.fields.get("content-length", [])
        if lengths:
            if any(not re.fullmatch(r"\d{1,13}", value) or int(value) > MOST_ANSWER for value in lengths) \
                    or len(set(int(value) for value in lengths)) > 1:
                return self.bad(place)
            length = int(lengths[0])
            if self.status == 206 and self.range and length != self.range[1] - self.range[0] + 1:
                return self.bad(place)
            return length
        return "end"

    def check_range(self, body_at, ended):
        if self.status == 206 and self.range:
            due = self.range[1] - self.range[0] + 1
            if len(self.body) > due:
                self.body = self.body[:due]
                self.bad(body_at + due)
            elif ended and len(self.body) < due:
                self.outcome = "Early"

    def chunks(self, rest, body_at, ended):
        at = 0
        while True:
            end = rest.find(b"\n", at)
            line = rest[at:end + 1] if end >= 0 else rest[at:]
            if end < 0 and len(line) < 1024:
                self.outcome = "Early" if ended else "Open"
                return
            found = re.fullmatch(rb"([0-9A-Fa-f]{1,16})[ \t]*(?:;[^\r\n]*)?\r\n", line)
            if not found:
                return self.bad(body_at + at)
            size = int(found.group(1), 16)
            at = end + 1
            if size == 0:
                while True:
                    end = rest.find(b"\n", at)
                    if end < 0:
                        self.outcome = "Early" if ended else "Open"
                        return
                    line, at = rest[at:end], end + 1
                    if line in (b"", b"\r"):
                        self.outcome = "Whole"
                        return
            self.body += rest[at:at + size]
            at += size
            for due in b"\r\n":
                if at >= len(rest):
                    self.outcome = "Early" if ended else "Open"
                    return
                if rest[at] != due:
                    return self.bad(body_at + at)
                at += 1

    @property
    def range(self):
        found = re.fullmatch(r"bytes (0|[1-9]\d*)-(0|[1-9]\d*)/(0|[1-9]\d*)", only(self.fields, "content-range") or "")
        if not found:
            return None
        first, last, total = map(int, found.groups())
        return (first, last, total) if first <= last < total <= MOST_ANSWER else None

    @property
    def total(self):
        if "transfer-encoding" in self.fields or "content-length" not in self.fields:
            return None
        return int(self.fields["content-length"][0])

    @property
    def modified(self):
        text = only(self.fields, "last-modified")
        return None if text is None else date_of(text)

    @property
    def tag(self):
        text = only(self.fields, "etag")
        return text if text is not None and re.fullmatch(r'"[\x21\x23-\x7e]{0,254}"', text) else None


# ---- the mirror

class Mirror:
    def __init__(self, answers, pieces):
        self.answers, self.pieces, self.reads = answers, max(pieces, 1), 0

    def ask(self, attempt, url, start, judge):
        """Reads an answer until it is decided. Gives its reading, whether a fault ended it, and how many pieces had body bytes."""
        for answer in self.answers:
            if answer["url"] == url and answer["from"] == start and answer["first"] <= attempt <= answer["last"]:
                break
        else:
            return Reading(b"", False), True, 0
        given, grown, bodies = 0, 0, 0
        while True:
            self.reads += 1
            if given < len(answer["bytes"]):
                given = min(given + self.pieces, len(answer["bytes"]))
                reading, slip = Reading(answer["bytes"][:given], False), False
            elif answer["fault"]:
                return Reading(answer["bytes"], False), True, bodies
            else:
                reading = Reading(answer["bytes"], True)
                return reading, False, bodies
            if judge(reading) and len(reading.body) > grown:
                grown = len(reading.body)
                bodies += 1
            if reading.outcome in ("Whole", "Bad", "Early"):
                return reading, slip, bodies
            if reading.head and not judge(reading):
                return reading, slip, bodies


# ---- the keeper and the desk

class Slip(Exception):
    def __init__(self, call):
        super().__init__()
        self.call = call


class Keeper:
    """Calls are numbered from 0. A call that fails has done nothing."""

    def __init__(self, fails):
        self.fails, self.calls, self.next_id = fails, 0, 0
        self.heads = {}

    def call(self):
        number = self.calls
        self.calls += 1
        if number == self.fails:
            raise Slip(number)


class Whole:
    def __init__(self, text, label, modified, tag, checked):
        self.text, self.label, self.modified, self.tag, self.checked = text, label, modified, tag, checked
        self.mark = None

    def marked(self, mark):
        whole = Whole(self.text, self.label, self.modified, self.tag, self.checked)
        whole.mark = mark
        return whole


class Partial:
    def __init__(self, text, url, label, total, modified, tag):
        self.text, self.url, self.label = text, url, label
        self.total, self.modified, self.tag = total, modified, tag


class Row:
    def __init__(self, whole=None, part=None):
        self.whole, self.part = whole, part


class Body:
    """A body that has ended: what a reply may send of it, or why it can't."""

    def __init__(self, stage, text=b"", label=None, total=None, modified=None, tag=None, shown=None):
        self.stage, self.text, self.label = stage, text, label
        self.total, self.modified, self.tag, self.shown = total, modified, tag, shown


class Desk:
    def __init__(self, keeper, conf, next_try, limit):
        self.keeper, self.conf, self.next_try, self.limit = keeper, conf, next_try, limit
        self.rows = {}
        keeper.call()
        keeper.call()
        for path, whole in sorted(keeper.heads.items()):
            keeper.call()
            self.rows[path] = Row(whole)
            self.next_try = max(self.next_try, whole.label[1] + 1)

    def parts(self):
        return sum(1 for row in self.rows.values() if row.part)

    def begin(self, path, kind, now):
        """How a call is let in: the entry with the held body, or with the first try of a ticket; or a refusal."""
        row = self.rows.get(path)
        whole = row.whole if row else None
        fresh = whole and whole.checked <= now and now - whole.checked <= self.conf.fresh_age
        if whole and (kind == "solid" or self.conf.offline or fresh):
            self.keeper.call()
            return ("kept", self.next_try, whole.label)
        if self.conf.offline:
            raise Refused("Offline " + path)
        if row is None and len(self.rows) >= self.limit:
            raise Refused("Full " + path)
        if self.next_try > (1 << 63) - 16:
            raise Refused("Worn " + path)
        if whole:
            self.keeper.call()
        self.keeper.call()
        first = self.next_try
        self.next_try += 16
        if row is None:
            self.rows[path] = Row()
        return ("led", first, whole.label if whole else None)

    def settle(self, path, body, whole_before, part_before, now, went_on):
        """What is held afterwards. A call of the keeper that fails ends it there."""
        row = self.rows[path]
        part, row.part = row.part, None
        try:
            if body.stage == "Whole":
                self.keeper.call()
                self.keeper.call()
                row.whole = Whole(body.text, body.label, body.modified, body.tag, now)
                self.keeper.heads[path] = row.whole
                if whole_before:
                    self.keeper.call()
                    self.keeper.call()
            elif body.stage == "Same":
                self.keeper.call()
                row.whole = Whole(body.text, body.label, body.modified, body.tag, now).marked(whole_before.mark)
                self.keeper.heads[path] = row.whole
                self.keeper.call()
            elif body.stage == "Cut" and body.tag and body.total is not None and body.text \
                    and not body.shown.startswith("Load Keeper") and self.parts() < 64:
                row.part = Partial(body.text, body.url, body.label, body.total, body.modified, body.tag)
            elif body.stage == "Refused" and part and not went_on and self.parts() < 64:
                row.part = part
                self.keeper.call()
            else:
                self.keeper.call()
        except Slip:
            pass
        if row.whole is None and row.part is None:
            del self.rows[path]

    # -- the download

    def load(self, path, origins, first, mirror):
        """The body that a ticket's attempts make."""
        row = self.rows[path]
        old, part = row.whole, row.part
        attempt, last_try, redirects = first, first + 15, 0
        asks = []
        if part:
            asks.append((part.url, len(part.text), part.tag, None))
        since = old.modified if old else None
        for url in origins:
            asks.append((url, 0, None, since))
        shown = None
        at = 0
        while at < len(asks) and attempt <= last_try:
            url, start, tag, since = asks[at]
            own = part is not None and at == 0 and url == part.url

            def goes_on(reading):
                return reading.status == 206 and tag is not None and own \
                    and reading.range == (start, part.total - 1, part.total)

            def takes(reading):
                return reading.status == 200 or goes_on(reading)

            reading, slip, bodies = mirror.ask(attempt, url, start, takes)
            number = attempt
            attempt += 1
            if not reading.head:
                shown = cause_of(reading, slip, number)
                at += 1
                continue
            if goes_on(reading):
                body = Body("Running", part.text, (part.label[0], number), part.total, part.modified, part.tag)
                body.url = part.url
                return self.take(body, reading, slip, bodies, number, attempt, last_try, mirror), True
            if reading.status == 200:
                body = Body("Running", b"", (number, number), reading.total, reading.modified, reading.tag)
                body.url = url
                return self.take(body, reading, slip, bodies, number, attempt, last_try, mirror), False
            if reading.status == 304 and since is not None:
                return Body("Same", old.text, old.label, len(old.text), old.modified, old.tag), False
            location = only(reading.fields, "location")
            if reading.status in (301, 302, 303, 307, 308) and location is not None:
                there = urljoin(url, location)
                scheme = urlsplit(there).scheme
                if scheme == "https":
                    shown = "Load TlsRedirect %d" % number
                elif scheme != "http":
                    shown = "Load Status %d %d" % (number, reading.status)
                elif redirects >= self.conf.redir_max:
                    shown = "Load Redirects %d" % number
                else:
                    redirects += 1
                    asks[at] = (there, start, tag, since)
                    shown = "Load Redirects %d" % number
                    continue
            elif reading.status in (404, 410):
                shown = "Load Gone %d" % number
            else:
                shown = "Load Status %d %d" % (number, reading.status)
            at += 1
        return Body("Refused", shown=shown), False

    def take(self, body, reading, slip, bodies, number, attempt, last_try, mirror):
        """Takes a body to its end: by further attempts at its URL where it has a strong tag and a known total."""
        while True:
            try:
                for _ in range(bodies):
                    self.keeper.call()
            except Slip as fault:
                body.stage, body.text = "Cut", b""
                body.shown = "Load Keeper %d %d" % (fault.call, body.label[1])
                return body
            body.text += reading.body
            if reading.outcome == "Whole":
                body.stage = "Whole"
                return body
            body.shown = cause_of(reading, slip, number)
            body.stage = "Cut"
            if reading.outcome == "Bad":
                return body
            while True:
                if body.tag is None or body.total is None or attempt > last_try:
                    return body
                held = len(body.text)

                def goes_on(reading):
                    return reading.status == 206 and reading.range == (held, body.total - 1, body.total)

                reading, slip, bodies = mirror.ask(attempt, body.url, held, goes_on)
                number = attempt
                attempt += 1
                if reading.head and goes_on(reading):
                    body.label = (body.label[0], number)
                    break
                if reading.head:
                    return body
                body.shown = cause_of(reading, slip, number)
                if reading.outcome == "Bad":
                    return body


# ---- what is held: its table, and a run of expiration

def held_in(desk):
    return sorted(path for path, row in desk.rows.items() if row.whole)


def class_word(conf, path):
    try:
        return class_of(conf, path)
    except Refused:
        return "forbidden"


def table(desk):
    lines, total = [], 0
    for path in held_in(desk):
        whole = desk.rows[path].whole
        total += len(whole.text)
        mark = "-" if whole.mark is None else "%d" % whole.mark
        lines.append("%s %d %s %s\n" % (path, len(whole.text), class_word(desk.conf, path), mark))
    return "".join(lines) + "rows %d bytes %d\n" % (len(lines), total)


def page(desk, first):
    text = table(desk).replace("&", "&amp;").replace("<", "&lt;").replace(">", "&gt;")
    return ("<!DOCTYPE html><html><head><title>acng report</title></head><body><pre>\n" + (first + "\n" if first else "")
            + text + "</pre></body></html>\n").encode()


def expire(desk, now):
    """A run: its line, and the call of the keeper that failed in it. An index costs a fetch and a read, and lists none here."""
    keeper, removed = desk.keeper, 0
    reach = Reach({path: desk.rows[path].whole.text.decode("latin-1") for path in held_in(desk)}, [])
    try:
        for path in held_in(desk):
            if reach.is_current(path):
                keeper.call()
                keeper.call()
        if desk.conf.most_problems >= 1 and len(reach.problems) >= desk.conf.most_problems:
            return "aborted problems %d" % len(reach.problems), None
        for path in held_in(desk):
            row = desk.rows[path]
            old = row.whole.mark
            mark = None if path in reach.reached else now if old is None else min(old, now)
            if mark != old:
                keeper.call()
                row.whole = row.whole.marked(mark)
                keeper.heads[path] = row.whole
        for path in held_in(desk):
            mark = desk.rows[path].whole.mark
            if mark is None or not (now > mark and now - mark > 86400 * desk.conf.days):
                continue
            del desk.rows[path]
            keeper.call()
            del keeper.heads[path]
            keeper.call()
            removed += 1
        return "done removed %d marked %d" % (removed, sum(desk.rows[path].whole.mark is not None for path in held_in(desk))), None
    except Slip as slip:
        return "stopped removed %d" % removed, slip.call


def visit(desk, query, moment, close, bare):
    """The reply to a request for the report page. The connection closes behind a page."""
    if query != "run=expire":
        first, cause = "", "Page 0"
    elif not desk.conf.maint:
        return line_reply("Maint", close, bare)
    else:
        first, slip = expire(desk, moment)
        cause = "Page its line at %d" % moment + ("" if slip is None else " slip %d" % slip)
    text = page(desk, first)
    head = head_text(200, "text/html", "Content-Length: %d" % len(text), [], True)
    return Reply(200, cause, head, b"" if bare else text, True)


def cause_of(reading, slip, attempt):
    if reading.outcome == "Bad":
        return "Load Bad %d at %d" % (attempt, reading.at)
    if slip:
        return "Load Origin %d" % attempt
    return "Load Early %d" % attempt


# ---- replies

REASONS = {200: "OK", 206: "Partial Content", 304: "Not Modified", 400: "Bad Request", 403: "Forbidden", 404: "Not Found",
           405: "Method Not Allowed", 416: "Range Not Satisfiable", 431: "Request Header Fields Too Large",
           500: "Internal Server Error", 502: "Bad Gateway", 503: "Service Unavailable"}


def status_of(cause):
    words = cause.split(" ")
    name = words[0]
    if name == "Load":
        return {"Gone": 404, "Keeper": 500}.get(words[1], 502), words[1]
    return {"BadHead": 400, "HasBody": 400, "Method": 405, "TooLarge": 431, "KeeperSlip": 500, "NoPart": 416,
            "Offline": 503, "Full": 503, "Worn": 503}.get(name, 403), {"KeeperSlip": "Keeper"}.get(name, name)


class Reply:
    def __init__(self, status, cause, head, body, close, chunked=False, label=None, part=None, entry=None, file=False):
        self.status, self.cause, self.head, self.body, self.close = status, cause, head, body, close
        self.chunked, self.label, self.part, self.entry, self.file = chunked, label, part, entry, file


def head_text(status, kind, framing, fields, close):
    lines = ["HTTP/1.1 %d %s" % (status, REASONS[status])]
    if kind:
        lines.append("Content-Type: " + kind)
    if framing:
        lines.append(framing)
    lines += fields
    lines.append("Connection: " + ("close" if close else "keep-alive"))
    return ("\r\n".join(lines) + "\r\n\r\n").encode()


def line_reply(cause, close, bare, label=None, entry=None, total=None):
    """A reply of one line. The heads that weren't read close, and so does every refused method."""
    status, name = status_of(cause)
    text = ("%d %s\n" % (status, name)).encode()
    fields = []
    if status == 416:
        fields.append("Content-Range: bytes */%d" % total)
    if status == 405:
        fields.append("Allow: GET, HEAD")
    head = head_text(status, "text/plain", "Content-Length: %d" % len(text), fields, close)
    return Reply(status, cause, head, b"" if bare else text, close, label=label, entry=entry)


def file_reply(request, body, close, entry):
    """What a request gets of a body that is whole: 304, 416, 206 or 200, the first that fits."""
    known, size = body.total is not None, len(body.text)
    bare = request.method == "HEAD"
    facts = []
    if body.modified is not None:
        facts.append("Last-Modified: " + date_text(body.modified))
    if body.tag is not None:
        facts.append("ETag: " + body.tag)
    kept = body.stage == "Same"
    if (known or kept) and request.since is not None and body.modified is not None and body.modified <= request.since:
        head = head_text(304, None, None, facts, close)
        return Reply(304, "NotModified", head, b"", close, label=body.label, entry=entry)
    part = request.part if request.method == "GET" and known else None
    if part and request.if_range is not None:
        dated = date_of(request.if_range)
        if request.if_range != body.tag and not (dated is not None and dated == body.modified):
            part = None
    kind = "application/octet-stream"
    if part and part[0] >= body.total:
        return line_reply("NoPart %d %d" % (part[0], body.total), close, bare, body.label, entry, body.total)
    if part:
        first, last = part[0], min(body.total - 1, part[1] if part[1] is not None else body.total - 1)
        fields = ["Content-Range: bytes %d-%d/%d" % (first, last, body.total)] + facts
        head = head_text(206, kind, "Content-Length: %d" % (last - first + 1), fields, close)
        return Reply(206, "Served", head, body.text[first:last + 1], close, label=body.label, part=(first, last), entry=entry, file=True)
    if known:
        framing, chunked = "Content-Length: %d" % body.total, False
    elif request.minor == 0:
        framing, chunked, close = None, False, True
    else:
        framing, chunked = "Transfer-Encoding: chunked", True
    head = head_text(200, kind, framing, facts, close)
    text = b"" if bare else body.text
    return Reply(200, "Served", head, text, close, chunked and not bare, body.label, None, entry, file=True)


# ---- the client's link

class Broken(Exception):
    """The client's link failed."""


class Link:
    def __init__(self, text, cut, room, fails):
        self.text, self.cut, self.room, self.fails = text, max(cut, 1), room, fails
        self.at, self.calls, self.reads, self.written = 0, 0, 0, b""

    def call(self):
        number = self.calls
        self.calls += 1
        if number == self.fails:
            raise Broken()

    def read(self, most):
        self.reads += 1
        self.call()
        piece = self.text[self.at:self.at + min(self.cut, most)]
        self.at += len(piece)
        return piece

    def write(self, piece):
        """Writes a piece; says how much was taken where the link breaks. Which call fails is known where each moves one byte."""
        done = 0
        while done < len(piece):
            if self.room == 0:
                self.calls += 1
                raise Broken(done)
            if self.fails is not None and self.cut != 1 and self.fails >= self.calls:
                raise AssertionError("a call of a link that moves more than a byte a call may fail at a read alone")
            try:
                self.call()
            except Broken:
                raise Broken(done)
            taken = min(self.cut, self.room, len(piece) - done)
            self.written += piece[done:done + taken]
            self.room -= taken
            done += taken


def framed(reply):
    """The pieces of a reply with the count of body bytes that each begins behind: a short body is one chunk."""
    pieces = [(reply.head, False)]
    if reply.chunked:
        for at in range(0, len(reply.body), 65536):
            piece = reply.body[at:at + 65536]
            pieces += [(b"%x\r\n" % len(piece), False), (piece, True), (b"\r\n", False)]
        pieces.append((b"0\r\n\r\n", False))
    else:
        pieces.append((reply.body, True))
    return pieces


def send(link, reply, keeper):
    """Writes a reply. Gives the line of it, and whether it is whole."""
    sent, whole, cause = 0, True, reply.cause
    try:
        link.write(reply.head)
        if reply.file:
            for at in range(0, len(reply.body), 65536):
                keeper.call()
        for piece, counts in framed(reply)[1:]:
            try:
                link.write(piece)
            except Broken as broken:
                if counts:
                    sent += broken.args[0]
                raise
            if counts:
                sent += len(piece)
    except Broken:
        cause, whole = "ClientFault", False
    except Slip as slip:
        cause, whole = "KeeperSlip %d" % slip.call, False
    return note(reply, cause, sent, whole), cause, whole


def label_text(label):
    return "-" if label is None else "fetched %d %d" % label


def note(reply, cause, sent, whole):
    part = "-" if reply.part is None else "part %d %d" % reply.part
    entry = "-"
    if reply.entry:
        how, first, old, moment, path = reply.entry
        entry = "%s at %d from %d, old %s, %s" % (how, moment, first, label_text(old), path)
    return "reply %d %s; %s; %s; sent %d %s; %s" % (
        reply.status, cause, label_text(reply.label), part, sent, "whole" if whole else "broken", entry)


# ---- a connection

def answer(desk, mirror, request, moment, last):
    """The reply to a request that was read."""
    close, bare = request.close or last, request.method == "HEAD"
    try:
        path, origins = read_target(desk.conf, request.method, request.target)
        kind = class_of(desk.conf, path)
        how, first, old = desk.begin(path, kind, moment)
    except Visit as asked:
        return visit(desk, str(asked), moment, close, bare)
    except Refused as refused:
        return line_reply(str(refused), close, bare)
    except Slip as slip:
        return line_reply("KeeperSlip %d" % slip.call, close, bare)
    entry = (how, first, old, moment, path)
    row = desk.rows[path]
    if how == "kept":
        held = row.whole
        body = Body("Same", held.text, held.label, len(held.text), held.modified, held.tag)
    else:
        body, went_on = desk.load(path, origins, first, mirror)
        desk.settle(path, body, row.whole, row.part, moment, went_on)
    if body.shown and body.stage in ("Cut", "Refused"):
        return line_reply(body.shown, close, bare, body.label, entry)
    return file_reply(request, body, close, entry)


def next_block(link, held):
    """The next head block, what is held behind it, or None at the end; the link is read only while there is no block."""
    while True:
        length = block_len(held[:MOST_HEAD])
        if length is not None:
            return held[:length], held[length:]
        if len(held) >= MOST_HEAD:
            raise Refused("TooLarge")
        piece = link.read(MOST_HEAD - len(held))
        if not piece:
            return None, held
        held += piece


def serve(desk, mirror, client, link, most, single):
    """The lines of the replies, how the connection ended, and what the last reply's cause was."""
    held, lines, cause, whole = b"", [], None, True
    keeper = desk.keeper
    for turn in range(most):
        last = turn + 1 == most
        try:
            block, held = next_block(link, held)
            if block is None:
                return lines, "ClientEnded", None, whole
            request = read_head(block)
            moment = client["moments"][min(turn, len(client["moments"]) - 1)]
            reply = answer(desk, mirror, request, moment, last)
        except Refused as refused:
            reply = line_reply(str(refused), True, False)
        except Broken:
            return lines, "ClientFault", "ClientFault", whole
        line, cause, whole = send(link, reply, keeper)
        lines.append(line)
        if not whole or reply.close:
            if cause == "ClientFault":
                return lines, "ClientFault", cause, whole
            return lines, "Limit" if last else "Closed", cause, whole
    raise AssertionError("the last reply closes")


def once_status(stop, cause, whole):
    if stop == "ClientEnded":
        return 7
    name = cause.split(" ")
    if name[0] == "ClientFault":
        return 4
    if name[0] == "KeeperSlip" or name[:2] == ["Load", "Keeper"]:
        return 5
    return 0 if name[0] in ("Served", "Page", "NotModified", "NoPart") and whole else 1


# ---- scripts

def unescape(text):
    out = b""
    pieces = text.split("\\")
    out += pieces[0].encode()
    for piece in pieces[1:]:
        if piece[0] == "x":
            out += bytes([int(piece[1:3], 16)]) + piece[3:].encode()
        else:
            out += {"r": b"\r", "n": b"\n", "b": b"\\"}[piece[0]] + piece[1:].encode()
    return out


def escape(data):
    lines, begun = [], False
    for byte in data:
        if not begun:
            lines.append("+")
        begun = byte != 10
        if byte in (13, 10, 92):
            lines[-1] += {13: "\\r", 10: "\\n", 92: "\\b"}[byte]
        else:
            lines[-1] += chr(byte) if 0x20 <= byte <= 0x7E else "\\x%02x" % byte
    return lines


def read_scripts(text):
    script = place = None
    for line in text.split("\n"):
        if line == "":
            continue
        if line.startswith("script "):
            script = {"name": line[7:], "conf": "", "rows": 1048576, "next": 0, "pieces": 4096, "keeper": NEVER,
                      "answers": [], "clients": [], "vary": None}
            ways = {"cut": 4096, "room": 1048576, "link": NEVER}
        elif line == "end":
            yield script
        elif line[0] == "+":
            place["bytes"] += unescape(line[1:])
        elif line[0] == "*":
            times, text = line[1:].split(" ", 1)
            place["bytes"] += unescape(text) * int(times)
        else:
            word, rest = line.split(" ", 1)
            if word == "conf":
                script["conf"] += rest + "\n"
            elif word in ("rows", "next", "pieces", "keeper"):
                script[word] = int(rest)
            elif word in ways:
                ways[word] = int(rest)
            elif word == "answer":
                words = rest.split(" ")
                place = {"url": words[0], "from": int(words[1]), "first": int(words[2]), "last": int(words[3]),
                         "fault": words[4:] == ["fault"], "bytes": b""}
                script["answers"].append(place)
            elif word in ("once", "connection"):
                place = {"single": word == "once", "moments": [int(w) for w in rest.split(" ")], "bytes": b"", "ways": dict(ways),
                         "conf": script["conf"]}
                script["clients"].append(place)
            elif word in ("vary", "sweep"):
                what, first, stop = rest.split(" ")
                script["vary"] = (word, what, int(first), int(stop))
            else:
                raise AssertionError(line)


def mirror_of(script, front):
    answers = [dict(answer) for answer in script["answers"]]
    if front is not None:
        answers[-1]["bytes"], answers[-1]["fault"] = answers[-1]["bytes"][:front], True
    return Mirror(answers, script["pieces"])


def written_lines(data, brief):
    if len(data) <= MOST_TEXT and not brief:
        return escape(data)
    return ["bytes %d %s" % (len(data), hashlib.sha256(data).hexdigest())]


def folded(lines):
    """Lines with those that are the same as the one before counted."""
    out, same = [], 0
    for i, line in enumerate(lines):
        if i > 0 and line == lines[i - 1]:
            same += 1
            continue
        if same:
            out.append("and %d the same" % same)
        same = 0
        out.append(line)
    if same:
        out.append("and %d the same" % same)
    return out


def run_value(script, what, value):
    out = []
    keeper = Keeper(value if what == "keeper" else script["keeper"])
    front = value if what == "front" else None
    clients = script["clients"]

    def link_of(client):
        ways = client["ways"]
        fails = value if what == "link" and client is clients[-1] else ways["link"]
        return Link(client["bytes"], ways["cut"], ways["room"], fails)

    brief = what not in (None, "nothing")
    for client in clients:
        if not client["single"]:
            continue
        mirror, link, conf = mirror_of(script, front), link_of(client), Conf(client["conf"])
        lines = []
        if conf.refused:
            status, stop = 3, "Unopened"
        else:
            try:
                desk = Desk(keeper, conf, script["next"], 1048576)
                lines, stop, cause, whole = serve(desk, mirror, client, link, 1, True)
                status = once_status(stop, cause, whole)
                if lines:
                    stop = "Replied"
            except Slip:
                status, stop = 5, "Unopened"
        out.append("once %d %s; read %d, origins %d" % (status, stop, link.reads, mirror.reads))
        out += lines
        out += written_lines(link.written, brief)
    mirror = mirror_of(script, front)
    connections = [client for client in clients if not client["single"]]
    if connections:
        try:
            desk = Desk(keeper, Conf(connections[0]["conf"]), script["next"], script["rows"])
        except Slip:
            return out + ["closed Keeper"]
        if len(desk.rows) > script["rows"]:
            return out + ["closed TooMany %d" % len(desk.rows)]
    for client in connections:
        link = link_of(client)
        mirror.reads = 0
        lines, stop, cause, whole = serve(desk, mirror, client, link, 1000, False)
        out.append("connection %s; read %d, origins %d" % (stop, link.reads, mirror.reads))
        out += folded(lines)
        out += written_lines(link.written, brief)
    return out


def run_script(script):
    out = ["script " + script["name"]]
    if script["vary"] is None:
        return out + run_value(script, None, None)
    how, what, first, stop = script["vary"]
    lines = []
    for value in range(first, stop):
        lines.append("value %d" % value)
        lines += run_value(script, what, value)
    if how == "sweep":
        text = "".join(line + "\n" for line in lines).encode()
        return out + ["sweep %d %s" % (len(lines), hashlib.sha256(text).hexdigest())]
    return out + lines


def main():
    for script in read_scripts(sys.stdin.read()):
        for line in run_script(script):
            print(line)


if __name__ == "__main__":
    main()
