"""What a download makes of a body and of its row, as a function of a mirror that is known beforehand.

Nothing here was taken from the program. The rules are those of answers (RFC 9112, section 6, and RFC 9110, sections 14 and 15)
and this project's own on the order of asks: docs/DEFINITIONS.md names them. A mirror's answer is looked at as one whole text.

A mirror has `answer(number, url, start)`, the `Answer` of the attempt of a number, or None where its dial fails; and `cut`, how
many bytes a read gives at most.
"""
import email.utils
import re
from urllib.parse import urljoin, urlsplit

TRIES = 16
FRESH = 27
REDIRECTS = (301, 302, 303, 307, 308)
MOST = 2**41


# ---- one answer

class Head:
    """A final head: its status, and what its fields say."""

    def __init__(self, status, fields):
        self.status = status
        self.fields = fields

    def all(self, name):
        return [value for key, value in self.fields if key == name]

    def only(self, name):
        values = self.all(name)
        return values[0] if len(values) == 1 else None

    def tag(self):
        value = self.only(b"etag") or b""
        return value if re.fullmatch(rb'"[\x21\x23-\x7e]*"', value) and len(value) <= 256 else None

    def modified(self):
        value = self.only(b"last-modified")
        return int(email.utils.parsedate_to_datetime(value.decode()).timestamp()) if value else None

    def range(self):
        number = rb"(0|[1-9][0-9]*)"
        found = re.fullmatch(rb"bytes " + number + rb"-" + number + rb"/" + number, self.only(b"content-range") or b"")
        if not found:
            return None
        first, last, total = (int(text) for text in found.groups())
        return (first, last, total) if first <= last < total <= MOST else None

    def total(self):
        return self.framing() if self.status == 200 and isinstance(self.framing(), int) else None

    def framing(self):
        """'none', 'chunks', 'bad', 'end', or the number of bytes."""
        if 100 <= self.status < 200 or self.status in (204, 304):
            return "none"
        codings = self.all(b"transfer-encoding")
        if codings:
            return "chunks" if len(codings) == 1 and codings[0].lower() == b"chunked" else "bad"
        lengths = self.all(b"content-length")
        if not lengths:
            return "end"
        if not all(re.fullmatch(rb"[0-9]{1,13}", length) for length in lengths):
            return "bad"
        values = {int(length) for length in lengths}
        return values.pop() if len(values) == 1 and max(values) <= MOST else "bad"

    def due(self):
        """How many body bytes a range promises."""
        place = self.range() if self.status == 206 else None
        return place[1] - place[0] + 1 if place else None

    def refused(self):
        return self.framing() == "bad" or (isinstance(self.framing(), int) and self.due() not in (None, self.framing()))


def read_block(block):
    """The status and the fields of a block, or None where it is no head."""
    lines = [line.rstrip(b"\r") for line in block.split(b"\n")]
    lines = [line for line in lines if line]
    found = re.fullmatch(rb"HTTP/1\.[01] ([0-9]{3})( .*)?", lines[0])
    if not found or len(lines) - 2 > 64:
        return None
    fields = []
    for line in lines[1:]:
        name, colon, value = line.partition(b":")
        if not colon or not re.fullmatch(rb"[!#$%&'*+.^_`|~0-9A-Za-z-]+", name):
            return None
        fields.append((name.lower(), value.strip(b" \t")))
    return int(found.group(1)), fields


class Answer:
    """The reading of an answer: `head`, where it came whole and isn't refused; `body`; `end`, which is whole, early, slip or
    bad; `at`, the place of what is bad; `head_used` and `used`, how many bytes have to come before head and end are known."""

    def __init__(self, text, slip):
        self.head, self.body, self.at = None, b"", None
        self.text, self.short = text, "slip" if slip else "early"
        self.read_head(0)

    def stop(self, end, used=None, at=None):
        self.end, self.used, self.at = end, used, at

    def read_head(self, start):
        place = start
        while True:
            feed = self.text.find(b"\n", place)
            if feed < 0:
                return self.stop(self.short)
            empty = self.text[place:feed].rstrip(b"\r") == b"" and feed - place <= 1
            seen = self.text[start:place].strip(b"\r\n") != b""
            place = feed + 1
            if empty and seen:
                break
        read = read_block(self.text[start:place])
        head = Head(*read) if read else None
        if head is None or (not 100 <= head.status < 200 and head.refused()):
            return self.stop("bad", place, start)
        if 100 <= head.status < 200:
            return self.read_head(place)
        self.head, self.head_used = head, place
        framing = head.framing()
        if framing == "none":
            return self.stop("whole", place)
        if framing == "chunks":
            return self.read_chunk(place, head.due())
        if framing == "end":
            return self.read_to_end(place, head.due())
        self.body = self.text[place:place + framing]
        return self.stop("whole", place + framing) if len(self.body) == framing else self.stop(self.short)

    def read_to_end(self, place, due):
        self.body = self.text[place:]
        if due is not None and len(self.body) > due:
            self.body = self.body[:due]
            return self.stop("bad", place + due + 1, place + due)
        short = due is not None and len(self.body) < due
        return self.stop(self.short if short or self.short == "slip" else "whole")

    def read_chunk(self, place, due):
        feed = self.text.find(b"\n", place)
        if feed < 0:
            return self.stop(self.short)
        found = re.fullmatch(rb"([0-9a-fA-F]{1,16})[ \t]*(;[^\r\n]*)?\r", self.text[place:feed])
        if not found:
            return self.stop("bad", feed + 1, place)
        size = int(found.group(1), 16)
        if size == 0:
            if due is not None and len(self.body) < due:
                return self.stop("bad", feed + 1, place)
            return self.read_trailer(feed + 1)
        part = self.text[feed + 1:feed + 1 + size]
        room = len(part) if due is None else due - len(self.body)
        self.body += part[:room]
        if len(part) > room:
            return self.stop("bad", feed + 2 + room, feed + 1 + room)
        if len(part) < size:
            return self.stop(self.short)
        place = feed + 1 + size
        for wanted in (b"\r", b"\n"):
            if place == len(self.text):
                return self.stop(self.short)
            if self.text[place:place + 1] != wanted:
                return self.stop("bad", place + 1, place)
            place += 1
        return self.read_chunk(place, due)

    def read_trailer(self, place):
        while True:
            feed = self.text.find(b"\n", place)
            if feed < 0:
                return self.stop(self.short)
            line, place = self.text[place:feed], feed + 1
            if line in (b"", b"\r"):
                return self.stop("whole", place)


def reads(answer, cut, used):
    """The bytes that were given before each read, where `used` bytes decide, or else the connection's end or fault."""
    given, all_given = 0, []
    while used is None or given < used:
        all_given.append(given)
        step = min(cut, len(answer.text) - given)
        if step == 0:
            break
        given += step
    return all_given


# ---- a download

class Facts:
    def __init__(self, total, modified, tag):
        self.total, self.modified, self.tag = total, modified, tag

    def text(self):
        return "%s %s %s" % (dash(self.total), dash(self.modified), self.tag.decode() if self.tag else "-")


def dash(value):
    return "-" if value is None else str(value)


class Body:
    """What became of a body."""

    def __init__(self):
        self.stage, self.cause, self.url, self.label, self.facts, self.text = "Opening", None, None, None, Facts(None, None, None), b""


def redirected(url, head):
    """Where a redirect leads: a URL, 'https', or None where it leads nowhere."""
    value = head.only(b"location")
    try:
        to = urljoin(url, value.decode("utf-8"))
        parts = urlsplit(to)
        parts.port
    except (AttributeError, UnicodeDecodeError, ValueError):
        return None
    if parts.scheme == "https" and parts.hostname:
        return "https"
    if parts.scheme != "http" or not parts.hostname or parts.netloc.startswith("["):
        return None
    return to


class Download:
    """The download of a ticket: origins, first try, partial body, old body, and how many redirects are followed."""

    def __init__(self, mirror, origins, first, part, old, redir_max):
        self.mirror, self.origins, self.part, self.redir_max = mirror, origins, part, redir_max
        self.since = old.facts.modified if old else None
        self.next_try, self.last_try = first, first + TRIES
        self.body, self.asks = Body(), []

    def attempt(self, url, start, tag, since):
        """One ask: its number and its answer, which is None where the dial fails."""
        number = self.next_try
        self.next_try += 1
        answer = self.mirror.answer(number, url, start)
        fields = ""
        if tag is not None:
            fields += " [Range: bytes=%d-] [If-Range: %s]" % (start, tag.decode())
        if since is not None:
            fields += " [If-Modified-Since: %s]" % email.utils.formatdate(since, usegmt=True)
        self.asks.append([number, url, fields, answer, None])
        return number, answer

    def decided(self, answer, by_head):
        if answer is not None:
            self.asks[-1][4] = reads(answer, self.mirror.cut, answer.head_used if by_head else answer.used)

    def run(self):
        """Opening: the partial body's own URL, and then the origins in order."""
        waiting = [(url, False) for url in self.origins]
        if self.part:
            waiting.insert(0, (self.part.url, True))
        followed, cause = 0, None
        while waiting and self.next_try < self.last_try:
            url, ranged = waiting.pop(0)
            if ranged:
                number, answer = self.attempt(url, len(self.part.text), self.part.facts.tag, None)
            else:
                number, answer = self.attempt(url, 0, None, self.since)
            if answer is None or answer.head is None:
                self.decided(answer, False)
                cause = headless(number, answer)
                continue
            if self.opens(number, answer, url, ranged):
                return self.body
            self.decided(answer, True)
            cause, to = self.passed(number, answer.head, url, followed)
            if to is not None:
                followed += 1
                waiting.insert(0, (to, ranged))
        self.body.stage, self.body.cause = "Refused", cause
        return self.body

    def opens(self, number, answer, url, ranged):
        """Whether a head opens the body, which is then taken to its end, or says that the old body is the file still."""
        body, head = self.body, answer.head
        if ranged and url == self.part.url and self.continues(head, len(self.part.text), self.part.facts):
            body.url, body.label, body.facts = self.part.url, (self.part.label[0], number), self.part.facts
            body.text = self.part.text
            self.take(number, answer)
        elif head.status == 200:
            body.url, body.label = url, (number, number)
            body.facts = Facts(head.total(), head.modified(), head.tag())
            self.take(number, answer)
        elif head.status == 304 and not ranged and self.since is not None:
            self.decided(answer, True)
            body.stage = "Same"
        return body.stage != "Opening"

    def passed(self, number, head, url, followed):
        """The cause of a head that opens nothing, and where a redirect leads that is followed."""
        to = redirected(url, head) if head.status in REDIRECTS else None
        if to == "https":
            return ("TlsRedirect", number), None
        if to is not None:
            return ("Redirects", number), to if followed < self.redir_max else None
        if head.status in (404, 410):
            return ("Gone", number), None
        return ("Status", number, head.status), None

    def continues(self, head, held, facts):
        return head.status == 206 and facts.tag is not None and facts.total is not None \
            and head.range() == (held, facts.total - 1, facts.total)

    def take(self, number, answer):
        """Running: the body behind a head, and after a slip or an early end its rest."""
        body = self.body
        while True:
            self.decided(answer, False)
            body.text += answer.body
            if answer.end == "whole":
                body.stage = "Whole"
                return
            if answer.end == "bad":
                return self.cut(("Bad", number, answer.at))
            number, answer, cause = self.rest(headless(number, answer))
            if answer is None:
                return self.cut(cause)
            if not self.continues(answer.head, len(body.text), body.facts):
                self.decided(answer, True)
                return self.cut(cause)
            body.label = (body.label[0], number)

    def rest(self, cause):
        """Asks for a body's rest until a head comes. No answer where that can't be, or is bad; and the last cause."""
        body = self.body
        while body.facts.tag is not None and body.facts.total is not None and self.next_try < self.last_try:
            number, answer = self.attempt(body.url, len(body.text), body.facts.tag, None)
            if answer is not None and answer.head is not None:
                return number, answer, cause
            self.decided(answer, False)
            cause = headless(number, answer)
            if cause[0] == "Bad":
                break
        return None, None, cause

    def cut(self, cause):
        self.body.stage, self.body.cause = "Cut", cause


def headless(number, answer):
    """The cause of an attempt that came to no whole head, or whose body broke off."""
    if answer is None or answer.end == "slip":
        return ("Origin", number)
    return ("Bad", number, answer.at) if answer.end == "bad" else ("Early", number)


# ---- the row

class Kept:
    """A whole or a partial body of the row."""

    def __init__(self, body):
        self.url, self.label, self.text, self.facts = body.url, body.label, body.text, body.facts


class House:
    """One path: its whole body, its partial body, and the next try."""

    def __init__(self, script):
        self.script, self.whole, self.part, self.next_try = script, None, None, 0

    def run(self, moment):
        """One request: the held body that answers it; or else what the mirror was asked, and the body, as it ended."""
        whole = self.whole
        if whole and (not self.script.volatile or (whole.checked <= moment and moment - whole.checked <= FRESH)):
            return whole, [], None
        first = self.next_try
        self.next_try += TRIES
        download = Download(self.script, self.script.origins, first, self.part, whole, self.script.redir_max)
        body = download.run()
        self.settled = self.settle(body, moment)
        return None, download.asks, body

    def ask(self, moment):
        """What is printed of one request."""
        let_in = " lead %d%s%s" % (self.next_try, part_text(self.part), old_text(self.whole))
        kept, asks, body = self.run(moment)
        if kept:
            return ["ask kept %d %d %d %s %s" % (len(kept.text), *kept.label, kept.facts.text(), shown(kept.text))]
        lines = ["ask" + let_in]
        for number, url, fields, answer, places in asks:
            lines.append(" %d %s%s:%s" % (number, url, fields, "".join(" %d" % place for place in places or [])))
        lines.append(" end " + end_text(body))
        lines.append(" settled %s row %s" % (self.settled, row_text(self.whole)))
        return lines

    def settle(self, body, moment):
        if body.stage == "Whole":
            self.part, self.whole = None, Kept(body)
            self.whole.facts = Facts(len(body.text), body.facts.modified, body.facts.tag)
            self.whole.checked = moment
            return "Kept"
        if body.stage == "Same":
            self.part = None
            body.label, body.facts, body.text = self.whole.label, self.whole.facts, self.whole.text
            self.whole.checked = moment
            return "Same"
        if body.stage == "Cut":
            self.part = None
            if body.facts.tag is not None and body.facts.total is not None and body.text:
                self.part = Kept(body)
                body.url, body.text = None, b""
                return "Partial"
        return "Dropped"


def shown(text):
    return text.decode() or "-"


def part_text(part):
    return " part %d %d %d %s %s" % (len(part.text), *part.label, part.facts.text(), part.url) if part else " part -"


def old_text(whole):
    return " old %d %d %d %s" % (len(whole.text), *whole.label, whole.facts.text()) if whole else " old -"


def row_text(whole):
    return "%d %d %d %s %d" % (len(whole.text), *whole.label, whole.facts.text(), whole.checked) if whole else "-"


def end_text(body):
    cause = " ".join(str(word) for word in body.cause) if body.cause else "-"
    label = "%d %d" % body.label if body.label else "- -"
    return "%s %s %d %s %s %s %s" % (body.stage, cause, len(body.text), label, body.facts.text(), body.url or "-", shown(body.text))
