#!/usr/bin/env python3
"""The scripts that the table of downloads is made of.

`download_scripts.py FOLDER` writes the scripts to FOLDER/stdin, and what comes of them by the model to FOLDER/stdout: what the
program `acng_fetch_table` reads and has to print. The head of its `main.rt` says what the lines mean.
"""
import random
import re
import sys

from download import REDIRECTS, Answer, House

class Script:
    """A script, and the mirror that answers by it."""

    def __init__(self, name, origins=("http://u/f",), asks=(1000, 1000), cut=4096, redir_max=5, volatile=False):
        self.name, self.origins, self.asks, self.cut = name, list(origins), list(asks), cut
        self.redir_max, self.volatile, self.rules = redir_max, volatile, []

    def on(self, numbers, url, text, slip=False, start=0):
        """The answer of some attempts: a number, or the first and the last."""
        first, last = numbers if isinstance(numbers, tuple) else (numbers, numbers)
        self.rules.append((first, last, start, url, slip, text))
        return self

    def answer(self, number, url, start):
        for first, last, place, asked, slip, text in self.rules:
            if first <= number <= last and asked == url and place == start:
                return Answer(text, slip)
        return None

    def lines(self):
        lines = ["script " + self.name]
        if self.redir_max != 5:
            lines.append("conf RedirMax: %d" % self.redir_max)
        if self.volatile:
            lines.append("volatile")
        if self.cut != 4096:
            lines.append("cut %d" % self.cut)
        lines += ["origin " + url for url in self.origins]
        for first, last, start, url, slip, text in self.rules:
            lines.append("answer %d %d %d %s %s %s" % (first, last, start, url, "slip" if slip else "end", written(text)))
        return lines + ["ask %d" % moment for moment in self.asks]

    def told(self):
        house = House(self)
        lines = [self.name]
        for moment in self.asks:
            lines += house.ask(moment)
        return lines


def written(text):
    assert not re.search(rb"[~^%|_]", text), text
    for plain, sign in ((b"\r\n", b"^"), (b"\r", b"|"), (b"\n", b"~"), (b"\xff", b"%")):
        text = text.replace(plain, sign)
    return re.sub(rb" $", b"_", text).decode()


def head(status, *fields):
    reason = {200: "OK", 206: "Partial Content", 304: "Not Modified", 404: "Not Found", 416: "Range Not Satisfiable"}.get(status, "Other")
    return ("HTTP/1.1 %d %s\r\n" % (status, reason)).encode() + b"".join(field + b"\r\n" for field in fields) + b"\r\n"


def tagged(tag):
    return [b"ETag: " + tag] if tag else []


def counted(body, tag=None, *more):
    return head(200, b"Content-Length: %d" % len(body), *tagged(tag), *more) + body


def rest(body, first, tag=None, *more):
    """The 206 with all from a place on."""
    place = b"Content-Range: bytes %d-%d/%d" % (first, len(body) - 1, len(body))
    return head(206, place, b"Content-Length: %d" % (len(body) - first), *tagged(tag), *more) + body[first:]


def chunked(body, size, *fields):
    parts = [body[i:i + size] for i in range(0, len(body), size)]
    text = b"".join(b"%x\r\n%s\r\n" % (len(part), part) for part in parts)
    return head(200, b"Transfer-Encoding: chunked", *fields) + text + b"0\r\n\r\n"


def location(to, status=302):
    return head(status, b"Location: " + to, b"Content-Length: 0")


DATE = b"Last-Modified: Thu, 01 Jan 1970 00:16:40 GMT"
LATER = b"Last-Modified: Thu, 01 Jan 1970 00:33:20 GMT"
CONTINUE = b"HTTP/1.1 100 Continue\r\n\r\n"
GONE = head(404, b"Content-Length: 0")
U, V, W = "http://u/f", "http://v/f", "http://w/f"
X = b'"x"'


def breaks():
    """An answer that breaks off at each of its bytes, by the connection's end and by its fault."""
    text = counted(b"abc", X)
    for place in range(len(text)):
        for slip in (False, True):
            name = "a counted file with a tag %s at byte %d" % ("fails" if slip else "ends", place)
            held = max(0, place - (len(text) - 3))
            yield Script(name, [U, V], cut=4096 if place % 3 else 7).on(0, U, text[:place], slip) \
                .on(1, U, rest(b"abc", held, X), start=held).on((1, 40), V, counted(b"vwxyz"))
    text = chunked(b"abcd", 3)
    for place in range(len(text)):
        slip = place % 2 == 1
        name = "a file in chunks %s at byte %d" % ("fails" if slip else "ends", place)
        yield Script(name, [U], cut=(1, 5, 4096)[place % 3]).on(0, U, text[:place], slip).on((1, 40), U, GONE)
    text = rest(b"abc", 1, X)
    for place in range(len(text)):
        slip = place % 2 == 0
        name = "a rest %s at byte %d" % ("fails" if slip else "ends", place)
        held = max(1, 1 + place - (len(text) - 2))
        yield Script(name, [U], cut=(4096, 9)[place % 2]).on(0, U, counted(b"abc", X)[:-2]).on(1, U, text[:place], slip, 1) \
            .on(2, U, rest(b"abc", held, X), start=held)
    for body in (b"", b"a", b"ab"):
        for slip in (False, True):
            name = "a file to the connection's %s, of %d bytes" % ("fault" if slip else "end", len(body))
            yield Script(name).on(0, U, head(200, b"ETag: \"x\"") + body, slip)


def redirects():
    yield Script("a redirect to itself").on((0, 9), U, location(b"/f"))
    yield Script("a ring of two").on((0, 9), U, location(b"http://v/f")).on((0, 9), V, location(b"http://u/f"))
    yield Script("a ring of three, and a second origin", [U, "http://z/f"]).on((0, 9), U, location(b"http://v/f")) \
        .on((0, 9), V, location(b"http://w/f")).on((0, 9), W, location(b"http://u/f")).on((0, 20), "http://z/f", counted(b"zz"))
    yield Script("a ring, and a second origin that redirects too", [U, V]).on((0, 9), U, location(b"/f")).on((0, 9), V, location(b"/f"))
    for most in range(0, 4):
        for length in range(max(0, most - 1), most + 2):
            script = Script("%d redirects where %d are followed" % (length, most), redir_max=most)
            for i in range(length):
                script.on(i, U if i == 0 else "http://u/%d" % i, location(b"/%d" % (i + 1), REDIRECTS[i % 5]))
            yield script.on(length, U if length == 0 else "http://u/%d" % length, counted(b"there"))
    yield Script("redirects and 15 of them followed, with no try for the file", redir_max=15).on((0, 40), U, location(b"/f"))
    targets = [("https", b"https://u/f"), ("https, relative", b"https:x"), ("an unread text", b"http://["), ("no UTF-8", b"http://v/\xff"),
               ("ftp", b"ftp://v/f"), ("an IPv6 literal", b"http://[::1]/f"), ("a bad port", b"http://v:99999/f"), ("nothing", b""),
               ("a fragment", b"/g#part"), ("a query", b"?q=1"), ("two slashes", b"//v/f"), ("dots", b"../g"), ("mail", b"mailto:a")]
    for name, to in targets:
        if name == "https, relative":
            continue
        yield Script("a redirect to %s" % name).on(0, U, head(302, b"Location:" + (b" " + to if to else b""), b"Content-Length: 0")) \
            .on((1, 9), V, counted(b"vv")).on((1, 9), "http://u/g#part", counted(b"gp")).on((1, 9), "http://u/f?q=1", counted(b"qq")) \
            .on((1, 9), "http://u/g", counted(b"gg"))
    for status in (300, 304, 305, 306):
        yield Script("status %d with a Location" % status, [U, V]).on(0, U, location(b"http://w/f", status)).on((0, 9), W, counted(b"ww")) \
            .on((0, 9), V, GONE)
    yield Script("a redirect without a Location", [U, V]).on(0, U, head(301)).on(1, V, counted(b"vv"))
    yield Script("a redirect with two Locations", [U, V]).on(0, U, head(301, b"Location: http://w/f", b"Location: http://w/f")) \
        .on((0, 9), V, GONE).on((0, 9), W, counted(b"ww"))
    yield Script("the count of redirects goes on at the next origin", [U, V], redir_max=1).on(0, U, location(b"/g")) \
        .on(1, "http://u/g", GONE).on(2, V, location(b"/g")).on(3, "http://v/g", counted(b"vv"))
    yield Script("a redirect to https, and a second origin", [U, V]).on(0, U, location(b"https://u/f")).on(1, V, counted(b"vv"))
    yield Script("gone, and then a redirect to https", [U, V]).on(0, U, GONE).on(1, V, location(b"https://h.example/a.deb"))
    yield Script("a body that came by a redirect goes on at the place that gave it").on(0, U, location(b"http://v/f")) \
        .on(1, V, counted(b"abcde", X)[:-3], True).on(2, V, rest(b"abcde", 2, X), start=2)


def backends():
    for count in (1, 2, 15, 17):
        origins = ["http://m%d/f" % i for i in range(count)]
        gone = Script("%d origins, each without the file" % count, origins)
        for i, url in enumerate(origins):
            gone.on((0, 99), url, head((404, 410)[i % 2]))
        yield gone
        yield Script("%d origins, none answers" % count, origins)
        for good in sorted({0, count // 2, count - 1}):
            script = Script("%d origins, the file at the one in place %d" % (count, good), origins)
            for i, url in enumerate(origins):
                if i == good:
                    script.on((0, 99), url, counted(b"good", X, DATE))
                elif i % 3 == 1:
                    script.on((0, 99), url, head(503))
                elif i % 3 == 2:
                    script.on((0, 99), url, b"HTTP/1.1 200 OK\r\nContent", i % 2 == 0)
            yield script
    many = ["http://m%d/f" % i for i in range(17)]
    yield Script("the partial body goes first, and then each of 15 origins", many[:15], (1000, 1000, 1000)) \
        .on(0, "http://m0/f", counted(b"abc", X)[:-1]).on(30, "http://m13/f", counted(b"whole"))
    yield Script("the partial body goes first, and then 15 of 17 origins", many, (1000, 1000, 1000)) \
        .on(0, "http://m0/f", counted(b"abc", X)[:-1]).on((16, 31), "http://m15/f", counted(b"whole")) \
        .on((32, 47), "http://m14/f", counted(b"late"))
    body = b"abcdefghijklmnopqrstuvwxyz"
    script = Script("a byte with each of the sixteen tries, and the rest at the next request", asks=(1000, 1000, 1000))
    script.on(0, U, counted(body, X)[:-25], True)
    for i in range(1, 16):
        script.on(i, U, rest(body, i, X)[:len(rest(body, i, X)) - 25 + i], i % 2 == 0, i)
    yield script.on(16, U, rest(body, 16, X), start=16)
    script = Script("a byte with each of fourteen tries, then two that fail", asks=(1000, 1000, 1000))
    script.on(0, U, counted(body, X)[:-25], True)
    for i in range(1, 14):
        script.on(i, U, rest(body, i, X)[:len(rest(body, i, X)) - 25 + i], False, i)
    yield script.on(16, U, rest(body, 14, X), start=14)


def rests():
    """What is answered to the ask for the last three of five bytes, `abcde`, of which the tag is `"x"`."""
    body, place = b"abcde", b"Content-Range: bytes 2-4/5"
    three, chunks = b"Content-Length: 3", b"Transfer-Encoding: chunked"
    return [
        ("the rest", rest(body, 2, X)),
        ("the rest under another tag", rest(body, 2, b'"y"')),
        ("the rest under a weak tag", rest(body, 2, b'W/"x"')),
        ("the rest without a tag", rest(body, 2)),
        ("the rest in chunks", head(206, place, chunks) + b"3\r\ncde\r\n0\r\n\r\n"),
        ("the rest in two chunks and a field behind", head(206, place, chunks) + b"1\r\nc\r\n2;x\r\nde\r\n0\r\nA: b\r\n\r\n"),
        ("the rest to the end", head(206, place) + b"cde"),
        ("the rest to the end, too short", head(206, place) + b"cd"),
        ("the rest to the end, too long", head(206, place) + b"cdef"),
        ("the rest in chunks, too short", head(206, place, chunks) + b"2\r\ncd\r\n0\r\n\r\n"),
        ("the rest in chunks, too long", head(206, place, chunks) + b"4\r\ncdef\r\n0\r\n\r\n"),
        ("the rest after interim heads", CONTINUE + b"HTTP/1.1 103 Early Hints\r\nContent-Length: x\r\n\r\n" + rest(body, 2, X)),
        ("a range from the start", rest(body, 0, X)),
        ("a range from one byte before", rest(body, 1, X)),
        ("a range from one byte behind", rest(body, 3, X)),
        ("a range that ends early", head(206, b"Content-Range: bytes 2-3/5", b"Content-Length: 2") + b"cd"),
        ("a range of a longer file", head(206, b"Content-Range: bytes 2-4/6", three) + b"cde"),
        ("a range of a shorter file", head(206, b"Content-Range: bytes 2-3/4", b"Content-Length: 2") + b"cd"),
        ("a range of an unknown total", head(206, b"Content-Range: bytes 2-4/*", three) + b"cde"),
        ("a range with a leading zero", head(206, b"Content-Range: bytes 02-4/5", three) + b"cde"),
        ("a range with a unit in capitals", head(206, b"Content-Range: Bytes 2-4/5", three) + b"cde"),
        ("no range", head(206, three) + b"cde"),
        ("two ranges", head(206, place, place, three) + b"cde"),
        ("a range longer than its length", head(206, place, b"Content-Length: 2") + b"cd"),
        ("a range shorter than its length", head(206, place, b"Content-Length: 4") + b"cdef"),
        ("another file", counted(b"vwxyz", b'"y"')),
        ("the whole file", counted(body, X)),
        ("416", head(416, b"Content-Range: bytes */5", b"Content-Length: 0")),
        ("304", head(304)),
        ("404", GONE),
        ("204", head(204)),
        ("500", head(500, b"Content-Length: 2") + b"no"),
        ("a redirect", location(b"http://v/f")),
        ("a head that is none", b"hello\r\n\r\n"),
        ("a length that is none", head(206, place, b"Content-Length: x") + b"cde"),
        ("a coding that is none", head(206, place, b"Transfer-Encoding: gzip") + b"cde"),
        ("no byte", b""),
    ]


def resumes():
    """The same in the download in which two of the bytes came, and in the next one, by the row's partial body."""
    body, begun = b"abcde", counted(b"abcde", X, DATE)[:-3]
    for name, text in rests():
        yield Script("at a break: %s" % name, asks=(1000, 1000, 1000)).on(0, U, begun, True).on(1, U, text, start=2) \
            .on(1, V, counted(b"vv")).on((16, 31), U, rest(body, 2, X), start=2)
        yield Script("for a partial body: %s" % name, [U, V], asks=(1000, 1000, 1000)).on(0, U, begun, True).on(1, U, head(416), start=2) \
            .on(16, U, text, start=2).on((17, 31), V, counted(b"vvv", b'"v"')).on((17, 31), U, location(b"http://v/f"))


def tags():
    fields = [("a strong tag", [b'ETag: "x"']), ("a weak tag", [b'ETag: W/"x"']), ("no tag", []),
              ("two tags", [b'ETag: "x"', b'ETag: "x"']), ("a tag without quotes", [b"ETag: x"]), ("an empty tag", [b'ETag: ""']),
              ("a tag with a blank", [b'ETag: "a b"']),
              ("a tag of 256 bytes", [b'ETag: "' + b"t" * 254 + b'"']), ("a tag of 257 bytes", [b'ETag: "' + b"t" * 255 + b'"'])]
    for name, field in fields:
        for size, known in (([b"Content-Length: 4"], True), ([], False)):
            text = head(200, *size, *field) + b"ab"
            yield Script("%s, the total %s" % (name, "known" if known else "unknown"), asks=(1000, 1000)).on(0, U, text, True) \
                .on((1, 30), U, rest(b"abcd", 2, X), start=2)
    yield Script("a tag beside chunks").on(0, U, chunked(b"abcd", 2, b'ETag: "x"')[:-9], True).on((1, 30), U, rest(b"abcd", 2, X), start=2)
    yield Script("the tag changes between two requests", asks=(1000, 1000, 1000)).on(0, U, counted(b"abc", X)[:-1], True) \
        .on((1, 20), U, counted(b"xyz", b'"y"'), start=2)
    yield Script("nothing but the head comes, and then the file from its first byte").on(0, U, counted(b"abc", X)[:-3], True) \
        .on(1, U, rest(b"abc", 0, X))
    yield Script("nothing but the head comes, and then the file anew").on(0, U, counted(b"abc", X)[:-3], True) \
        .on(1, U, counted(b"abc", X)).on(16, U, counted(b"abc", X))


def others():
    yield Script("an empty file").on(0, U, counted(b""))
    yield Script("an empty file with a tag and a date", cut=1).on(0, U, counted(b"", X, DATE))
    yield Script("an empty file in chunks").on(0, U, chunked(b"", 1))
    yield Script("an empty file to the end").on(0, U, head(200))
    yield Script("a counted file, and more behind it").on(0, U, counted(b"abc", X) + b"more", True)
    yield Script("a counted file in pieces of a byte, and more behind it", cut=1).on(0, U, counted(b"abc", X) + b"more", True)
    yield Script("chunks, and more behind them", cut=3).on(0, U, chunked(b"abcdef", 2) + b"more", True)
    yield Script("404 with a body and more, in pieces of a byte", [U, V], cut=1) \
        .on(0, U, head(404, b"Content-Length: 3") + b"abc", True).on(1, V, counted(b"v"))
    yield Script("interim heads before the file").on(0, U, CONTINUE + counted(b"abc"))
    yield Script("interim heads alone").on(0, U, CONTINUE, False).on(16, U, CONTINUE, True)
    yield Script("lines that end in LF alone").on(0, U, b"HTTP/1.1 200 OK\nContent-Length: 3\n\nabc")
    yield Script("empty lines before the head").on(0, U, b"\r\n\r\n" + counted(b"abc"))
    yield Script("HTTP/1.0").on(0, U, b"HTTP/1.0 200 OK\r\n\r\nabc")
    yield Script("two lengths that are equal").on(0, U, head(200, b"Content-Length: 3", b"Content-Length: 03") + b"abc")
    yield Script("two lengths that differ", [U, V]).on(0, U, head(200, b"Content-Length: 3", b"Content-Length: 4") + b"abcd") \
        .on(1, V, counted(b"v"))
    yield Script("a length beside chunks") \
        .on(0, U, head(200, b"Content-Length: 9", b"Transfer-Encoding: Chunked") + b"3\r\nabc\r\n0\r\n\r\n")
    yield Script("a length of 14 digits").on(0, U, head(200, b"Content-Length: 00000000000003") + b"abc")
    yield Script("a length above 2^41").on(0, U, head(200, b"Content-Length: 2199023255553") + b"abc")
    for name, text in (("g", b"g\r\n"), ("LF alone", b"3\nabc"), ("none", b"\r\n"), ("17 digits", b"00000000000000003\r\nabc")):
        yield Script("a size line: %s" % name).on(0, U, head(200, b"Transfer-Encoding: chunked", b'ETag: "x"') + text)
    yield Script("no CR LF behind a chunk").on(0, U, head(200, b"Transfer-Encoding: chunked") + b"3\r\nabcX\r\n")
    yield Script("no LF behind a chunk").on(0, U, head(200, b"Transfer-Encoding: chunked") + b"1\r\na\rX")
    yield Script("a bad chunk behind good ones, in pieces of 7 bytes", cut=7).on(0, U, chunked(b"abcdef", 2)[:-5] + b"x\r\n")
    for status in (204, 206, 304, 400, 403, 500, 503):
        yield Script("status %d at the one origin" % status).on((0, 40), U, head(status, b"Content-Length: 0"))
    yield Script("206 without an ask for it", [U, V]).on(0, U, rest(b"abc", 0, X)).on(1, V, counted(b"v"))
    yield Script("304 without an ask for it", [U, V]).on(0, U, head(304)).on(1, V, counted(b"v"))
    yield Script("404 and then the file", [U, V]).on(0, U, GONE).on(1, V, counted(b"abc"))
    yield Script("404 at both", [U, V]).on(0, U, GONE).on(1, V, GONE)
    yield Script("a head that breaks off, and then 404", [U, V]).on(0, U, b"HTTP/1.1 2").on(1, V, GONE)
    yield Script("404, and then a head that breaks off", [U, V]).on(0, U, GONE).on(1, V, b"HTTP/1.1 2", True)


def revisions():
    """A file that is asked for again once it is old."""
    first = counted(b"abc", X, DATE)
    rows = [
        ("304", head(304)),
        ("304 with a tag", head(304, b'ETag: "y"', LATER)),
        ("304 with a length", head(304, b"Content-Length: 7")),
        ("the file anew", counted(b"vwxyz", b'"y"', LATER)),
        ("the file anew without a date", counted(b"vw")),
        ("404", GONE),
        ("416", head(416)),
        ("206", rest(b"abc", 0, X)),
        ("no byte", b""),
        ("a head that is none", b"hello\r\n\r\n"),
        ("a redirect, and then 304", location(b"http://w/f")),
        ("half of the file anew, with a tag", counted(b"vwxyz", b'"y"', LATER)[:-2]),
        ("half of the file anew, without a tag", counted(b"vwxyz")[:-2]),
    ]
    for name, text in rows:
        yield Script("an old file: %s" % name, asks=(1000, 1027, 1028, 1040, 1100), volatile=True).on(0, U, first).on(16, U, text) \
            .on((17, 31), W, head(304)).on((32, 47), U, rest(b"vwxyz", 3, b'"y"'), start=3).on((32, 80), U, head(304))
    yield Script("an old file without a date: 304", asks=(1000, 1100, 1200), volatile=True).on(0, U, counted(b"abc", X)) \
        .on((1, 40), U, head(304))
    yield Script("a clock that goes back", asks=(1000, 999, 1000), volatile=True).on(0, U, first).on((1, 40), U, head(304))
    yield Script("304 at the second origin", [U, V], asks=(1000, 1100), volatile=True).on(0, U, first).on(16, U, GONE).on(17, V, head(304))
    yield Script("an old file and a partial body, and 304 to the ask for its rest", asks=(1000, 1100, 1200, 1300), volatile=True) \
        .on(0, U, first).on(16, U, counted(b"vwxyz", b'"y"', LATER)[:-2]).on(17, U, head(416), start=3) \
        .on(32, U, head(304), start=3).on(33, U, head(304))
    yield Script("an old file and a partial body, and no answer", asks=(1000, 1100, 1200, 1300), volatile=True).on(0, U, first) \
        .on(16, U, counted(b"vwxyz", b'"y"', LATER)[:-2]).on(17, U, head(416), start=3).on(49, U, counted(b"new"))


def rows():
    """The four rows that are told in words: a break that is mended, one that meets another version, an empty file, two origins."""
    yield Script("a break that is mended").on(0, U, counted(b"abc", X)[:-1], True).on(1, U, rest(b"abc", 2), start=2)
    yield Script("a break that meets another version", asks=(1000, 1000, 1000)).on(0, U, counted(b"abc", X)[:-1], True) \
        .on((1, 16), U, counted(b"xyz"), start=2)


class Chance(Script):
    """A script that is drawn answer by answer, as the asks come."""

    PLACES = (b"/g", b"/h?a=b", b"http://u/f", b"http://y/f", b"https://u/f", b"http://[")

    def __init__(self, chance, name, origins, asks, redir_max, volatile, places=PLACES):
        super().__init__(name, origins, asks, chance.choice([1, 3, 10, 64, 4096]), redir_max, volatile)
        self.chance, self.places = chance, places
        self.version = 0

    @staticmethod
    def of_table(chance, name):
        origins = ["http://%s/f" % host for host in "uvwz"[:chance.choice([1, 1, 2, 2, 3, 4])]]
        moments = [1000]
        for _ in range(chance.choice([1, 2, 3, 4])):
            moments.append(moments[-1] + chance.choice([0, 1, 27, 28, 100]))
        return Chance(chance, name, origins, moments, chance.choice([0, 1, 2, 5, 15]), chance.random() < 0.5)

    def file(self):
        return bytes(97 + (i * 7 + self.version * 3) % 26 for i in range(3 + (self.version * 5) % 9)), b'"%d"' % self.version

    def drawn(self, start):
        chance = self.chance
        if chance.random() < 0.1:
            self.version += 1
        body, tag = self.file()
        tag = chance.choice([tag] * 6 + [None, b'W/"w"'])
        dates = chance.choice([[], [DATE], [LATER]])
        kind = chance.random()
        if kind < 0.1:
            return head(chance.choice([404, 410, 416, 500, 206, 204, 403]))
        if kind < 0.2:
            return head(304, *tagged(tag))
        if kind < 0.32:
            return location(chance.choice(self.places), chance.choice(REDIRECTS))
        if kind < 0.37:
            return chance.choice([b"hello\r\n\r\n", b"", head(200, b"Content-Length: -1"), head(200, b"Transfer-Encoding: br")])
        if start and start < len(body) and kind < 0.85:
            return rest(body, min(max(0, start + chance.choice([0] * 8 + [1, -1])), len(body) - 1), tag)
        if kind < 0.93:
            return counted(body, tag, *dates)
        return chunked(body, chance.choice([1, 2, 5]), *tagged(tag), *dates) if kind < 0.97 else head(200, *tagged(tag), *dates) + body

    def text_at(self, start):
        """A drawn answer, at times cut short, and whether a fault follows."""
        text, slip = self.drawn(start), self.chance.random() < 0.4
        if self.chance.random() < 0.5:
            most = len(text) if self.chance.random() < 0.3 else min(5, len(text))
            text = text[:len(text) - self.chance.randrange(most + 1)]
        return text, slip

    def answer(self, number, url, start):
        if self.chance.random() < 0.06:
            return None
        text, slip = self.text_at(start)
        self.on(number, url, text, slip, start)
        return Script.answer(self, number, url, start)


def all_scripts():
    made = []
    for family in (rows, breaks, redirects, backends, resumes, tags, others, revisions):
        made += list(family())
    chance = random.Random(22)
    return made + [Chance.of_table(chance, "drawn %d" % i) for i in range(200)]


def main():
    scripts, told = [], []
    for script in all_scripts():
        lines = script.told()
        told.append("\n".join(lines) + "\n\n")
        scripts.append("\n".join(script.lines()) + "\n")
    with open(sys.argv[1] + "/stdin", "w") as file:
        file.write("\n".join(scripts))
    with open(sys.argv[1] + "/stdout", "w") as file:
        file.write("".join(told))


if __name__ == "__main__":
    main()
