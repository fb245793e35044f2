"""The scripts that the program `acng_serve_table` is run on: those that are written by hand, and those that are made.

    scripts.py > crates/acng_serve_table/stdin

What a script may say is told at the head of crates/acng_serve_table/src/main.rt. What is made is made by a fixed seed.
"""
import random

DATE = "Thu, 01 Jan 1970 00:16:40 GMT"
BEFORE = "Thu, 01 Jan 1970 00:16:39 GMT"
AFTER = "Thu, 01 Jan 1970 00:16:41 GMT"
PACKAGE = "ftp.example.org/debian/pool/main/a/a_1_all.deb"


def out(text):
    print(text.strip("\n"))


def head(lines):
    """The lines of a head, in the form of the scripts."""
    return "".join("+%s\\r\\n\n" % line for line in lines) + "+\\r\\n\n"


def request(target, *fields, method="GET", version="1.1"):
    return head(["%s %s HTTP/%s" % (method, target, version)] + list(fields))


def answer(body, *fields, status="200 OK", length=True):
    lines = ["HTTP/1.1 " + status] + list(fields)
    if length:
        lines.append("Content-Length: %d" % len(body))
    return head(lines) + ("+%s\n" % body if body else "")


def asked(url, text, first=0, last=9, start=0, fault=""):
    return "answer %s %d %d %d%s\n%s" % (url, start, first, last, fault, text)


def script(name, *parts, brief=False):
    """A script. Of a brief one a digest alone is printed."""
    print("script " + name)
    if brief:
        print("sweep nothing 0 1")
    out("".join(parts))
    print("end")


# ---- the rows of the rules

def rows():
    url = "http://" + PACKAGE
    script("a miss and a hit of once", asked(url, answer("abc"), 0, 0),
           "once 1000\n", request(url), "once 1000\n", request(url))
    script("a miss and a hit of a desk draw one ticket", asked(url, answer("abc"), 0, 0),
           asked("http://h/b.deb", answer("xyz"), 16, 16),
           "connection 1000\n", request(url, "Connection: close"), "connection 1000\n", request(url, "Connection: close"),
           "connection 1000\n", request("http://h/b.deb", "Connection: close"))
    script("an empty file", asked("http://h/e.deb", answer("")),
           "connection 1000\n", request("/h/e.deb"), request("/h/e.deb"), request("/h/e.deb", "Range: bytes=0-"),
           request("/h/e.deb", method="HEAD"))
    script("ranges of a held file", asked("http://h/a.deb", answer("abc")),
           "connection 1000\n", request("/h/a.deb"), request("/h/a.deb", "Range: bytes=3-"), request("/h/a.deb", "Range: bytes=2-"),
           request("/h/a.deb", "Range: bytes=0-99"), request("/h/a.deb", "Range: bytes=-1"),
           request("/h/a.deb", "Range: bytes=2-", method="HEAD"))
    index = "http://h/dists/s/InRelease"
    script("an index grows old", asked(index, answer("abc", "Last-Modified: " + DATE), 0, 15),
           asked(index, head(["HTTP/1.1 304 Not Modified"]), 16, 31),
           "connection 1000\n", request(index), "connection 1027\n", request(index), "connection 1028\n", request(index),
           "connection 1055\n", request(index), "connection 1056\n", request(index))
    script("a clock goes back", asked(index, answer("abc", "Last-Modified: " + DATE), 0, 15),
           asked(index, head(["HTTP/1.1 304 Not Modified"]), 16, 31),
           "connection 1000 999 999\n", request(index), request(index), request(index))
    script("the date of a client", asked(index, answer("abc", "Last-Modified: " + DATE), 0, 15),
           "connection 1000\n", request(index), request(index, "If-Modified-Since: " + DATE),
           request(index, "If-Modified-Since: " + BEFORE), request(index, "If-Modified-Since: " + DATE, "Range: bytes=0-"),
           request(index, "If-Modified-Since: " + DATE, 'If-None-Match: "x"'))
    script("a file that broke off is gone on with", asked("http://h/a.deb", answer("ab", 'ETag: "x"', "Content-Length: 3",
            length=False), 0, 0, 0, " fault"),
           asked("http://h/a.deb", answer("c", "Content-Range: bytes 2-2/3", status="206 Partial Content"), 1, 1, 2),
           "connection 1000\n", request("/h/a.deb"))
    script("a file that changed meanwhile begins anew", asked("http://h/a.deb", answer("ab", 'ETag: "x"', "Content-Length: 3",
            length=False), 0, 0, 0, " fault"),
           asked("http://h/a.deb", answer("xyz"), 1, 31, 2),
           "connection 1000\n", request("/h/a.deb"), request("/h/a.deb"), request("/h/a.deb"))
    script("heads that are refused",
           "connection 1000\n", request("h.example:443", method="CONNECT"), request("https://h.example/a.deb"),
           request("/h.example/a.deb?x"), request("/a", method="POST"))
    script("a head of 16,385 bytes", "connection 1000\n", "+GET /h/a.deb HTTP/1.1\\r\\nX: \n", "*16354 x\n", "+\\r\\n\\r\\n\n")
    script("a head of 16,384 bytes", "connection 1000\n", "+GET /h/readme HTTP/1.1\\r\\nX: \n", "*16352 x\n", "+\\r\\n\\r\\n\n")
    script("65 fields", "connection 1000\n", "+GET /h/a.deb HTTP/1.1\\r\\n\n", "*65 X: y\\r\\n\n", "+\\r\\n\n")
    script("64 fields", "connection 1000\n", "+GET /h/readme HTTP/1.1\\r\\n\n", "*64 X: y\\r\\n\n", "+\\r\\n\n")
    script("a head that ends in the middle", "connection 1000\n", "+GET /h/a.deb HTT\n")
    script("two blanks", "connection 1000\n", "+GET  / HTTP/1.1\\r\\n\\r\\n\n")
    mirrors = "conf Remap-debrep: http://ftp.example.org/debian http://ftp.de.example.org/debian /debian ; http://deb.example.org/debian\n"
    release = "http://deb.example.org/debian/dists/stable/InRelease"
    by_hash = "dists/stable/main/binary-amd64/by-hash/SHA256/" + "0123456789abcdef" * 4
    package = "http://deb.example.org/debian/pool/main/a/a_1_all.deb"
    script("a day of an office", mirrors, asked(release, answer("index", "Last-Modified: " + DATE)),
           asked("http://deb.example.org/debian/" + by_hash, answer("names"), 16, 16),
           asked(package, answer("abc", "Last-Modified: " + DATE), 32, 32),
           "connection 1000\n", request("/debian/dists/stable/InRelease"), request("/debian/" + by_hash),
           request("/debian/pool/main/a/a_1_all.deb", "Range: bytes=1-", "If-Range: " + DATE))
    script("three names of one file", mirrors, asked(package, answer("abc"), 0, 0),
           "connection 1000\n", request("/debian/pool/main/a/a_1_all.deb"),
           request("http://ftp.de.example.org/debian/pool/main/a/a_1_all.deb"),
           request("/ftp.example.org//debian/pool/main/a/a_1_all.deb"), request("/debian-security/x.deb"))
    script("a desk of one path", "rows 1\n", asked("http://h/a.deb", answer("abc"), 0, 0),
           "connection 1000\n", request("/h/a.deb"), request("/h/b.deb"), request("/h/a.deb"))
    script("more paths than a desk has room for", "rows 1\n", asked("http://h/a.deb", answer("abc")), asked("http://h/b.deb",
            answer("abc")),
           "once 1000\n", request("/h/a.deb"), "once 1000\n", request("/h/b.deb"), "connection 1000\n", request("/h/a.deb"))
    script("no numbers are left", "next 9223372036854775792\n", asked("http://h/a.deb", answer("abc"), 9223372036854775792,
            9223372036854775792),
           "once 1000\n", request("/h/a.deb"), "once 1000\n", request("/h/b.deb"), "connection 1000\n", request("/h/b.deb"),
                   request("/h/a.deb"))
    script("one number fewer is too few", "next 9223372036854775793\n", asked("http://h/a.deb", answer("abc"), 0, 9223372036854775807),
           "connection 1000\n", request("/h/a.deb"))
    script("offline", asked(index, answer("abc")), "once 1000\n", request(index),
           "conf Offlinemode: 1\n", "connection 9999 3\n", request("/h/b.deb"), request(index))
    script("classes", asked("http://h/dists/s/main/by-hash/SHA256/00", answer("abc")),
           "connection 1000\n", request("/h/readme"), request("/h/dists/s/main/by-hash/SHA256/00"),
           request("/h/dists/s/main/by-hash/SHA256/0g"), request("/h/by-hash/MD5/00"))
    script("a pattern makes a file volatile", "conf VfilePatternEx: readme$\n", asked("http://h/readme", answer("abc"), 0, 0),
           asked("http://h/readme", answer("xyz"), 16, 16),
           "connection 1000 1028\n", request("/h/readme"), request("/h/readme"))
    script("a pattern makes a file solid", "conf PfilePatternEx: readme$\n", asked("http://h/readme", answer("abc"), 0, 0),
           "connection 1000 9028\n", request("/h/readme"), request("/h/readme"))
    script("the keeper's create fails", "keeper 2\n", asked("http://h/a.deb", answer("abc")),
           "connection 1000\n", request("/h/a.deb"), request("/h/a.deb"))
    script("an answer that ends early", asked("http://h/a.deb", answer("abc", "Content-Length: 4", length=False), 0, 0),
           "once 1000\n", request("/h/a.deb"), "connection 1000\n", request("/h/a.deb"))


# ---- each cause, and each status of a run

def causes():
    url = "http://h/a.deb"
    ask = request("/h/a.deb")
    for name, text in [
            ("no answer", ""),
            ("404", asked(url, answer("no", status="404 Not Found"))),
            ("410", asked(url, answer("", status="410 Gone"))),
            ("500", asked(url, answer("no", status="500 Internal Server Error"))),
            ("304 that wasn't asked for", asked(url, head(["HTTP/1.1 304 Not Modified"]))),
            ("206 that wasn't asked for", asked(url, answer("c", "Content-Range: bytes 2-2/3", status="206 Partial Content"))),
            ("no head", asked(url, "+SSH-2.0\\r\\n\\r\\n\n")),
            ("a coding that isn't known", asked(url, head(["HTTP/1.1 200 OK", "Transfer-Encoding: gzip"]))),
            ("a length that is none", asked(url, head(["HTTP/1.1 200 OK", "Content-Length: -1"]))),
            ("a chunk that is none", asked(url, head(["HTTP/1.1 200 OK", "Transfer-Encoding: chunked"]) + "+3\\r\\nabc\\r\\ng\\r\\n\n")),
            ("a chunk longer than it says", asked(url, head(["HTTP/1.1 200 OK",
                    "Transfer-Encoding: chunked"]) + "+3\\r\\nabcd\\r\\n0\\r\\n\\r\\n\n")),
            ("chunks that end early", asked(url, head(["HTTP/1.1 200 OK", "Transfer-Encoding: chunked"]) + "+3\\r\\nabc\\r\\n0\\r\\n\n")),
            ("a head that ends early", asked(url, "+HTTP/1.1 200 OK\\r\\n\n")),
            ("a body that ends early", asked(url, answer("abc", "Content-Length: 9", length=False))),
            ("a fault in the head", asked(url, "+HTTP/1.1 200\n", fault=" fault")),
            ("a fault in the body", asked(url, answer("abc", "Content-Length: 9", length=False), fault=" fault")),
            ("a fault behind the body", asked(url, answer("abc"), fault=" fault")),
            ("a fault where the end was due", asked(url, answer("abc", length=False), fault=" fault")),
            ("to https", asked(url, head(["HTTP/1.1 302 Found", "Location: https://h/a.deb"]))),
            ("to ftp", asked(url, head(["HTTP/1.1 302 Found", "Location: ftp://h/a.deb"]))),
            ("to nowhere", asked(url, head(["HTTP/1.1 302 Found"]))),
            ("on and on", asked(url, head(["HTTP/1.1 302 Found", "Location: /a.deb"]))),
            ("on and on, sixteen tries", "conf RedirMax: 15\n" + asked(url, head(["HTTP/1.1 302 Found", "Location: /a.deb"]), 0, 99)),
            ("no redirect", "conf RedirMax: 0\n" + asked(url, head(["HTTP/1.1 301 Moved Permanently", "Location: /b.deb"]))),
            ("a redirect", asked(url, head(["HTTP/1.1 301 Moved Permanently", "Location: ../x/b.deb?y=1"]), 0, 0)
             + asked("http://h/x/b.deb?y=1", answer("abc"), 1, 1)),
            ("interim answers", asked(url, head(["HTTP/1.1 100 Continue"]) + head(["HTTP/1.1 103 Early Hints",
                    "Link: x"]) + answer("abc"))),
            ("an answer without a length", asked(url, answer("abc", length=False))),
            ("an answer in chunks", asked(url, head(["HTTP/1.1 200 OK", "Transfer-Encoding: chunked", 'ETag: "x"'])
                                          + "+2\\r\\nab\\r\\n1;x\\r\\nc\\r\\n0\\r\\nT: y\\r\\n\\r\\n\n")),
            ("more behind the answer", asked(url, answer("abc") + "+HTTP/1.1 500 No\\r\\n\\r\\n\n"))]:
        script(name, text, "once 1000\n", ask, "connection 1000\n", ask, request("/h/a.deb", method="HEAD"),
               request("/h/a.deb", version="1.0"))
        script(name + ", in pieces of 1", "pieces 1\n", text, "once 1000\n", ask, "connection 1000\n", ask, brief=True)
    two = "conf Remap-g: http://h ; http://u1 http://u2/b\n"
    script("the second mirror has it", two, asked("http://u1/a.deb", answer("", status="404 Not Found")),
           asked("http://u2/b/a.deb", answer("abc"), 1, 1), "connection 1000\n", ask)
    script("both mirrors have it not", two, asked("http://u1/a.deb", answer("", status="404 Not Found")),
           asked("http://u2/b/a.deb", answer("", status="404 Not Found")), "connection 1000\n", ask)
    script("the last mirror leads to https", two, asked("http://u1/a.deb", answer("", status="404 Not Found")),
           asked("http://u2/b/a.deb", head(["HTTP/1.1 302 Found", "Location: https://h.example/a.deb"])), "connection 1000\n", ask)
    script("the first mirror breaks off in the body", two, asked("http://u1/a.deb", answer("ab", "Content-Length: 3", length=False)),
           asked("http://u2/b/a.deb", answer("abc")), "connection 1000\n", ask)
    for target in ["/h/a.deb#x", "ftp://h/a.deb", "h/a.deb", "*", "/", "http://", "/h@x/a.deb", "/h:0/a.deb", "/h:65536/a.deb",
                   "/h:99999/a.deb?x", "/h/", "http://h", "/h/../a.deb", "/h/a/%2e/b.deb", "/h/a%20b.deb", "/h/" + "a" * 1025 + ".deb",
                   "/h/%ff.deb", "/HTTPS///h/a.deb", "HTTPS://h/a.deb", "/?x", "/h/a.deb?"]:
        script("the target " + target[:40], "once 1000\n", request(target), "connection 1000\n", request(target),
               request(target, method="HEAD"), request("/h/readme", version="1.0"))
    for name, lines in [("no version", ["GET /h/a.deb"]), ("a later version", ["GET /h/a.deb HTTP/2.0"]), ("no colon",
            ["GET /h/a.deb HTTP/1.1", "X"]),
                        ("a blank before a colon", ["GET /h/a.deb HTTP/1.1", "X : y"]), ("an unknown method", ["PUT /h/a.deb HTTP/1.1"]),
                        ("a method in small letters", ["get /h/a.deb HTTP/1.1"]), ("a body", ["GET /h/a.deb HTTP/1.1",
                                "Content-Length: 1"]),
                        ("no body", ["GET /h/readme HTTP/1.1", "Content-Length: 0"]), ("a body in chunks",
                                ["HEAD /h/a.deb HTTP/1.1", "Transfer-Encoding: chunked"])]:
        script(name, "once 1000\n", head(lines), "connection 1000\n", head(lines), request("/h/readme"))
    script("empty lines before the request", "connection 1000\n", "+\\r\\n\\n\\r\\n\n", request("/h/readme"), "+\\n\\r\\n\n")
    script("a configuration that is refused", "conf Port: 70000\n", "once 1000\n", ask)
    script("nothing is sent", "once 1000\n", "connection 1000\n")


# ---- the report page

PAGE, RUN, LEAVE = "/acng-report.html", "/acng-report.html?run=expire", "conf MaintOverHttp: 1\n"
INDEX = "h/debian/dists/s/InRelease"
DAY = 86400


def index(*names):
    """An index that names files of three bytes."""
    entries = "".join("+ %s 3 %s\\n\n" % ("ab" * 32, name) for name in names)
    text = "+-----BEGIN PGP SIGNED MESSAGE-----\\n\n+\\n\n+SHA256:\\n\n" + entries + "+-----BEGIN PGP SIGNATURE-----\\n\n"
    size = sum(len(line) - 2 for line in text.split("\n") if line)
    return head(["HTTP/1.1 200 OK", "Content-Length: %d" % size]) + text


def one(moment, target, *fields, **how):
    """A connection of one request: a page closes the connection."""
    return "connection %d\n" % moment + request(target, *fields, **how)


def pages():
    for how, words in (("connection", "connection 1000\n"), ("run of once", "once 1000\n")):
        ask = [PAGE, PAGE + "?", PAGE + "?run=import", PAGE + "?run=Expire", PAGE + "?run=expire&x", RUN]
        script("a report of nothing by a " + how, "".join(words + request(target) for target in ask))
        script("a report of nothing with leave by a " + how, LEAVE, "".join(words + request(target) for target in ask))
        script("a report of nothing to HEAD by a " + how, LEAVE,
               "".join(words + request(target, method="HEAD") for target in (PAGE, RUN)))
    script("a report without leave to HEAD", one(1000, RUN, method="HEAD"))
    script("a page closes", LEAVE, "connection 1000\n", request("/h/readme"), request(PAGE), request("/h/readme"),
           "connection 1000\n", request(RUN), request("/h/readme"), "connection 1000\n", request(PAGE, method="HEAD"), request("/h/readme"),
           "conf MaintOverHttp: 0\n", "once 1000\n", request(RUN))
    script("a run without leave doesn't close", "connection 1000\n", request(RUN), request(PAGE))
    script("a page of a client before this HTTP", one(1000, PAGE, version="1.0"))
    script("a page is asked for by a range and a date",
           one(1000, PAGE, "Range: bytes=2-3"), one(1000, PAGE, "If-Modified-Since: " + DATE))
    script("a page at another name", "conf ReportPage: r.html\n", one(1000, PAGE), one(1000, "/r.html"), one(1000, "/r.html?x"),
           one(1000, "/r.htmlx"))
    odd = "/h/a&b<c>d.deb"
    files = asked("http://h/a&b%3Cc%3Ed.deb", answer("abc")) + asked("http://h/InRelease", answer("x")) + asked("http://h/readme",
            answer("four"))
    script("a report of odd names", "conf VfilePatternEx: readme$\n", files, "once 1000\n", request(odd), "once 1000\n",
           request("/h/readme"), "once 1000\n", request("/h/InRelease"), one(1000, PAGE), "conf VfilePatternEx: x$\n", "once 1000\n",
           request(PAGE))
    script("a cache without an index aborts a run", LEAVE, files, one(1000, odd), one(1000, RUN), one(9 * DAY, RUN), one(9 * DAY, PAGE))
    script("an index that doesn't read aborts a run", LEAVE, files, "connection 1000\n", request(odd), request("/h/InRelease"),
           one(1000, RUN), "once 9999999\n", request(RUN))
    script("a run in spite of problems", LEAVE, "conf ExAbortOnProblems: 2\n", files, one(1000, odd), one(1000, RUN), one(1001, PAGE))
    held = asked("http://h/debian/dists/s/InRelease", index("x/a.deb")) + "".join(
        asked("http://h/debian/" + name, answer(text), 0, 999) for name, text in
        (("dists/s/x/a.deb", "abc"), ("b.deb", "abcd"), ("c.deb", "abcde")))
    load = "once 1000\n".join(["", request("/" + INDEX), request("/h/debian/dists/s/x/a.deb"), request("/h/debian/b.deb")])
    script("a run marks, and removes later", LEAVE, held, load, one(1000, PAGE), one(2000, RUN), one(2000 + 4 * DAY, RUN),
           one(3000, PAGE), one(2001 + 4 * DAY, RUN), one(3000, PAGE), one(3000, "/h/debian/b.deb"), one(3000, PAGE))
    script("a file that came between runs is marked anew", LEAVE, held, load, one(1000, RUN), one(1000, "/h/debian/c.deb"),
           one(2000, RUN), one(1001 + 4 * DAY, RUN), one(2001 + 4 * DAY, RUN))
    script("a clock goes back between runs", LEAVE, held, load, one(2000, RUN), one(1500, RUN), one(1501 + 4 * DAY, RUN))
    script("a run after no day", LEAVE, "conf ExThreshold: 0\n", held, load, one(1000, RUN), one(1000, RUN), one(1001, RUN))
    script("runs of once", LEAVE, held, load, "".join("once %d\n%s" % (now, request(target)) for now, target in
           ((1000, RUN), (1000, PAGE), (1001 + 4 * DAY, RUN), (1001 + 4 * DAY, PAGE))))
    script("calls of the keeper, in runs", "vary keeper 0 40\n", LEAVE, held, load + "once 1000\n" + request("/h/debian/c.deb"),
           one(1000, RUN), one(1000, PAGE), one(1001 + 4 * DAY, RUN), one(3000, PAGE))
    script("calls of the keeper, in runs of once", "sweep keeper 0 60\n", LEAVE, held, load + "once 1000\n" + request("/h/debian/c.deb"),
           "".join("once %d\n%s" % (now, request(target)) for now, target in
                   ((1000, RUN), (1000, PAGE), (1001 + 4 * DAY, RUN), (1001 + 4 * DAY, PAGE))))
    script("calls of the link, in a page", "sweep link 0 260\n", "cut 1\n", "connection 1000\n", request(PAGE))
    script("calls of the link, in a run", "sweep link 0 300\n", LEAVE, held, load, "cut 1\n", "connection 1000\n", request(RUN))
    script("some calls of the link, in a run", "vary link 60 70\n", LEAVE, held, load, one(1000, RUN), "cut 1\n", one(1001 + 4 * DAY, RUN))
    script("room of the link, in a page", "".join("room %d\nconnection 1000\n%s" % (room, request(PAGE))
                                                  for room in (0, 1, 92, 93, 94, 95, 96, 200, 201, 202, 203)))


# ---- each call that may fail, in turn

def failures():
    url, index = "http://h/a.deb", "http://h/InRelease"
    whole = asked(url, answer("abc"), 0, 99)
    twice = asked(index, answer("abc", "Last-Modified: " + DATE), 0, 15) + asked(index, head(["HTTP/1.1 304 Not Modified"]), 16, 99)
    renewed = asked(index, answer("abc", 'ETag: "x"'), 0, 15) + asked(index, answer("xyz", 'ETag: "y"'), 16, 99)
    old = request("/h/InRelease")
    script("calls of the keeper, in a miss and a hit", "vary keeper 0 10\n", whole,
           "connection 1000\n", request("/h/a.deb"), "connection 1000\n", request("/h/a.deb"), "connection 1000\n", request("/h/a.deb"))
    script("calls of the keeper, in a miss and a hit of once", "vary keeper 0 16\n", whole,
           "once 1000\n", request("/h/a.deb"), "once 1000\n", request("/h/a.deb"), "once 1000\n", request("/h/a.deb"))
    script("calls of the keeper, in an index that is the same", "vary keeper 2 20\n", twice,
           "connection 1000\n", old, "connection 1028\n", old, "connection 1056\n", old)
    script("calls of the keeper, in an index that is renewed", "vary keeper 2 20\n", renewed,
           "connection 1000\n", old, "connection 1028\n", old, "connection 1056\n", old)
    for name, setup, last, count in [
            ("a miss", whole, request("/h/a.deb"), 140),
            ("a hit", whole + "connection 1000\n" + request("/h/a.deb"), request("/h/a.deb"), 140),
            ("an index that is the same", twice + "connection 1000\n" + old, old, 180)]:
        script("calls of the link, in " + name, "sweep link 0 %d\n" % count, setup, "cut 1\n", "connection 1028\n", last)
        script("some calls of the link, in " + name, "vary link 28 36\n", setup, "cut 1\n", "connection 1028\n", last)
        script("room of the link, in " + name, setup, "".join(
            "room %d\nconnection 1028\n%s" % (room, last) for room in (0, 1, 17, 96, 97, 101, 102, 103, 104, 105, 150, 151)))
        script("calls of the link, in once, in " + name, "sweep link 0 %d\n" % count, setup.replace("connection", "once"),
               "cut 1\n", "once 1028\n", last)
    for pieces, how in ((1, "sweep"), (4096, "vary")):
        cut = "pieces %d\n" % pieces
        script("fronts of the answer, in a miss, in pieces of %d" % pieces, cut, "%s front 0 43\n" % how, asked(url, answer("abc"), 16, 99),
               asked(url, answer("abc"), 0, 0), "connection 1000\n", request("/h/a.deb"), request("/h/a.deb"))
        script("fronts of the answer, in a miss with a tag, in pieces of %d" % pieces, cut, "sweep front 0 53\n",
               asked(url, answer("abc", 'ETag: "x"'), 16, 99), asked(url, answer("bc", "Content-Range: bytes 1-2/3",
                       status="206 Partial"), 1, 99, 1),
               asked(url, answer("c", "Content-Range: bytes 2-2/3", status="206 Partial"), 1, 99, 2),
               asked(url, answer("abc", 'ETag: "x"'), 0, 0), "connection 1000\n", request("/h/a.deb"), request("/h/a.deb"))
        script("fronts of the answer, in an index that is the same, in pieces of %d" % pieces, cut, "sweep front 0 29\n",
               asked(index, answer("abc", "Last-Modified: " + DATE), 0, 15), asked(index, head(["HTTP/1.1 304 Not Modified"]), 32, 99),
               asked(index, head(["HTTP/1.1 304 Not Modified"]), 16, 16),
               "connection 1000\n", old, "connection 1028\n", old, "connection 1028\n", old)
    # A hit asks nobody: whatever the mirror does, the reply is the same.
    script("fronts of the answer, in a hit", "vary front 0 3\n", whole, asked(url, answer("xyz"), 0, 99),
           "once 1000\n", request("/h/b.deb"), "connection 1000\n", request("/h/a.deb"))


# ---- parts and conditions

VARIANTS = [
    [], ["Range: bytes=0-"], ["Range: bytes=0-0"], ["Range: bytes=2-"], ["Range: bytes=1-1"], ["Range: bytes=1-99"], ["Range: bytes=3-"],
    ["Range: bytes=99-"], ["Range: bytes=-1"], ["Range: bytes=1-0"], ["Range: bytes=0-0,2-2"], ["Range: bytes=00-01"], ["Range: Bytes=1-"],
    ["Range: bytes=1-", "Range: bytes=2-"],
    ["Range: bytes=1-", 'If-Range: "x"'], ["Range: bytes=1-", 'If-Range: "y"'], ["Range: bytes=1-", 'If-Range: W/"x"'],
    ["Range: bytes=1-", "If-Range: " + DATE], ["Range: bytes=1-", "If-Range: " + BEFORE], ["Range: bytes=1-", "If-Range: " + AFTER],
    ["Range: bytes=3-", 'If-Range: "y"'], ["Range: bytes=3-", 'If-Range: "x"'], ['If-Range: "x"'],
    ["If-Modified-Since: " + DATE], ["If-Modified-Since: " + BEFORE], ["If-Modified-Since: " + AFTER], ["If-Modified-Since: yesterday"],
    ["If-Modified-Since: Thursday, 01-Jan-70 00:16:40 GMT"], ["If-Modified-Since: Thu Jan  1 00:16:40 1970"],
    ["If-Modified-Since: " + DATE, 'If-None-Match: "x"'], ['If-None-Match: "x"'], ["If-Modified-Since: " + DATE, "Range: bytes=3-"],
    ["If-Modified-Since: " + BEFORE, "Range: bytes=3-"], ["If-Modified-Since: " + BEFORE, "Range: bytes=1-1"],
    ["If-Modified-Since: " + DATE, "Range: bytes=1-", 'If-Range: "y"'],
]


def parts():
    facts = ["Last-Modified: " + DATE, 'ETag: "x"']
    files = [("with a tag and a date", answer("abc", *facts)), ("with neither", answer("abc")), ("with a weak tag", answer("abc",
            'ETag: W/"x"')),
             ("of no length", answer("abc", *facts, length=False)), ("that is empty", answer("", *facts)),
             ("that breaks off", answer("ab", *facts, "Content-Length: 3", length=False)),
             ("of no length that breaks off", None)]
    for name, text in files:
        fault = ""
        if text is None:
            text, fault = answer("ab", *facts, length=False), " fault"
        for method, version in (("GET", "1.1"), ("GET", "1.0"), ("HEAD", "1.1"), ("HEAD", "1.0")):
            first = (method, version) == ("GET", "1.1")
            variants = VARIANTS if first and name in ("with a tag and a date", "of no length", "that breaks off") else VARIANTS[::3]
            brief = not first or name not in ("with a tag and a date", "of no length")
            # A held file: the first request loads it.
            if "breaks off" not in name:
                script("a held file %s, %s %s" % (name, method, version), asked("http://h/a.deb", text, 0, 9, 0, fault),
                       "once 1000\n", request("/h/a.deb"),
                       "".join("connection 1000\n" + request("/h/a.deb", *fields, method=method, version=version) for fields in variants),
                       brief=brief)
            # A missing file: each request is for another one.
            script("a missing file %s, %s %s" % (name, method, version),
                   "".join(asked("http://h/%d.deb" % i, text, 0, 999, 0, fault) for i in range(len(variants))),
                   "".join("connection 1000\n" + request("/h/%d.deb" % i, *fields, method=method, version=version)
                           for i, fields in enumerate(variants)), brief=brief)
    # A volatile file at each request: it is asked for again, and is the same.
    script("a volatile file", asked("http://h/InRelease", answer("abc", *facts), 0, 15), asked("http://h/InRelease",
            head(["HTTP/1.1 304 Not Modified"]), 16, 9999),
           "once 1000\n", request("/h/InRelease"),
           "".join("connection %d\n%s" % (2000 + 28 * i, request("/h/InRelease", *fields)) for i, fields in enumerate(VARIANTS)))
    script("a file that came whole before the answer of no length ended", asked("http://h/a.deb", answer("ab", *facts,
            length=False), 0, 0, 0, " fault"),
           asked("http://h/a.deb", answer("abc", *facts), 16, 16), "connection 1000\n", request("/h/a.deb"), request("/h/a.deb",
                   "Range: bytes=1-"))
    script("connections that close", asked("http://h/a.deb", answer("abc")),
           "".join("connection 1000\n" + request("/h/a.deb", *fields, version=version) + request("/h/a.deb", method="HEAD")
                   for version in ("1.1", "1.0")
                   for fields in ([], ["Connection: close"], ["Connection: Keep-Alive"], ["Connection: x , CLOSE"], ["Connection: closed"],
                                  ["Connection: close", "Connection: close"], ["Connection: keep-alive, close"])))
    script("a file of 200,000 bytes", asked("http://h/b.deb", head(["HTTP/1.1 200 OK", "Content-Length: 200000"]) + "*20000 0123456789\n"),
           "connection 1000\n", request("/h/b.deb"), request("/h/b.deb", "Range: bytes=65530-131099"), request("/h/b.deb",
                   "Range: bytes=199999-"),
           request("/h/b.deb", "Range: bytes=200000-"))
    script("another file of 200,000 bytes", "pieces 1000\n", asked("http://h/b.deb", head(["HTTP/1.1 200 OK",
            "Content-Length: 200000"]) + "*20000 0123456789\n"),
           "connection 1000\n", request("/h/b.deb", method="HEAD"), "cut 777\n", "connection 1000\n", request("/h/b.deb"),
           "room 100000\n", "connection 1000\n", request("/h/b.deb"))


# ---- connections

def connections():
    ask = request("/h/a.deb")
    script("a thousand requests", asked("http://h/a.deb", answer("abc"), 0, 0), "connection 1000\n",
           "".join("*1000 GET /h/a.deb HTTP/1.1\\r\\n\\r\\n\n"), ask)
    script("999 requests", asked("http://h/a.deb", answer("abc"), 0, 0), "connection 1000\n", "*999 GET /h/a.deb HTTP/1.1\\r\\n\\r\\n\n")
    script("a thousand refusals", "connection 1000\n", "*1001 GET /h/readme HTTP/1.1\\r\\n\\r\\n\n")
    chance = random.Random(25)
    for number in range(40):
        made(chance, number)


def made_answer(chance, path):
    """What an origin answers to asks for a file in some attempts."""
    body = chance.choice(["abc", "", "abcdefghij", "x" * 50])
    fields = [field for field in ("Last-Modified: " + DATE, 'ETag: "x"') if chance.random() < 0.5]
    fault = chance.choice(["", "", "", " fault"])
    kind = chance.randrange(10)
    if kind < 5:
        return answer(body, *fields), fault
    if kind == 5:
        return answer(body, *fields, length=False), fault
    if kind == 6:
        return answer("no", status=chance.choice(["404 Not Found", "410 Gone", "503 Busy"])), fault
    if kind == 7:
        return head(["HTTP/1.1 304 Not Modified"]), fault
    if kind == 8:
        return head(["HTTP/1.1 302 Found", "Location: " + chance.choice(["/a.deb", "/InRelease", "https://h/a.deb",
                "http://i/x.gz"])]), fault
    return answer(body, *fields, "Content-Length: %d" % (len(body) + chance.choice([0, 1, 5])), length=False), fault


def made(chance, number):
    """Several connections over a few files, at moments that go on and back, with a mirror that answers as it likes."""
    paths = ["h/a.deb", "h/InRelease", "i/x.gz"]
    text = "pieces %d\n" % chance.choice([1, 7, 4096])
    if chance.random() < 0.2:
        text += "rows %d\n" % chance.choice([1, 2])
    if chance.random() < 0.3:
        text += "conf RedirMax: %d\n" % chance.choice([0, 1, 15])
    if chance.random() < 0.3:
        text += "conf FreshIndexMaxAge: %d\n" % chance.choice([0, 100])
    for path in paths:
        first = 0
        for _ in range(chance.choice([2, 4, 6])):
            last = first + chance.choice([0, 1, 15, 40])
            body, fault = made_answer(chance, path)
            text += asked("http://" + path, body, first, last, 0, fault)
            first = last + 1
        for start in (2, 3):
            last = chance.choice([3, 20, 60])
            rest = answer("c" * (3 - start) if start < 3 else "defghij", "Content-Range: bytes %d-%d/%d" % (start,
                    2 if start < 3 else 9, 3 if start < 3 else 10),
                          status="206 Partial Content")
            text += asked("http://" + path, rest, 0, last, start)
    moment = 1000
    for _ in range(chance.choice([2, 3, 5])):
        asks = chance.choice([1, 2, 4, 7])
        moments = []
        for _ in range(asks):
            moment = max(0, moment + chance.choice([0, 0, 1, 27, 28, 60, -5]))
            moments.append(str(moment))
        text += "cut %d\n" % chance.choice([1, 5, 100, 4096])
        text += "connection %s\n" % " ".join(moments)
        for _ in range(asks):
            fields = chance.choice(VARIANTS) if chance.random() < 0.5 else []
            if chance.random() < 0.1:
                fields = fields + ["Connection: close"]
            text += request("/" + chance.choice(paths + paths + ["h/readme", "j/y.deb"]), *fields,
                            method=chance.choice(["GET", "GET", "GET", "HEAD"]), version=chance.choice(["1.1"] * 7 + ["1.0"]))
        if chance.random() < 0.3:
            text += chance.choice(["+GET /h/a\n", request("/h/a.deb", method="POST"), request("/h/a.deb", "Content-Length: 3"),
                    "+x\\r\\n\\r\\n\n"])
    script("made %d" % number, text, brief=number >= 10)


# ---- ten connections, with each call failing in turn

def scripts_of_connections():
    chance = random.Random(21)
    for number in range(10):
        facts = [field for field in ("Last-Modified: " + DATE, 'ETag: "x"') if chance.random() < 0.6]
        text = asked("http://h/a.deb", answer(chance.choice(["abc", "abcdefgh"]), *facts), 0, 999)
        text += asked("http://h/InRelease", answer("abc", *facts), 0, 16) + asked("http://h/InRelease",
                head(["HTTP/1.1 304 Not Modified"]), 17, 999)
        asks, moments = "", []
        for turn in range(chance.choice([2, 3, 4])):
            moments.append(str(1000 + turn * chance.choice([0, 28])))
            fields = chance.choice(VARIANTS)
            asks += request("/" + chance.choice(["h/a.deb", "h/InRelease"]), *fields, method=chance.choice(["GET", "GET", "HEAD"]))
        count = len(asks) + 260 * len(moments)
        connection = "connection %s\n%s" % (" ".join(moments), asks)
        script("connection %d" % number, text, connection)
        script("connection %d, calls of the link" % number, "sweep link 0 %d\n" % count, text, "cut 1\n", connection)
        script("connection %d, calls of the keeper" % number, "sweep keeper 0 30\n", text, connection,
                "connection 9000\n" + request("/h/a.deb"))
        script("connection %d, fronts of the answer" % number, "sweep front 0 60\n", text, asked("http://h/i.deb", answer("abc")),
               connection, "connection 9000\n" + request("/h/i.deb") + request("/h/i.deb"))


def main():
    rows()
    causes()
    pages()
    failures()
    parts()
    connections()
    scripts_of_connections()


if __name__ == "__main__":
    main()
