"""Clients of a proxy on the loopback, for the checks of `acng serve`.

    clients.py PORT HOST FOLDER CHECK

PORT is the proxy's, HOST the mirror's host and port, FOLDER what the mirror has below `/tree/`. CHECK is one of the
functions below. Each prints a line for each thing that isn't as it should be, and nothing where all is.
"""
import hashlib
import os
import random
import socket
import sys
import threading
import time


def connect(port, seconds=60):
    stream = socket.create_connection(("127.0.0.1", port))
    stream.settimeout(seconds)
    return stream


class Client:
    """One connection, on which requests go one after another."""

    def __init__(self, port):
        self.stream, self.held = connect(port), b""

    def send(self, method, target, fields=""):
        text = "%s %s HTTP/1.1\r\nHost: proxy\r\n%s\r\n" % (method, target, fields)
        self.stream.sendall(text.encode())

    def more(self):
        piece = self.stream.recv(65536)
        self.held += piece
        return bool(piece)

    def reply(self, bare=False):
        """The status, the head's fields and the body."""
        while b"\r\n\r\n" not in self.held:
            if not self.more():
                return 0, {}, b""
        head, _, self.held = self.held.partition(b"\r\n\r\n")
        lines = head.decode("latin-1").split("\r\n")
        fields = dict(line.lower().split(": ", 1) for line in lines[1:])
        length = 0 if bare else int(fields.get("content-length", "0"))
        while len(self.held) < length and self.more():
            pass
        body, self.held = self.held[:length], self.held[length:]
        return int(lines[0].split()[1]), fields, body

    def get(self, target, fields=""):
        self.send("GET", target, fields)
        return self.reply()


def files(folder):
    return sorted(os.listdir(folder))


def bytes_of(folder, name):
    with open(os.path.join(folder, name), "rb") as file:
        return file.read()


def run(jobs):
    threads = [threading.Thread(target=job) for job in jobs]
    for it in threads:
        it.start()
    for it in threads:
        it.join()


# 64 clients ask for all files, each in an order of its own, on one connection each.
def crowd(port, host, folder):
    sums = {name: hashlib.sha256(bytes_of(folder, name)).digest() for name in files(folder)}

    def one(number):
        names = files(folder)
        random.Random(number).shuffle(names)
        client = Client(port)
        for name in names:
            status, _, body = client.get("http://%s/tree/%s" % (host, name))
            if status != 200 or hashlib.sha256(body).digest() != sums[name]:
                print("client %d: %s: status %d, %d bytes" % (number, name, status, len(body)))

    run([lambda number=number: one(number) for number in range(64)])


FRAME = b"<!DOCTYPE html><html><head><title>acng report</title></head><body><pre>\n"


def page_of(host, folder):
    """The report page of a cache that holds the files, and nothing else."""
    sizes = {"%s/tree/%s" % (host, name): len(bytes_of(folder, name)) for name in files(folder)}
    lines = ["%s %d solid -" % (path, sizes[path]) for path in sorted(sizes)]
    lines.append("rows %d bytes %d" % (len(sizes), sum(sizes.values())))
    return FRAME + "\n".join(lines + ["</pre></body></html>", ""]).encode()


def visit(port, name, target, status, wanted, bare=False):
    """A request for the page, which closes a connection of its own."""
    client = Client(port)
    client.send("HEAD" if bare else "GET", target)
    code, fields, body = client.reply(bare)
    kind, length = fields.get("content-type"), fields.get("content-length")
    if (code, body) != (status, b"" if bare else wanted) or length != str(len(wanted)):
        print("%s: status %d, %s, %s, %r" % (name, code, kind, length, body[:300]))
    if status == 200 and (kind != "text/html" or client.more()):
        print("%s: %s, or more behind it" % (name, kind))


# The page of what is held; a run of expiration needs leave.
def page(port, host, folder):
    wanted = page_of(host, folder)
    visit(port, "the page", "/acng-report.html", 200, wanted)
    visit(port, "its head", "/acng-report.html", 200, wanted, bare=True)
    visit(port, "another query", "/acng-report.html?run=import", 200, wanted)
    visit(port, "a run without leave", "/acng-report.html?run=expire", 403, b"403 Maint\n")


# Runs of expiration by 20 clients at once, over a cache without an index: each is aborted, and changes nothing.
def expire(port, host, folder):
    held = Client(port).get("/acng-report.html")[2]
    wanted = held.replace(FRAME, FRAME + b"aborted problems 1\n")
    run([lambda: visit(port, "a run", "/acng-report.html?run=expire", 200, wanted)] * 20)
    visit(port, "the page", "/acng-report.html", 200, held)
    if b" solid -\n" not in held:
        print("nothing is held: %r" % held[:300])


# Requests of one connection, of which some are sent before the replies to others were read.
def line(port, host, folder):
    name = files(folder)[0]
    whole = bytes_of(folder, name)
    target = "/%s/tree/%s" % (host, name)
    client = Client(port)
    client.send("GET", target, "Range: bytes=5-9\r\n")
    client.send("HEAD", target)
    client.send("GET", "/%s/gone/x.deb" % host)
    client.send("GET", target)
    seen = [client.reply(), client.reply(bare=True), client.reply(), client.reply()]
    wanted = [(206, whole[5:10]), (200, b""), (404, b"404 Gone\n"), (200, whole)]
    for number, ((status, fields, body), (code, text)) in enumerate(zip(seen, wanted)):
        if status != code or body != text:
            print("reply %d: status %d, %d bytes" % (number, status, len(body)))
    if seen[1][1].get("content-length") != str(len(whole)):
        print("the head's length is another")


# A reply that closes reaches a client whole that has sent many requests behind it and reads late.
def behind(port, host, folder):
    name = files(folder)[-1]
    target = "/%s/tree/%s" % (host, name)
    client = Client(port)
    client.send("GET", target, "Connection: close\r\n")
    client.stream.sendall(b"GET /%s HTTP/1.1\r\n\r\n" % host.encode() * 2000)
    time.sleep(0.5)
    status, _, body = client.reply()
    if status != 200 or body != bytes_of(folder, name):
        print("status %d, %d bytes" % (status, len(body)))


# Others are served while 50 connections say nothing, one says a byte a second, one takes nothing, and a mirror stalls.
def stalls(port, host, folder):
    silent = [connect(port) for _ in range(50)]
    slow = connect(port)
    slow.sendall(b"G")
    lazy = connect(port)
    lazy.setsockopt(socket.SOL_SOCKET, socket.SO_RCVBUF, 4096)
    lazy.sendall(b"GET /%s/tree/%s HTTP/1.1\r\n\r\n" % (host.encode(), files(folder)[0].encode()))
    waits = Client(port)
    waits.send("GET", "/%s/stalled/x.deb" % host)
    time.sleep(0.5)
    slow.sendall(b"E")
    begun = time.monotonic()
    for name in files(folder):
        status, _, body = Client(port).get("/%s/tree/%s" % (host, name))
        if status != 200 or body != bytes_of(folder, name):
            print("%s: status %d, %d bytes" % (name, status, len(body)))
    if time.monotonic() - begun > 20:
        print("the others took %d seconds" % (time.monotonic() - begun))
    for stream in [*silent, slow, lazy, waits.stream]:
        stream.close()


# 30 clients ask for a file each that comes slowly; what they get is cut off by a kill.
def loads(port, host, folder):
    def one(number):
        try:
            Client(port).get("/%s/named/%d_1_all.deb" % (host, number))
        except OSError:
            pass

    run([lambda number=number: one(number) for number in range(30)])


# The same files, asked for once more: each is right.
def after(port, host, folder):
    def one(number):
        target = "/named/%d_1_all.deb" % number
        direct = socket.create_connection(("127.0.0.1", int(host.split(":")[1])))
        direct.sendall(("GET %s HTTP/1.1\r\n\r\n" % target).encode())
        whole = b""
        while piece := direct.recv(65536):
            whole += piece
        status, _, body = Client(port).get("/%s%s" % (host, target))
        if status != 200 or body != whole.partition(b"\r\n\r\n")[2]:
            print("%s: status %d, %d bytes" % (target, status, len(body)))

    run([lambda number=number: one(number) for number in range(30)])


# No file above 100 KiB can be kept, of those of 90 KB to 261 KB. A new one above that is refused or ends early; a small new one and
# all that are held are whole.
def full(port, host, folder):
    for name in files(folder):
        status, _, body = Client(port).get("/%s/tree/%s" % (host, name))
        if status != 200 or body != bytes_of(folder, name):
            print("held %s: status %d, %d bytes" % (name, status, len(body)))
    status, _, body = Client(port).get("/%s/named/new_1_all.deb" % host)
    if status == 200 and len(body) > 102_400 or status not in (200, 500):
        print("a new file: status %d, %d bytes" % (status, len(body)))
    status, _, body = Client(port).get("/%s/dated/small_1_all.deb" % host)
    if (status, body) != (200, b"abc"):
        print("a small file: status %d, %d bytes" % (status, len(body)))


# 200 connections say nothing. Another client gets its file all the same, once enough of them have been given up.
def silent(port, host, folder):
    quiet = [connect(port) for _ in range(200)]
    name = files(folder)[0]
    client = Client(port)
    client.stream.settimeout(140)
    status, _, body = client.get("/%s/tree/%s" % (host, name))
    if status != 200 or body != bytes_of(folder, name):
        print("%s: status %d, %d bytes" % (name, status, len(body)))
    for stream in quiet:
        stream.close()


CHECKS = {"crowd": crowd, "line": line, "behind": behind, "stalls": stalls, "loads": loads, "after": after, "page": page,
          "expire": expire, "full": full, "silent": silent}
CHECKS[sys.argv[4]](int(sys.argv[1]), sys.argv[2], sys.argv[3])
