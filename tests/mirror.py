#!/usr/bin/env python3
"""A mirror for the checks of the built program: it answers on a free port of the loopback.

`mirror.py FILE [LOG [FOLDER]]` prints `ready PORT` once it listens. LOG gets a line for each request: the method, the path,
the status that was sent and, where the request asks for a part or has a date, `part` or `date`. The first segment of a
request's path names the answer:
  whole, empty, slow        the file, or nothing, counted; slow sends one byte at a time
  named                     a text of 200,000 bytes that is made of the path, in 20 pieces over half a second
  dated                     three bytes with a date and a tag; status 304 where the request has that date
  cut                       a head that promises one byte more than comes
  tagged                    half of the file with a tag, and then the connection ends; the rest to a request for it by the tag
  chunked, chunks           the file, or three bytes, in chunks
  broken                    chunks without the last one
  toend                     the file, up to the connection's end
  interim                   two 1xx heads, and then the file
  open, openchunked, opengone   an answer that ends, on a connection that stays open
  away, loop                a redirect to `whole`, and one to itself
  gone, lost, moved, none, part, error, same   other statuses; moved leads to https
  badlength, badhead, badchunk, early, silent  answers that aren't taken, or that break off
  stalled, stalledhead      the mirror stops sending, in the body or in the head, and keeps the connection
  tree                      the file of that name in FOLDER, with its date
Connections are served each in a thread of its own. It ends when its standard input ends.
"""
import email.utils
import hashlib
import os
import socket
import sys
import threading
import time

DATE = b"Thu, 01 Jan 1970 00:16:40 GMT"
LOCK = threading.Lock()


def counted(body, more=0, fields=b""):
    return b"HTTP/1.1 200 OK\r\n" + fields + b"Content-Length: %d\r\n\r\n" % (len(body) + more) + body


def chunked(body, last=b"0\r\n\r\n"):
    pieces = [body[i:i + 16384] for i in range(0, len(body), 16384)]
    text = b"".join(b"%x\r\n%s\r\n" % (len(piece), piece) for piece in pieces)
    return b"HTTP/1.1 200 OK\r\nTransfer-Encoding: chunked\r\n\r\n" + text + last


def status(line, fields=b"Content-Length: 0\r\n"):
    return b"HTTP/1.1 " + line + b"\r\n" + fields + b"\r\n"


def named(path):
    return hashlib.sha256(path.encode()).hexdigest().encode() * 3125


def dated(head):
    fields = b"Last-Modified: " + DATE + b"\r\nETag: \"x\"\r\n"
    if b"If-Modified-Since: " + DATE in head:
        return status(b"304 Not Modified", fields)
    return counted(b"abc", 0, fields)


def tagged(head, body):
    half = len(body) // 2
    if b"Range: bytes=%d-\r\n" % half in head and b"If-Range: \"t\"\r\n" in head:
        place = b"Content-Range: bytes %d-%d/%d\r\n" % (half, len(body) - 1, len(body))
        return status(b"206 Partial Content", place + b"Content-Length: %d\r\n" % (len(body) - half)) + body[half:]
    return counted(body, 0, b"ETag: \"t\"\r\n")[:-(len(body) - half)]


def in_tree(folder, name, head):
    path = os.path.normpath(os.path.join(folder, name))
    if not path.startswith(folder) or not os.path.isfile(path):
        return status(b"404 Not Found")
    date = email.utils.formatdate(int(os.stat(path).st_mtime), usegmt=True).encode()
    if b"If-Modified-Since: " + date in head:
        return status(b"304 Not Modified")
    with open(path, "rb") as file:
        return counted(file.read(), 0, b"Last-Modified: " + date + b"\r\n")


def fixed(kind, body):
    early = b"HTTP/1.1 103 Early Hints\r\n\r\nHTTP/1.1 100 Continue\r\n\r\n"
    return {
        "whole": counted(body),
        "empty": counted(b""),
        "slow": counted(b"slowly"),
        "cut": counted(body, 1),
        "chunked": chunked(body),
        "chunks": chunked(b"abc"),
        "broken": chunked(b"abc", b""),
        "toend": b"HTTP/1.1 200 OK\r\n\r\n" + body,
        "interim": early + counted(b"abc"),
        "open": counted(b"abc"),
        "openchunked": chunked(b"abc"),
        "opengone": status(b"404 Not Found"),
        "gone": status(b"404 Not Found"),
        "lost": status(b"410 Gone"),
        "moved": status(b"302 Found", b"Location: https://localhost/\r\nContent-Length: 0\r\n"),
        "none": status(b"204 No Content", b""),
        "part": status(b"206 Partial Content", b"Content-Range: bytes 0-2/3\r\nContent-Length: 3\r\n") + b"abc",
        "error": status(b"500 Internal Server Error"),
        "same": status(b"304 Not Modified", b""),
        "badlength": status(b"200 OK", b"Content-Length: x\r\n"),
        "badhead": b"hello\r\n\r\n",
        "badchunk": b"HTTP/1.1 200 OK\r\nTransfer-Encoding: chunked\r\n\r\ng\r\n",
        "early": b"HTTP/1.1 200 OK\r\nConte",
        "silent": b"",
        "stalled": counted(b"abc", 1),
        "stalledhead": b"HTTP/1.1 200 OK\r\nConte",
    }.get(kind, status(b"404 Not Found"))


def answer(kind, rest, path, head, body, folder):
    if kind == "away":
        return status(b"302 Found", b"Location: /whole/" + rest.encode() + b"\r\nContent-Length: 0\r\n")
    if kind == "loop":
        return status(b"302 Found", b"Location: " + path.encode() + b"\r\nContent-Length: 0\r\n")
    if kind == "named":
        return counted(named(path))
    if kind == "dated":
        return dated(head)
    if kind == "tagged":
        return tagged(head, body)
    if kind == "tree":
        return in_tree(folder, rest, head)
    return fixed(kind, body)


def note(log, method, path, text, head):
    if log is None:
        return
    code = text[9:12].decode() if text.startswith(b"HTTP/1.1 ") else "---"
    more = " part" if b"\r\nRange: " in head else ""
    more += " date" if b"\r\nIf-Modified-Since: " in head else ""
    with LOCK:
        log.write("%s %s %s%s\n" % (method, path, code, more))
        log.flush()


def send(connection, kind, text):
    if kind == "slow":
        for i in range(len(text)):
            connection.sendall(text[i:i + 1])
    elif kind == "named":
        for i in range(0, len(text), 10_000):
            connection.sendall(text[i:i + 10_000])
            time.sleep(0.025)
    else:
        connection.sendall(text)
    if kind.startswith("open"):
        time.sleep(60)
    if kind.startswith("stalled"):
        time.sleep(300)


def serve(connection, body, log, folder):
    with connection:
        head = b""
        while b"\r\n\r\n" not in head:
            piece = connection.recv(4096)
            if not piece:
                return
            head += piece
        method, path = head.decode("latin-1").split(" ")[:2]
        kind, _, rest = path[1:].partition("/")
        text = answer(kind, rest, path, head, body, folder)
        note(log, method, path, text, head)
        try:
            send(connection, kind, text)
        except OSError:
            pass


def listen(listener, body, log, folder):
    while True:
        connection, _ = listener.accept()
        threading.Thread(target=serve, args=(connection, body, log, folder), daemon=True).start()


def main():
    with open(sys.argv[1], "rb") as file:
        body = file.read()
    log = open(sys.argv[2], "a") if len(sys.argv) > 2 else None
    folder = os.path.abspath(sys.argv[3]) if len(sys.argv) > 3 else "/nonexistent"
    listener = socket.socket()
    listener.bind(("127.0.0.1", 0))
    listener.listen(64)
    threading.Thread(target=listen, args=(listener, body, log, folder), daemon=True).start()
    print("ready %d" % listener.getsockname()[1], flush=True)
    sys.stdin.read()


main()
