#!/usr/bin/env python3
"""The built program's `once` over sockets: the reply to each of some hundred requests with ranges and conditions, byte for
byte what the model (tests/model/proxy.py) reckons; and curl and wget go on with a download that broke off.

    replies.py PROGRAM

Each request comes over a socket of its own, as a super-server hands it over. The mirror is a thread of this check, which
answers by a table.
"""
import os
import shutil
import socket
import subprocess
import sys
import tempfile
import threading
import time

sys.path.insert(0, os.path.join(os.path.dirname(os.path.abspath(__file__)), "model"))
import proxy
import scripts

failed = 0


def said(name, good, seen=""):
    global failed
    print("replies: %s: %s" % (name, "as expected" if good else "NOT as expected " + seen), flush=True)
    failed += not good


class Listener:
    """A thread that hands each connection to a port of the loopback to a function, one after another."""

    def __init__(self, serve):
        self.socket = socket.socket()
        self.socket.bind(("127.0.0.1", 0))
        self.socket.listen(64)
        self.port, self.serve = self.socket.getsockname()[1], serve
        threading.Thread(target=self.run, daemon=True).start()

    def run(self):
        while True:
            connection, _ = self.socket.accept()
            with connection:
                self.serve(connection)


class Mirror:
    """What the mirror answers to each path, and how often it was asked."""

    def __init__(self):
        self.answers, self.asked = {}, 0
        self.listener = Listener(self.serve)
        self.host = "localhost:%d" % self.listener.port

    def serve(self, connection):
        head = b""
        while b"\r\n\r\n" not in head:
            piece = connection.recv(4096)
            if not piece:
                return
            head += piece
        self.asked += 1
        connection.sendall(self.answers[head.split(b" ")[1].decode()])


def run_once(program, cache, text):
    """The program's status and what it wrote, over a socket."""
    ours, theirs = socket.socketpair()
    with ours:
        child = subprocess.Popen([program, "once", "--cache", cache], stdin=theirs, stdout=theirs, stderr=subprocess.PIPE)
        theirs.close()
        ours.sendall(text)
        ours.shutdown(socket.SHUT_WR)
        written = b""
        while True:
            piece = ours.recv(65536)
            if not piece:
                break
            written += piece
        error = child.communicate()[1]
    return child.returncode, written + error


def expect(mirror, keeper, text):
    """The status and the reply by the model."""
    answers = [{"url": "http://%s%s" % (mirror.host, path), "from": 0, "first": 0, "last": 1 << 60, "fault": False, "bytes": answer}
               for path, answer in mirror.answers.items()]
    conf = proxy.Conf("")
    desk = proxy.Desk(keeper, conf, 0, 1048576)
    link = proxy.Link(text, 4096, 1 << 40, None)
    client = {"moments": [int(time.time())]}
    _, stop, cause, whole = proxy.serve(desk, proxy.Mirror(answers, 4096), client, link, 1, True)
    return proxy.once_status(stop, cause, whole), link.written


def bytes_of(text):
    """What a text in the form of the scripts stands for."""
    return b"".join(proxy.unescape(line[1:]) for line in text.split("\n") if line)


def check_requests(program, work, mirror, name, answer, kept):
    """Each request for a file that isn't held, and for one that is where it is kept."""
    cache, keeper = tempfile.mkdtemp(dir=work), proxy.Keeper(proxy.NEVER)
    for held in (True, False) if kept else (False,):
        wrong, count = [], 0
        for i, fields in enumerate(scripts.VARIANTS):
            path = "/held.deb" if held else "/%d.deb" % i
            mirror.answers[path] = answer
            method, version = ("HEAD", "1.1") if i % 5 == 4 else ("GET", "1.0" if i % 5 == 2 else "1.1")
            text = bytes_of(scripts.request("http://" + mirror.host + path, *fields, method=method, version=version))
            if held and i == 0:
                run_once(program, cache, text)
                expect(mirror, keeper, text)
            asked = mirror.asked
            got, wanted = run_once(program, cache, text), expect(mirror, keeper, text)
            count += 1
            if got != wanted or mirror.asked - asked != (0 if held else 1):
                wrong.append("%s: %r, wanted %r" % (text, got, wanted))
        said("%d requests for a file %s, %s" % (count, name, "held" if held else "not held"), not wrong, "; ".join(wrong[:1]))


def check_resumes(program, work, mirror):
    """Tools that go on with half a file, through the program under a super-server."""
    body = os.urandom(300000)
    mirror.answers["/half.deb"] = b"HTTP/1.1 200 OK\r\nContent-Length: 300000\r\nETag: \"x\"\r\n\r\n" + body
    cache = tempfile.mkdtemp(dir=work)

    def serve(connection):
        subprocess.call([program, "once", "--cache", cache], stdin=connection, stdout=connection)

    server = "http://127.0.0.1:%d" % Listener(serve).port
    url = "http://%s/half.deb" % mirror.host
    for tool, words in (("curl", ["curl", "-s", "-C", "-", "--noproxy", "", "-x", server, "-o"]), ("wget", ["wget", "-q", "-c", "-O"])):
        if not shutil.which(tool):
            print("replies: %s goes on with a file: skipped, there is no %s" % (tool, tool))
            continue
        path = os.path.join(work, tool)
        with open(path, "wb") as half:
            half.write(body[:123456])
        status = subprocess.call(words + [path, url], env=dict(os.environ, http_proxy=server, no_proxy=""), timeout=60)
        with open(path, "rb") as whole:
            said("%s goes on with a file" % tool, status == 0 and whole.read() == body, "status %d" % status)
    said("the mirror was asked once for it", mirror.asked == 1, "%d times" % mirror.asked)


def main():
    program = os.path.abspath(sys.argv[1])
    facts = ["Last-Modified: " + scripts.DATE, 'ETag: "x"']
    with tempfile.TemporaryDirectory() as work:
        check_resumes(program, work, Mirror())
        for name, answer, kept in [
                ("with a tag and a date", scripts.answer("abc", *facts), True),
                ("of no length", scripts.answer("abc", *facts, length=False), True),
                ("that breaks off", scripts.answer("abc", *facts[:1], "Content-Length: 4", length=False), False)]:
            check_requests(program, work, Mirror(), name, bytes_of(answer), kept)
    sys.exit(1 if failed else 0)


if __name__ == "__main__":
    main()
