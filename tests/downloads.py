#!/usr/bin/env python3
"""Downloads of the built program over sockets, from a mirror that faults.

`downloads.py PROGRAM FOLDER [SCRIPTS [CUTS]]` runs `PROGRAM once` on SCRIPTS drawn scripts of a mirror and on CUTS downloads of
a file of 5,000,000 bytes, each cut at a random byte, and prints a line for each that isn't as it has to be. FOLDER is for the
caches. The mirror answers on a free port of the loopback: its k-th answer under a script's number is the k-th of the script,
and it keeps a log of what it was asked. The replies and the log that are wanted are those of the model (`model/download.py`).
A connection that fails is one that the mirror resets.
"""
import concurrent.futures
import email.utils
import fcntl
import hashlib
import os
import random
import shutil
import socket
import struct
import subprocess
import sys
import termios
import threading
import time

sys.path.insert(0, os.path.join(os.path.dirname(os.path.abspath(__file__)), "model"))
import download as model  # noqa: E402
import download_scripts as scripts  # noqa: E402

WORKERS = 4
BIG = 5_000_000
STATUS = {"Gone": b"404 Not Found"}


# ---- the mirror

class Mirror:
    """Answers by number: `answers[number]` is a function of an ask's place that gives a text and whether a fault follows."""

    def __init__(self):
        self.answers, self.logs, self.lock = {}, {}, threading.Lock()
        self.listener = socket.socket()
        self.listener.bind(("127.0.0.1", 0))
        self.listener.listen(128)
        self.port = self.listener.getsockname()[1]
        threading.Thread(target=self.listen, daemon=True).start()

    def listen(self):
        while True:
            connection, _ = self.listener.accept()
            threading.Thread(target=self.serve, args=(connection,), daemon=True).start()

    def serve(self, connection):
        text = b""
        while b"\r\n\r\n" not in text:
            piece = connection.recv(4096)
            if not piece:
                return connection.close()
            text += piece
        lines = text.decode("latin-1").split("\r\n")
        target = lines[0].split(" ")[1]
        fields = "".join(" [%s]" % line for line in lines[1:] if line.split(":")[0] in ("Range", "If-Range", "If-Modified-Since"))
        number = int(target.split("/")[2])
        with self.lock:
            self.logs.setdefault(number, []).append(target + fields)
            count = len(self.logs[number])
        start = next((int(line[13:-1]) for line in lines if line.startswith("Range: bytes=")), 0)
        try:
            self.send(connection, *self.answers[number](count, start))
        except OSError:
            connection.close()

    @staticmethod
    def send(connection, text, fails):
        connection.sendall(text)
        if fails:
            # what was sent has to be there before the reset
            for _ in range(1000):
                if struct.unpack("i", fcntl.ioctl(connection, termios.TIOCOUTQ, b"\0\0\0\0"))[0] == 0:
                    break
                time.sleep(0.002)
            connection.setsockopt(socket.SOL_SOCKET, socket.SO_LINGER, struct.pack("ii", 1, 0))
        connection.close()


# ---- the program

class Program:
    def __init__(self, path, folder, port):
        self.path, self.folder = path, folder
        self.conf = os.path.join(folder, "downloads.conf")
        base = "http://localhost:%d/" % port
        self.groups = {"one": [base + "a"], "two": [base + "a", base + "b"], "dead": ["http://localhost:1/a", base + "b", base + "c"],
                       "four": [base + letter for letter in "abcd"]}
        with open(self.conf, "w") as file:
            for name, places in self.groups.items():
                file.write("Remap-%s: /%s ; %s\n" % (name, name, " ".join(places)))

    def get(self, target, cache):
        """The status and the reply of one request."""
        request = ("GET %s HTTP/1.1\r\n\r\n" % target).encode()
        words = [self.path, "once", "--conf", self.conf, "--cache", os.path.join(self.folder, cache)]
        done = subprocess.run(words, input=request, stdout=subprocess.PIPE, timeout=120)
        return done.returncode, done.stdout


def body_of(reply):
    """The head of a reply, and its body out of its chunks; None where the body isn't whole."""
    head, _, rest = reply.partition(b"\r\n\r\n")
    if b"\r\nTransfer-Encoding: chunked" not in head:
        return head + b"\r\n\r\n", rest
    body = b""
    while True:
        line, found, rest = rest.partition(b"\r\n")
        size = int(line, 16) if found else 0
        if not found or rest[size:size + 2] != b"\r\n":
            return head + b"\r\n\r\n", None
        if size == 0:
            return head + b"\r\n\r\n", body
        body, rest = body + rest[:size], rest[size + 2:]


# ---- drawn scripts

def reply_of(body, facts):
    """The head of the reply with a whole body."""
    lines = [b"HTTP/1.1 200 OK", b"Content-Type: application/octet-stream"]
    lines.append(b"Transfer-Encoding: chunked" if facts.total is None else b"Content-Length: %d" % facts.total)
    if facts.modified is not None:
        lines.append(b"Last-Modified: " + email.utils.formatdate(facts.modified, usegmt=True).encode())
    if facts.tag is not None:
        lines.append(b"ETag: " + facts.tag)
    return b"\r\n".join(lines + [b"Connection: close", b"", b""]), body


def refusal_of(cause):
    """The reply that says why there is no body."""
    status = STATUS.get(cause, b"502 Bad Gateway")
    line = status[:4] + cause.encode() + b"\n"
    return b"HTTP/1.1 %s\r\nContent-Type: text/plain\r\nContent-Length: %d\r\nConnection: close\r\n\r\n" % (status, len(line)), line


class Told:
    """What a script's requests have to bring: replies, statuses and the mirror's log; and its answers in order."""

    def __init__(self, script):
        self.replies, self.statuses, self.log, self.answers = [], [], [], []
        house = model.House(script)
        for moment in script.asks:
            # each run is a program of its own: what an earlier one held in part is gone
            house.part = None
            kept, asks, body = house.run(moment)
            for _, url, fields, answer, _ in asks:
                if ":1/" not in url:
                    self.log.append("/" + url.split("/", 3)[3].split("#")[0] + fields)
                    self.answers.append((answer.text, answer.short == "slip"))
            if kept:
                self.replies.append(reply_of(kept.text, kept.facts))
            elif body.stage == "Whole":
                self.replies.append(reply_of(body.text, body.facts))
            else:
                self.replies.append(refusal_of(body.cause[0]))
            self.statuses.append(0 if kept or body.stage == "Whole" else 1)


class Sockets(scripts.Chance):
    """A drawn script under a number. No attempt fails at the dial but those at a port without a mirror."""

    def answer(self, number, url, start):
        if ":1/" in url:
            return None
        text, slip = self.text_at(start)
        self.on(number, url, text, slip, start)
        return scripts.Script.answer(self, number, url, start)


def drawn(chance, number, groups):
    group = chance.choice(sorted(groups))
    origins = ["%s/%d/x.deb" % (place, number) for place in groups[group]]
    places = [b"g.deb", b"/c/%d/h.deb?a=b" % number, b"/a/%d/x.deb" % number, b"https://localhost/", b"http://[", b"i.deb#part"]
    script = Sockets(chance, "drawn %d" % number, origins, [1000] * chance.choice([1, 2, 3]), 5, False, places)
    return "/%s/%d/x.deb" % (group, number), Told(script)


def run_script(program, mirror, number, target, told):
    """What is wrong, or None."""
    answers = told.answers
    mirror.answers[number] = lambda count, _: answers[count - 1] if count <= len(answers) else (b"", False)
    cache, wrong = "script-%d" % number, None
    for i, wanted in enumerate(told.replies):
        status, reply = program.get(target, cache)
        if status != told.statuses[i] or body_of(reply) != wanted:
            wrong = "request %d: status %d and the reply %r, wanted %d and %r" % (i, status, reply, told.statuses[i], wanted)
            break
    log = mirror.logs.get(number, [])
    if wrong is None and log != told.log:
        wrong = "the mirror was asked %r, and not %r" % (log, told.log)
    shutil.rmtree(os.path.join(program.folder, cache), ignore_errors=True)
    return wrong


# ---- a large file that is cut

def cut_file(program, mirror, number, body, tag, place, fails):
    """A download of which the first answer is cut behind so many bytes. What is wrong, or None."""
    def answer(count, start):
        text = scripts.counted(body, tag) if count == 1 else scripts.rest(body, start, tag)
        return (text[:len(text) - len(body) + place], fails) if count == 1 else (text, False)

    mirror.answers[number] = answer
    cache = "cut-%d" % number
    status, reply = program.get("/one/%d/x.deb" % number, cache)
    shutil.rmtree(os.path.join(program.folder, cache), ignore_errors=True)
    log = mirror.logs.get(number, [])
    head, found = body_of(reply)
    if tag is None or tag.startswith(b"W"):
        wanted = refusal_of("Origin" if fails else "Early")
        return None if (status, head, found) == (1, *wanted) and len(log) == 1 else "status %d, %d asks, %r" % (status, len(log), head)
    asked = "/a/%d/x.deb [Range: bytes=%d-] [If-Range: %s]" % (number, place, tag.decode())
    if log != ["/a/%d/x.deb" % number, asked]:
        return "the mirror was asked %r" % log
    right = hashlib.sha256(found or b"").digest() == hashlib.sha256(body).digest() and head == reply_of(b"", model.Facts(BIG, None, tag))[0]
    return None if status == 0 and right else "status %d, the head %r, and %d bytes" % (status, head, len(found or b""))


# ---- all

def report(name, jobs):
    """Runs the jobs, each a name and a call, and prints what is wrong. Whether all went well."""
    begun, bad = time.time(), 0
    with concurrent.futures.ThreadPoolExecutor(WORKERS) as pool:
        for job, result in [(job, pool.submit(call)) for job, call in jobs]:
            wrong = result.result()
            if wrong is not None:
                bad += 1
                print("%s %s: %s" % (name, job, wrong[:2000]))
    print("%s: %d, %d not as expected, %.0f s" % (name, len(jobs), bad, time.time() - begun), flush=True)
    return bad == 0


def main():
    count, cuts = (int(word) for word in (sys.argv[3:] + ["200", "1000"][len(sys.argv) - 3:]))
    mirror = Mirror()
    program = Program(sys.argv[1], sys.argv[2], mirror.port)
    chance = random.Random(200)
    jobs = []
    for number in range(count):
        target, told = drawn(chance, number, program.groups)
        jobs.append((number, lambda n=number, t=target, w=told: run_script(program, mirror, n, t, w)))
    good = report("drawn scripts", jobs)
    chance = random.Random(5)
    body, jobs = chance.randbytes(BIG), []
    for i in range(cuts):
        place, fails = chance.randrange(BIG), i % 2 == 1
        jobs.append((place, lambda n=count + i, p=place, f=fails: cut_file(program, mirror, n, body, b'"strong"', p, f)))
    good = report("cuts of a file with a strong tag", jobs) and good
    jobs = []
    for i, tag in enumerate([None, b'W/"weak"'] * 10):
        place, fails = chance.randrange(BIG), i % 4 > 1
        jobs.append((place, lambda n=count + cuts + i, p=place, f=fails, t=tag: cut_file(program, mirror, n, body, t, p, f)))
    good = report("cuts of a file without one", jobs) and good
    sys.exit(0 if good else 1)


if __name__ == "__main__":
    main()
