#!/usr/bin/env python3
"""What runs of expiration say, from the rules and not from the program: `expire.py in` writes the lists of steps that
crates/acng_expire_table reads, and `expire.py out` what it must write.

Which bodies go is found from all runs before: a body goes at a run where it has been unreached, under one id and at each run
that wasn't aborted, from an earlier run on whose moment lies before by more than four days. The mark that is shown is the least
moment of such a run. No mark is kept from run to run, but after a call of the keeper that failed.

The calls of the keeper are numbered: two at the start; four to put a file, and two more for the body that it replaces; in a run
a fetch and a read for each index and each list that is read, one for each mark that changes, and two for each removal.
"""
import hashlib
import random
import sys

DAYS = 4
BEGIN, END = "-----BEGIN PGP SIGNED MESSAGE-----", "-----BEGIN PGP SIGNATURE-----"
PACKAGES = "Package: a;Filename: pool/main/a/a_1_all.deb;Size: 3;" \
    "SHA256: ba7816bf8f01cfea414140de5dae2223b00361a396177a9cb410ff61f20015ad;"
HASH = hashlib.sha256(PACKAGES.replace(";", "\n").encode()).hexdigest()
INDEX, OTHER = "h/debian/dists/s/InRelease", "h/other/dists/t/InRelease"


def index(*entries):
    lines = "".join(f" {HASH} {size} {path};" for size, path in entries)
    return f"{BEGIN};Hash: SHA256;;SHA256:;{lines}{END};"


FILES = {
    "e": (INDEX, index()),                                                  # names nothing
    "i": (INDEX, index((126, "main/Packages"), (40, "main/Packages.xz"))),  # names a list, plain and packed
    "d": (INDEX, index((1, "x/a"))),                                        # names a file
    "b": (INDEX, "Origin: h;"),                                             # doesn't read
    "o": (OTHER, index((1, "x/a"))),
    "c": (OTHER, "Origin: h;"),
    "k": ("h/debian/dists/s/main/Packages", PACKAGES),
    "n": ("h/debian/dists/s/main/Packages", "Package: a;"),                 # not the one that is named
    "x": ("h/debian/dists/s/main/Packages.xz", "packed"),
    "h": (f"h/debian/dists/s/main/by-hash/SHA256/{HASH}", PACKAGES),
    "g": ("h/debian/dists/s/Release.gpg", "sig"),
    "a": ("h/debian/dists/s/x/a", "a"),
    "p": ("h/debian/pool/main/a/a_1_all.deb", "abc"),
    "q": ("h/debian/pool/main/b", "abcd"),
    "r": ("h/debian/pool/main/c", "abcde"),
}


class Slip(Exception):
    pass


class Cache:
    def __init__(self, most, fail):
        self.most, self.fail, self.calls = most, fail, 0
        self.held = {}      # path: (id, text)
        self.shown = {}     # path: mark
        self.runs = []      # (moment, {path: id}, reached paths, paths that it came to)
        self.next = 0
        self.call(), self.call()

    def call(self):
        self.calls += 1
        if self.calls - 1 == self.fail:
            raise Slip

    def put(self, letter):
        path, text = FILES[letter]
        self.call()
        self.next += 1
        for _ in ("append", "seal", "head"):
            self.call()
        replaces = path in self.held
        self.held[path] = (self.next, text.replace(";", "\n"))
        self.shown.pop(path, None)
        if replaces:
            self.call(), self.call()

    def read(self, path):
        self.call(), self.call()
        return self.held[path][1]

    # The paths that are reached, and the folders that are problems.
    def survey(self):
        reached, problems, indexes = set(), set(), 0
        for path in sorted(self.held):
            folder, _, name = path.rpartition("/")
            if name != "InRelease":
                continue
            indexes += 1
            reached |= {path, f"{folder}/Release.gpg"}
            text = self.read(path)
            if not text.startswith(BEGIN):
                problems.add(folder)
                continue
            base = folder.rpartition("/dists/")[0]
            live, good = set(), set()
            for line in text.split("SHA256:\n")[1].split(END)[0].split("\n"):
                if not line:
                    continue
                digest, size, entry = line.split()
                within, _, last = entry.rpartition("/")
                places = [f"{folder}/{entry}", f"{folder}/{within}/by-hash/SHA256/{digest}"]
                reached |= set(places)
                if last.split(".")[0] == "Packages" and any(place in self.held for place in places):
                    live.add(f"{folder}/{within}")
                for place in places if last == "Packages" else []:
                    if place in self.held:
                        body = self.read(place).encode()
                        if (len(body), hashlib.sha256(body).hexdigest()) == (int(size), digest):
                            good.add(f"{folder}/{within}")
                            names = [row[10:] for row in body.decode().split("\n") if row.startswith("Filename: ")]
                            reached |= {f"{base}/{name}" for name in names}
                            break
            problems |= live - good
        if self.held and not indexes:
            problems.add("")
        return reached, problems

    # The moments of the runs from which a body has been unreached, up to the last one.
    def unreached(self, path, number):
        moments = []
        for moment, bodies, reached, seen in reversed(self.runs):
            if path in bodies and path not in seen:
                continue
            if bodies.get(path) != number or path in reached:
                break
            moments.append(moment)
        return moments

    def put_mark(self, path, seen):
        moments = self.unreached(path, self.held[path][0])
        mark = min(moments) if moments else None
        if self.shown.get(path) == mark:
            return
        try:
            self.call()
        except Slip:
            seen.remove(path)
            raise
        self.shown[path] = mark

    def run(self, now):
        removed = 0
        try:
            reached, problems = self.survey()
            if self.most >= 1 and len(problems) >= self.most:
                return f"{now}: aborted problems {len(problems)}"
            seen = set()
            self.runs.append((now, {path: body[0] for path, body in self.held.items()}, reached, seen))
            for path in sorted(self.held):
                seen.add(path)
                self.put_mark(path, seen)
            for path in sorted(self.held):
                if any(now - moment > DAYS * 86400 for moment in self.unreached(path, self.held[path][0])):
                    del self.held[path]
                    self.shown.pop(path, None)
                    self.call(), self.call()
                    removed += 1
            marked = sum(mark is not None for mark in self.shown.values())
            return f"{now}: done removed {removed} marked {marked}"
        except Slip:
            return f"{now}: stopped removed {removed} by a slip"


def said(head, steps):
    _, _, most, fail = head.split()
    out = [head]
    try:
        cache = Cache(int(most), int(fail) if fail != "-" else None)
    except Slip:
        return out + ["not started"]
    for step in steps:
        word, *rest = step.split()
        if word == "put":
            try:
                cache.put(rest[0])
            except Slip:
                out.append("put refused")
        elif word == "run":
            out.append(cache.run(int(rest[0])))
        elif word == "reads":
            cache.call()
            text = cache.held[FILES[rest[0]][0]][1]
            out.append(cache.run(int(rest[1])))
            cache.call()
            out.append(f"read {text}")
        else:
            for path in sorted(cache.held):
                mark = cache.shown.get(path)
                out.append(f"{path} {len(cache.held[path][1])} {'-' if mark is None else mark}")
            out.append(f"rows {len(cache.held)}")
    return out


def puts(letters):
    return [f"put {letter}" for letter in letters]


def written():
    yield "list threshold 1 -", puts("ep") + ["run 1000000", "run 1345600", "show", "run 1345601", "show"]
    yield "list between 1 -", puts("ea") + ["run 0", "put d", "run 100", "show", "put e", "run 200", "run 345701", "show", "run 345800",
                                            "run 345801", "show"]
    yield "list packed 1 -", puts("ixp") + ["run 100", "run 345701", "show"]
    yield "list unlimited 0 -", puts("ixp") + ["run 100", "show", "run 345700", "run 345701", "show"]
    yield "list plain 1 -", puts("ixkp") + ["run 100", "run 999999999", "show"]
    yield "list empty 1 -", ["run 0", "show"]
    yield "list back 1 -", puts("ep") + ["run 1000", "run 10", "show", "run 345610", "run 345611", "show"]
    yield "list anew 1 -", puts("ep") + ["run 0", "put p", "run 345601", "show"]
    yield "list two 2 -", puts("bcp") + ["run 100", "show"]
    yield "list three 3 -", puts("bcp") + ["run 100", "show"]
    yield "list lost 1 -", puts("p") + ["run 100", "put e", "run 100", "show"]
    yield "list signed 1 -", puts("gp") + ["run 5", "put e", "run 6", "run 400000", "show"]
    yield "list reader 1 -", puts("epqr") + ["run 0", "reads q 345601", "show"]
    for fail in range(2, 42):
        yield f"list fails 1 {fail}", puts("epqr") + ["run 0", "show", "run 345601", "show", "run 345602", "show"]


# Steps by chance. A file is put again only where its body may be another one, and a moment may lie before the last.
def by_chance(seed):
    chance = random.Random(seed)
    now = chance.randrange(1000)
    steps = puts(chance.sample("edibocxkhpqra", chance.randrange(2, 7)))
    for _ in range(chance.randrange(4, 14)):
        if chance.random() < 0.35:
            steps += puts(chance.choice("eeedibockkhnxgapqra"))
        else:
            now = max(0, now + chance.choice([-200000, 0, 1, 100000, 172800, 345600, 345601, 500000]))
            steps.append(f"run {now}")
        if chance.random() < 0.3:
            steps.append("show")
    return f"list chance-{seed} {chance.choice([0, 0, 1, 1, 2])} -", steps + ["show"]


LISTS = list(written()) + [by_chance(seed) for seed in range(200)]

if sys.argv[1:] == ["in"]:
    files = "\n".join(f"{letter} {path} {text}" for letter, (path, text) in FILES.items())
    print("\n\n".join([files] + ["\n".join([head] + steps) for head, steps in LISTS]))
elif sys.argv[1:] == ["out"]:
    print("\n".join("\n".join(said(head, steps)) for head, steps in LISTS))
else:
    sys.exit("expire.py in | out")
