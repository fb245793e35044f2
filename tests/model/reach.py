#!/usr/bin/env python3
"""A model of what the indexes of a cache reach and name, of the folders that are problems, and of imports, from the rules alone.

`reach.py stdin` prints the caches of the table as the program `acng_reach_table` reads them; `reach.py stdout` prints what it has
to print of them. The model reads whole texts with regular expressions and keeps Python's sets; it shares nothing with the program.
"""
import hashlib
import re
import sys

MOST = 1 << 41
ENDINGS = ("", ".gz", ".xz", ".bz2", ".lzma", ".zst")


# ---- texts

def digest(text):
    return hashlib.sha256(text.encode()).hexdigest()


def is_path(text):
    if not 1 <= len(text) <= 1024 or re.search(r"[^!-~]", text):
        return False
    return all(segment not in ("", ".", "..") for segment in text.split("/"))


def folder_of(path):
    return path.rpartition("/")[0]


def last_of(path):
    return path.rpartition("/")[2]


def beneath(folder, path):
    """A path in a folder; the folder without a name is the top one."""
    return folder + "/" + path if folder else path


# ---- stanzas: a list of lists of fields, or None where a line is refused

def stanzas_of(text):
    found, fields = [], []
    for line in text.split("\n"):
        line = line.rstrip(" \t\r")
        if not line:
            if fields:
                found.append(fields)
            fields = []
            continue
        if line[0] in " \t":
            if not fields:
                return None
            fields[-1][1] += "\n" + line.lstrip(" \t")
            continue
        match = re.fullmatch(r"([!-~]+?):(.*)", line)
        if not match or line[0] in "-#:":
            return None
        fields.append([match[1], match[2].lstrip(" \t")])
    return found + [fields] if fields else found


def first_field(fields, name):
    for key, value in fields:
        if key == name:
            return value
    return None


def size_of(text):
    if re.fullmatch(r"[0-9]{1,13}", text) and int(text) <= MOST:
        return int(text)
    return None


def hash_of(text):
    return text.lower() if re.fullmatch(r"[0-9a-fA-F]{64}", text) else None


# ---- indexes: None where one doesn't read

def release_entries(text):
    stanzas = stanzas_of(text)
    if stanzas is None or len(stanzas) != 1:
        return None
    value = first_field(stanzas[0], "SHA256")
    if value is None:
        return None
    entries = []
    for line in value.split("\n"):
        words = line.split()
        if not line:
            continue
        if len(words) != 3 or hash_of(words[0]) is None or size_of(words[1]) is None or not is_path(words[2]):
            return None
        entries.append((hash_of(words[0]), size_of(words[1]), words[2]))
    return entries


def inrelease_entries(text):
    lines = text.split("\n")
    lines = [line.rstrip(" \t\r") for line in lines]
    if lines[0] != "-----BEGIN PGP SIGNED MESSAGE-----":
        return None
    at = 1
    while at < len(lines) and lines[at].startswith("Hash:"):
        at += 1
    if at >= len(lines) or lines[at] or "-----BEGIN PGP SIGNATURE-----" not in lines[at:]:
        return None
    end = lines.index("-----BEGIN PGP SIGNATURE-----", at)
    inside = [line[2:] if line.startswith("- ") else line for line in lines[at + 1:end]]
    return release_entries("\n".join(inside))


def package_names(text):
    stanzas = stanzas_of(text)
    if stanzas is None:
        return None
    names = []
    for fields in stanzas:
        name, size, sha256 = (first_field(fields, key) for key in ("Filename", "Size", "SHA256"))
        if name is None:
            return None
        name = name[2:] if name.startswith("./") else name
        if not is_path(name):
            return None
        if (size is not None and size_of(size) is None) or (sha256 is not None and hash_of(sha256) is None):
            return None
        names.append((name, None if size is None else size_of(size), None if sha256 is None else hash_of(sha256)))
    return names


# ---- the calls of a keeper

class Slip(Exception):
    """A call of the keeper failed."""


class Keeper:
    """The calls of a keeper and of its bodies, numbered together from 0; those with a number in `slips` fail."""
    def __init__(self, slips=()):
        self.count, self.slips = 0, slips

    def call(self, times=1):
        for _ in range(times):
            self.count += 1
            if self.count - 1 in self.slips:
                raise Slip

    def read(self, text):
        """A held body is fetched, and read by one call where it has bytes."""
        self.call(2 if text else 1)
        return text


# ---- reach

class Reach:
    def __init__(self, held, failed, keeper=None):
        self.held, self.reached, self.named, self.problems = held, set(), set(), set()
        self.keeper = keeper or Keeper()
        indexes = [path for path in held if self.is_current(path)]
        for path in indexes:
            self.take_index(path)
        for path in failed:
            self.problems.add(folder_of(path))
        if held and not indexes:
            self.problems.add("")

    def is_current(self, path):
        if last_of(path) == "InRelease":
            return True
        return last_of(path) == "Release" and beneath(folder_of(path), "InRelease") not in self.held

    def take_index(self, path):
        folder = folder_of(path)
        self.reach(path)
        self.reach(beneath(folder, "Release.gpg"))
        read = inrelease_entries if last_of(path) == "InRelease" else release_entries
        entries = read(self.keeper.read(self.held[path]))
        if entries is None:
            self.problems.add(folder)
            return
        for sha256, size, name in entries:
            self.take_entry(folder, sha256, size, name)
        for inner in {folder_of(name) for _, _, name in entries}:
            self.take_folder(folder, inner, [entry for entry in entries if folder_of(entry[2]) == inner])

    def places(self, folder, sha256, name):
        by_hash = beneath(folder_of(name), "by-hash/SHA256/" + sha256)
        return [folder + "/" + name, folder + "/" + by_hash]

    def take_entry(self, folder, sha256, size, name):
        for place in self.places(folder, sha256, name):
            self.reach(place)
        self.name(folder + "/" + name, sha256, size)
        if re.search(r"(^|/)[^/]*\.diff/Index$", name):
            within = folder_of(folder + "/" + name)
            for path in self.held:
                if folder_of(path) == within:
                    self.reach(path)

    def take_folder(self, folder, inner, entries):
        live, was_read = False, False
        for sha256, size, name in entries:
            held = [place for place in self.places(folder, sha256, name) if place in self.held]
            if last_of(name) in ["Packages" + ending for ending in ENDINGS] and held:
                live = True
            if last_of(name) != "Packages":
                continue
            for place in held:
                text = self.keeper.read(self.held[place])
                names = package_names(text) if (digest(text), len(text)) == (sha256, size) else None
                if names is not None:
                    was_read = True
                    self.take_names(folder, names)
                    break
        if live and not was_read:
            self.problems.add(folder + "/" + inner if inner else folder)

    def take_names(self, folder, names):
        segments = folder.split("/")
        base = folder
        if "dists" in segments:
            at = len(segments) - 1 - segments[::-1].index("dists")
            base = "/".join(segments[:at])
        for name, size, sha256 in names:
            self.reach(base + "/" + name)
            if size is not None and sha256 is not None:
                self.name(base + "/" + name, sha256, size)

    def reach(self, path):
        if is_path(path):
            self.reached.add(path)

    def name(self, path, sha256, size):
        if is_path(path):
            self.named.add((path, sha256, size))


# ---- classes and imports

def is_forbidden(path):
    """Without extra patterns: neither an index nor a file of a repository."""
    segments = path.split("/")
    name = segments[-1]
    base = re.sub(r"\.(gz|xz|bz2|lzma|zst)$", "", name)
    if len(segments) > 2 and segments[-3] == "by-hash" and segments[-2] in ("MD5Sum", "SHA1", "SHA256", "SHA512"):
        if re.fullmatch(r"[0-9a-fA-F]+", name):
            return False
    if len(segments) > 1 and segments[-2].endswith(".diff") and base != "Index":
        return False
    if base in ("Release", "InRelease", "Release.gpg", "Packages", "Sources", "Index", "ls-lR", "MD5SUMS", "SHA256SUMS"):
        return False
    if re.match(r"(Contents|Translation|Components|Commands|icons)-", base) or any(s.startswith("installer-") for s in segments):
        return False
    return not re.search(r"\.(deb|udeb|ddeb|dsc|gz|xz|bz2|lzma|zst|asc|changes|buildinfo)$", name)


class Import:
    """An import of found files. A call of the keeper that fails raises Slip, and what is held then is what a reader finds."""
    def __init__(self, held, rows, fail, slips):
        self.held, self.rows, self.fail, self.reads, self.keeper = dict(held), rows, fail, 0, Keeper(slips)
        self.keeper.call(2)             # the start lists the heads and the bodies
        self.keeper.call(4 * len(held)) # each held file was made, written, sealed, and got its head

    def read_fails(self):
        self.reads += 1
        return self.reads - 1 in self.fail

    def wants(self, path, text):
        if is_forbidden(path):
            return False
        return path not in self.held or digest(self.keeper.read(self.held[path])) != digest(text)

    def put(self, path, text):
        """The body is sealed and its head put, and the path has it; then the head and the body that it had go."""
        self.keeper.call(2)
        replaces = path in self.held
        self.held[path] = text
        self.keeper.call(2 if replaces else 0)

    def gets_it(self, text):
        """Whether all of the found file came into a new body. A small file is read once, and once more for its end."""
        self.keeper.call()
        if text:
            if self.read_fails():
                return False
            self.keeper.call()
        return not self.read_fails()

    def file(self, named, text):
        """What becomes of a found file. A body that isn't kept goes."""
        if not self.gets_it(text):
            self.keeper.call()
            return "fault"
        paths = sorted(path for path, sha256, size in named if (sha256, size) == (digest(text), len(text)))
        wanted = [path for path in paths if self.wants(path, text)]
        if not wanted:
            self.keeper.call()
            return "held" if paths else "unknown"
        return self.enter(wanted, text)

    def enter(self, wanted, text):
        """The first path gets the body, and each further one a copy of what the path before it has."""
        before = None
        for path in wanted:
            if before:
                self.keeper.call()
                self.keeper.read(self.held[before])
                self.keeper.call(1 if text else 0)
            if path not in self.held and len(self.held) >= self.rows:
                self.keeper.call()
                return "full"
            self.put(path, text)
            before = path
        return "kept %d" % len(wanted)

    def run(self, found):
        """The printed lines."""
        lines = []
        try:
            named = Reach(self.held, [], self.keeper).named
            for name, text in found:
                shown = re.sub(rb"[^!-~]", b"?", name.encode()).decode()
                lines.append(self.file(named, text) + " " + shown)
        except Slip:
            lines.append("stopped")
        return lines


# ---- texts for the table

def entry(path, text, size=None, sha256=None):
    return " %s %d %s\n" % (sha256 or digest(text), len(text) if size is None else size, path)


def release(*entries):
    return "Origin: Koala\nSHA256:\n" + "".join(entries)


def inrelease(*entries, hashes="Hash: SHA256\n", tail=""):
    return ("-----BEGIN PGP SIGNED MESSAGE-----\n" + hashes + "\n" + release(*entries)
            + "-----BEGIN PGP SIGNATURE-----\n" + (tail or "iQ\n-----END PGP SIGNATURE-----\n"))


def package(name, text="abc", size=True, sha256=True):
    lines = "Package: a\nFilename: %s\n" % name
    if size:
        lines += "Size: %d\n" % len(text)
    if sha256:
        lines += "SHA256: %s\n" % digest(text)
    return lines


A = package("pool/main/a/a_1_all.deb")
B = package("pool/main/b/b_1_all.deb", "abcd\n")
AB = A + "\n" + B
STABLE = "h/debian/dists/stable"
POOL = "h/debian/pool/main"
BINARY = "main/binary-amd64"
ABC = (digest("abc"), 3)
ABCD = (digest("abcd\n"), 5)


def by_hash(folder, text):
    return folder + "/by-hash/SHA256/" + digest(text)


def table():
    """The cases: a name, what is held, and then failed paths, further paths to try, and hashes with sizes to ask for."""
    deb = {POOL + "/a/a_1_all.deb": "abc\n"}
    lists = {STABLE + "/InRelease": inrelease(entry(BINARY + "/Packages", AB), entry(BINARY + "/Packages.xz", "xz\n"))}
    plain = {STABLE + "/" + BINARY + "/Packages": AB}
    packed = {STABLE + "/" + BINARY + "/Packages.xz": "xz\n"}
    tries = [POOL + "/a/a_1_all.deb", POOL + "/b/b_1_all.deb", POOL + "/c/c_1_all.deb", STABLE + "/Release.gpg",
             by_hash(STABLE + "/" + BINARY, AB), by_hash(STABLE + "/" + BINARY, "xz\n")]
    asks = [ABC, ABCD, (digest(AB), len(AB)), (digest("xz\n"), 3)]
    yield "nothing is held", {}, [], ["h/a"], [ABC]
    yield "a file and no index", deb, [], [], [ABC]
    yield "a list and no index", {"h/Packages": A}, [], ["h/pool/main/a/a_1_all.deb"], [ABC]
    yield "an index without a list", {STABLE + "/Release": "Origin: Koala\n"}, [], [STABLE + "/Release.gpg"], [ABC]
    yield "an index of two stanzas", {STABLE + "/Release": release(entry("a", A)) + "\nOrigin: Koala\n"}, [], [STABLE + "/a"], asks
    yield "an index without a frame", {STABLE + "/InRelease": release(entry("a", A))}, [], [STABLE + "/a"], asks
    yield "a frame without its end", \
        {STABLE + "/InRelease": "-----BEGIN PGP SIGNED MESSAGE-----\n\n" + release(entry("a", A))}, [], [], []
    yield "a frame without an empty line", {STABLE + "/InRelease": inrelease(entry("a", A)).replace("\n\n", "\n", 1)}, [], [], []
    yield "an empty index", {STABLE + "/Release": "", STABLE + "/Release.gpg": "x\n"}, [], [], []
    yield "no list of packages is held", lists, [], tries, asks
    yield "the plain list is held", {**lists, **plain}, [], tries, asks
    yield "the packed list is held", {**lists, **packed}, [], tries, asks
    yield "both lists are held", {**lists, **plain, **packed, **deb}, [], tries, asks
    yield "the plain list is another", {**lists, STABLE + "/" + BINARY + "/Packages": A}, [], tries, asks
    yield "the plain list is as long but another", \
        {**lists, STABLE + "/" + BINARY + "/Packages": AB.replace("a_1", "a_2")}, [], tries, asks
    yield "the plain list under its hash alone", {**lists, by_hash(STABLE + "/" + BINARY, AB): AB}, [], tries, asks
    yield "the packed list under its hash alone", {**lists, by_hash(STABLE + "/" + BINARY, "xz\n"): "xz\n"}, [], tries, asks
    yield "another at the place, the list under its hash", \
        {**lists, STABLE + "/" + BINARY + "/Packages": A, by_hash(STABLE + "/" + BINARY, AB): AB}, [], tries, asks
    yield "another text under the hash", {**lists, by_hash(STABLE + "/" + BINARY, AB): A}, [], tries, asks
    yield "a name by a hash of no entry", {**lists, by_hash(STABLE + "/" + BINARY, A): A}, [], tries, asks
    yield "Release alone", {STABLE + "/Release": release(entry(BINARY + "/Packages", AB)), **plain}, [], tries, asks
    yield "Release beside InRelease", \
        {**lists, **plain, STABLE + "/Release": release(entry("other", "x")), STABLE + "/Release.gpg": "x\n"}, \
        [], [STABLE + "/other"], asks
    yield "Release beside an InRelease that doesn't read", \
        {STABLE + "/InRelease": "x\n", STABLE + "/Release": release(entry(BINARY + "/Packages", AB)), **plain}, [], tries, asks
    yield "InRelease of another folder", \
        {"h/debian/dists/InRelease": inrelease(), STABLE + "/Release": release(entry(BINARY + "/Packages", AB)), **plain}, [], tries, asks
    yield "a list that doesn't read", \
        {STABLE + "/InRelease": inrelease(entry("Packages", "Filename: ../x\n")), STABLE + "/Packages": "Filename: ../x\n"}, [], [], asks
    yield "a list without a Filename", \
        {STABLE + "/InRelease": inrelease(entry("c/Packages", "Package: a\n")), STABLE + "/c/Packages": "Package: a\n"}, [], [], asks
    yield "a list with a bad size", \
        {STABLE + "/InRelease": inrelease(entry("c/Packages", A + "\nFilename: b\nSize: x\n")),
         STABLE + "/c/Packages": A + "\nFilename: b\nSize: x\n"}, [], tries, asks
    yield "an empty list", {STABLE + "/InRelease": inrelease(entry("c/Packages", "")), STABLE + "/c/Packages": ""}, [], [], []
    yield "a live folder beside a read one", \
        {STABLE + "/InRelease": inrelease(entry("a/Packages", A), entry("b/Packages", B), entry("b/Packages.gz", "gz\n")),
         STABLE + "/a/Packages": A, STABLE + "/b/Packages.gz": "gz\n"}, [], tries, asks
    yield "live by each ending", \
        {STABLE + "/InRelease": inrelease(*[entry(e[1:] + "/Packages" + e, "x\n") for e in ENDINGS[1:]]),
         **{STABLE + "/" + e[1:] + "/Packages" + e: "x\n" for e in ENDINGS[1:]}}, [], [], []
    yield "no list by other names", \
        {STABLE + "/InRelease": inrelease(*[entry("c/" + n, "x\n") for n in ("Packages.old", "XPackages", "Packages.xz.gz", "Sources")]),
         **{STABLE + "/c/" + n: "x\n" for n in ("Packages.old", "XPackages", "Packages.xz.gz", "Sources")}}, [], [], [(digest("x\n"), 2)]
    yield "a list at the index's folder", \
        {STABLE + "/InRelease": inrelease(entry("Packages.gz", "gz\n")), STABLE + "/Packages.gz": "gz\n"}, [], [], []
    yield "one of two lists of a folder is read", \
        {STABLE + "/InRelease": inrelease(entry("c/Packages", A), entry("c/Packages", B)), STABLE + "/c/Packages": B}, [], tries, asks
    yield "an index at the top", {"InRelease": inrelease(entry("Packages", A)), "Packages": A, "Release.gpg": "x\n"}, [], ["a"], asks
    yield "a bad index at the top", {"Release": "x\n"}, [], [], []
    yield "dists at the top", \
        {"dists/stable/InRelease": inrelease(entry("Packages", A)), "dists/stable/Packages": A}, [], ["pool/main/a/a_1_all.deb"], asks
    yield "dists twice", \
        {"h/dists/x/dists/stable/InRelease": inrelease(entry("Packages", A)), "h/dists/x/dists/stable/Packages": A}, \
        [], ["h/pool/main/a/a_1_all.deb", "h/dists/x/pool/main/a/a_1_all.deb"], asks
    yield "no dists", {"h/flat/InRelease": inrelease(entry("Packages", A)), "h/flat/Packages": A}, \
        [], ["h/pool/main/a/a_1_all.deb", "h/flat/pool/main/a/a_1_all.deb"], asks
    yield "dists in a longer segment", {"h/mydists/s/InRelease": inrelease(entry("Packages", A)), "h/mydists/s/Packages": A}, \
        [], ["h/pool/main/a/a_1_all.deb", "h/mydists/s/pool/main/a/a_1_all.deb"], asks
    yield "a list of differences", \
        {STABLE + "/InRelease": inrelease(entry("c/Packages.diff/Index", "x\n")), STABLE + "/c/Packages.diff/1.gz": "1\n",
         STABLE + "/c/Packages.diff/Index": "x\n", STABLE + "/c/Packages.diff/deeper/2.gz": "2\n", STABLE + "/c/3.gz": "3\n"}, [], [], []
    yield "a folder of differences without a list", \
        {STABLE + "/InRelease": inrelease(entry("c/Packages.diff/Other", "x\n")), STABLE + "/c/Packages.diff/1.gz": "1\n"}, [], [], []
    yield "a list in a folder with another name", \
        {STABLE + "/InRelease": inrelease(entry("c/Packages.diffs/Index", "x\n")), STABLE + "/c/Packages.diffs/1.gz": "1\n"}, [], [], []
    yield "a joined text that is too long", \
        {STABLE + "/InRelease": inrelease(entry("c/Packages", package("p/" + "x" * 1013) + "\n" + package("p/" + "x" * 1012))),
         STABLE + "/c/Packages": package("p/" + "x" * 1013) + "\n" + package("p/" + "x" * 1012)}, \
        [], ["h/debian/p/" + "x" * 1012], [ABC]
    yield "names with a leading dot", \
        {"h/flat/InRelease": inrelease(entry("Packages", package("./a.deb"))), "h/flat/Packages": package("./a.deb")}, \
        [], ["h/flat/a.deb"], [ABC]
    yield "names without a size or a hash", \
        {"h/flat/Release": release(entry("Packages", package("a.deb", size=False) + "\n" + package("b.deb", sha256=False))),
         "h/flat/Packages": package("a.deb", size=False) + "\n" + package("b.deb", sha256=False)}, \
        [], ["h/flat/a.deb", "h/flat/b.deb"], [ABC]
    yield "two indexes name one path", \
        {STABLE + "/InRelease": inrelease(entry("Packages", A)), STABLE + "/Packages": A,
         "h/debian/dists/testing/Release": release(entry("Packages", AB)), "h/debian/dists/testing/Packages": AB}, [], tries, asks
    yield "two indexes name one path by other hashes", \
        {STABLE + "/InRelease": inrelease(entry("Packages", A)), STABLE + "/Packages": A,
         "h/debian/dists/old/Release": release(entry("Packages", package("pool/main/a/a_1_all.deb", "abcd\n"))),
         "h/debian/dists/old/Packages": package("pool/main/a/a_1_all.deb", "abcd\n")}, [], tries, asks
    yield "one hash at two paths", \
        {"h/flat/Release": release(entry("z", "abc"), entry("b", "abc"), entry("Packages", package("m") + "\n" + package("m"))),
         "h/flat/Packages": package("m") + "\n" + package("m")}, [], ["h/flat/b", "h/flat/m", "h/flat/z"], [ABC]
    yield "the hash with another size", \
        {"h/flat/Release": release(entry("b", "abc"))}, [], [], [(ABC[0], 4), (ABC[0], 2), ABC, (ABCD[0], 3)]
    yield "capital digits in an entry", \
        {"h/flat/Release": release(entry("Packages", A, sha256=digest(A).upper())), by_hash("h/flat", A): A}, \
        [], ["h/flat/by-hash/SHA256/" + digest(A).upper(), "h/flat/pool/main/a/a_1_all.deb"], asks
    yield "an entry that is no path", {STABLE + "/Release": release(entry("a//b", "x"))}, [], [STABLE + "/a"], []
    yield "an entry of 2^41 bytes", {STABLE + "/Release": release(entry("a", "x", size=MOST))}, [], [STABLE + "/a"], [(digest("x"), MOST)]
    yield "an entry above 2^41 bytes", {STABLE + "/Release": release(entry("a", "x", size=MOST + 1))}, [], [STABLE + "/a"], []
    yield "lines with a dash in a frame", \
        {STABLE + "/InRelease": inrelease(entry("a", "abc")).replace("Origin", "- Origin")}, [], [STABLE + "/a"], [ABC]
    yield "a frame without a Hash line", {STABLE + "/InRelease": inrelease(entry("a", "abc"), hashes="")}, [], [STABLE + "/a"], [ABC]
    yield "what follows a signature", \
        {STABLE + "/InRelease": inrelease(entry("a", "abc"), tail="\nOrigin: x\n: y\n")}, [], [STABLE + "/a"], [ABC]
    yield "failed paths", {**lists, **plain}, ["h/x/b", "h/x/a", "top", "h/y/a"], [], []
    yield "a failed path of a problem", {**lists, **packed}, [STABLE + "/" + BINARY + "/Packages"], [], []
    yield "problems in byte order", \
        {"b/InRelease": "x\n", "a/Release": "x\n", "a/b/InRelease": inrelease(entry("Z/Packages", "x\n"), entry("Packages.xz", "y\n")),
         "a/b/Z/Packages": "x\n", "a/b/Packages.xz": "y\n"}, ["a-b/c", "a/b/Z/q", "B/c"], [], []


def imports():
    """The cases of imports: a name, what is held, the found files, the most rows, and the numbers of the reads that fail."""
    lists = {STABLE + "/InRelease": inrelease(entry(BINARY + "/Packages", AB), entry(BINARY + "/Packages.xz", "xz\n"))}
    listed = {**lists, STABLE + "/" + BINARY + "/Packages": AB}
    names = ("a.deb", "b.deb", "c.deb")
    flat = "\n".join(package(name, "abc\n") for name in names)
    three = {"h/flat/Release": release(entry("Packages", flat)), "h/flat/Packages": flat}
    yield "a list of packages is found", \
        {**lists, STABLE + "/" + BINARY + "/Packages.xz": "xz\n"}, [("Packages", AB), ("b", "abcd\n")], 9, []
    yield "files of a list that is held", listed, [("b", "abcd\n"), ("c", "abce\n"), ("again", "abcd\n")], 9, []
    yield "the names of odd files", listed, [("a b", "x\n"), ("\u00e9~", "abcd\n"), ("\t!", "")], 9, []
    yield "a file at three paths", three, [("one", "abc\n")], 9, []
    yield "a file at three paths of which one has it", {**three, "h/flat/b.deb": "abc\n"}, [("one", "abc\n"), ("two", "abc\n")], 9, []
    yield "another file of the same size is held", {**three, "h/flat/b.deb": "abd\n"}, [("one", "abc\n")], 9, []
    yield "another file of another size is held", {**three, "h/flat/b.deb": ""}, [("one", "abc\n")], 9, []
    yield "rows for one path more", three, [("one", "abc\n"), ("two", "abc\n"), ("three", "x\n")], 3, []
    yield "rows for none, but one path is there", {**three, "h/flat/a.deb": "x\n"}, [("one", "abc\n")], 3, []
    yield "rows for no path", three, [("one", "abc\n")], 2, []
    yield "a path that isn't passed on", \
        {"h/flat/Release": release(entry("readme", "abc\n"), entry("a.deb", "abc\n"), entry("notes", "x\n"))}, \
        [("one", "abc\n"), ("two", "x\n")], 9, []
    yield "an index names itself by another text", {"h/flat/Release": release(entry("Release", "x\n"))}, [("Release", "x\n")], 9, []
    yield "an index that doesn't read", {"h/flat/InRelease": release(entry("a.deb", "abc\n"))}, [("one", "abc\n")], 9, []
    yield "an empty file", {"h/flat/Release": release(entry("a.deb", ""), entry("b.deb", ""))}, [("one", ""), ("two", "")], 9, []
    yield "a name by a hash", {"h/flat/Release": release(entry("a.deb", "abc\n"))}, [("one", "abc\n")], 9, []
    yield "the first read fails", three, [("one", "abc\n"), ("two", "abc\n")], 9, [0]
    yield "the read of an end fails", three, [("one", "abc\n"), ("two", "abc\n")], 9, [1]
    yield "the reads of two files fail", three, [("one", "abc\n"), ("two", "abc\n"), ("three", "abc\n"), ("four", "")], 9, [0, 2, 5]
    yield "a read that doesn't come", three, [("one", "abc\n")], 9, [7]
    yield "no index", {"h/a.deb": "abc\n"}, [("one", "abc\n")], 9, []
    yield "nothing is held, and files are found", {}, [("one", "abc\n"), ("two", "")], 9, []
    for number in range(5):
        yield "read %d of four" % number, three, [("one", "abc\n"), ("two", "abc\n")], 9, [number]


def slips():
    """Imports of which each call of the keeper fails in turn, and at last one that doesn't come: as `imports`, and the number."""
    names = package("a.deb", "abc\n") + "\n" + package("b.deb", "abc\n") + "\n" + package("c.deb", "abcd\n")
    index = {"h/flat/Release": release(entry("Packages", names)), "h/flat/Packages": names}
    enters = {**index, "h/flat/b.deb": "abd\n"}, [("one", "abc\n"), ("two", "abcd\n")], 9, []
    others = {**index, "h/flat/c.deb": "abcd\n"}, [("bad", "x\n"), ("none", "x\n"), ("has", "abcd\n"), ("full", "abc\n")], 4, [0]
    for kind, (held, found, rows, fail) in (("that enter", enters), ("that end otherwise", others)):
        whole = Import(held, rows, fail, [])
        begun = whole.keeper.count
        whole.run(found)
        for number in range(begun, whole.keeper.count + 1):
            yield "call %d for files %s" % (number - begun, kind), held, found, rows, fail, [number]


# ---- printing

def print_case(name, held, failed, tries, asks, found=(), rows=None, fail=(), slips=()):
    print("= " + name)
    if rows is not None:
        print("%% %d" % rows)
    for path in sorted(held):
        text = held[path]
        assert is_path(path) and (not text or text.endswith("\n")), path
        print("+ " + path)
        for line in text.split("\n")[:-1]:
            print("|" + line)
    for path in failed:
        print("! " + path)
    for path in tries:
        assert is_path(path), path
        print("? " + path)
    for sha256, size in asks:
        print("# %s %d" % (sha256, size))
    for file, text in found:
        assert not text or text.endswith("\n"), file
        print("@ " + file)
        for line in text.split("\n")[:-1]:
            print(">" + line)
    for number in fail:
        print("~ %d" % number)
    for number in slips:
        print("^ %d" % number)
    print(".")


def print_input():
    for case in table():
        print_case(*case)
    for name, held, found, rows, fail in imports():
        print_case(name, held, [], [], [], found, rows, fail)
    for name, held, found, rows, fail, numbers in slips():
        print_case(name, held, [], [], [], found, rows, fail, numbers)


def print_reach(name, held, failed, tries, asks):
    reach = Reach(held, failed)
    print("= " + name)
    for path in sorted(held) + tries:
        if path in reach.reached:
            print("reached " + path)
    for text in sorted(reach.problems):
        print("problem [%s]" % text)
    for sha256, size in asks:
        print("asked %s %d" % (sha256[:8], size))
        for path in sorted(path for path, h, s in reach.named if (h, s) == (sha256, size)):
            print("named " + path)


def print_import(held, found, rows, fail, numbers):
    done = Import(held, rows, fail, numbers)
    for line in done.run(found):
        print(line)
    for path, text in sorted(done.held.items()):
        print("holds %s %d %d" % (path, len(text), int(digest(text)[:2], 16)))


def print_expected():
    for case in table():
        print_reach(*case)
    for name, held, found, rows, fail in imports():
        print_reach(name, held, [], [], [])
        print_import(held, found, rows, fail, [])
    for name, held, found, rows, fail, numbers in slips():
        print("= " + name)
        print_import(held, found, rows, fail, numbers)


if __name__ == "__main__":
    sys.stdout.reconfigure(encoding="utf-8")
    {"stdin": print_input, "stdout": print_expected}[sys.argv[1]]()
