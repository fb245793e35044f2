#!/usr/bin/env python3
"""The house: what a desk answers and what it knows, and what a refused call of the keeper leaves.

It is the model by which crates/acng_desk_table is judged, written from the documents and not from the crate's code:
docs/DEFINITIONS.md (the house, what a stop may leave) and docs/ARCHITECTURE.md (in which order a call of the desk calls the
keeper). Usage: house.py FOLDER writes the lists of commands as FOLDER/stdin and what has to be answered as FOLDER/stdout.

A house is a value: `step` makes another one and never changes it. Beside it stands a keeper whose calls are numbered from 0
and of which one may fail. A call that fails has done nothing, and what the desk knows then is what `refused` says.
"""
import hashlib, os, random, sys
from dataclasses import dataclass, replace
from typing import Optional

TRIES = 16
MOST_PARTS = 64
LAST = 2**63


# ---- values


@dataclass(frozen=True)
class Facts:
    total: Optional[int] = None
    tag: Optional[str] = None
    date: Optional[int] = None

    def __str__(self):
        return f"{dash(self.total)} {dash(self.tag)} {dash(self.date)}"


@dataclass(frozen=True)
class Fetched:
    first: int
    last: int

    def __str__(self):
        return f"{self.first}-{self.last}"


@dataclass(frozen=True)
class Imported:
    sha256: str
    size: int

    def __str__(self):
        return f"{self.sha256[:8]}:{self.size}"


@dataclass(frozen=True)
class Whole:
    id: int
    label: object
    size: int
    tag: Optional[str]
    date: Optional[int]
    checked: int
    mark: Optional[int]

    def facts(self):
        """Its size is the known total; an import has no tag and no date."""
        if isinstance(self.label, Imported):
            return Facts(self.size)
        return Facts(self.size, self.tag, self.date)

    def __str__(self):
        return f"{self.id} {self.label} {self.size} {self.facts()} {self.checked} {dash(self.mark)}"


@dataclass(frozen=True)
class Part:
    """A partial body at rest."""

    id: int
    text: str
    label: Fetched
    facts: Facts


@dataclass(frozen=True)
class Ticket:
    path: str
    moment: int
    first: int
    fresh: int
    was: Optional[Whole]
    part: Optional[Part]


@dataclass(frozen=True)
class Row:
    whole: Optional[Whole] = None
    out: Optional[Ticket] = None


@dataclass(frozen=True)
class House:
    rows: dict
    parts: dict
    next_try: int
    next_id: int
    limit: int
    offline: bool = False
    age: int = 27

    def at(self, path):
        return self.rows.get(path, Row())

    def with_row(self, path, row):
        """A row with no whole body, no partial body and no ticket isn't there."""
        rows = {p: r for p, r in self.rows.items() if p != path}
        if row.whole or row.out or path in self.parts:
            rows[path] = row
        return replace(self, rows=rows)

    def with_part(self, path, part):
        parts = {p: b for p, b in self.parts.items() if p != path}
        if part:
            parts[path] = part
        return replace(self, parts=parts)


@dataclass(frozen=True)
class Load:
    """What a body that was loaded by a ticket shows, and its file."""

    stage: str
    label: object = None
    facts: Facts = Facts()
    text: str = ""
    cause: str = "-"
    id: Optional[int] = None

    def __str__(self):
        return f"{self.stage} {dash(self.label)} {len(self.text)} {self.facts} {self.cause}"


def dash(value):
    return "-" if value is None else str(value)


def dot(text):
    return text if text else "."


# ---- the house


def begin_case(h, path, solid, now):
    """The first case that fits."""
    row = h.at(path)
    if row.out:
        return "join"
    if row.whole:
        fresh = row.whole.checked <= now and now - row.whole.checked <= h.age
        if solid or h.offline or fresh:
            return "kept"
    if h.offline:
        return "offline"
    if path not in h.rows and len(h.rows) >= h.limit:
        return "full"
    if h.next_try > LAST - TRIES or h.next_id >= LAST:
        return "worn"
    return "lead"


def led(h, path, now):
    """A ticket is given out: sixteen tries, a new body, and the partial body that rested at the path."""
    row = h.at(path)
    ticket = Ticket(path, now, h.next_try, h.next_id, row.whole, h.parts.get(path))
    h = replace(h, next_try=h.next_try + TRIES, next_id=h.next_id + 1)
    return ticket, h.with_part(path, None).with_row(path, Row(row.whole, ticket))


def ids_of(ticket):
    return (ticket.first, ticket.fresh, ticket.part.id if ticket.part else None)


def ending(h, ticket, load):
    """How a ticket ends, by the first case that fits."""
    row = h.at(ticket.path)
    if row.out is None or ids_of(row.out) != ids_of(ticket):
        return "unknown"
    roomy = len(h.parts) < MOST_PARTS
    if load.stage == "whole":
        return "keep"
    if load.stage == "same":
        held, was = row.whole and row.whole.id, ticket.was and ticket.was.id
        return "same" if held == was else "drop"
    if load.stage == "cut":
        parks = load.facts.tag is not None and load.facts.total is not None and load.text != "" and roomy
        return "park" if parks and not load.cause.startswith("keeper") else "drop"
    return "back" if ticket.part and roomy else "drop"


def closed(h, path):
    """The ticket came in, and left what was there."""
    return h.with_row(path, Row(h.at(path).whole))


def settled(h, ticket, load, end):
    path, now = ticket.path, ticket.moment
    whole = h.at(path).whole
    if end == "unknown":
        return h
    if end == "keep":
        new = Whole(load.id, load.label, len(load.text), load.facts.tag, load.facts.date, now, None)
        return h.with_row(path, Row(new))
    if end == "same":
        return h.with_row(path, Row(replace(whole, checked=now)))
    if end == "park":
        return h.with_part(path, Part(load.id, load.text, load.label, load.facts)).with_row(path, Row(whole))
    if end == "back":
        return h.with_part(path, ticket.part).with_row(path, Row(whole))
    return closed(h, path)


def class_of(path):
    """The table of classes, for the paths that stand in the lists."""
    last = path.rsplit("/", 1)[-1]
    if "/by-hash/" in path or last.endswith(".deb"):
        return "solid"
    if last in ("InRelease", "Release", "Packages", "Packages.xz"):
        return "volatile"
    return "forbidden"


# ---- the keeper


class Slip(Exception):
    pass


@dataclass
class Stored:
    head: Optional[tuple] = None
    sealed: Optional[str] = None
    loose: bool = False


class Keeper:
    """Heads and bodies by id. The calls are numbered from 0, and the one with the number `fail` fails."""

    def __init__(self, fail=None):
        self.items, self.fail, self.calls, self.next_id = {}, fail, 0, 0

    def call(self):
        number = self.calls
        self.calls += 1
        if number == self.fail:
            raise Slip(number)

    def create(self):
        self.call()
        self.items[self.next_id] = Stored(loose=True)
        self.next_id += 1
        return self.next_id - 1

    def seal(self, id, text):
        self.call()
        self.items[id].sealed, self.items[id].loose = text, False

    def put_head(self, path, whole):
        self.call()
        self.items[whole.id].head = (path, whole)

    def fetch(self, id):
        self.call()
        return self.items[id].sealed

    def remove_head(self, id):
        self.call()
        self.items[id].head = None

    def remove_body(self, id):
        self.call()
        self.items[id].sealed, self.items[id].loose = None, False

    def lines(self):
        for id, s in sorted(self.items.items()):
            if s.head is None and s.sealed is None and not s.loose:
                continue
            body = f"sealed:{len(s.sealed)}" if s.sealed is not None else "loose" if s.loose else "gone"
            head = "-"
            if s.head:
                path, w = s.head
                head = f"{path} {w.label} {Facts(w.size, w.tag, w.date)} {w.checked} {dash(w.mark)}"
            yield f"kept {id} {body} {head}"


# ---- a desk: the house over the keeper


class Desk:
    """Each call says what it answers. In a refused one the keeper's calls before stand, and the house is what is said here."""

    def __init__(self, house, keeper):
        self.house, self.keeper, self.outs, self.handle = house, keeper, {}, None
        self.refused = False
        keeper.call()  # the heads are listed
        keeper.call()  # and the bodies

    def begin(self, slot, path, class_word, now):
        if slot in self.outs:
            return "busy"
        h, k = self.house, self.keeper
        case = begin_case(h, path, class_word == "solid", now)
        whole = h.at(path).whole
        if case == "join":
            out = h.at(path).out
            return f"join {out.first} {dash(out.was and out.was.label)} {now}"
        if case == "kept":
            self.handle = k.fetch(whole.id)
            return f"kept {held(whole)} for {h.next_try} {whole.label} {now}"
        if case != "lead":
            return case
        # the old body's handle is fetched, then the new body is made; nothing changes before both are there
        if whole:
            k.fetch(whole.id)
        k.create()
        ticket, self.house = led(h, path, now)
        self.outs[slot] = ticket
        part = ticket.part and f"{ticket.part.id} {ticket.part.label} {len(ticket.part.text)} {ticket.part.facts}"
        return (f"lead {ticket.fresh} from {ticket.first} over {held(whole) if whole else '-'} and {dash(part)}"
                f" for {ticket.first} {dash(whole and whole.label)} {now}")

    # -- a body that is loaded by the first of the ticket's tries

    def load(self, ticket, way):
        n = ticket.first
        lost = Load("refused", cause="memory")
        if way[0] == "gone":
            return Load("refused", cause=f"gone:{n}")
        if way[0] == "same" and ticket.was:
            return Load("same", ticket.was.label, ticket.was.facts(), self.text_of(ticket.was), "-", ticket.was.id)
        if way[0] == "new":
            end, total, tag, date, text = way[1:]
            opened = Load("running", Fetched(n, n), Facts(total, tag, date), "", "-", ticket.fresh)
            return self.grown(opened, end, text)
        if way[0] == "on" and ticket.part:
            p = ticket.part
            return self.grown(Load("running", Fetched(p.label.first, n), p.facts, p.text, "-", p.id), way[1], way[2])
        return lost

    def text_of(self, whole):
        """The bytes of a whole body that was there when the ticket was given out."""
        return "x" * whole.size

    def grown(self, load, end, text):
        """The text is put by one call of the file, and no call is made for no text."""
        if text:
            try:
                self.keeper.call()
            except Slip as slip:
                self.refused = True
                return replace(load, stage="cut", cause=f"keeper:{slip}:{load.label.last}")
        load = replace(load, text=load.text + text)
        if end == "whole":
            return replace(load, stage="whole")
        return replace(load, stage="cut", cause=f"early:{load.label.last}" if end == "early" else "memory")

    def settle(self, slot, *way):
        ticket = self.outs.pop(slot, None)
        if ticket is None:
            return "none"
        load = self.load(ticket, way)
        try:
            answer = self.end(ticket, load)
        except Slip as slip:
            self.refused = True
            answer = f"slip {slip}"
        return f"{answer} of {load}"

    def end(self, ticket, load):
        h, k, path = self.house, self.keeper, ticket.path
        end = ending(h, ticket, load)
        after = settled(h, ticket, load, end)
        old = h.at(path).whole
        own = [ticket.fresh] + ([ticket.part.id] if ticket.part else [])
        if end == "unknown":
            return "dropped"
        # whatever fails before the head of a kept or unchanged body is put leaves what was there
        self.house = closed(h, path)
        if end == "keep":
            k.seal(load.id, load.text)
            k.put_head(path, after.at(path).whole)
            self.house = after
            if old:
                k.remove_head(old.id)
                k.remove_body(old.id)
            own.remove(load.id)
        elif end == "same":
            k.put_head(path, after.at(path).whole)
            self.house = after
        else:
            self.house = after
            if end == "park":
                own.remove(load.id)
            if end == "back":
                own.remove(ticket.part.id)
        for id in own:
            k.remove_body(id)
        return {"keep": "kept", "same": "same", "park": "partial"}.get(end, "dropped")

    # -- the other calls

    def mark(self, path, mark):
        h, whole = self.house, self.house.at(path).whole
        if not whole:
            return "not held"
        whole = replace(whole, mark=mark)
        self.keeper.put_head(path, whole)
        self.house = h.with_row(path, replace(h.at(path), whole=whole))
        return "done"

    def remove(self, path):
        h, row = self.house, self.house.at(path)
        if not row.whole:
            return "not held"
        # the row is as after the call, whatever is refused
        part = h.parts.get(path)
        self.house = h.with_part(path, None).with_row(path, Row(None, row.out))
        self.keeper.remove_head(row.whole.id)
        self.keeper.remove_body(row.whole.id)
        if part:
            self.keeper.remove_body(part.id)
        return "done"

    def fetch(self, path):
        whole = self.house.at(path).whole
        if not whole:
            return "not held"
        self.handle = self.keeper.fetch(whole.id)
        return held(whole)

    def read(self):
        if self.handle is None:
            return "none"
        self.keeper.call()
        return dot(self.handle)

    def make(self):
        id = self.keeper.create()
        self.house = replace(self.house, next_id=id + 1)
        return id

    def new(self):
        return f"made {self.make()}"

    def drop(self, text):
        id, after = self.make(), ""
        try:
            self.keeper.call()
        except Slip as slip:
            self.refused, after = True, f" after slip {slip}"
        self.keeper.remove_body(id)
        return f"dropped {id}{after}"

    def put(self, path, now, text):
        id, k = self.make(), self.keeper
        try:
            k.call()
        except Slip as slip:
            self.refused = True
            k.remove_body(id)
            return f"slip {slip}"
        h = self.house
        if path not in h.rows and len(h.rows) >= h.limit:
            k.remove_body(id)
            return "full"
        hash = hashlib.sha256(text.encode()).hexdigest()
        new = Whole(id, Imported(hash, len(text)), len(text), None, None, now, None)
        old = h.at(path).whole
        k.seal(id, text)
        k.put_head(path, new)
        self.house = h.with_row(path, replace(h.at(path), whole=new))
        if old:
            k.remove_head(old.id)
            k.remove_body(old.id)
        return f"imported {id}"

    # -- looks

    def row(self, path):
        return dash(self.house.at(path).whole)

    def next(self, after):
        held = sorted(p for p, r in self.house.rows.items() if r.whole and (after == "-" or p.encode() > after.encode()))
        return held[0] if held else "-"

    def show(self):
        rows = [f"row {p} {r.whole}" for p, r in sorted(self.house.rows.items()) if r.whole]
        self.check()
        return rows + [f"count {len(self.house.rows)}"] + list(self.keeper.lines())

    def check(self):
        """The keeper holds the rows, and nothing beside them by a head unless a call of it was refused."""
        heads = {id: s for id, s in self.keeper.items.items() if s.head}
        rows = {r.whole.id: (p, r.whole) for p, r in self.house.rows.items() if r.whole}
        for id, row in rows.items():
            assert heads[id].head == row and len(heads[id].sealed) == row[1].size, (id, row)
        if not self.refused:
            sealed = {id for id, s in self.keeper.items.items() if s.sealed is not None}
            assert set(heads) == set(rows) == sealed, (set(heads), set(rows), sealed)
        loose = {id for id, s in self.keeper.items.items() if s.loose}
        for path, r in self.house.rows.items():
            if r.out:
                assert r.out.fresh in loose and (r.out.part is None or r.out.part.id in loose)
        for path, part in self.house.parts.items():
            assert part.id in loose and path in self.house.rows and not self.house.rows[path].out


def held(whole):
    return f"{whole.id} {whole.label} {whole.size} {whole.facts()}"


# ---- lists of commands


@dataclass
class Script:
    """A list: how the desk is started, and the commands as tuples of words."""

    rows: int
    commands: list
    first: int = 0
    conf: str = "-"

    def text(self, fail):
        lines = [f"list {self.rows} {self.first} {dash(fail)} {self.conf}"]
        return "\n".join(lines + [" ".join(words_of(c)) for c in self.commands])


def words_of(command):
    return [command[0]] + [dot(w) if isinstance(w, str) else dash(w) for w in command[1:]]


def call(desk, command):
    """The answer of a command."""
    name, *args = command
    if name == "import":
        name = "put"
    if name == "class":
        return class_of(args[0])
    if name == "count":
        return str(len(desk.house.rows))
    if name == "show":
        return "show"
    try:
        return getattr(desk, name)(*args)
    except Slip as slip:
        desk.refused = True
        return f"slip {slip}"


def run(script, fail):
    """What a list has to answer, line by line, and how many calls of the keeper it made."""
    settings = dict(line.split(": ") for line in [script.conf] if ": " in line)
    house = House({}, {}, script.first, 0, script.rows, settings.get("Offlinemode") == "1",
                  int(settings.get("FreshIndexMaxAge", 27)))
    keeper, said = Keeper(fail), []
    while True:
        try:
            desk = Desk(house, keeper)
            break
        except Slip as slip:
            said.append(f"slip {slip}")
    said.append("started")
    for command in script.commands:
        answer = call(desk, command)
        said.append(answer)
        if "slip" in answer or answer == "show":
            said += desk.show()
    said.append("end")
    said += desk.show()
    return said, keeper.calls


# ---- lists that are made up

PATHS = ["h/a.deb", "h/b.deb", "h/s/InRelease", "h/s/by-hash/SHA256/00", "i/Packages.xz"]
TEXTS = ["", "a", "bc", "def", "ghijk"]
TAGS = [None, None, '"t"', '"u"']


class Maker:
    """Makes a list up, command by command, with an eye on the house so that most calls come to something."""

    def __init__(self, chance):
        self.chance = chance
        self.now = 1000

    def path(self, paths):
        return self.chance.choice(paths)

    def moment(self):
        self.now += self.chance.choice([0, 1, 5, 26, 27, 28, 60])
        return self.now if self.chance.random() < 0.9 else self.now - 40

    def way(self, ticket):
        c = self.chance
        ways = ["new"] * 5 + ["gone", "lost"]
        ways += (["same"] * 4 if ticket.was else []) + (["on"] * 5 if ticket.part else [])
        way = c.choice(ways)
        if way == "new":
            text = c.choice(TEXTS)
            end = c.choice(["whole", "whole", "early", "memory"])
            total = c.choice([None, len(text)]) if end == "whole" else c.choice([None, len(text) + 2, len(text) + 2])
            return ("new", end, total, c.choice(TAGS), c.choice([None, 900]), text)
        if way == "on":
            room = ticket.part.facts.total - len(ticket.part.text)
            if c.random() < 0.6:
                return ("on", "whole", "x" * room)
            return ("on", c.choice(["early", "memory"]), "y" * min(1, room))
        return (way,)

    def command(self, desk, paths):
        c = self.chance
        free = [s for s in range(3) if s not in desk.outs]
        names = ["begin"] * 8 + ["settle"] * 8 + ["mark"] * 2 + ["remove"] * 3 + ["import"] * 3
        names += ["fetch", "read", "row", "next", "count", "new", "drop"]
        name = c.choice(names)
        if name == "begin" and free:
            path = self.path(paths)
            word = class_of(path) if c.random() < 0.9 else c.choice(["solid", "volatile"])
            return ("begin", free[0], path, word, self.moment())
        if name == "settle" and desk.outs:
            slot = c.choice(sorted(desk.outs))
            return ("settle", slot) + self.way(desk.outs[slot])
        held = [p for p in paths if desk.house.at(p).whole]
        if name in ("mark", "remove", "fetch", "row"):
            path = self.path(held if held and c.random() < 0.85 else paths)
            return (name, path, c.choice([None, self.now])) if name == "mark" else (name, path)
        if name == "import":
            return ("import", self.path(paths), self.moment(), c.choice(TEXTS))
        if name == "drop":
            return ("drop", c.choice(TEXTS))
        if name == "next":
            return ("next", c.choice(["-"] + paths))
        return (name,) if name in ("read", "count", "new") else ("count",)

    def script(self, length):
        c = self.chance
        paths = c.sample(PATHS, c.choice([2, 3, 3, 4]))
        conf = c.choice(["-"] * 6 + ["Offlinemode: 1", "FreshIndexMaxAge: 5"])
        script = Script(c.choice([1, 2, 3, 8]), [], conf=conf)
        settings = dict([conf.split(": ")]) if ": " in conf else {}
        house = House({}, {}, 0, 0, script.rows, settings.get("Offlinemode") == "1", int(settings.get("FreshIndexMaxAge", 27)))
        desk = Desk(house, Keeper())
        while len(script.commands) < length:
            command = self.command(desk, paths)
            script.commands.append(command)
            call(desk, command)
        for slot in sorted(desk.outs):
            script.commands.append(("settle", slot, "lost"))
        return script


# ---- lists that are written by hand


def parsed(text):
    """The commands of a text, a line each."""
    commands = []
    for line in text.strip().split("\n"):
        name, *words = line.split()
        commands.append((name,) + tuple(word_of(name, i, w) for i, w in enumerate(words)))
    return commands


def word_of(name, i, word):
    if word == "." or (name == "next" and word == "-"):
        return "" if word == "." else word
    if word == "-":
        return None
    return int(word) if word.isdigit() else word


def by_hand():
    day = """
        begin 0 h/a.deb solid 1000
        begin 1 h/a.deb solid 1001
        settle 0 new whole 3 "x" 900 abc
        begin 0 h/a.deb solid 9999
        read
        row h/a.deb
        next -
        next h/a.deb
        class h/a.deb
        class h/s/InRelease
        class h/readme"""
    broken = """
        begin 0 h/a.deb solid 1000
        settle 0 new early 3 "x" - ab
        begin 0 h/a.deb solid 1010
        settle 0 gone
        begin 0 h/a.deb solid 1020
        settle 0 on whole c
        begin 0 h/a.deb solid 1030
        read"""
    changed = """
        begin 0 h/a.deb solid 1000
        settle 0 new early 3 "x" - ab
        begin 0 h/a.deb solid 1010
        settle 0 new whole 3 "y" - xyz
        begin 0 h/a.deb solid 1020
        read
        row h/a.deb"""
    aged = """
        begin 0 h/s/InRelease volatile 1000
        settle 0 new whole 3 - 1000 abc
        begin 0 h/s/InRelease volatile 1027
        begin 0 h/s/InRelease volatile 1028
        settle 0 same
        row h/s/InRelease
        begin 0 h/s/InRelease volatile 999
        settle 0 same
        row h/s/InRelease"""
    imported = """
        import h/s/main/Packages 1000 abc
        row h/s/main/Packages
        fetch h/s/main/Packages
        read
        import h/s/main/Packages 1001 .
        row h/s/main/Packages
        read"""
    full = """
        begin 0 h/a.deb solid 1000
        settle 0 new whole 3 - - abc
        begin 0 h/b.deb solid 1001
        import h/b.deb 1002 abc
        import h/a.deb 1003 abc
        row h/a.deb
        remove h/a.deb
        begin 0 h/b.deb solid 1004
        begin 1 h/a.deb solid 1005
        settle 0 lost
        begin 1 h/a.deb solid 1006
        settle 1 lost
        count"""
    worn = """
        import h/a.deb 1000 abc
        begin 0 h/b.deb solid 1001
        begin 1 h/c.deb solid 1002
        begin 1 h/a.deb solid 1003
        settle 0 new whole - - - d
        row h/b.deb
        begin 0 h/b.deb volatile 1004
        begin 0 h/b.deb volatile 9999"""
    offline = """
        begin 0 h/a.deb solid 1000
        import h/s/InRelease 1001 abc
        begin 0 h/s/InRelease volatile 999999
        begin 0 h/s/InRelease volatile 1
        read"""
    reader = """
        import h/a.deb 1000 abc
        begin 0 h/a.deb solid 1001
        remove h/a.deb
        row h/a.deb
        read
        fetch h/a.deb
        import h/a.deb 1002 defg
        read
        fetch h/a.deb
        read"""
    overtaken = """
        begin 0 h/a.deb volatile 1000
        settle 0 new whole 2 "x" 900 ab
        begin 0 h/a.deb volatile 2000
        import h/a.deb 2001 cd
        settle 0 same
        row h/a.deb
        begin 0 h/a.deb volatile 3000
        remove h/a.deb
        begin 1 h/a.deb solid 3001
        settle 0 new whole 1 - - e
        row h/a.deb
        mark h/a.deb 3002
        row h/a.deb
        begin 0 h/a.deb volatile 4000
        settle 0 same
        row h/a.deb
        mark h/a.deb -
        begin 0 h/a.deb volatile 5000
        mark h/a.deb 5001
        settle 0 new whole 1 - - f
        row h/a.deb
        remove h/a.deb
        remove h/a.deb
        mark h/a.deb 1"""
    return [
        Script(4, parsed(day)), Script(4, parsed(broken)), Script(4, parsed(changed)), Script(4, parsed(aged)),
        Script(4, parsed(imported)), Script(1, parsed(full)), Script(4, parsed(worn), first=LAST - TRIES),
        Script(4, parsed(worn), first=LAST - TRIES - 1), Script(4, parsed(offline), conf="Offlinemode: 1"),
        Script(4, parsed(reader)), Script(4, parsed(overtaken)), Script(4, crowd()),
    ]


def crowd():
    """The 65th partial body isn't kept."""
    commands = []
    for i in range(66):
        path = f"h/{i:02d}.deb"
        commands += [("begin", 0, path, "solid", 1000), ("settle", 0, "new", "early", 2, '"x"', None, "a")]
    commands += [("begin", 0, "h/00.deb", "solid", 1001), ("settle", 0, "gone"), ("count",)]
    return commands


# the list whose calls fail in turn, from the first to the forty-first
TURNS = """
    begin 0 h/a.deb solid 1000
    settle 0 new whole 3 "x" 900 abc
    begin 0 h/s/InRelease volatile 1010
    settle 0 new early 4 "y" - ab
    begin 0 h/s/InRelease volatile 1020
    settle 0 on whole cd
    mark h/a.deb 1030
    begin 0 h/s/InRelease volatile 2000
    settle 0 same
    begin 0 h/s/InRelease volatile 3000
    begin 1 h/b.deb solid 3001
    settle 0 new whole 1 - - e
    settle 1 new early 2 "z" - f
    import h/b.deb 3010 ghi
    fetch h/b.deb
    read
    remove h/b.deb
    drop jk
    new
    import h/a.deb 3020 lm
    begin 1 h/b.deb solid 3030
    settle 1 gone
    begin 0 h/a.deb solid 3040
    read
    remove h/a.deb
    count"""


def lists():
    """All lists, each with the number of the call that fails."""
    out = [(script, None) for script in by_hand()]
    turns = Script(4, parsed(TURNS))
    out += [(turns, k) for k in [None] + list(range(41))]
    made = [Maker(random.Random(seed)).script(12 + seed % 13) for seed in range(200)]
    out += [(script, None) for script in made]
    for script in made[:10]:
        out += [(script, k) for k in range(run(script, None)[1])]
    return out


def main():
    stdin, stdout = [], []
    for number, (script, fail) in enumerate(lists(), 1):
        stdin.append(script.text(fail))
        stdout += [f"list {number}"] + run(script, fail)[0]
    with open(os.path.join(sys.argv[1], "stdin"), "w") as file:
        file.write("\n\n".join(stdin) + "\n")
    with open(os.path.join(sys.argv[1], "stdout"), "w") as file:
        file.write("\n".join(stdout) + "\n")


if __name__ == "__main__":
    main()
