#!/usr/bin/env python3
"""Cuts the power of a server that keeps a journal: python3 bench/try_power.py [--cuts N] [--plays N] [--workers N] [--seed N] [--seconds N] [PROGRAM]

It records each write, sync and send of the program (record_calls.c, which `cc` compiles) while people play macros of two scripts, which change
the lists, owners and groups of several buffers, kill buffers and make them, all in one key. Then it makes the folder what a power cut at N points
of these records can leave (2,000): of what was not synced any sectors of 512 bytes are lost, older, torn, or garbage where a file grew. It starts
the program over each, in some folders at a time, and looks at its screens, at what `audit` prints, and at the tables. Rights are those before or
after an event, and never between; what a screen had shown is there. Some cuts come after a start over what another cut left. A row of its own
counts no fdatasync, and is to find faults. It ends with status 0 if all is as it should be.
"""
import argparse, bisect, collections, concurrent.futures, copy, multiprocessing, os, random, shutil, struct, subprocess, sys, tempfile, time

import keep_desk
from keep_desk import (DENY_BOB, DROP_FIRST, Desk, LISTING, NOTES, OWNERS_LIST, PAGE, SECRET, Server, TOP, buffer, command, config, create_detail,
                       expect, file_buffer, finish, go_to, list_detail, listed, see, shows, type_in)
from try_server import Terminal

SECTOR = 512
KINDS = "START OPEN CLOSE WRITE_AT WRITE CUT FSYNC FDATASYNC RENAME REMOVE SEND RECEIVE ACCEPT".split()
HEAD = struct.Struct("=IIIIqqq")
CHANGES = ("list", "owner", "group", "create", "kill")
PAD = ["ALLOW OWNER@ rwatdcCo"]
# A text that is written whole when it is edited, so that the log is taken over into the file while people change rights.
LONG = 900_000
# How long a screen is waited for that may never come.
SOON = 5
RUNS = 3
# Where the folders are, if there is room for so many bytes of each worker: what a sync does is recorded, and its time is not asked for.
IN_MEMORY, MOST = "/dev/shm", 100_000_000
# How what was not synced is left: nothing of it, any sectors of it, these with parts of sectors, garbage where a file grew, all of it.
WAYS = {"nothing": 4, "sectors": 8, "torn": 4, "garbage": 2, "all": 1}


class Quick(Terminal):
    """A terminal that answers as soon as something has come."""

    def read(self, quiet=0.15, most=5.0):
        self.socket.settimeout(quiet)
        try:
            data = self.socket.recv(65536)
        except TimeoutError:
            return self
        except OSError:
            data = b""
        self.ended = not data
        self.paint(data)
        return self


class QuickServer(Server):
    terminal = Quick


# --- What was recorded -------------------------------------------------------------------------------------------------------------

class Call:
    """A call that was recorded."""

    def __init__(self, head, path, data):
        kind, _, _, _, self.file, self.offset, self.result = head
        self.kind, self.path, self.data = KINDS[kind], path, data


def calls_of(path):
    with open(path, "rb") as file:
        record = file.read()
    calls, at = [], 0
    while at + HEAD.size <= len(record):
        head = HEAD.unpack_from(record, at)
        begun, middle = at + HEAD.size, at + HEAD.size + head[1]
        at = middle + head[2]
        calls.append(Call(head, record[begun:middle].decode(), record[middle:at]))
    return calls


class File:
    """What of a file is synced, what was written since, in order, and what a reader sees."""

    def __init__(self, data=b""):
        self.synced, self.waiting, self.seen = data, [], bytearray(data)

    def write(self, offset, data):
        self.waiting.append((offset, data))
        self.seen = write_at(self.seen, offset, data)

    def cut(self, length):
        self.waiting.append((length, None))
        self.seen = set_length(self.seen, length)

    def sync(self):
        self.synced, self.waiting = bytes(self.seen), []


def write_at(data, offset, more):
    if len(data) < offset:
        data.extend(bytes(offset - len(data)))
    data[offset:offset + len(more)] = more
    return data


def set_length(data, length):
    if len(data) > length:
        del data[length:]
    else:
        data.extend(bytes(length - len(data)))
    return data


class Disk:
    """The folder of a journal as the system has it after each call, and as the disk may have it."""

    def __init__(self, folder, uncounted=(), files=None):
        self.folder, self.uncounted = folder, uncounted
        self.synced = {name: File(data) for name, data in (files or {}).items()}
        self.names, self.waiting, self.open = dict(self.synced), [], {}

    def step(self, call):
        act = getattr(self, "after_" + call.kind.lower(), None)
        if act is not None and call.result >= 0 and call.kind not in self.uncounted:
            act(call, self.open.get(call.file))

    def after_start(self, *_):
        self.open = {}

    def after_open(self, call, _):
        path = os.path.normpath(call.path)
        if path == self.folder:
            self.open[call.file] = self
        elif os.path.dirname(path) == self.folder:
            name = os.path.basename(path)
            if name not in self.names:
                self.names[name] = File()
                self.waiting.append((name, self.names[name]))
            self.open[call.file] = self.names[name]
        else:
            self.open.pop(call.file, None)

    def after_close(self, call, _):
        self.open.pop(call.file, None)

    def after_write_at(self, call, file):
        if isinstance(file, File):
            file.write(call.offset, call.data)

    def after_write(self, call, file):
        if isinstance(file, File):
            file.write(len(file.seen), call.data)

    def after_cut(self, call, file):
        if isinstance(file, File):
            file.cut(call.offset)

    def after_fsync(self, _, file):
        if isinstance(file, File):
            file.sync()
        elif file is self:
            self.synced, self.waiting = dict(self.names), []

    after_fdatasync = after_fsync

    def after_remove(self, call, _):
        name = self.name_of(call.path)
        if name in self.names:
            del self.names[name]
            self.waiting.append((name, None))

    def after_rename(self, call, _):
        old, new = self.name_of(call.path), self.name_of(call.data.decode())
        if old in self.names and new is not None:
            self.names[new] = self.names.pop(old)
            self.waiting += [(old, None), (new, self.names[new])]

    def name_of(self, path):
        path = os.path.normpath(path)
        return os.path.basename(path) if os.path.dirname(path) == self.folder else None

    def left(self, way, chance):
        """The files that a power cut leaves. Names come in order, and any first part of them."""
        names = dict(self.synced)
        count = {"nothing": 0, "all": len(self.waiting)}.get(way)
        for name, file in self.waiting[:chance.randrange(len(self.waiting) + 1) if count is None else count]:
            names[name] = file
        left = {"nothing": lambda file: file.synced, "all": lambda file: bytes(file.seen)}.get(way, lambda file: some_sectors(file, way, chance))
        return {name: left(file) for name, file in names.items() if file is not None}


def versions_of(file):
    """Each sector as each write since the last sync made it, and how long the file was."""
    image, versions, lengths = bytearray(file.synced), collections.defaultdict(list), [len(file.synced)]
    for offset, data in file.waiting:
        if data is None:
            image = set_length(image, offset)
        else:
            image = write_at(image, offset, data)
            for sector in range(offset // SECTOR, (offset + len(data) - 1) // SECTOR + 1):
                versions[sector].append(bytes(image[sector * SECTOR:(sector + 1) * SECTOR]))
        lengths.append(len(image))
    return versions, lengths


def some_sectors(file, way, chance):
    if not file.waiting:
        return file.synced
    versions, lengths = versions_of(file)
    length = chance.choice(lengths) if chance.random() < 0.7 else max(lengths)
    left = bytearray(file.synced[:length])
    grown = length - len(left)
    left += chance.randbytes(grown) if way == "garbage" else bytes(grown)
    share = chance.choice([0.1, 0.5, 0.5, 0.9])
    for sector, images in versions.items():
        at = sector * SECTOR
        if chance.random() < share and at < length:
            image = chance.choice(images)[:length - at]
            if way == "torn" and chance.random() < 0.3:
                image = tear_sector(image, bytes(left[at:at + len(image)]), chance)
            left[at:at + len(image)] = image
    return bytes(left)


def tear_sector(new, old, chance):
    at = chance.randrange(len(new) + 1)
    return new[:at] + old[at:] if chance.random() < 0.5 else old[:at] + new[at:]


# --- What people do ----------------------------------------------------------------------------------------------------------------

DENIED = ["DENY bob rwa"] + NOTES
ROOM = [OWNERS_LIST, "ALLOW bob rt"]
FOR_ANN = "ALLOW ann rwatdcCo"
NO_WRITING = "DENY EVERYONE@ w"


class Rights:
    """Owner, owning group and list of each buffer by name."""

    def __init__(self):
        self.rows = {"notes": ("ann", "", NOTES), "page": ("ann", "", PAGE), "pad": ("cat", "", PAD), "long": ("cat", "", PAD)}

    def copy(self):
        other = Rights()
        other.rows = dict(self.rows)
        return other

    def change(self, name, owner=None, owning=None, entries=None):
        """Changes parts of a row. The lines that tell it."""
        old = self.rows[name]
        new = tuple(before if part is None else part for part, before in zip((owner, owning, entries), old))
        self.rows[name] = new
        return [(what, name, list_detail(list(before), list(after)) if what == "list" else f"{before} -> {after}")
                for what, before, after in zip(("owner", "group", "list"), old, new) if before != after]

    def kill(self, name):
        del self.rows[name]
        return [("kill", name, "")]

    def make(self, name, entries=(OWNERS_LIST,)):
        self.rows[name] = ("ann", "", list(entries))
        return [("create", name, create_detail(entries))]

    def shown(self):
        """What the screens show of them: whether bob is denied the notes, and the owners of all that ann may see."""
        return self.rows["notes"][2] != NOTES, {name: row[:2] for name, row in self.rows.items() if row[0] != "cat" or name == "page"}


# The connections of cat, which are sent letters alone.
CATS = (3, 4)


# A command that changes rights: its keys, and what it does to them.
SHUT = (go_to("notes") + DENY_BOB, lambda rights: rights.change("notes", entries=DENIED))
OPEN = (go_to("notes") + DROP_FIRST, lambda rights: rights.change("notes", entries=NOTES))
TO_CAT = (go_to("page") + command("set-owner", "cat"), lambda rights: rights.change("page", owner="cat"))
TO_ANN = (go_to("page") + command("set-owner", "ann"), lambda rights: rights.change("page", owner="ann"))
TO_DESK = (go_to("page") + command("set-group", "desk"), lambda rights: rights.change("page", owning="desk"))
TO_NONE = (go_to("page") + command("set-group", ""), lambda rights: rights.change("page", owning=""))
PAGE_SHUT = (go_to("page") + command("acl-insert", NO_WRITING, 1), lambda rights: rights.change("page", entries=[NO_WRITING] + PAGE))
PAGE_OPEN = (go_to("page") + DROP_FIRST, lambda rights: rights.change("page", entries=PAGE))


def kill(name):
    return f"\x18k{name}\r", lambda rights: rights.kill(name)


def make(name):
    return go_to(name), lambda rights: rights.make(name)


def of_each(*acts):
    """One key that does each of these acts. What is made again is told as one end and one beginning."""
    return lambda rights: [line for act in acts for line in act(rights)]


def remake(name, owner, entries):
    def act(rights):
        lines = rights.kill(name)
        rights.rows[name] = (owner, "", entries)
        return lines + [("create", name, create_detail(entries, owner))]
    return act


class Script:
    """What each of three people records, and what one key of it does: the state before and after, and never one between."""

    def __init__(self, words, macros, played):
        self.words, self.macros, self.played = words, macros, played


LET_IN = (command("acl-insert", "ALLOW bob rt"), lambda rights: rights.change("room", entries=ROOM))
LET_ANN = (command("acl-insert", FOR_ANN), lambda rights: rights.change("room", entries=[OWNERS_LIST, FOR_ANN]))
ROOM_TO_BOB = (command("set-owner", "bob"), lambda rights: rights.change("room", owner="bob"))
BEGUN = [make("room"), make("made1")]
TO_OTHERS, BACK = [SHUT, TO_CAT, TO_DESK], [OPEN, TO_ANN, TO_NONE]
THREE_TIMES = [kill("made1"), make("made1")] * 3
acts_of = lambda steps: [act for _, act in steps]
SCRIPTS = [
    Script("one buffer is killed and another is made",
           [TO_OTHERS + [kill("made1"), make("made2")], BACK + [kill("made2"), make("made1")], [kill("room"), make("room"), LET_IN]],
           [of_each(*acts_of(TO_OTHERS), *acts_of([kill("made1"), make("made2")])), of_each(*acts_of(BACK), *acts_of([kill("made2"), make("made1")])),
            remake("room", "ann", ROOM)]),
    Script("a buffer is killed and made three times, and one made again is given away",
           [TO_OTHERS + [PAGE_SHUT] + THREE_TIMES, BACK + [PAGE_OPEN] + THREE_TIMES[:2], [kill("room"), make("room"), LET_ANN, ROOM_TO_BOB]],
           [of_each(*acts_of(TO_OTHERS), PAGE_SHUT[1], remake("made1", "ann", [OWNERS_LIST])),
            of_each(*acts_of(BACK), PAGE_OPEN[1], remake("made1", "ann", [OWNERS_LIST])), remake("room", "bob", [OWNERS_LIST, FOR_ANN])]),
]


class Event:
    """Something that was typed: in which run, by which connection, up to which of its bytes, the lines that tell it, and the rights after it.
    Of one that is typed with more behind it, `known` is how many bytes were typed once it was seen."""

    def __init__(self, run, connection, count, lines, rights):
        self.run, self.connection, self.count, self.lines, self.known = run, connection, count, sorted(lines), None
        self.rights = rights.copy()
        self.received = self.shown = None

    def earlier(self):
        """This event as one that was there before the calls that are recorded."""
        other = copy.copy(self)
        other.received = other.shown = -1
        return other


class People:
    """Those who type: ann at three terminals, cat at two, who types letters, and two screens that are watched."""

    def __init__(self, server, run, scene):
        self.run, self.scene = run, scene
        self.typists = [server.join("ann") for _ in scene.script.macros]
        self.cat, self.other, self.bob, self.list = (server.join(name) for name in ("cat", "cat", "bob", "ann"))
        self.counts = [len(f"login ann {keep_desk.TICKETS['ann']} {keep_desk.ROWS} {keep_desk.COLS}\n")] * len(self.typists)
        type_in(self.bob, go_to("notes"))
        type_in(self.list, LISTING)
        type_in(self.cat, go_to("pad") + "\x1b>")
        type_in(self.other, go_to("long"))
        see(self.list, " page ")
        see(self.cat, "-pad")
        see(self.other, "-long")

    def does(self, typist, keys, act):
        """Notes what is one event at its last byte. Its keys."""
        self.counts[typist] += len(keys)
        lines = act(self.scene.rights)
        self.scene.events.append(Event(self.run, typist, self.counts[typist], lines, self.scene.rights))
        return keys

    def type(self, typist, keys):
        type_in(self.typists[typist], keys)

    def wait(self):
        """Waits until the screens show all that was typed."""
        end = time.time() + keep_desk.PATIENCE
        while state_shown(self.bob, self.list) != self.scene.rights.shown():
            if time.time() > end:
                raise SystemExit(f"a screen does not come to show it: {state_shown(self.bob, self.list)}, not {self.scene.rights.shown()}")
            for one in (self.bob, self.list, self.cat, self.other, *self.typists):
                one.read(quiet=0.005)

    def settle(self, typist):
        """Types what is answered at once: all that this person typed before is done then, and shown."""
        for keys, answer in (("\x18b", "Switch to buffer"), ("\x07", "Quit")):
            self.type(typist, keys)
            self.counts[typist] += len(keys)
            see(self.typists[typist], answer)
        self.wait()

    def letters(self, chance):
        for _ in range(chance.randrange(4)):
            letter = chance.choice("abcdefghij")
            self.scene.typed += letter
            type_in(self.cat, letter)
        type_in(self.other, "x")

    def record(self, typist):
        self.type(typist, "\x18(")
        self.counts[typist] += 2
        for keys, act in self.scene.script.macros[typist]:
            self.type(typist, self.does(typist, keys, act))
            self.wait()
        self.type(typist, "\x18)")
        self.counts[typist] += 2
        self.settle(typist)

    def play(self, typist, times=1):
        self.type(typist, "".join(self.does(typist, "\x18e", self.scene.script.played[typist]) for _ in range(times)))
        self.settle(typist)
        if times > 1:
            for event in self.scene.events[-times:]:
                event.known = self.counts[typist]


def state_shown(bob, listing):
    rows = {name: row for name, row in listed(listing).items() if name != "Buffers"}
    return not shows(bob, SECRET), rows


class Scene:
    """What people did over a server whose calls are recorded: the events, the rights before and after them, and what cat typed."""

    def __init__(self, desk, library, number):
        self.number, self.folder = number, desk.folder
        self.rights, self.events, self.typed = Rights(), [], ""
        self.begun = self.rights.copy()
        self.record = desk.at("calls")
        self.surroundings = {**os.environ, "LD_PRELOAD": library, "RECORD_TO": self.record}
        self.library = library

    @property
    def script(self):
        return SCRIPTS[self.number]

    def played(self, desk, plays, chance):
        """This scene once its people have played macros in three runs, each over what a kill of the one before left."""
        for run in range(RUNS):
            self.serve(desk, run, lambda people: self.live(people, plays, chance))
        return self.placed()

    def continued(self, desk, count, chance):
        """A scene that goes on over a folder in which there are this many of the events."""
        other = Scene(desk, self.library, self.number)
        other.typed, other.events, other.rights = self.typed, [event.earlier() for event in self.events[:count]], self.rights_after(count).copy()
        other.serve(desk, 0, lambda people: other.toggle(people, chance))
        return other.placed()

    def serve(self, desk, run, live):
        server = QuickServer(desk, surroundings=self.surroundings)
        if server.port is None:
            raise SystemExit(f"it does not serve: {server.ended()}")
        try:
            live(People(server, run, self))
        finally:
            server.kill()

    def placed(self):
        self.calls = calls_of(self.record)
        os.remove(self.record)
        self.place()
        return self

    def toggle(self, people, chance):
        for _ in range(chance.randrange(2, 5)):
            keys, act = OPEN if self.rights.shown()[0] else SHUT
            people.type(0, people.does(0, keys, act))
            people.settle(0)

    def live(self, people, plays, chance):
        if people.run == 0:
            for keys, act in BEGUN:
                people.type(2, people.does(2, keys, act))
                people.settle(2)
        for typist in range(len(self.script.macros)):
            people.record(typist)
            people.letters(chance)
        for number in range(2 * plays):
            begun = time.time()
            people.play(number % 2)
            people.letters(chance)
            if chance.random() < 0.5:
                people.play(2, chance.choice([1, 1, 3]))
            # So that the long text is written between some of them.
            time.sleep(max(0, begun + chance.choice([0.2, 0.6, 1.1]) - time.time()))
        # What cat typed is in the journal within a second.
        time.sleep(2)

    def place(self):
        """Finds the calls by which each event was received, and shown."""
        run, accepted, at, sums, sends = -1, 0, {}, {}, []
        received = collections.defaultdict(list)
        for index, call in enumerate(self.calls):
            if call.kind == "START":
                run, accepted, at = run + 1, 0, {}
            elif call.kind == "ACCEPT":
                at[call.file] = (run, accepted)
                accepted += 1
            elif call.kind == "RECEIVE" and call.file in at:
                one = at[call.file]
                sums[one] = sums.get(one, 0) + call.result
                received[one].append((sums[one], index))
            elif call.kind == "SEND" and call.file in at and at[call.file][1] not in CATS:
                sends.append(index)
        for event in self.events:
            if event.received is not None:
                continue
            some = received[event.run, event.connection]
            index_of = lambda count: some[bisect.bisect_left(some, (count, -1))][1]
            event.received = index_of(event.count)
            event.shown = index_of(event.known) if event.known else sends[bisect.bisect_right(sends, event.received)]

    def is_taken_over(self):
        """Whether the file was written after people had come."""
        names, is_served = {}, False
        for call in self.calls:
            is_served = call.kind == "ACCEPT" or is_served and call.kind != "START"
            if call.kind == "OPEN":
                names[call.file] = os.path.basename(call.path)
            elif call.kind == "WRITE_AT" and is_served and names.get(call.file) == "journal.sqlite3":
                return True
        return False

    def bounds(self, point):
        """How many events are shown by then, and how many were received."""
        return sum(event.shown <= point for event in self.events), sum(event.received <= point for event in self.events)

    def rights_after(self, count):
        return self.events[count - 1].rights if count else self.begun


# --- What is there after a cut -----------------------------------------------------------------------------------------------------

class Found:
    """What a start over a folder shows, and what SQLite and an audit find in it then."""

    def __init__(self, desk):
        server = QuickServer(desk)
        self.refusal = None
        if server.port is None:
            self.refusal = server.ended()
            return
        bob, listing = server.join("bob"), server.join("ann")
        type_in(bob, go_to("notes"))
        type_in(listing, LISTING)
        bob.read_until(lambda one: shows(one, SECRET) or shows(one, "[no read"), SOON)
        see(listing, " page ", SOON)
        self.screens = state_shown(bob, listing)
        server.kill()
        for one in (bob, listing):
            one.close()
        self.status, text, _ = desk.audit()
        told = [line.split("\t") for line in text.splitlines()]
        self.numbers = [int(line[1]) for line in told]
        self.lines = [tuple(line[3:]) for line in told if line[2] == "ann" and line[3] in CHANGES]
        self.look(desk)

    def look(self, desk):
        sound, rows, self.text = desk.answers("PRAGMA integrity_check", "SELECT name, owner, owning_group, entries FROM buffer",
                                              "SELECT body FROM text JOIN buffer ON buffer.id = text.buffer WHERE name = 'pad'")
        self.is_sound = sound == [("ok",)]
        self.rows = rows if isinstance(rows, str) else {name: (owner, owning, entries.split("\n")[:-1]) for name, owner, owning, entries in rows}


def faults(scene, found, point):
    """The kinds of what is wrong with what was found after a cut."""
    if found.refusal is not None:
        return [f"refused: {found.refusal}"]
    wrong = []
    low, high = scene.bounds(point)
    counts = range(low, high + 1)
    fitting = [count for count in counts if scene.rights_after(count).rows == found.rows]
    if not found.is_sound:
        wrong.append("not sound")
    if not fitting:
        wrong.append("rights between two events, or of earlier ones")
    if not any(scene.rights_after(count).shown() == found.screens for count in fitting or counts):
        wrong.append("screens are otherwise")
    if found.status != 0 or found.numbers != list(range(1, len(found.numbers) + 1)):
        wrong.append("the audit has a gap")
    if not any(has_lines(scene.events[:count], found.lines) for count in fitting or counts):
        wrong.append("lines are not those of whole events")
    text = found.text[0][0] if isinstance(found.text, list) and found.text else "pad\n"
    if not ("pad\n" + scene.typed).startswith(text):
        wrong.append("a text of no moment")
    return wrong


def has_lines(events, lines):
    """Whether lines are those of these events, each event's in any order."""
    at = 0
    for event in events:
        if sorted(lines[at:at + len(event.lines)]) != event.lines:
            return False
        at += len(event.lines)
    return at == len(lines)


def points_of(calls, count, chance):
    """Where the power is cut: most often right behind a call that changes a file, and often while the program starts."""
    changing, starting, is_start = [], [], True
    for index, call in enumerate(calls):
        is_start = call.kind == "START" or is_start and call.kind != "ACCEPT"
        if call.kind in ("OPEN", "WRITE_AT", "WRITE", "CUT", "FSYNC", "FDATASYNC", "RENAME", "REMOVE"):
            changing.append(index)
            starting += [index] if is_start else []
    last = changing[-1]

    def point():
        some = chance.choices([changing, starting, range(last)], [60, 15, 25])[0]
        return min(last, chance.choice(some) + chance.choice([0, 0, 0, 1]))

    return sorted(point() for _ in range(count))


class Cuts:
    """Power cuts, and what was wrong after them: how many, of which kinds, and the first of them."""

    def __init__(self):
        self.done = self.wrong = 0
        self.kinds, self.examples = collections.Counter(), []

    def note(self, scene, point, way, found):
        self.done += 1
        self.wrong += bool(found)
        self.kinds.update(found)
        if found and len(self.examples) < 3:
            self.examples.append((scene.script.words, point, scene.calls[point].kind, way, found))

    def add(self, other):
        self.done += other.done
        self.wrong += other.wrong
        self.kinds.update(other.kinds)
        self.examples = (self.examples + other.examples)[:3]

    def seen(self):
        return self.wrong, dict(self.kinds), self.examples


def files_after_cuts(scene, disk, count, chance):
    """What cuts at some points of a record leave, in their order: the point, how, and the files."""
    at = -1
    for point in points_of(scene.calls, count, chance):
        while at < point:
            at += 1
            disk.step(scene.calls[at])
        way = chance.choices(list(WAYS), list(WAYS.values()))[0]
        yield point, way, disk.left(way, chance)


def cut(scene, desk, count, chance, end, uncounted=()):
    """Starts the program over what cuts leave."""
    cuts = Cuts()
    for point, way, files in files_after_cuts(scene, Disk(scene.folder, uncounted), count, chance):
        if time.time() > end:
            break
        desk.restore(files)
        cuts.note(scene, point, way, faults(scene, Found(desk), point))
    return cuts


def cut_twice(scene, desk, count, chance, end):
    """Goes on over what cuts leave, and cuts the power in that five times."""
    cuts = Cuts()
    for point, way, files in files_after_cuts(scene, Disk(scene.folder), count, chance):
        if time.time() > end:
            break
        desk.restore(files)
        found = Found(desk)
        wrong = faults(scene, found, point)
        if wrong:
            cuts.note(scene, point, way, wrong)
            continue
        low, high = scene.bounds(point)
        there = next(number for number in range(low, high + 1) if has_lines(scene.events[:number], found.lines))
        desk.restore(files)
        other = scene.continued(desk, there, chance)
        for point, way, files in files_after_cuts(other, Disk(other.folder, files=files), 5, chance):
            desk.restore(files)
            cuts.note(other, point, way, faults(other, Found(desk), point))
    return cuts


def cut_share(how, scene, text, count, seed, *rest):
    """One worker's share of the cuts of a record, over a folder of its own."""
    with Desk(text) as desk:
        return how(scene, desk, count, random.Random(seed), *rest)


def cut_all(pool, workers, how, scenes, text, count, chance, *rest):
    """Has the workers cut the power so often, each record as often as the others."""
    shares = len(scenes) * workers
    work = [pool.submit(cut_share, how, scenes[at % len(scenes)], text, count // shares + (at < count % shares), chance.random(), *rest)
            for at in range(shares)]
    cuts = Cuts()
    for share in work:
        cuts.add(share.result())
    return cuts


def is_whole(scene, folder, contents):
    """Whether the record makes the files that are there."""
    disk = Disk(folder)
    for call in scene.calls:
        disk.step(call)
    return {name: bytes(file.seen) for name, file in disk.names.items()} == contents


def library_of(folder):
    library = os.path.join(folder, "record_calls.so")
    subprocess.run(["cc", "-O2", "-shared", "-fPIC", "-o", library, os.path.join(TOP, "bench", "record_calls.c"), "-ldl"], check=True)
    return library


def has_memory_for(count):
    return os.access(IN_MEMORY, os.W_OK) and shutil.disk_usage(IN_MEMORY).free > count * MOST


def record(desk, number, options, library, chance):
    """A scene of the script of this number, recorded."""
    scene = Scene(desk, library, number).played(desk, options.plays, chance)
    if not scene.is_taken_over():
        print("the log was not taken over while they typed: a longer record (--plays) has that")
    expect(f"{scene.script.words}: the record of {len(scene.calls)} calls and {len(scene.events)} events makes the files",
           is_whole(scene, desk.folder, desk.contents()))
    return scene


def main():
    parser = argparse.ArgumentParser(description=__doc__.splitlines()[0])
    parser.add_argument("--cuts", type=int, default=2000, help="how often the power is cut")
    parser.add_argument("--plays", type=int, default=4, help="how often each macro is played in each of the runs that are recorded")
    parser.add_argument("--seed", type=int, default=random.randrange(1 << 30), help="what is drawn from")
    parser.add_argument("--seconds", type=int, default=3600, help="after which no more cuts are made")
    parser.add_argument("--workers", type=int, default=2 * (os.cpu_count() or 1), help="how many folders are cut at a time")
    parser.add_argument("program", nargs="?", default=keep_desk.program)
    options = parser.parse_args()
    if not keep_desk.use(options.program):
        return 1
    print(f"seed {options.seed}", flush=True)
    chance, end = random.Random(options.seed), time.time() + options.seconds
    with Desk() as common, concurrent.futures.ProcessPoolExecutor(options.workers, multiprocessing.get_context("fork")) as pool:
        with open(common.at("long.txt"), "w") as file:
            file.write("words and more words and a few of them\n" * (LONG // 39))
        text = config(buffer("notes", NOTES, text=SECRET), buffer("page", PAGE, text="A page."), buffer("pad", PAD, owner="cat", text="pad"),
                      file_buffer("long", PAD, common.at("long.txt"), "cat"))
        library = library_of(common.path)
        if has_memory_for(options.workers):
            tempfile.tempdir = IN_MEMORY
        scenes = []
        for number in range(len(SCRIPTS)):
            with Desk(text) as desk:
                scenes.append(record(desk, number, options, library, chance))
        cuts = cut_all(pool, options.workers, cut, scenes, text, options.cuts, chance, end)
        expect(f"after {cuts.done} of {options.cuts} power cuts rights are those before or after an event, and all that was shown is there",
               cuts.done == options.cuts and cuts.wrong == 0, cuts.seen())
        wanted = max(len(scenes) * options.workers, options.cuts // 40)
        cuts = cut_all(pool, options.workers, cut_twice, scenes, text, wanted, chance, end)
        expect(f"so they are after {cuts.done} second ones, over what a cut left", cuts.done >= wanted and cuts.wrong == 0, cuts.seen())
        cuts = cut_all(pool, options.workers, cut, scenes, text, 80, chance, end + 600, ("FDATASYNC",))
        expect(f"where fdatasync counts for nothing, that is seen: {cuts.wrong} of {cuts.done} are wrong", cuts.wrong > cuts.done // 4, cuts.seen())
    return finish()


if __name__ == "__main__":
    sys.exit(main())
