#!/usr/bin/env python3
"""Tries over sockets what a journal keeps: python3 bench/try_keep.py [--rounds N] [--moments N] [--long] [--only WORDS] [PROGRAM]

It starts the program that stands in crates/mgd_keep/out/mgd_keep (or PROGRAM) over folders of its own, changes lists, owners, groups and
buffers as people do, kills it at N random moments (100), and at others (60) while three people edit texts, damages what it left, fills its
memory, attacks the journal as keep_attacks.py says, and looks at what the next start shows, what `audit` prints, and what SQLite finds. It is
started by hand and ends with status 0 if all is as it should be. --long takes some minutes more. As root it also tries a full disk and a folder
of another user; otherwise it says that it leaves them out.
"""
import argparse, os, random, re, resource, signal, socket, sqlite3, subprocess, sys, threading, time
from datetime import datetime, timezone
from functools import partial

import keep_desk
from keep_desk import (COLS, DENY_BOB, DROP_FIRST, Desk, EVENT, IS_ROOT, LEAVE, LISTING, NOBODY, NONE, NOTES, OWNERS_LIST, PAGE, PATIENCE,
                       PLAIN, ROWS, SECRET, Server, State, TICKETS, USAGE, Watch, buffer, command, config, count_of, create_detail, expect, fields, finish,
                       go_to, list_detail, made_journal, miss, refused, seal, see, serving, shows, type_in, wait_for)
from keep_attacks import ATTACKS
from keep_output import try_unread_output
from keep_starts import STARTS
from moments import Person, rows_of
from try_server import Terminal


# --- Kills at random moments -------------------------------------------------------------------------------------------------------

def change_of(state, chance, number):
    """A change that ann makes: its keys, the state after it, and the event that tells it."""
    kind = chance.choice(["list", "list", "owner", "group", "create", "kill"])
    if kind == "list":
        denied = ["DENY bob rwa"] + NOTES
        details = list_detail(denied, NOTES) if state.denied else list_detail(NOTES, denied)
        keys = go_to("notes") + (DROP_FIRST if state.denied else DENY_BOB)
        return keys, State(not state.denied, state.page, state.made), ("ann", "list", "notes", details)
    owner, owning = state.page
    if kind == "owner":
        new = chance.choice([name for name in ("ann", "bob", "cat") if name != owner])
        return go_to("page") + command("set-owner", new), State(state.denied, (new, owning), state.made), ("ann", "owner", "page", f"{owner} -> {new}")
    if kind == "group":
        new = chance.choice([name for name in ("staff", "desk", "") if name != owning])
        keys = go_to("page") + command("set-group", new)
        return keys, State(state.denied, (owner, new), state.made), ("ann", "group", "page", f"{owning} -> {new}")
    if kind == "kill" and state.made:
        name = chance.choice(sorted(state.made))
        return f"\x18k{name}\r", State(state.denied, state.page, state.made - {name}), ("ann", "kill", name, NONE)
    name = f"made{number}"
    return go_to(name), State(state.denied, state.page, state.made | {name}), ("ann", "create", name, create_detail([OWNERS_LIST]))


def try_kills(rounds, seed):
    chance = random.Random(seed)
    wrong, unsound, shown_changes, lost = [], 0, 0, 0
    happened = []
    with Desk() as desk:
        state = State(False, ("ann", ""), [])
        admitted, event = [state], None
        for number in range(rounds + 1):
            watch = Watch(desk)
            found = watch.state()
            if found not in admitted:
                wrong.append((number, event, found, admitted))
            if event is not None and found == admitted[0]:
                happened.append(event)
            state = found
            keys, after, event = change_of(state, chance, number)
            type_in(watch.ann, keys)
            seen = watch.kill(chance.choice([0, 0.001, 0.003, 0.01, 0.03]) * chance.random() * 2)
            is_shown = seen == after
            shown_changes += is_shown
            lost += not is_shown
            admitted = [after] if is_shown else [after, state]
            if chance.random() < 0.4:
                with open(desk.base + "-wal", "ab") as log:
                    log.write(chance.randbytes(chance.randrange(1, 9000)))
            unsound += not desk.is_sound()
        Watch(desk).kill(0)
        told = [line for line in desk.events() if line[0] != NONE and line[1] in ("list", "owner", "group", "create", "kill")]
        numbers = [int(line.split("\t")[1]) for line in desk.audit()[1].splitlines()]
    expect(f"killed {rounds + 1} times, each change that a screen had shown held ({shown_changes} were shown, {lost} were not)", not wrong, wrong[:3])
    expect("some were shown, and some not", rounds < 20 or (shown_changes > 0 and lost > 0), (shown_changes, lost))
    expect("SQLite finds the files sound each time", unsound == 0, unsound)
    expect("an audit tells each change that held, once and in order", told[:len(happened)] == happened and len(told) <= len(happened) + 1,
           (len(told), len(happened), [pair for pair in zip(told, happened) if pair[0] != pair[1]][:2]))
    expect("its numbers go up by one", numbers == list(range(1, len(numbers) + 1)), numbers[:20])


def try_shown_then_killed():
    """A kill right after bob's screen shows that he is shut out."""
    with Desk() as desk:
        server = serving(desk)
        ann, bob = server.join("ann"), server.join("bob")
        expect("bob reads the notes", see(bob, SECRET), bob.shows(1))
        type_in(ann, DENY_BOB)
        expect("ann shuts him out", see(bob, "[no read: entry 1]"), bob.shows(1))
        server.kill()
        server = serving(desk)
        bob = server.join("bob")
        expect("after kill -9 and a start he is shut out", see(bob, "[no read: entry 1]") and not shows(bob, SECRET), bob.shows(1))
        expect("and the start says that the list is the journal's", server.told() == "buffer notes: as the journal has it, not as CONFIG\n", server.told())
        cat = server.join("cat")
        expect("others read on", see(cat, SECRET), cat.shows(1))
        server.kill()


# --- What is refused at a start ----------------------------------------------------------------------------------------------------

def try_damage():
    damaged = "journal: the file is damaged or no database\n"
    with Desk() as desk:
        made_journal(desk)
        whole = desk.contents()["journal.sqlite3"]
        places = [match.start() for match in re.finditer(b"DENY bob", whole)]
        expect("the list stands in the file", bool(places))
        for name, at in [("a letter of a list", places[0] + 5), ("a letter of the head", 3), ("the last byte", len(whole) - 1)]:
            with open(desk.base, "wb") as file:
                file.write(whole[:at] + bytes([whole[at] ^ 1]) + whole[at + 1:])
            refused(desk, f"{name}, changed,", 1, damaged)
            got = desk.audit()
            expect("its audit too", got == (1, "", damaged), got)
        with open(desk.base, "wb") as file:
            file.write(whole[:len(whole) // 2 + 100])
        refused(desk, "a half of the file", 1, damaged)
        with open(desk.base, "wb") as file:
            file.write(b"no database at all, but a text of some length\n" * 100)
        refused(desk, "a text", 1, damaged)


def try_foreign():
    with Desk() as desk:
        base = sqlite3.connect(desk.base)
        base.executescript("CREATE TABLE guest(name TEXT); INSERT INTO guest VALUES ('ann');")
        base.close()
        os.chmod(desk.base, 0o600)
        refused(desk, "a database with other tables", 1, "journal: the file is a database with other tables\n")
    with Desk() as desk:
        made_journal(desk)
        base = sqlite3.connect(desk.base)
        base.execute("UPDATE format SET version = version + 1")
        base.commit()
        base.execute("PRAGMA wal_checkpoint(TRUNCATE)").fetchall()
        base.close()
        seal(desk.base)
        refused(desk, "a later version", 1, "journal: the file is of a later version\n")
    with Desk() as desk:
        made_journal(desk)
        base = sqlite3.connect(desk.base)
        base.execute("UPDATE buffer SET entries = 'DENY nobody' WHERE name = 'notes'")
        base.commit()
        base.execute("PRAGMA wal_checkpoint(TRUNCATE)").fetchall()
        base.close()
        seal(desk.base)
        refused(desk, "a list that does not read", 1, re.compile("journal: buffer notes: .+\n"))


def try_folders():
    def is_refused(desk, what):
        words = f"{desk.folder}: not a folder of yours with mode 0700\n"
        got = Server(desk).ended()
        expect(f"{what} is refused", got == (1, words), got)

    with Desk() as desk:
        for mode in (0o755, 0o750, 0o701, 0o770):
            os.chmod(desk.folder, mode)
            is_refused(desk, f"a folder of mode {mode:o}")
        os.rmdir(desk.folder)
        is_refused(desk, "no folder")
        got = desk.audit()
        expect("and has no audit", got == (1, "", f"{desk.base}: there is no journal\n"), got)
        with open(desk.folder, "w"):
            pass
        os.chmod(desk.folder, 0o700)
        is_refused(desk, "a file")
        os.remove(desk.folder)
        os.mkdir(desk.at("other"), 0o700)
        os.symlink("other", desk.folder)
        is_refused(desk, "a link to a folder")
        got = desk.audit()
        expect("an audit of a folder without a journal makes none", got[0] == 1 and os.listdir(desk.at("other")) == [], got)
    if IS_ROOT:
        with Desk() as desk:
            os.chown(desk.folder, NOBODY, NOBODY)
            is_refused(desk, "a folder of somebody else")
    else:
        print("left out: a folder of somebody else, which only root can make")
    with Desk() as desk:
        serving(desk).kill()
        modes = {name: oct(os.lstat(os.path.join(desk.folder, name)).st_mode & 0o777) for name in os.listdir(desk.folder)}
        expect("the files are for their owner alone", set(modes.values()) == {"0o600"} and "journal.sqlite3" in modes, modes)


def try_links():
    with Desk() as desk:
        with open(desk.at("mine"), "w") as file:
            file.write("mine\n")
        os.symlink(desk.at("mine"), desk.base)
        got = Server(desk).ended()
        with open(desk.at("mine")) as file:
            text = file.read()
        expect("a link to a text in the place of the file is refused, and the text stays", got[0] == 1 and text == "mine\n", (got, text))


def try_second():
    with Desk() as desk:
        server = serving(desk)
        words = "journal: another process has the file open\n"
        got = Server(desk).ended()
        expect("a second server on the folder is refused", got == (5, words), got)
        got = desk.audit()
        expect("an audit beside one that serves is printed", got[0] == 0 and got[1].splitlines() == server.lines() != [] and got[2] == "", got)
        ann = server.join("ann")
        type_in(ann, "still here ")
        expect("the first one goes on", see(ann, "still here"), ann.shows(1))
        server.kill()
        got = desk.audit()
        expect("once it has ended, an audit is printed", got[0] == 0 and got[2] == "", got)


def try_words():
    rows = [(), ("serve",), ("serve", "f"), ("serve", "f", "c"), ("serve", "f", "c", "65536"), ("serve", "f", "c", "0", "x"),
            ("serve", "f", "c", "0", "--forget"), ("serve", "f", "c", "0", "--owner", "b"), ("serve", "f", "c", "0", "--owner-of", "b"),
            ("serve", "f", "c", "0", "--list", "b"), ("serve", "f", "c", "0", "--discard", "b"), ("audit",), ("audit", "f", "x"),
            ("audit", "f", "--since"), ("replay",)]
    for words in rows:
        done = subprocess.run([keep_desk.program, *words], capture_output=True, text=True, timeout=PATIENCE, stdin=subprocess.DEVNULL)
        got = done.returncode, done.stdout, done.stderr
        expect(f"{words} is answered by the usage line", got == (2, "", USAGE), got)
    for time_of in ("monday", "2026-13-01", "2026-11-29T01:22"):
        done = subprocess.run([keep_desk.program, "audit", "f", "--since", time_of], capture_output=True, text=True, timeout=PATIENCE)
        got = done.returncode, done.stdout, done.stderr
        expect(f"{time_of} is no time", got == (1, "", "--since: not a time as 2026-11-29 or 2026-11-29T01:22:33Z\n"), got)


def try_configurations():
    with Desk("= 1") as desk:
        got = Server(desk).ended()
        expect("a configuration is refused as by mgd", got == (1, "top 0: Toml\n"), got)
    with Desk() as desk, socket.socket() as taken:
        taken.bind(("127.0.0.1", 0))
        taken.listen()
        done = subprocess.run([keep_desk.program, "serve", desk.folder, desk.at("served.toml"), str(taken.getsockname()[1])], capture_output=True,
                              text=True, timeout=PATIENCE)
        expect("a port in use", (done.returncode, done.stderr) == (3, "listening failed\n"), (done.returncode, done.stderr))


# --- What a start takes from where -------------------------------------------------------------------------------------------------

def try_owner_left():
    with Desk(config(buffer("notes", NOTES, text=SECRET), buffer("page", PAGE, text="A page."), users=TICKETS)) as desk:
        server = serving(desk)
        ann = server.join("ann")
        type_in(ann, go_to("page") + command("set-owner", "eve") + LISTING)
        expect("ann gives the page to eve", see(ann, " page eve"), ann.shows(2))
        server.kill()
        desk.write(PLAIN)
        got = Server(desk).ended()
        expect("an owner who is no user any more is refused", got[0] == 1 and got[1].endswith("buffer page: owner eve is no user\n"), got)
        got = Server(desk, "--owner", "page", "No Name").ended()
        left = "buffer page: owner eve is no user\n"
        expect("nor can it be given to what is no name", got == (1, "No Name: no name of a user\n" + left), got)
        got = Server(desk, "--owner", "none", "ann").ended()
        expect("nor can a buffer that the journal does not have", got == (1, "buffer none: the journal does not have it\n" + left), got)
        got = Server(desk, "--owner", "page", "eve").ended()
        expect("and cannot be given it again", got[0] == 1, got)
        server = serving(desk, "--owner", "page", "bob")
        ann = server.join("ann")
        type_in(ann, LISTING)
        expect("until the start gives it to another", see(ann, " page bob"), [ann.shows(row) for row in (1, 2, 3)])
        server.kill()
        server = serving(desk)
        ann = server.join("ann")
        type_in(ann, LISTING)
        expect("who has it at the next start too", see(ann, " page bob"), [ann.shows(row) for row in (1, 2, 3)])
        server.kill()


def try_otherwise():
    with Desk() as desk:
        made_journal(desk)
        desk.write(config(buffer("notes", NOTES[:1], text=SECRET), buffer("page", PAGE, text="A page."), buffer("new", NOTES, text="A new one.")))
        server = serving(desk)
        expect("where CONFIG says otherwise, the start tells it", server.told() == "buffer notes: as the journal has it, not as CONFIG\n", server.told())
        cat = server.join("cat")
        expect("and what the journal has holds", see(cat, SECRET), cat.shows(1))
        bob = server.join("bob")
        type_in(bob, go_to("new"))
        expect("a buffer that CONFIG has anew is there", see(bob, "A new one."), bob.shows(1))
        server.kill()
        server = serving(desk, "--forget", "notes")
        expect("with --forget nothing is told", server.told() == "", server.told())
        cat = server.join("cat")
        type_in(cat, go_to("notes"))
        expect("and CONFIG's list holds", see(cat, "Denied: no entry grants READ_ATTRIBUTES") and not shows(cat, SECRET), cat.shows(1))
        server.kill()
        server = serving(desk)
        cat = server.join("cat")
        type_in(cat, go_to("notes"))
        expect("at the next start too", see(cat, "Denied: no entry grants READ_ATTRIBUTES") and server.told() == "", cat.shows(ROWS))
        server.kill()


def try_names_of_others():
    """A buffer that somebody made under a name is not the one that CONFIG has under it later, or had under it before."""
    with Desk() as desk:
        server = serving(desk)
        bob = server.join("bob")
        type_in(bob, go_to("plans") + "mine")
        see(bob, "mine")
        server.kill()
        desk.write(config(buffer("notes", NOTES, text=SECRET), buffer("page", PAGE, text="A page."), buffer("plans", ["ALLOW ann rwatc"], text="Only for ann.")))
        server = Server(desk)
        if server.port is None:
            got = server.ended()
            expect("a name that somebody took before CONFIG did is refused by name", got[0] == 1 and "plans" in got[1], got)
        else:
            bob = server.join("bob")
            type_in(bob, go_to("plans"))
            see(bob, "-plans-")
            expect("whoever took a name before CONFIG did is not shown CONFIG's text", not shows(bob, "Only for ann"), bob.shows(1))
            server.kill()
    with Desk(config(buffer("notes", NOTES, text=SECRET), buffer("page", ["ALLOW ann rwatcC", "ALLOW bob td"], text="Only for ann."))) as desk:
        server = serving(desk)
        bob = server.join("bob")
        type_in(bob, "\x18kpage\r" + go_to("page"))
        see(bob, "-page-")
        server.kill()
        server = Server(desk)
        if server.port is None:
            got = server.ended()
            expect("a name that was killed and taken is refused by name", got[0] == 1 and "page" in got[1], got)
        else:
            bob = server.join("bob")
            type_in(bob, go_to("page"))
            see(bob, "-page-")
            expect("whoever killed a text and took its name is not shown it at the next start", not shows(bob, "Only for ann"), bob.shows(1))
            server.kill()
    with Desk(config(buffer("notes", NOTES[:1] + ["ALLOW EVERYONE@ rwatd"], text=SECRET), buffer("page", PAGE, text="A page."))) as desk:
        server = serving(desk)
        ann, bob = server.join("ann"), server.join("bob")
        type_in(ann, DENY_BOB)
        see(bob, "[no read")
        cat = server.join("cat")
        type_in(cat, "\x18knotes\r" + LISTING)
        see(cat, " page ")
        miss(cat, " notes ")
        server.kill()
        server = serving(desk)
        bob = server.join("bob")
        type_in(bob, go_to("notes"))
        see(bob, "-notes-")
        expect("a kill lets nobody in whom the list had shut out", not shows(bob, SECRET), bob.shows(1))
        server.kill()


# --- When the journal fails --------------------------------------------------------------------------------------------------------

def change_until_failed(server, most):
    """ann changes the list of the notes until the journal fails. How many changes bob's screen has shown, and whether he is shut out there."""
    ann, bob = server.join("ann"), server.join("bob")
    see(bob, "-notes-")
    is_denied = shows(bob, "[no read")
    for number in range(most):
        type_in(ann, DROP_FIRST if is_denied else DENY_BOB)
        wanted = SECRET if is_denied else "[no read"
        bob.read_until(lambda one: shows(one, wanted), PATIENCE)
        if not shows(bob, wanted):
            return number, is_denied
        is_denied = not is_denied
    return most, is_denied


def holds_after_failure(desk, number, is_denied, what):
    server = serving(desk)
    bob = server.join("bob")
    see(bob, "[no read" if is_denied else SECRET, 3)
    kept = shows(bob, "[no read")
    server.kill()
    changes = [line for line in desk.events() if line[0] == "ann" and line[1] == "list"]
    # The change that failed was shown to nobody, and may have been kept or not.
    expect(f"{what}: what was shown holds after the next start", len(changes) in (number, number + 1) and kept == (len(changes) % 2 == 1),
           (number, len(changes), is_denied, kept))


def try_size_limit():
    def limit(size, is_set_aside):
        def before():
            if is_set_aside:
                signal.signal(signal.SIGXFSZ, signal.SIG_IGN)
            resource.setrlimit(resource.RLIMIT_FSIZE, (size, size))
        return before

    for is_set_aside in (True, False):
        with Desk() as desk:
            serving(desk).kill()
            server = serving(desk, before=limit(150_000, is_set_aside))
            number, is_denied = change_until_failed(server, 3000)
            got = server.ended()
            if not is_set_aside and got[0] == -signal.SIGXFSZ:
                print("left out: without the signal set aside a limit of size ends the program by SIGXFSZ, as the manual page says")
            else:
                expect("a limit of size ends it with 4", got == (4, "journal failed\n"), (number, got))
            expect("after some changes", 0 < number < 3000, number)
            expect("SQLite finds the files sound", desk.is_sound())
            holds_after_failure(desk, number, is_denied, "a limit of size")


def try_full_disk():
    with Desk() as desk:
        small = desk.at("small")
        os.mkdir(small)
        if not IS_ROOT or subprocess.run(["mount", "-t", "tmpfs", "-o", "size=400k", "tmpfs", small], stderr=subprocess.DEVNULL).returncode:
            print("left out: a full disk, since no small file system can be mounted here")
            return
        try:
            desk.folder = os.path.join(small, "journal")
            os.mkdir(desk.folder, 0o700)
            server = serving(desk)
            number, is_denied = change_until_failed(server, 5000)
            got = server.ended()
            expect("a full disk ends it with 4", got == (4, "journal failed\n"), (number, got))
            expect("after some changes", 0 < number < 5000, number)
            got = Server(desk)
            if got.port is None:
                status = got.ended()
                expect("a start on the full disk is refused by words", status == (1, "journal: the disk is full\n"), status)
            else:
                got.kill()
            subprocess.run(["mount", "-o", "remount,size=4m", small], check=True)
            expect("SQLite finds the files sound", desk.is_sound())
            holds_after_failure(desk, number, is_denied, "a full disk")
        finally:
            subprocess.run(["umount", small], check=False)


# --- What is told ------------------------------------------------------------------------------------------------------------------

def log_in_by(server, line):
    """What is answered to a login line that is refused."""
    with socket.create_connection(("127.0.0.1", server.port), PATIENCE) as one:
        one.sendall(line)
        answer = b""
        while not answer.endswith(b"\n"):
            more = one.recv(64)
            if not more:
                break
            answer += more
    return answer


# Login lines that are refused: what is answered, the name that is told, and the cause.
REFUSED = [
    (b"login bob wrong 24 80\n", b"refused 3 Ticket\n", "bob", "ticket"),
    (b"login eve birch 24 80\n", b"refused 2 NoUser\n", NONE, "no user"),
    (b"login \xff birch 24 80\n", b"refused 2 NoUser\n", NONE, "no user"),
    (b"hello\n", b"refused 1 Line\n", NONE, "no login line"),
    (b"x" * 129, b"refused 1 Line\n", NONE, "no login line"),
    (b"login bob birch 1 80\n", b"refused 4 Size\n", "bob", "size"),
]


def played(server):
    """A quarter of an hour of three people, each thing done once the one before is seen: what an audit is to say of it, and whose
    session is open at the end."""
    done = []

    def note(*line):
        done.append(line)

    def does(one, keys, is_seen, *lines):
        type_in(one, keys)
        expect(f"played: {lines or keys.encode()}", is_seen(), [one.shows(row) for row in (1, 2, ROWS - 1, ROWS)])
        done.extend(lines)

    def denied(name, one, keys, echo, buffer, detail):
        does(one, keys, lambda: see(one, echo), (name, "denied", buffer, detail))
        # A motion that is granted, or a word that is given up, empties the echo row.
        type_in(one, "\x07")
        see(one, "Quit")

    ann = server.join("ann")
    note("ann", "login", NONE, NONE)
    bob = server.join("bob")
    note("bob", "login", NONE, NONE)
    cat = server.join("cat")
    note("cat", "login", NONE, NONE)
    for line, answer, name, cause in REFUSED:
        got = log_in_by(server, line)
        expect(f"played: {line[:20]} is refused", got == answer, got)
        note(name, "refused", NONE, cause)
        # Equal refusals of one second are one line.
        time.sleep(1.1)
    does(bob, "Hello ann. ", lambda: see(ann, "Hello ann."))
    does(ann, DENY_BOB, lambda: see(bob, "[no read: entry 1]"), ("ann", "list", "notes", list_detail(NOTES, ["DENY bob rwa"] + NOTES)))
    denied("bob", bob, "x", "Denied: entry 1 denies APPEND_DATA", "notes", "APPEND_DATA entry 1")
    denied("bob", bob, "\x02", "Denied: entry 1 denies READ_DATA", "notes", "READ_DATA entry 1")
    denied("bob", bob, command("acl-insert", "ALLOW bob r", 1), "Denied: no entry grants WRITE_ACL", "notes", "WRITE_ACL no entry")
    does(cat, go_to("page"), lambda: see(cat, "A page."))
    denied("cat", cat, "x", "Denied: no entry grants WRITE_DATA", "page", "WRITE_DATA no entry")
    denied("cat", cat, "\x18kpage\r", "Denied: no entry grants DELETE", "page", "DELETE no entry")
    does(ann, go_to("page") + command("set-group", "desk") + LISTING, lambda: see(ann, " page ann:desk"), ("ann", "group", "page", " -> desk"))
    does(ann, go_to("page") + command("set-owner", "cat") + LISTING, lambda: see(ann, " page cat:desk"), ("ann", "owner", "page", "ann -> cat"))
    denied("cat", cat, command("set-owner", "bob"), "Denied: no entry grants WRITE_OWNER", "page", "WRITE_OWNER no entry")
    does(ann, go_to("page") + command("acl-replace", "ALLOW EVERYONE@ rwt", 2) + command("acl-list", None), lambda: see(ann, "2 ALLOW EVERYONE@ rwt"),
         ("ann", "list", "page", list_detail(PAGE, [PAGE[0], "ALLOW EVERYONE@ rwt"])))
    does(ann, go_to("page"), lambda: see(ann, "A page."))
    does(cat, "Now ", lambda: see(ann, "Now A page."))
    does(bob, go_to("draft") + "mine", lambda: see(bob, "-draft-"), ("bob", "create", "draft", create_detail([OWNERS_LIST], "bob")))
    denied("ann", ann, go_to("draft"), "Denied: no entry grants READ_ATTRIBUTES", "draft", "READ_ATTRIBUTES no entry")
    does(bob, command("acl-insert", "ALLOW ann rt") + command("acl-list", None), lambda: see(bob, "2 ALLOW ann rt"), ("bob", "list", "draft", list_detail([OWNERS_LIST], [OWNERS_LIST, "ALLOW ann rt"])))
    does(ann, go_to("draft"), lambda: see(ann, "mine"))
    denied("ann", ann, "\x18kdraft\r", "Denied: no entry grants DELETE", "draft", "DELETE no entry")
    does(bob, "\x18kdraft\r", lambda: miss(ann, "mine"), ("bob", "kill", "draft", NONE))
    does(ann, go_to("page") + command("set-group", "") + LISTING, lambda: miss(ann, "cat:desk"), ("ann", "group", "page", "desk -> "))
    does(ann, go_to("notes") + DROP_FIRST, lambda: True, ("ann", "list", "notes", list_detail(["DENY bob rwa"] + NOTES, NOTES)))
    does(bob, go_to("notes"), lambda: see(bob, "Hello ann."))
    type_in(cat, LEAVE)
    cat.read_until(lambda one: one.ended, PATIENCE)
    expect("played: cat leaves", cat.ended)
    note("cat", "end", NONE, "quit")
    bob.close()
    note("bob", "end", NONE, "closed")
    time.sleep(0.3)
    cat = server.join("cat")
    note("cat", "login", NONE, NONE)
    does(ann, command("acl-insert", "DENY cat r", 1), lambda: see(cat, "[no read: entry 1]"), ("ann", "list", "notes", list_detail(NOTES, ["DENY cat r"] + NOTES)))
    type_in(ann, LEAVE)
    ann.read_until(lambda one: one.ended, PATIENCE)
    note("ann", "end", NONE, "quit")
    return done, cat


def try_audit():
    with Desk() as desk:
        begun = int(time.time())
        server = serving(desk)
        done, last = played(server)
        expect("what is gathered comes within seconds", wait_for(lambda: len(server.lines()) > 0 and fields(server.lines()[-1]) == done[-1], 5), server.lines()[-2:])
        lines = server.lines()
        server.kill()
        last.close()
        ended = int(time.time()) + 1
        status, text, told = desk.audit()
        expect("an audit ends with 0 and no words of faults", (status, told) == (0, ""), (status, told))
        expect("its lines are those of standard output", text.splitlines() == lines, (len(text.splitlines()), len(lines)))
        wrong = [line for line in text.splitlines() if not EVENT.fullmatch(line)]
        expect("each has the form of one", not wrong, wrong[:3])
        numbers = [int(line.split("\t")[1]) for line in text.splitlines()]
        expect("they are numbered from 1", numbers == list(range(1, len(numbers) + 1)), numbers)
        times = [datetime.strptime(line.split("\t")[0], "%Y-%m-%dT%H:%M:%SZ").replace(tzinfo=timezone.utc).timestamp() for line in text.splitlines()]
        expect("at the times when it was", times == sorted(times) and begun <= times[0] and times[-1] <= ended, (begun, times[0], times[-1], ended))
        events = desk.events()
        first = events[:2]
        expect("first come the buffers of CONFIG", first == [(NONE, "create", "notes", create_detail(NOTES)), (NONE, "create", "page", create_detail(PAGE))], first)
        rest = events[len(first):]
        expect(f"then each of {len(done)} things that were done, line by line", rest == done, [pair for pair in zip(rest, done) if pair[0] != pair[1]][:3])
        expect("--user has the user's", desk.events("--user", "bob") == [line for line in events if line[0] == "bob"], desk.events("--user", "bob")[:3])
        expect("--buffer has the buffer's", desk.events("--buffer", "page") == [line for line in events if line[2] == "page"], desk.events("--buffer", "page")[:3])
        both = desk.events("--user", "ann", "--buffer", "page")
        expect("both together have those of both", both == [line for line in events if line[0] == "ann" and line[2] == "page"], both[:3])
        today = datetime.fromtimestamp(begun, timezone.utc)
        expect("--since a day has those from its start on", desk.events("--since", today.strftime("%Y-%m-%d")) == events)
        expect("--since a second too", desk.events("--since", today.strftime("%Y-%m-%dT%H:%M:%SZ")) == events)
        expect("--since a later day has none", desk.audit("--since", "2999-01-01") == (0, "", ""), desk.audit("--since", "2999-01-01"))
        middle = text.splitlines()[len(numbers) // 2].split("\t")[0]
        later = [fields(line) for line in text.splitlines() if line.split("\t")[0] >= middle]
        expect("--since the middle has those from there on", desk.events("--since", middle) == later, middle)
        rows = desk.ask("SELECT user, what, buffer, detail FROM event ORDER BY number")
        expect("sqlite3 reads the same", rows == events, rows[:3])
        expect("and no ticket", not any(ticket.encode() in data for data in desk.contents().values() for ticket in ("apple", "birch", "cedar")))
        kept = desk.folder
        desk.folder = desk.copy()
        os.chmod(desk.folder, 0o700)
        expect("an audit of a copy says the same", desk.audit()[1] == text)
        desk.folder = kept


def try_gathered():
    """A crash loses no more than the last second of what is gathered."""
    with Desk() as desk:
        server = serving(desk)
        bob = server.join("bob")
        type_in(bob, go_to("page") + "x")
        see(bob, "Denied")
        time.sleep(1.5)
        server.kill()
        events = desk.events("--user", "bob")
        expect("what was gathered for a second outlasts a kill", events == [("bob", "login", NONE, NONE), ("bob", "denied", "page", "WRITE_DATA no entry")], events)
        server = serving(desk)
        cat = server.join("cat")
        type_in(cat, go_to("page") + "x" * 600)
        see(cat, "Denied")
        time.sleep(1.5)
        server.kill()
        denials = [line for line in desk.events("--user", "cat") if line[1] == "denied"]
        expect("each of 600 denials is counted", sum(map(count_of, denials)) == 600, denials)
        expect("in a line a second, with the buffer", len(denials) <= 5 and {line[2] for line in denials} == {"page"}, denials)


def try_saves():
    """A save is told, with the buffer's name."""
    with Desk() as desk:
        with open(desk.at("page.txt"), "w") as file:
            file.write("A page.\n")
        entries = ", ".join(f'"{entry}"' for entry in PAGE)
        desk.write(config() + f'[[buffer]]\nname = "page"\nowner = "ann"\nlist = [{entries}]\nfile = "{desk.at("page.txt")}"\n')
        server = serving(desk)
        ann = server.join("ann")
        type_in(ann, "x\x18\x13")
        expect("a save is seen", see(ann, "Wrote page"), ann.shows(ROWS))
        time.sleep(1.5)
        server.kill()
        events = desk.events("--buffer", "page")
        expect("and told", events[-1:] == [("ann", "save", "page", NONE)], events)


def text_kept(desk, name):
    """What the journal has of a buffer's text, and whether that was not saved."""
    rows = desk.ask(f"SELECT body, modified FROM text, buffer WHERE buffer.id = text.buffer AND buffer.name = '{name}'")
    return rows[0] if isinstance(rows, list) and rows else None


def texts_kept(desk):
    """What the journal has of each buffer's text."""
    return dict(desk.ask("SELECT name, coalesce(body, '') FROM buffer LEFT JOIN text ON text.buffer = buffer.id"))


def killed_at_a_moment(desk, chance):
    """Three people paste, play macros, replace, undo, kill and make buffers until the server is killed: these people, and when that was."""
    server = serving(desk)
    people = [Person(name, server.join(name), random.Random(chance.random())) for name in ("ann", "bob", "cat")]
    killed, moment = threading.Event(), []

    def kill():
        moment.append(time.time())
        server.process.kill()
        killed.set()

    timer = threading.Timer(chance.uniform(0.1, 4), kill)
    timer.start()
    astray = []
    while not killed.is_set():
        person = chance.choice(people)
        if not person.step(killed, PATIENCE):
            astray.append((person.name, person.rows(), [person.terminal.shows(row) for row in range(1, ROWS + 1)]))
            break
    timer.join()
    server.kill()
    return people, moment[0], astray


def wait_for_rows(one, rows):
    """Whether a screen comes to show these rows above its mode line."""
    is_there = lambda seen: [seen.shows(row) for row in range(1, len(rows) + 1)] == rows
    return is_there(one.read_until(is_there, PATIENCE))


def age_of(person, name, text, killed):
    """How long before the kill a buffer's text was last the one of what a screen had shown by then: none where it never was."""
    whole = person.of(name, 0, person.typed)
    if text not in whole:
        return None
    for age in (0, 0.25, 0.5, 0.75, 1, 1.25, 1.5, 2, 3, 5):
        if text in person.of(name, person.seen_until(killed - age), person.typed):
            return age
    return None


def try_texts(rounds, seed):
    """The texts that a start shows are whole, of one moment each, and were shown no more than a second, and what a commit takes, before the
    kill."""
    chance = random.Random(seed)
    wrong, ages = [], {}
    for number in range(rounds):
        with Desk(config()) as desk:
            people, killed, astray = killed_at_a_moment(desk, chance)
            expect("each screen is as by a plain account", not astray, astray)
            kept = texts_kept(desk)
            for person in people:
                for name in person.names:
                    age = age_of(person, name, kept.get(name), killed)
                    ages[age] = ages.get(age, 0) + 1
                    if age is None or age > 1.5:
                        wrong.append((number, name, age, kept.get(name), person.of(name, person.seen_until(killed - 1.5), person.typed)[:3]))
            server = serving(desk)
            for person in people:
                for name in kept:
                    if name in person.names:
                        one = server.join(person.name)
                        type_in(one, go_to(name))
                        rows = rows_of(person.name, kept[name], ROWS, COLS)
                        if not wait_for_rows(one, rows):
                            wrong.append((number, name, "not shown", rows, [one.shows(row) for row in range(1, ROWS - 1)]))
            server.kill()
            if not desk.is_sound():
                wrong.append((number, "not sound"))
    expect(f"of {rounds} kills each text that was kept is one of a moment that was shown no more than 1.5 s before ({ages})", not wrong, wrong[:3])


def try_files_of_texts():
    """What was saved is the file's, and what was not is the journal's, which is told, and whether others wrote to the file."""
    with Desk() as desk:
        path = desk.at("page.txt")
        with open(path, "w") as file:
            file.write("A page.\n")
        entries = ", ".join(f'"{entry}"' for entry in PAGE)
        desk.write(config() + f'[[buffer]]\nname = "page"\nowner = "ann"\nlist = [{entries}]\nfile = "{path}"\n')
        server = serving(desk)
        ann = server.join("ann")
        type_in(ann, "saved \x18\x13")
        see(ann, "Wrote page")
        server.kill()
        expect("a saved text is kept as saved at once", text_kept(desk, "page") == ("saved A page.\n", 0), text_kept(desk, "page"))
        server = serving(desk)
        ann = server.join("ann")
        expect("a saved text is its file's", see(ann, "saved A page.") and server.told() == "", server.told())
        type_in(ann, "more ")
        see(ann, "more saved")
        time.sleep(1.5)
        server.kill()
        server = serving(desk)
        ann = server.join("ann")
        expect("what was not saved is the journal's", see(ann, "more saved A page.") and see(ann, "**-page"), ann.shows(1))
        expect("and that is told", server.told() == "buffer page: its text was not saved, and is the journal's\n", server.told())
        server.kill()
        with open(path, "w") as file:
            file.write("Of others.\n")
        server = serving(desk)
        ann = server.join("ann")
        expect("also where others wrote to the file", see(ann, "more saved A page.") and server.told().endswith("; its file was changed since\n"), server.told())
        server.kill()


# Bytes that a server of a full memory has: of its texts and of its own.
MEMORY = 250_000_000


def made_or_refused(one, name, flag):
    """Waits until a buffer is shown with this flag, or memory is refused: whether it is refused."""
    one.read_until(lambda seen: seen.shows(ROWS - 1).startswith(f"{flag}{name}-") or shows(seen, "No memory"), PATIENCE)
    return shows(one, "No memory")


def fill_memory(one, made=0):
    """Makes buffers of 1,000,000 characters, and then of fewer, until memory is refused to one of a thousand: how many there are then."""
    if not made:
        type_in(one, go_to("full") + "words and " * 10 + "\x18h\x1bw")
        see(one, "**-full")
    for times in (9999, 999, 99, 9):
        is_refused = False
        while not is_refused and made < 200:
            made += 1
            # Out of a prompt that memory was refused to, and into one, so that what was told before is gone.
            type_in(one, "\x07\x18b")
            see(one, "Switch to buffer")
            type_in(one, f"full{made}\r")
            is_refused = made_or_refused(one, f"full{made}", "----")
            if not is_refused:
                type_in(one, f"\x15{times}\x19")
                is_refused = made_or_refused(one, f"full{made}", "-**-")
    type_in(one, "\x07")
    return made


def try_memory():
    """With the memory full of one user's texts, another's change is kept and shown, and his text is kept. The C library gives large blocks back
    to the system, as the unit sets it."""
    with Desk() as desk:
        server = serving(desk, before=lambda: resource.setrlimit(resource.RLIMIT_AS, (MEMORY, MEMORY)),
                         surroundings={**os.environ, "MALLOC_MMAP_THRESHOLD_": "131072"})
        ann, bob, cat = (server.join(name) for name in ("ann", "bob", "cat"))
        type_in(bob, go_to("long") + "words and " * 100 + "\x18h\x1bw\x1b<\x15999\x19\x1b<")
        see(bob, "L1-C0")
        # Ten characters less, so that five more take no memory.
        type_in(bob, "\x1510\x04" + go_to("notes"))
        made = fill_memory(cat)
        # What is set aside is lent to what is kept meanwhile, and is there again before others fill what is left.
        for _ in range(2):
            time.sleep(made * 0.05 + 2)
            made = fill_memory(cat, made)
        expect("memory is full", 10 < made < 200, made)
        time.sleep(made * 0.05 + 2)
        type_in(bob, "kept ")
        is_typed = see(ann, "kept The door")
        type_in(bob, go_to("long"))
        # Each letter is kept by itself, with the whole text.
        for letter in "kept ":
            type_in(bob, letter)
            time.sleep(1.5)
        is_typed = is_typed and see(bob, "kept words and")
        type_in(bob, go_to("notes"))
        type_in(ann, DENY_BOB)
        is_seen = see(bob, "[no read: entry 1]")
        time.sleep(made * 0.05 + 3)
        expect("with it full, a list is changed and shown", is_typed and is_seen and server.process.poll() is None, (is_typed, is_seen, server.told()))
        server.kill()
        expect("and kept", ("ann", "list", "notes") in [line[:3] for line in desk.events("--user", "ann")])
        for name, first in (("notes", "kept The door"), ("long", "kept words and")):
            words = (text_kept(desk, name) or ("",))[0]
            expect(f"and so is the text of {name}", words.startswith(first), words[:20])


def try_closed_pipe():
    """Where nobody takes the lines of standard output, it serves on, and the journal has them."""
    with Desk() as desk:
        server = subprocess.Popen([keep_desk.program, "serve", desk.folder, desk.at("served.toml"), "0"], stdout=subprocess.PIPE, stderr=subprocess.DEVNULL)
        line = b""
        while not line.startswith(b"listening ") and server.poll() is None:
            line = server.stdout.readline()
        port = int(line.decode().rpartition(":")[2])
        server.stdout.close()
        ann = Terminal(port, "ann apple", ROWS, COLS)
        bob = Terminal(port, "bob birch", ROWS, COLS)
        see(bob, SECRET)
        type_in(ann, DENY_BOB)
        is_seen = see(bob, "[no read: entry 1]")
        server.kill()
        server.wait()
        told = [line[:3] for line in desk.events("--user", "ann")]
        expect("with standard output closed a change is shown, and kept", is_seen and ("ann", "list", "notes") in told, (is_seen, told))


TRIALS = [try_words, try_configurations, try_folders, try_links, try_second, try_shown_then_killed, try_audit, try_gathered, try_saves,
          try_files_of_texts, try_closed_pipe, try_unread_output, try_memory, try_owner_left, try_otherwise, try_names_of_others, try_damage, try_foreign,
          try_size_limit, try_full_disk, *STARTS]


def main():
    parser = argparse.ArgumentParser(description=__doc__.splitlines()[0])
    parser.add_argument("--rounds", type=int, default=100, help="how often it is killed at a random moment")
    parser.add_argument("--moments", type=int, default=60, help="how often it is killed while texts are edited")
    parser.add_argument("--seed", type=int, default=random.randrange(1 << 30), help="what the moments are drawn from")
    parser.add_argument("--long", action="store_true", help="each byte of the log is damaged and 300 audits are printed, not some of them")
    parser.add_argument("--only", metavar="WORDS", help="the trials whose names have these words")
    parser.add_argument("program", nargs="?", default=keep_desk.program)
    options = parser.parse_args()
    if not keep_desk.use(options.program):
        return 1
    trials = [(trial.__name__, trial) for trial in TRIALS]
    trials += [(attack.__name__, partial(attack, options.long, options.seed)) for attack in ATTACKS]
    trials += [("try_texts", partial(try_texts, options.moments, options.seed)), ("try_kills", partial(try_kills, options.rounds, options.seed))]
    print(f"seed {options.seed}")
    for name, trial in trials:
        if options.only is None or options.only in name:
            trial()
    return finish()


if __name__ == "__main__":
    sys.exit(main())
