"""Starts of mgd-keep that are refused, and what a start mends: part of try_keep.py."""
import os, shutil, socket, subprocess, time

import keep_desk
from keep_desk import (DENY_BOB, Desk, IS_ROOT, LISTING, NONE, NOTES, PAGE, PATIENCE, PLAIN, ROWS, SECRET, Server, TICKETS, buffer, command, config,
                       create_detail, expect, file_buffer, go_to, see, serving, shows, type_in, wait_for)

FULL = ["ALLOW ann rwatcC"] + ["ALLOW bob r"] * 63
# With eve, who is no user later on.
WITH_EVE = config(buffer("notes", NOTES, text=SECRET), buffer("page", PAGE, text="A page."), buffer("full", FULL, text="A full list."),
                  users=("ann", "bob", "cat", "eve"))


def state_of(folder):
    """Names, sizes, contents and times of a folder and its files."""
    found = {".": os.stat(folder).st_mtime_ns}
    for name in sorted(os.listdir(folder)):
        path = os.path.join(folder, name)
        about = os.lstat(path)
        with open(path, "rb") as file:
            found[name] = (about.st_size, about.st_mtime_ns, about.st_mode, about.st_ino, file.read())
    return found


def differences(before, after):
    return {name: (before.get(name, (None,))[:2] if name != "." else before[name], after.get(name, (None,))[:2] if name != "." else after[name])
            for name in {*before, *after} if before.get(name) != after.get(name)}


def stays(desk, what, status, words, *options, port="0"):
    """A start that is refused by exactly these words, and changes nothing in the folder."""
    before = state_of(desk.folder)
    done = subprocess.run([keep_desk.program, "serve", desk.folder, desk.at("served.toml"), port, *options], capture_output=True, text=True,
                          timeout=PATIENCE, stdin=subprocess.DEVNULL)
    got = done.returncode, done.stdout, done.stderr
    expect(f"{what} is refused", got == (status, "", words), got)
    after = state_of(desk.folder)
    expect("and changes no byte, no name and no time in the folder", before == after, differences(before, after))


def save_nothing(desk, name, keys):
    """Has ann type into a text that is not saved, and waits until the journal has it."""
    server = serving(desk)
    ann = server.join("ann")
    type_in(ann, go_to(name) + keys)
    time.sleep(2.5)
    server.kill()


def with_eve():
    """A journal that was not taken over, with two buffers of eve's, one of them made in a session, and a text that was not saved."""
    desk = Desk(WITH_EVE)
    server = serving(desk)
    ann, eve = server.join("ann"), server.join("eve")
    type_in(ann, go_to("page") + command("set-owner", "eve") + LISTING)
    see(ann, " page eve")
    type_in(eve, go_to("mine") + "a draft of eve's")
    see(eve, "a draft of eve's")
    type_in(ann, go_to("notes") + "unsaved words ")
    see(ann, "unsaved words")
    time.sleep(2.5)
    server.kill()
    return desk


LOST = "its text was not saved; --discard drops it"


def try_refused_starts():
    """Each cause leaves the folder as it is, and all causes are named in one run."""
    with with_eve() as desk:
        left = config(buffer("notes", NOTES, text=SECRET), buffer("page", PAGE, text="A page."), buffer("full", FULL, text="A full list."))
        desk.write(left)
        eves = "buffer page: owner eve is no user\nbuffer mine: owner eve is no user\n"
        stays(desk, "an owner who is no user, of two buffers,", 1, eves)
        stays(desk, "the gift of one of them", 1, "buffer mine: owner eve is no user\n", "--owner", "page", "bob")
        stays(desk, "the gift of all to nobody who is a user", 1, eves.replace("eve", "kim"), "--owner-of", "eve", "kim")
        stays(desk, "a gift to what is no name", 1, "No Name: no name of a user\n" + eves, "--owner-of", "eve", "No Name")
        stays(desk, "a start with several faults", 1,
              f"buffer notes: {LOST}\nbuffer none: the journal does not have it\nALLOW bob: no entry of a list\nbuffer full: its list is full\n" + eves,
              "--forget", "notes", "--owner", "none", "ann", "--list", "notes", "ALLOW bob", "--list", "full", "DENY bob r")
        with socket.socket() as taken:
            taken.bind(("127.0.0.1", 0))
            taken.listen()
            port = str(taken.getsockname()[1])
            stays(desk, "a port in use, beside other faults,", 3, "listening failed\n" + eves, port=port)
            stays(desk, "a port in use", 3, "listening failed\n", "--owner-of", "eve", "ann", port=port)
        desk.write("= 1")
        stays(desk, "a configuration", 1, "top 0: Toml\n")
        desk.write(left)
        os.chmod(desk.folder, 0o755)
        stays(desk, "a folder that others can read", 1, f"{desk.folder}: not a folder of yours with mode 0700\n")
        os.chmod(desk.folder, 0o700)
        many = config(*[buffer(f"b{i}", NOTES) for i in range(253)], users=("ann", "bob", "cat", "eve"))
        desk.write(many)
        stays(desk, "a configuration of too many buffers", 1, "buffer b252: there are too many buffers\n")
        desk.write(config(*[buffer(f"b{i}", NOTES) for i in range(255)], users=("ann", "bob", "cat", "eve")))
        stays(desk, "one of more", 1, "".join(f"buffer b{i}: there are too many buffers\n" for i in (252, 253, 254)))
        desk.write(left)
        server = serving(desk, "--owner-of", "eve", "ann")
        ann = server.join("ann")
        type_in(ann, LISTING)
        expect("--owner-of gives each buffer of a removed user", see(ann, " page ann") and see(ann, " mine ann"), [ann.shows(row) for row in range(1, 6)])
        server.kill()
        told = [line for line in desk.events() if line[1] == "owner" and line[0] == NONE]
        expect("and each is told", told == [(NONE, "owner", "page", "eve -> ann"), (NONE, "owner", "mine", "eve -> ann")], told)
        server = serving(desk, "--owner-of", "eve", "ann")
        expect("with nothing to give, it is served", server.port is not None and desk.events().count((NONE, "owner", "page", "eve -> ann")) == 1)
        server.kill()
    with Desk() as desk:
        stays(desk, "a mending without a journal", 1, "buffer page: the journal does not have it\n", "--owner", "page", "bob")
        expect("and none is made", os.listdir(desk.folder) == [], os.listdir(desk.folder))


def try_forget():
    """--forget keeps a text that was not saved, unless --discard is given."""
    with Desk() as desk:
        text = desk.at("notes.txt")
        with open(text, "w") as file:
            file.write("as it was saved\n")
        os.chmod(text, 0o600)
        desk.write(config(file_buffer("notes", NOTES, text), buffer("page", PAGE, text="A page.")))
        server = serving(desk)
        ann, bob = server.join("ann"), server.join("bob")
        type_in(ann, go_to("notes") + "not saved, " + DENY_BOB)
        type_in(bob, go_to("draft") + "a text without a file")
        see(bob, "a text without a file")
        time.sleep(2.5)
        server.kill()
        stays(desk, "--forget of a text that was not saved", 1, f"buffer notes: {LOST}\n", "--forget", "notes")
        stays(desk, "and of one that has no file", 1, f"buffer draft: {LOST}\n", "--forget", "draft")
        stays(desk, "and of both", 1, f"buffer notes: {LOST}\nbuffer draft: {LOST}\n", "--forget", "notes", "--forget", "draft")
        server = serving(desk, "--forget", "notes", "--discard")
        ann = server.join("ann")
        type_in(ann, go_to("notes"))
        expect("with --discard the file's text and CONFIG's list are there", see(ann, "as it was saved") and not shows(ann, "not saved"), ann.shows(1))
        bob = server.join("bob")
        type_in(bob, go_to("notes"))
        expect("for others too", see(bob, "as it was saved"), bob.shows(1))
        server.kill()
        server = serving(desk, "--forget", "notes")
        expect("a text that was not changed since is forgotten without it", server.port is not None, server.told())
        server.kill()


def try_list():
    """--list rescues a buffer whose list nobody can change any more."""
    with Desk() as desk:
        server = serving(desk)
        ann = server.join("ann")
        type_in(ann, go_to("page") + command("acl-delete", None, 1))
        time.sleep(0.5)
        type_in(ann, command("acl-delete", None, 1))
        see(ann, "Denied")
        server.kill()
        desk.write(PLAIN)
        server = serving(desk, "--list", "page", "  ALLOW   ann rwatdcCo ")
        ann = server.join("ann")
        type_in(ann, go_to("page") + command("acl-insert", "DENY bob r", 1))
        time.sleep(0.5)
        server.kill()
        told = [line for line in desk.events() if line[1:3] == ("list", "page")]
        expect("the entry is the first, and its user can change the list again", [line[0] for line in told] == ["ann", NONE, "ann"], told)
        expect("and the event of nobody has it", "ALLOW ann rwatdcCo" in told[1][3], told)
        kept = desk.ask("SELECT entries FROM buffer WHERE name = 'page'")
        expect("it is kept", "ALLOW ann rwatdcCo" in str(kept) and "DENY bob r" in str(kept), kept)


def fill(path, leave):
    """Fills a file system, but for so many bytes."""
    with open(path, "wb") as file:
        about = os.statvfs(path)
        left = about.f_bavail * about.f_bsize - leave
        if left > 0:
            file.write(bytes(left))


def try_starts_on_full_disk():
    """On a disk that is full, each start ends before it listens, with the same status and words."""
    with Desk() as desk:
        small = desk.at("small")
        os.mkdir(small)
        if not IS_ROOT or subprocess.run(["mount", "-t", "tmpfs", "-o", "size=1m", "tmpfs", small], stderr=subprocess.DEVNULL).returncode:
            print("left out: starts on a full disk, since no small file system can be mounted here")
            return
        try:
            desk.folder = os.path.join(small, "journal")
            os.mkdir(desk.folder, 0o700)
            server = serving(desk)
            ann = server.join("ann")
            fill(os.path.join(small, "filler"), 0)
            number = 0
            while server.process.poll() is None and number < 2000:
                type_in(ann, DENY_BOB if number % 2 == 0 else command("acl-delete", None, 1))
                ann.read(quiet=0.01, most=0.05)
                number += 1
            got = server.ended()
            expect("a disk that fills ends the server with 4", got == (4, "journal failed\n"), (number, got))
            for leave in (0, 0, 0, 8192, 32768):
                fill(os.path.join(small, "filler"), leave)
                files = {name: data for name, data in state_of(desk.folder).items() if name != "."}
                again = Server(desk)
                if again.port is not None:
                    again.kill()
                    got = "it listens", again.told()
                else:
                    got = again.ended()
                expect(f"a start with {leave} bytes left ends before it listens", got == (1, "journal: the disk is full\n"), got)
                after = {name: data for name, data in state_of(desk.folder).items() if name != "."}
                expect("and changes no file", after == files, differences(files, after))
            os.remove(os.path.join(small, "filler"))
            server = serving(desk)
            ann = server.join("ann")
            expect("with room again, it serves", see(ann, SECRET), ann.shows(1))
            expect("and no other file is left in the folder", sorted(os.listdir(desk.folder)) == ["journal.sqlite3", "journal.sqlite3-wal"], os.listdir(desk.folder))
            server.kill()
        finally:
            subprocess.run(["umount", small], check=False)


STARTS = [try_refused_starts, try_forget, try_list, try_starts_on_full_disk]
