"""Attacks on the journal of mgd-keep, as rows of try_keep.py: buffers that are killed and made again, names that look like nobody, damaged
and exchanged files, forged tables, links, audits beside a server that writes, and files that go while it serves.

Each attack takes whether it is to be long, and a seed. A start or an audit refuses by name: status 1, one line, and no byte of the folder is
changed, but that a start may give an empty log another head. What is not refused shows all rights that screens had shown before."""
import concurrent.futures, fcntl, functools, itertools, multiprocessing, os, random, re, shutil, socket, sqlite3, stat, struct, subprocess, threading, time

import keep_desk
from keep_desk import (DENY_BOB, DROP_FIRST, Desk, IS_ROOT, LISTING, NOBODY, NONE, NOTES, OWNERS_LIST, PAGE, PATIENCE, ROWS, SECRET, Server,
                       State, Watch, buffer, changed_files, command, config, create_detail, expect, fields, file_buffer, go_to, list_detail, listed, miss, seal, see,
                       serving, shows, type_in)

BASE, LOG = "journal.sqlite3", "journal.sqlite3-wal"
# The bytes of a log that has nothing: its head, and the next frame's as far as its gate.
EMPTY_LOG = 41
RIGHTS = ("create", "kill", "list", "owner", "group", "is")
EVERYBODY = ["ALLOW EVERYONE@ rwatdcCo"]
# How many damaged folders are tried at a time.
WORKERS = os.cpu_count() or 1
# How long a screen is waited for that may never come.
SOON = 5
# The seconds until a server sees that its files are not where they were, on a busy machine.
NOTICED = 4
F_SETPIPE_SZ = 1031


@functools.cache
def workers():
    """The processes that try damaged folders."""
    return concurrent.futures.ProcessPoolExecutor(WORKERS, multiprocessing.get_context("fork"))


def is_named(status, words):
    """Whether that is a refusal: status 1, and a line that says of what."""
    return status == 1 and re.fullmatch(r"[^\n]+: [^\n]+\n", words) is not None


def audit_of(desk):
    """Status, lines and standard error of an audit, or that it does not end."""
    try:
        return desk.audit()
    except subprocess.TimeoutExpired:
        return None, "", "it does not end"


def rights_lines(text):
    """The lines about rights of an audit."""
    return [line for line in text.splitlines() if line.split("\t")[3] in RIGHTS]


def state_after_start(desk):
    """The state that screens show after a start, or status and standard error of one that is refused."""
    server = Server(desk)
    if server.port is None:
        return server.ended()
    bob, listing = server.join("bob"), server.join("ann")
    type_in(bob, go_to("notes"))
    type_in(listing, LISTING)
    bob.read_until(lambda one: shows(one, SECRET) or shows(one, "[no read"), SOON)
    see(listing, " page ", SOON)
    rows = listed(listing)
    state = State(shows(bob, "[no read") and not shows(bob, SECRET), rows.get("page"), [name for name in rows if name.startswith("made")])
    server.kill()
    for one in (bob, listing):
        one.close()
    return state


def changed_by_start(before, after):
    """The files that a refused start has changed, but for the head of an empty log."""
    is_empty = len(before.get(LOG, b"")) == EMPTY_LOG == len(after.get(LOG, b""))
    return changed_files(before, {**after, LOG: before[LOG]} if is_empty else after)


def attack_folder(desk, contents, admitted, told):
    """Whether a start refuses this folder, and what is wrong: an audit or a start that neither refuses nor has all that was shown, an audit that
    changes a file, or a refusal that does. What was shown is one of the states that are admitted."""
    desk.restore(contents)
    wrong = []
    status, text, words = audit_of(desk)
    lines = rights_lines(text)
    if not is_named(status, words) and (status != 0 or words or lines[:len(told)] != list(told)):
        wrong.append(("audit", status, words, len(lines), len(told)))
    after = desk.contents()
    if after != contents:
        wrong.append(("the audit wrote", changed_files(contents, after)))
    desk.restore(contents)
    found = state_after_start(desk)
    if isinstance(found, State):
        return False, wrong + ([] if found in admitted else [("shown", found)])
    if not is_named(*found):
        wrong.append(("start", found))
    changed = changed_by_start(contents, desk.contents())
    if changed:
        wrong.append(("the refused start wrote", changed))
    return True, wrong


def attack_copy(text, contents, *how):
    """The same over a folder of its own, with a configuration of this text."""
    with Desk(text) as desk:
        return attack_folder(desk, contents, *how)


def expect_attacks(what, desk, states, told=(), admitted=None):
    """A row for many damaged folders, each with words that say what was done. An audit that is not refused has the lines that were told."""
    wrong, refusals, count, states = [], 0, 0, iter(states)
    with open(desk.at("served.toml")) as file:
        text = file.read()
    while some := list(itertools.islice(states, 8 * WORKERS)):
        work = [(words, workers().submit(attack_copy, text, contents, admitted or [SHOWN], told)) for words, contents in some]
        for words, one in work:
            is_refused, found = one.result()
            refusals += is_refused
            count += 1
            wrong += [(words, *fault) for fault in found]
    expect(f"{count} {what}: {refusals} were refused by name, and over {count - refusals} all that was shown held", count and not wrong,
           (len(wrong), wrong[:4]))


# The rights before make_changes, after it, and after change_again.
BEGUN, SHOWN, AGAIN = State(False, ("ann", ""), []), State(True, ("cat", "desk"), ["made2"]), State(True, ("bob", "staff"), ["made2"])


def wait_for_state(watch, is_seen):
    end = time.time() + PATIENCE
    while not is_seen(watch.state()) and time.time() < end:
        for one in (watch.bob, watch.list):
            one.read(quiet=0.01)


def make_changes(desk, times):
    """Changes rights, each seen on a screen, until they are those of SHOWN, and kills the server."""
    watch = Watch(desk)

    def does(keys, is_seen):
        type_in(watch.ann, keys)
        wait_for_state(watch, is_seen)

    state = watch.state()
    if state.denied:
        does(go_to("notes") + DROP_FIRST, lambda seen: not seen.denied)
    for _ in range(times):
        does(go_to("notes") + DENY_BOB, lambda seen: seen.denied)
        does(go_to("notes") + DROP_FIRST, lambda seen: not seen.denied)
    does(go_to("notes") + DENY_BOB, lambda seen: seen.denied)
    does(go_to("page") + command("set-group", "desk"), lambda seen: seen.page[1] == "desk")
    does(go_to("page") + command("set-owner", "cat"), lambda seen: seen.page[0] == "cat")
    does(go_to("made1") + go_to("made2"), lambda seen: len(seen.made) == 2)
    does("\x18kmade1\r", lambda seen: len(seen.made) == 1)
    state = watch.kill(0)
    expect("the changes are shown", state == SHOWN, state)


# --- Buffers made again, and names that look like nobody ---------------------------------------------------------------------------

# How a buffer is made again: what is recorded before, and what is typed. While `secr` is there, the TAB stays at it.
REMADE = [
    ("in one event", "\x18(\x18ksecr\t\r" + go_to("secret") + "\x18)", "\x18e"),
    ("in two events", "", "\x18ksecret\r" + go_to("secret")),
    ("three times in one event", "\x18(\x18ksecr\t\r" + go_to("secret") + "\x18)", "\x153\x18e"),
]


def try_remade(long, seed):
    """A buffer that is killed and made again under its name is another one: bob, who may not read it, makes it again."""
    for how, recorded, played in REMADE:
        for place in ("last", "first"):
            with Desk() as desk:
                remake(desk, f"a buffer that is {place}, made again {how}", place == "last", recorded, played)


def remake(desk, what, is_last, recorded, played):
    path = desk.at("secret.txt")
    with open(path, "w") as file:
        file.write(SECRET + "\n")
    secret = file_buffer("secret", ["ALLOW cat rwatdcCo", "ALLOW bob td"], path, "cat")
    notes = buffer("notes", NOTES, text="Notes.")
    desk.write(config(*([notes, secret] if is_last else [secret, notes])))
    server = serving(desk)
    cat, bob = server.join("cat"), server.join("bob")
    type_in(cat, go_to("secret") + "unsaved ")
    see(cat, "unsaved The door")
    type_in(bob, go_to("secr") + go_to("notes") + recorded)
    see(bob, "[no read" if recorded else "Notes.")
    time.sleep(1.5)
    bodies = [body for body, in desk.ask("SELECT body FROM text")]
    expect(f"{what}: its text is in the journal before", any(SECRET in body for body in bodies), bodies)
    type_in(bob, played)
    is_there = lambda one: one.shows(ROWS - 1).startswith("----secret") and not shows(one, "[no read")
    expect(f"{what}: bob has it", is_there(bob.read_until(is_there, PATIENCE)), bob.shows(ROWS - 1))
    server.kill()
    told = desk.events("--buffer", "secret")
    wanted = [("bob", "kill", "secret", NONE), ("bob", "create", "secret", create_detail([OWNERS_LIST], "bob"))]
    expect(f"{what}: its end and its beginning are told", told[-2:] == wanted, told[-3:])
    bodies = [body for body, in desk.ask("SELECT body FROM text")]
    expect(f"{what}: the killed text is in no row", not any("door" in body for body in bodies), bodies)
    server = serving(desk)
    bob = server.join("bob")
    type_in(bob, go_to("secret"))
    see(bob, "--secret")
    expect(f"{what}: after a start its text is empty", not shows(bob, "door") and bob.shows(1) == "", bob.shows(1))
    type_in(bob, "of bob\x18\x13")
    see(bob, "of bob")
    bob.read(1)
    with open(path) as file:
        text = file.read()
    expect(f"{what}: and it has no file", text == SECRET + "\n", (text, bob.shows(ROWS)))
    server.kill()


def try_remade_rights(long, seed):
    """One key makes a buffer again, and gives it another list, group and owner: all of that is one event, and the text is gone."""
    entries = [OWNERS_LIST, "ALLOW bob rwatdcCo"]
    steps = "\x18kmine\r" + go_to("mine") + command("acl-insert", entries[1]) + command("set-group", "staff") + command("set-owner", "ann")
    for times in ("", "\x153"):
        with Desk() as desk:
            server = serving(desk)
            bob, ann = server.join("bob"), server.join("ann")
            type_in(bob, go_to("mine") + "\x18(" + steps + "\x18)unsaved ")
            see(bob, "unsaved")
            time.sleep(1.5)
            expect("its text is in the journal before", text_of(desk, "mine") == "unsaved ", text_of(desk, "mine"))
            type_in(bob, f"{times}\x18e")
            expect("a buffer made again with other rights is empty", miss(bob, "unsaved"), bob.shows(1))
            server.kill()
            told = desk.events("--buffer", "mine")
            wanted = [("bob", "kill", "mine", NONE), ("bob", "create", "mine", create_detail(entries, "ann", "staff"))]
            expect("its end and its beginning are told, with these rights", told[-2:] == wanted, told[-3:])
            expect("the killed text is in no row", text_of(desk, "mine") == "", text_of(desk, "mine"))
            server = serving(desk)
            bob, ann = server.join("bob"), server.join("ann")
            type_in(ann, LISTING)
            expect("after a start it has these rights", see(ann, " mine ann:staff"), listed(ann))
            type_in(bob, go_to("mine"))
            see(bob, "-mine")
            expect("and its text is empty", bob.shows(1) == "", bob.shows(1))
            server.kill()


def text_of(desk, name):
    """The text that the journal has under a name. It is empty if there is none."""
    return "".join(body for body, in desk.ask(f"SELECT body FROM text JOIN buffer ON buffer.id = text.buffer WHERE name = '{name}'"))


def try_name_of_killed(long, seed):
    """A name that bob killed and ann types is that of ann's buffer, also after a start."""
    page = buffer("page", EVERYBODY, text="The page of CONFIG.")
    with Desk(config(buffer("notes", NOTES, text="Notes."), page)) as desk:
        server = serving(desk)
        ann, bob = server.join("ann"), server.join("bob")
        type_in(bob, "\x18kpage\r" + LISTING)
        expect("bob kills it", see(bob, "-Buffers") and miss(bob, " page "), listed(bob))
        type_in(ann, go_to("page") + "of ann")
        see(ann, "of ann")
        time.sleep(1.5)
        server.kill()
        told = desk.events("--buffer", "page")
        expect("his end and her beginning are told", told[1:] == [("bob", "kill", "page", NONE), ("ann", "create", "page", create_detail([OWNERS_LIST]))], told)
        for _ in range(2):
            server = serving(desk)
            expect("a start says that CONFIG's is not taken", server.told() == "buffer page: a user made or killed it, so CONFIG's is not taken\n", server.told())
            ann, bob = server.join("ann"), server.join("bob")
            type_in(ann, go_to("page"))
            expect("and has hers", see(ann, "of ann") and not shows(ann, "CONFIG"), ann.shows(1))
            type_in(bob, go_to("page"))
            expect("which lets him in no more", see(bob, "Denied") and not shows(bob, "of ann"), bob.shows(1))
            server.kill()


# Names of buffers that are something else to a program that reads them carelessly.
ODD_NAMES = ["7", "-7", "007", "0", "'", '"', "a;b", "->", "NULL", "%s", "~", "\\t", "../x", "ALLOW", "--user", "x" * 32]


def try_odd_names(long, seed):
    """A buffer may be named by any characters from `!` to `~`."""
    with Desk() as desk:
        server = serving(desk)
        bob, ann = server.join("bob"), server.join("ann")
        for number, name in enumerate(ODD_NAMES):
            type_in(bob, go_to(name) + f"text {number}.")
            see(bob, f"text {number}.")
        time.sleep(3)
        server.kill()
        wrong = []
        for name in ODD_NAMES:
            told = desk.events("--buffer", name)
            if told != [("bob", "create", name, create_detail([OWNERS_LIST], "bob"))]:
                wrong.append((name, told))
        expect(f"{len(ODD_NAMES)} buffers with odd names are told", not wrong, wrong)
        server = serving(desk)
        bob, cat = server.join("bob"), server.join("cat")
        for number, name in enumerate(ODD_NAMES):
            type_in(bob, go_to(name))
            if not see(bob, f"text {number}.", SOON):
                wrong.append((name, bob.shows(1)))
            type_in(cat, go_to(name))
            if not see(cat, "Denied", SOON) or shows(cat, "text"):
                wrong.append((name, cat.shows(1)))
            type_in(cat, "\x07")
            see(cat, "Quit")
        expect("and are there after a start, with their texts and lists", not wrong, wrong)
        server.kill()


def answer_to_login(server, line):
    """What is answered to a login line."""
    with socket.create_connection(("127.0.0.1", server.port), PATIENCE) as one:
        one.sendall(line)
        return one.recv(64)


def try_dashes(long, seed):
    """A user, a group and a buffer named `-` are like any other, and nobody is none of them."""
    names = ("notes", "page", "plan", "gone")
    buffers = [buffer("notes", NOTES, text="Notes.")] + [buffer(name, EVERYBODY, text=f"The {name} of CONFIG.") for name in names[1:]]
    with Desk(config(*buffers, users=("ann", "bob", "cat", "-"), groups=("staff", "desk", "-"))) as desk:
        server = serving(desk)
        ann, bob, dash = (server.join(name) for name in ("ann", "bob", "-"))
        answer_to_login(server, b"hello\n")
        type_in(ann, go_to("page") + command("set-group", "-") + LISTING)
        expect("a group - is set", see(ann, " page ann:-"), listed(ann))
        type_in(bob, go_to("-") + "text of bob " + command("acl-insert", "ALLOW ann rt"))
        see(bob, "text of bob")
        type_in(dash, "\x18kplan\r" + go_to("plan") + "\x18kgone\r")
        expect("a user - kills what CONFIG has", miss(ann, " gone "), listed(ann))
        time.sleep(1.5)
        server.kill()
        events = desk.events()
        expect("a user - is told by that name", desk.events("--user", "-") == [
            ("-", "login", NONE, NONE), ("-", "kill", "plan", NONE), ("-", "create", "plan", create_detail([OWNERS_LIST], "-")), ("-", "kill", "gone", NONE),
        ], desk.events("--user", "-"))
        expect("a group - too", ("ann", "group", "page", " -> -") in events, [line for line in events if line[1] == "group"])
        expect("a buffer - too", desk.events("--buffer", "-") == [
            ("bob", "create", "-", create_detail([OWNERS_LIST], "bob")), ("bob", "list", "-", list_detail([OWNERS_LIST], [OWNERS_LIST, "ALLOW ann rt"])),
        ], desk.events("--buffer", "-"))
        nobody = [line for line in events if line[0] == NONE]
        begun = [(NONE, "create", "notes", create_detail(NOTES))] + [(NONE, "create", name, create_detail(EVERYBODY)) for name in names[1:]]
        expect("nobody is an empty field", nobody == begun + [(NONE, "refused", NONE, "no login line")], nobody)
        server = serving(desk)
        ann, cat, dash = (server.join(name) for name in ("ann", "cat", "-"))
        type_in(ann, LISTING)
        see(ann, " page ")
        rows = listed(ann)
        expect("after a start what a user - killed is gone", "gone" not in rows and rows.get("plan", ("",))[0] != "ann", rows)
        expect("the group - owns its buffer", rows.get("page") == ("ann", "-"), rows)
        type_in(dash, go_to("plan"))
        see(dash, "--plan")
        expect("what a user - made has no text of CONFIG", not shows(dash, "of CONFIG"), dash.shows(1))
        type_in(ann, go_to("-"))
        expect("a buffer - has its text and its list", see(ann, "text of bob"), ann.shows(1))
        type_in(cat, go_to("-"))
        expect("which lets no other user in", see(cat, "Denied") and not shows(cat, "text of bob"), cat.shows(1))
        type_in(ann, go_to("page") + command("set-group", "") + LISTING)
        is_taken = lambda one: listed(one).get("page") == ("ann", "")
        expect("a group - is taken away", is_taken(ann.read_until(is_taken, PATIENCE)), listed(ann))
        server.kill()
        told = [line for line in desk.events("--buffer", "page") if line[1] == "group"]
        expect("and that is told", told[-1:] == [("ann", "group", "page", "- -> ")], told)


# --- Damage ------------------------------------------------------------------------------------------------------------------------

def flip_bit(data, at, bit):
    return data[:at] + bytes([data[at] ^ (1 << bit)]) + data[at + 1:]


def try_changed_bits(long, seed):
    """A bit of the log is changed, at each of its first 200 bytes and at 300 others, or at some of them."""
    chance = random.Random(seed)
    with Desk() as desk:
        make_changes(desk, 4)
        whole = desk.contents()
        log = whole[LOG]
        told = rights_lines(desk.audit()[1])
        # Behind what is written the log has zeros.
        used = len(log.rstrip(b"\0"))
        expect("the log has commits", used > 4096, (used, len(log)))
        first = list(range(200)) if long else sorted(chance.sample(range(200), 20))
        others = [chance.randrange(200, used) for _ in range(300 if long else 20)]
        bits = [(at, chance.randrange(8)) for at in first + others]
        states = (((at, bit), {**whole, LOG: flip_bit(log, at, bit)}) for at, bit in bits)
        expect_attacks("logs with a changed bit", desk, states, told)
        states = [((at, byte), {**whole, LOG: log[:at] + bytes([byte]) + log[at + 1:]}) for at in sorted({0, *first}) for byte in (0, 255) if log[at] != byte]
        expect_attacks("logs with a byte of 0 or 255 among the first 200", desk, states, told)
        if long:
            states = (((at, bit), {**whole, LOG: flip_bit(log, at, bit)}) for at in range(100) for bit in range(8))
            expect_attacks("logs with a changed bit of their first 100 bytes, each in turn", desk, states, told)


def try_torn_end(long, seed):
    """The torn end of a crash, a part of a commit that no screen has shown, is passed over: garbage is none of that, and may be refused."""
    chance = random.Random(seed)
    with Desk() as desk:
        make_changes(desk, 1)
        before = desk.contents()
        told = rights_lines(desk.audit()[1])
        server = serving(desk)
        server.kill()
        empty = desk.contents()
        watch = Watch(desk)
        type_in(watch.ann, go_to("notes") + DROP_FIRST)
        wait_for_state(watch, lambda seen: not seen.denied)
        watch.kill(0)
        more = desk.contents()
        expect("a start leaves a short log", len(empty[LOG]) == EMPTY_LOG and len(more[LOG]) > len(empty[LOG]), (len(before[LOG]), len(empty[LOG]), len(more[LOG])))
        used = len(before[LOG].rstrip(b"\0"))
        zeros = [(count, {**before, LOG: before[LOG] + bytes(count)}) for count in (1, 7, 41, 512, 4096, 9000)]
        zeros += [(-count, {**before, LOG: before[LOG][:used] + bytes(count)}) for count in (16, 512, 5000) if used + count <= len(before[LOG])]
        expect_attacks("logs with more or fewer zeros behind their end", desk, zeros, told)
        garbage = ((count, {**before, LOG: before[LOG] + chance.randbytes(count)}) for count in (1, 40, 3000, 9000))
        expect_attacks("logs with garbage behind their end", desk, garbage, told)


def frames_of(log):
    """The head of a log, its frames, and what stands behind them."""
    size = 24 + struct.unpack(">I", log[8:12])[0]
    count = -(-(len(log.rstrip(b"\0")) - 32) // size)
    end = 32 + count * size
    return log[:32], [log[at:at + size] for at in range(32, end, size)], log[end:]


def try_changed_frames(long, seed):
    """Frames of the log are exchanged, repeated and left out, and the log is cut off. Where it ends with its last commit but one, that is a
    log of an earlier moment, which nothing tells from a crash."""
    chance = random.Random(seed)
    with Desk() as desk:
        make_changes(desk, 2)
        whole = desk.contents()
        told = rights_lines(desk.audit()[1])
        head, frames, rest = frames_of(whole[LOG])
        count = len(frames)
        expect("the log has frames", count > 10, count)

        def log_of(*parts):
            return {**whole, LOG: head + b"".join(frame for part in parts for frame in part) + rest}

        def exchanged(one, two):
            some = list(frames)
            some[one], some[two] = some[two], some[one]
            return log_of(some)

        pairs = [(at, at + 1) for at in range(count - 1)] + [tuple(sorted(chance.sample(range(count), 2))) for _ in range(300 if long else 10)]
        if not long:
            pairs = chance.sample(pairs, 20)
        expect_attacks("logs with two frames exchanged", desk, [(pair, exchanged(*pair)) for pair in pairs], told)
        some = range(count) if long else chance.sample(range(count), 10)
        expect_attacks("logs with a frame repeated", desk, [(at, log_of(frames[:at + 1], frames[at:])) for at in some], told)
        expect_attacks("logs with a frame over the next one", desk, [(at, log_of(frames[:at + 1], [frames[at]], frames[at + 2:])) for at in some if at + 1 < count], told)
        expect_attacks("logs without one frame", desk, [(at, log_of(frames[:at], frames[at + 1:])) for at in some if at + 1 < count], told)
        lengths = [*range(1, 64), *(32 + len(frames[0]) * at + more for at in range(count + 1) for more in (-1, 0, 1, 8, 24))]
        if not long:
            lengths = chance.sample(lengths, 30)
        expect_attacks("logs that are cut off", desk, [(length, {**whole, LOG: whole[LOG][:length]}) for length in lengths], told)


def try_other_moments(long, seed):
    """The log of one moment beside the file of another one: it is refused, or the rights are those of one moment, and no mixture."""
    with Desk() as desk:
        make_changes(desk, 2)
        first = desk.contents()
        second = files_after_start(desk)
        change_again(desk, 3)
        third = desk.contents()
        fourth = files_after_start(desk)
        moments = {"first": first, "second": second, "third": third, "fourth": fourth}
        states = [((of_file, of_log), {BASE: moments[of_file][BASE], LOG: moments[of_log][LOG]}) for of_file in moments for of_log in moments]
        expect_attacks("files beside the log of another moment", desk, states, admitted=[BEGUN, SHOWN, AGAIN])


def rollback_journal(old, new):
    """A rollback journal of SQLite, by which sqlite3 would put the pages of an older copy back."""
    size = len(new[0])
    changed = [at for at in range(min(len(old), len(new))) if old[at] != new[at]]
    record = lambda at: struct.pack(">I", at + 1) + old[at] + struct.pack(">I", sum(old[at][size - 200:0:-200]))
    head = bytes.fromhex("d9d505f920a163d7") + struct.pack(">5I", len(changed), 0, len(old), 512, size)
    return head.ljust(512, b"\0") + b"".join(map(record, changed))


def try_files_beside(long, seed):
    """Other files beside the journal, which SQLite would read: nothing is taken from them."""
    chance = random.Random(seed)
    with Desk() as desk:
        serving(desk).kill()
        old = pages_of(files_after_start(desk)[BASE])
        make_changes(desk, 2)
        for words, whole in (("with a log", desk.contents()), ("with an empty log", files_after_start(desk))):
            told = rights_lines(desk.audit()[1])
            journal = rollback_journal(old, pages_of(whole[BASE]))
            beside = [("-journal", journal), ("-journal", chance.randbytes(9000)), ("-journal", b""), ("-shm", bytes(32768)), ("-shm", chance.randbytes(32768)),
                      ("-wal2", whole[LOG]), (".bak", b"of others")]
            states = [((words, name, len(data)), {**whole, BASE + name: data}) for name, data in beside]
            expect_attacks(f"journals {words} and a file beside them", desk, states, told)


def pages_of(data):
    size = struct.unpack(">H", data[16:18])[0]
    size = 65536 if size == 1 else size
    return [data[at:at + size] for at in range(0, len(data), size)]


def files_after_start(desk):
    """The files after a start that nobody logged in to, which has taken the log over; where it has not, SQLite does."""
    serving(desk).kill()
    if os.path.getsize(os.path.join(desk.folder, LOG)) > 4096:
        desk.settle()
    return desk.contents()


def try_changed_pages(long, seed):
    """Each page of the file zeroed, put back from an earlier copy, and exchanged with another. An earlier page passes its sum, so an audit may
    lack lines that a later one had; rights are not lost."""
    chance = random.Random(seed)
    with Desk() as desk:
        serving(desk).kill()
        make_changes(desk, 12)
        earlier = []
        for times in (1, 12):
            earlier.append(pages_of(files_after_start(desk)[BASE]))
            change_again(desk, times)
        make_changes(desk, 2)
        whole = files_after_start(desk)
        pages = pages_of(whole[BASE])

        def with_pages(some):
            return {**whole, BASE: b"".join(some.get(at, page) for at, page in enumerate(pages))}

        zeroed = ((("page", at), with_pages({at: bytes(len(page))})) for at, page in enumerate(pages))
        expect_attacks("files with a page of zeros", desk, zeroed)
        older = [(("page", at, number), with_pages({at: old[at]})) for number, old in enumerate(earlier) for at in range(min(len(old), len(pages)))
                 if old[at] != pages[at]]
        expect_attacks("files with a page of an earlier copy", desk, older)
        pairs = [(at, (at + 1 + chance.randrange(len(pages) - 1)) % len(pages)) for at in range(len(pages))]
        if long:
            pairs = [(one, two) for two in range(len(pages)) for one in range(two)]
        exchanged = ((("pages", one, two), with_pages({one: pages[two], two: pages[one]})) for one, two in pairs)
        expect_attacks("files with two pages exchanged", desk, exchanged)


def try_changed_file(long, seed):
    """A bit of the file is changed, it is cut off or longer, or one of its pages is zeroed, with a log beside it and without."""
    chance = random.Random(seed)
    with Desk() as desk:
        make_changes(desk, 6)
        files_after_start(desk)
        change_again(desk, 1)
        beside = desk.contents()
        for words, whole, shown in (("with a log", beside, AGAIN), ("with an empty log", files_after_start(desk), AGAIN)):
            told = rights_lines(desk.audit()[1])
            base, pages = whole[BASE], pages_of(whole[BASE])
            places = list(range(100)) if long else chance.sample(range(100), 15)
            places += [at * len(pages[0]) + chance.randrange(len(page)) for at, page in enumerate(pages)]
            bits = [(at, chance.randrange(8)) for at in places] + [(20, bit) for bit in range(8)]
            states = [((at, bit), {**whole, BASE: flip_bit(base, at, bit)}) for at, bit in bits]
            expect_attacks(f"files {words} with a changed bit", desk, states, told, [shown])
            lengths = [len(pages[0]) * at + more for at in range(len(pages) + 1) for more in (-1, 0, 1) if 2 <= len(pages[0]) * at + more]
            states = [(length, {**whole, BASE: base[:length].ljust(length, b"\0")}) for length in lengths]
            expect_attacks(f"files {words} that are cut off or longer", desk, states, told, [shown])
            states = [(at, {**whole, BASE: b"".join(bytes(len(page)) if at == number else page for number, page in enumerate(pages))}) for at in range(len(pages))]
            expect_attacks(f"files {words} with a page of zeros", desk, states, told, [shown])


def change_again(desk, times):
    """Gives bob his access back and takes it again, and the page to others."""
    watch = Watch(desk)
    type_in(watch.ann, go_to("page") + command("set-owner", "bob") + command("set-group", "staff"))
    wait_for_state(watch, lambda seen: seen.page == ("bob", "staff"))
    for _ in range(times):
        type_in(watch.ann, go_to("notes") + DROP_FIRST)
        wait_for_state(watch, lambda seen: not seen.denied)
        type_in(watch.ann, DENY_BOB)
        wait_for_state(watch, lambda seen: seen.denied)
    watch.kill(0)


def try_taken_over(long, seed):
    """Each start takes the log over into the file: the file alone has all that was told before. An audit takes nothing over."""
    with Desk() as desk:
        make_changes(desk, 2)
        paths = [os.path.join(desk.folder, name) for name in ("", BASE, LOG)]
        times = lambda: [os.lstat(path).st_mtime_ns for path in paths]
        before = desk.contents(), times()
        text = desk.audit()[1]
        expect("an audit of what a kill left writes nothing", (desk.contents(), times()) == before, changed_files(before[0], desk.contents()))
        serving(desk).kill()
        whole = desk.contents()
        expect("after a start the log is short", len(whole[LOG]) == EMPTY_LOG, len(whole[LOG]))
        desk.restore({BASE: whole[BASE]})
        rows = desk.ask("SELECT user, what, buffer, detail FROM event ORDER BY number")
        expect("and the file alone has all events", rows == [fields(line) for line in text.splitlines()], rows[:2])


def try_missing_files(long, seed):
    """A file that is missing beside its log, or empty there, is refused, and no new journal begins."""
    with Desk() as desk:
        make_changes(desk, 1)
        whole = desk.contents()
        for what, contents in [("missing", {LOG: whole[LOG]}), ("empty", {BASE: b"", LOG: whole[LOG]})]:
            for asked in ("an audit", "a start"):
                desk.restore(contents)
                got = audit_of(desk) if asked == "an audit" else state_after_start(desk)
                is_refused = not isinstance(got, State) and is_named(got[0], got[-1])
                expect(f"a file that is {what} beside its log is refused by {asked}", is_refused, got)
                expect("and the log is left", desk.contents() == contents, changed_files(contents, desk.contents()))


NOTES_ROW = "(SELECT id FROM buffer WHERE name = 'notes')"
LIST_AT = "number = (SELECT {}(number) FROM event WHERE what = 'list')".format
FIRST_LIST, LAST_LIST = LIST_AT("min"), LIST_AT("max")
EVENT_MORE = "INSERT INTO event (at, user, what, buffer, detail) VALUES (0, '{}', '{}', '{}', '{}')".format
OF_BOB = "bob: ALLOW OWNER@ rwatdcCo"


def exchange(one, two):
    """Exchanges the numbers of two events."""
    def act(base):
        first, second = (base.execute(f"SELECT number FROM event WHERE {where}").fetchone()[0] for where in (one, two))
        for old, new in ((first, -1), (second, first), (-1, second)):
            base.execute("UPDATE event SET number = ? WHERE number = ?", (new, old))
    return act


def close_gaps(base):
    """Numbers the events from 1 again."""
    for new, (old,) in enumerate(base.execute("SELECT number FROM event ORDER BY number").fetchall(), 1):
        base.execute("UPDATE event SET number = ? WHERE number = ?", (new, old))


# What is done to the tables: each statement changes a row.
FORGED = [
    ("an owner", "UPDATE buffer SET owner = 'bob' WHERE name = 'page'"),
    ("an owning group", "UPDATE buffer SET owning_group = 'staff' WHERE name = 'page'"),
    ("an owning group that is none", "UPDATE buffer SET owning_group = '' WHERE name = 'page'"),
    ("a list", "UPDATE buffer SET entries = replace(entries, 'DENY', 'ALLOW') WHERE name = 'notes'"),
    ("a list that is shorter", "UPDATE buffer SET entries = substr(entries, instr(entries, char(10)) + 1) WHERE name = 'notes'"),
    ("a list with its first entry last", "UPDATE buffer SET entries = substr(entries, instr(entries, char(10)) + 1) || 'DENY bob rwa' || char(10) WHERE name = 'notes'"),
    ("a name", "UPDATE buffer SET name = 'other' WHERE name = 'made2'"),
    ("two names exchanged", "UPDATE buffer SET name = '' WHERE name = 'notes'", "UPDATE buffer SET name = 'notes' WHERE name = 'page'", "UPDATE buffer SET name = 'page' WHERE name = ''"),
    ("a buffer more", "INSERT INTO buffer (name, owner, owning_group, entries) SELECT 'more', owner, '', entries FROM buffer WHERE name = 'page'"),
    ("a buffer less", f"DELETE FROM text WHERE buffer = {NOTES_ROW}", "DELETE FROM buffer WHERE name = 'notes'"),
    ("the order of two", f"UPDATE text SET buffer = 1000 WHERE buffer = {NOTES_ROW}", "UPDATE buffer SET id = 1000 WHERE name = 'notes'"),
    ("an event less", f"DELETE FROM event WHERE {LAST_LIST}"),
    ("an event less, and no gap", f"DELETE FROM event WHERE {LAST_LIST}", close_gaps),
    ("a buffer's beginning less, and no gap", "DELETE FROM event WHERE what = 'create' AND buffer = 'made2'", close_gaps),
    ("a buffer's end less, and no gap", "DELETE FROM event WHERE what = 'kill'", close_gaps),
    ("a gap between the numbers", "DELETE FROM event WHERE number = (SELECT min(number) FROM event WHERE what = 'login')"),
    ("a first number of 2", "UPDATE event SET number = -number", "UPDATE event SET number = 1 - number"),
    ("a first number of 0", "UPDATE event SET number = 0 WHERE number = 1"),
    ("an event's words", f"UPDATE event SET detail = replace(detail, 'DENY', 'ALLOW') WHERE {LAST_LIST}"),
    ("an earlier event's words", f"UPDATE event SET detail = replace(detail, 'bob rwa', 'bob r') WHERE {FIRST_LIST}"),
    ("an event's words, spelled otherwise", f"UPDATE event SET detail = replace(detail, 'bob rwa', 'bob awr') WHERE {LAST_LIST}"),
    ("an event's words and a space", "UPDATE event SET detail = detail || ' ' WHERE what = 'owner'"),
    ("what an owner was before", "UPDATE event SET detail = 'bob -> cat' WHERE what = 'owner'"),
    ("what a group was before", "UPDATE event SET detail = 'staff -> desk' WHERE what = 'group'"),
    ("what a list was before", f"UPDATE event SET detail = 'DENY cat r; ' || detail WHERE {LAST_LIST}"),
    ("an event's buffer", f"UPDATE event SET buffer = 'page' WHERE {LAST_LIST}"),
    ("an event's buffer that is none", f"UPDATE event SET buffer = '' WHERE {LAST_LIST}"),
    ("a list that is a denial", f"UPDATE event SET what = 'denied' WHERE {LAST_LIST}"),
    ("an owner that is a group", "UPDATE event SET what = 'group' WHERE what = 'owner'"),
    ("an end that is a login", "UPDATE event SET what = 'login' WHERE what = 'kill'"),
    ("a beginning without words", "UPDATE event SET detail = '' WHERE what = 'create' AND buffer = 'page'"),
    ("a beginning of another owner", "UPDATE event SET detail = 'bob' || substr(detail, 4) WHERE what = 'create' AND buffer = 'page'"),
    ("the order of two lists", exchange(FIRST_LIST, "what = 'list' AND detail LIKE '1: DENY%'")),
    ("a list before its buffer", exchange(FIRST_LIST, "what = 'create' AND buffer = 'notes'")),
    ("an end before its beginning", exchange("what = 'kill'", "what = 'create' AND buffer = 'made1'")),
    ("an end more", EVENT_MORE("ann", "kill", "notes", "")),
    ("a beginning more", EVENT_MORE("ann", "create", "more", OF_BOB)),
    ("a second beginning", EVENT_MORE("ann", "create", "page", OF_BOB)),
    ("an end and a beginning more", EVENT_MORE("bob", "kill", "page", ""), EVENT_MORE("bob", "create", "page", OF_BOB)),
    ("an owner more", EVENT_MORE("ann", "owner", "page", "cat -> bob")),
    ("rights of an older version more", EVENT_MORE("", "is", "page", OF_BOB)),
]
# What gives nobody a right: it is refused, or all that was shown holds.
HARMLESS = [
    ("a text of a buffer that is none", "INSERT INTO text (buffer, modified, file, body) VALUES (1000, 1, 0, 'The text of none.')"),
    ("the text of another buffer", f"UPDATE text SET modified = 1, body = (SELECT body FROM text WHERE buffer = {NOTES_ROW}) WHERE buffer <> {NOTES_ROW}"),
    ("an event of number 0", "INSERT INTO event (number, at, user, what, buffer, detail) VALUES (0, 0, 'ann', 'kill', 'notes', '')"),
    ("an event of a number below 0", "INSERT INTO event (number, at, user, what, buffer, detail) VALUES (-7, 0, 'ann', 'kill', 'notes', '')"),
    ("an end of a buffer that is none", EVENT_MORE("ann", "kill", "none", "")),
    ("an event of no word", EVENT_MORE("ann", "", "page", OF_BOB)),
    ("a second version", "INSERT INTO format (version) VALUES (3)"),
    ("another table", "CREATE TABLE more (owner TEXT)"),
    ("a trigger", "CREATE TRIGGER more AFTER INSERT ON event BEGIN UPDATE buffer SET owner = 'bob'; END"),
    ("a view", "CREATE VIEW more AS SELECT * FROM buffer"),
]


def forge(desk, whole, steps):
    """The files once this was done to the tables, with page sums that are made again, and whether each step changed a row."""
    desk.restore({BASE: whole[BASE]})
    base = sqlite3.connect(desk.base)
    done = [step(base) if callable(step) else base.execute(step).rowcount for step in steps]
    base.commit()
    base.execute("PRAGMA wal_checkpoint(TRUNCATE)").fetchall()
    base.close()
    seal(desk.base)
    return {**whole, **desk.contents()}, 0 not in done


def try_forged_tables(long, seed):
    """Tables that differ from what the events say are refused, with page sums that are made again."""
    with Desk() as desk:
        make_changes(desk, 1)
        told = rights_lines(desk.audit()[1])
        whole = files_after_start(desk)
        for what, *steps in FORGED:
            contents, is_done = forge(desk, whole, steps)
            desk.restore(contents)
            got = audit_of(desk)
            is_refused = is_named(got[0], got[2]) and desk.contents() == contents
            expect(f"forged, {what}: an audit refuses", is_done and is_refused, (is_done, got[0], got[2]))
            desk.restore(contents)
            got, changed = state_after_start(desk), changed_by_start(contents, desk.contents())
            is_refused = not isinstance(got, State) and is_named(*got) and not changed
            expect(f"forged, {what}: a start refuses", is_refused, (got, changed))
        states = [(what, *forge(desk, whole, steps)) for what, *steps in HARMLESS]
        expect("each of the others is done", all(is_done for _, _, is_done in states), [what for what, _, is_done in states if not is_done])
        expect_attacks("other forgeries", desk, [(what, contents) for what, contents, _ in states], told)


# Entries for a list that is nearly full: 64 are the most.
MANY = [f"DENY {name} {letters}" for name in ("bob", "cat") for letters in ("r", "w", "a", "t", "d", "c", "C", "o")] * 3


def try_true_tables(long, seed):
    """What people, options and a changed CONFIG do leaves tables that each audit and start takes, and the rights that were there."""
    three = [buffer("notes", NOTES, text=SECRET), buffer("page", PAGE, text="A page."), buffer("plan", EVERYBODY, text="A plan.")]
    with Desk(config(*three)) as desk:
        def taken(what, *options, rows=()):
            server = Server(desk, *options)
            if server.port is None:
                expect(f"{what}: a start takes it", False, server.ended())
                return
            ann = server.join("ann")
            type_in(ann, LISTING)
            found = {}
            for name, owners in rows:
                see(ann, f" {name} {owners}", SOON)
                found = listed(ann)
            server.kill()
            wanted = {name: tuple((owners + ":").split(":")[:2]) for name, owners in rows}
            got = audit_of(desk)
            numbers = [int(line.split("\t")[1]) for line in got[1].splitlines()]
            expect(f"{what}: a start and an audit take it", {name: found.get(name) for name in wanted} == wanted and got[0] == 0 and got[2] == "" and
                   numbers == list(range(1, len(numbers) + 1)), (found, got[0], got[2], len(numbers)))

        server = serving(desk)
        ann, bob = server.join("ann"), server.join("bob")
        type_in(bob, go_to("mine") + DROP_FIRST)
        type_in(bob, "".join(go_to(name) for name in ("one", "two", "three")) + "\x18ktwo\r" + go_to("two") + "\x18kthree\r")
        type_in(ann, go_to("page") + "".join(command("acl-insert", entry, 1) for entry in MANY) + LISTING)
        see(ann, " plan ")
        time.sleep(1)
        server.kill()
        lists = dict(desk.ask("SELECT name, entries FROM buffer"))
        expect("a list is empty, and one is long", lists["mine"] == "" and lists["page"].count("\n") == len(MANY) + len(PAGE), {name: len(text) for name, text in lists.items()})
        taken("an empty list, a long one, and names that were used again", rows=[("notes", "ann"), ("plan", "ann")])
        server = serving(desk)
        cat = server.join("cat")
        for _ in range(3 if long else 2):
            type_in(cat, go_to("plan") + "\x18kplan\r" + go_to("plan") + command("acl-insert", EVERYBODY[0]) + command("set-group", "desk") + command("set-owner", "bob"))
            time.sleep(0.3)
        time.sleep(1)
        server.kill()
        taken("a buffer of CONFIG that was killed and made again", rows=[("notes", "ann"), ("plan", "bob:desk")])
        taken("an owner by --owner", "--owner", "page", "cat", rows=[("page", "cat")])
        taken("--forget of a buffer", "--forget", "page", rows=[("page", "ann")])
        taken("--forget of one that was made again", "--forget", "plan", rows=[("plan", "ann")])
        taken("--forget and --owner of two", "--forget", "page", "--owner", "notes", "bob", rows=[("page", "ann"), ("notes", "bob")])
        server = serving(desk)
        cat = server.join("cat")
        type_in(cat, "\x18kplan\r" + LISTING)
        expect("cat kills a buffer of CONFIG", see(cat, "-Buffers") and miss(cat, " plan "), listed(cat))
        server.kill()
        taken("a buffer that was killed", rows=[("page", "ann")])
        taken("--forget of a buffer that was killed", "--forget", "plan", rows=[("plan", "ann")])
        expect("which tells an end by nobody", (NONE, "kill", "plan", NONE) in desk.events("--buffer", "plan")[-2:], desk.events("--buffer", "plan")[-3:])
        desk.write(config(three[2], buffer("new", EVERYBODY, text="New."), three[0], users=("ann", "bob", "cat", "eve")))
        taken("a CONFIG of another order, with a buffer more and one less", rows=[("new", "ann"), ("page", "ann")])
        for _ in range(3):
            taken("the next start", rows=[("new", "ann"), ("page", "ann")])


# What makes tables of version 3 ones of version 2, whose events had `-` for nobody and told no rights of a new buffer, and those ones of version 1.
TO_2 = ["UPDATE event SET user = '-' WHERE user = ''", "UPDATE event SET detail = '' WHERE what IN ('create', 'kill')",
        "UPDATE event SET detail = '-' || detail WHERE what = 'group' AND detail LIKE ' -> %'", "UPDATE format SET version = 2"]
TO_1 = [*TO_2, "DROP TABLE text", "UPDATE format SET version = 1"]


def try_older_versions(long, seed):
    """A journal of version 1 or 2 is served with its rights, and goes on as one of version 3."""
    with Desk() as desk:
        make_changes(desk, 2)
        whole = files_after_start(desk)
        for version, steps in ((2, TO_2), (1, TO_1)):
            contents, is_done = forge(desk, whole, steps)
            desk.restore(contents)
            before = len(desk.ask("SELECT number FROM event"))
            got = audit_of(desk)
            told = [fields(line) for line in got[1].splitlines()]
            wanted = [(NONE, "is", name, detail) for name, detail in (
                ("notes", create_detail(["DENY bob rwa"] + NOTES)), ("page", create_detail(PAGE, "cat", "desk")), ("made2", create_detail([OWNERS_LIST])))]
            expect(f"version {version}: an audit tells what each buffer is", is_done and got[0] == 0 and told[before:] == wanted, (got[0], got[2], told[-3:]))
            expect("and writes nothing", desk.contents() == contents, changed_files(contents, desk.contents()))
            for times in range(2):
                state = state_after_start(desk)
                expect(f"version {version}: what was shown holds", state == SHOWN if isinstance(state, State) else False, state)
            change_again(desk, 1)
            state = state_after_start(desk)
            expect(f"version {version}: and what was shown after it", state == AGAIN if isinstance(state, State) else False, state)
            got = audit_of(desk)
            expect("and an audit is whole", got[0] == 0 and [int(line.split("\t")[1]) for line in got[1].splitlines()] == list(range(1, 1 + len(got[1].splitlines()))), got[0::2])


def kind_of(path):
    """What stands at a path: its kind, and the bytes or the path that it has."""
    mode = os.lstat(path).st_mode
    if stat.S_ISLNK(mode):
        return "link", os.readlink(path)
    if not stat.S_ISREG(mode):
        return stat.S_IFMT(mode), None
    with open(path, "rb") as file:
        return "file", file.read()


def try_other_kinds(long, seed):
    """A link, a pipe or a folder in the place of a file is refused, and nothing is written through it."""
    def put_link(desk, path):
        os.rename(path, desk.at("moved"))
        os.symlink(desk.at("moved"), path)

    def put_dangling_link(desk, path):
        os.remove(path)
        os.symlink(desk.at("moved"), path)

    def put_pipe(desk, path):
        os.remove(path)
        os.mkfifo(path, 0o600)

    def put_folder(desk, path):
        os.remove(path)
        os.mkdir(path, 0o700)

    for what, put in [("a link to the file", put_link), ("a link to nothing", put_dangling_link), ("a pipe", put_pipe), ("a folder", put_folder)]:
        for name in (BASE, LOG):
            for asked in ("an audit", "a start"):
                with Desk() as desk:
                    make_changes(desk, 0)
                    put(desk, os.path.join(desk.folder, name))
                    paths = [os.path.join(desk.folder, each) for each in (BASE, LOG)] + [desk.at("moved")]
                    before = {path: kind_of(path) for path in paths if os.path.lexists(path)}
                    got = audit_of(desk) if asked == "an audit" else refusal_of(desk)
                    after = {path: kind_of(path) for path in paths if os.path.lexists(path)}
                    expect(f"{what} in the place of {name} is refused by {asked}", is_named(got[0], got[-1]), got)
                    expect("and nothing is written", after == before, [os.path.basename(path) for path in paths if after.get(path) != before.get(path)])


def try_two_names(long, seed):
    """A file that has another name too, in another folder: no second server has it at the same time."""
    with Desk() as desk:
        make_changes(desk, 0)
        server = serving(desk)
        here, other = desk.folder, desk.at("other")
        os.mkdir(other, 0o700)
        os.link(desk.base, os.path.join(other, BASE))
        desk.folder = other
        got = refusal_of(desk)
        expect("a second server, on another name of the file, is refused", got[0] in (1, 5) and is_named(1, got[1]), got)
        desk.folder = here
        ann, bob = server.join("ann"), server.join("bob")
        type_in(ann, go_to("page") + command("set-group", "staff") + LISTING)
        expect("the first one goes on", see(ann, " page cat:staff"), listed(ann))
        server.kill()
        found = state_after_start(desk)
        is_held = found.page == ("cat", "staff") if isinstance(found, State) else is_named(*found)
        expect("with both names a start has what was shown, or refuses by name", is_held, found)
        os.remove(os.path.join(other, BASE))
        found = state_after_start(desk)
        expect("and with one it has what was shown", isinstance(found, State) and found.page == ("cat", "staff"), found)


def try_reader_alone(long, seed):
    """An audit by somebody who may read the folder and not write there."""
    with Desk() as desk:
        make_changes(desk, 1)
        whole = desk.contents()
        text = desk.audit()[1]
        for mode, files, is_read in ((0o500, 0o400, True), (0o500, 0o000, False), (0o400, 0o400, False)):
            os.chmod(desk.folder, 0o700)
            desk.restore(whole)
            for name in whole:
                os.chmod(os.path.join(desk.folder, name), files)
                os.chown(os.path.join(desk.folder, name), *([NOBODY, NOBODY] if IS_ROOT else [-1, -1]))
            os.chown(desk.folder, *([NOBODY, NOBODY] if IS_ROOT else [-1, -1]))
            os.chmod(desk.folder, mode)
            done = subprocess.run([keep_desk.program, "audit", desk.folder], capture_output=True, text=True, timeout=PATIENCE, **({"user": NOBODY} if IS_ROOT else {}))
            got = done.returncode, done.stdout, done.stderr
            if is_read:
                expect("an audit by who may only read is whole", got == (0, text, ""), (got[0], len(got[1]), got[2]))
            else:
                expect(f"an audit of a folder of mode {mode:o} with files of mode {files:o} is refused", is_named(got[0], got[2]) and got[1] == "", got)
            os.chmod(desk.folder, 0o700)
            for name in whole:
                os.chmod(os.path.join(desk.folder, name), 0o600)
            expect("and nothing is changed", desk.contents() == whole, changed_files(whole, desk.contents()))


def refusal_of(desk):
    """Status and standard error of a start that is to be refused; one that serves is killed."""
    server = Server(desk)
    if server.port is None:
        return server.ended(SOON)
    server.kill()
    return "serves", server.told()


# --- Audits beside a server --------------------------------------------------------------------------------------------------------

class Changes(threading.Thread):
    """Somebody who changes the list of the notes fifty times a second, while another types into a long text."""

    def __init__(self, server):
        super().__init__(daemon=True)
        self.ann, self.bob = server.join("ann"), server.join("bob")
        type_in(self.bob, go_to("long") + "words and more words\r" * 50 + "\x18h\x1bw\x15200\x19")
        self.is_over = threading.Event()

    def run(self):
        number = 0
        while not self.is_over.wait(0.02):
            type_in(self.ann, DROP_FIRST if number % 2 else DENY_BOB)
            if number % 10 == 0:
                type_in(self.bob, "x")
            number += 1
            for one in (self.ann, self.bob):
                take_all(one)


def take_all(one):
    """Takes what has come, and paints nothing of it."""
    one.socket.setblocking(False)
    try:
        while one.socket.recv(1 << 20):
            pass
    except OSError:
        pass
    one.socket.settimeout(PATIENCE)


def try_audits_beside(long, seed):
    """Audits beside a server that commits fifty changes a second, each whole up to its last line."""
    count = 300 if long else 30
    with Desk() as desk:
        server = serving(desk)
        changes = Changes(server)
        changes.start()
        time.sleep(1)
        wrong, texts, seconds = [], [], []
        for number in range(count):
            before = server.lines()
            begun = time.time()
            status, text, words = audit_of(desk)
            seconds.append(time.time() - begun)
            lines = text.splitlines()
            numbers = [int(line.split("\t")[1]) for line in lines]
            if status != 0 or words or numbers != list(range(1, len(lines) + 1)) or not text.endswith("\n"):
                wrong.append((number, status, words, len(lines)))
            elif lines[:len(before)] != before:
                wrong.append((number, "lines that were printed before are not there", len(before), len(lines)))
            texts.append(lines)
        names = sorted(os.listdir(desk.folder))
        is_there = server.process.poll() is None
        changes.is_over.set()
        changes.join()
        time.sleep(1.5)
        printed = server.lines()
        server.kill()
        wrong += [(number, "a line is another than was printed") for number, lines in enumerate(texts) if printed[:len(lines)] != lines]
        rate = (len(texts[-1]) - len(texts[0])) / max(sum(seconds), 0.001)
        expect(f"{count} audits beside a server are whole, over {len(printed)} events", not wrong, (len(wrong), wrong[:4]))
        expect("events came between them", len(texts[-1]) > len(texts[0]), (len(texts[0]), len(texts[-1])))
        expect("the server goes on, and no file is made", is_there and names == [BASE, LOG], (server.told(), names))
        seconds.sort()
        print(f"      {rate:.0f} events a second; an audit took {1000 * seconds[len(seconds) // 2]:.0f} ms, at most {1000 * seconds[-1]:.0f}")


def try_reader_stops(long, seed):
    """An audit ends with 0 if its reader stops reading."""
    with Desk() as desk:
        server = serving(desk)
        ann = server.join("ann")
        type_in(ann, go_to("notes"))
        for _ in range(10):
            type_in(ann, (DENY_BOB + DROP_FIRST) * 10)
        type_in(ann, go_to("page"))
        see(ann, "A page.")
        time.sleep(1.2)
        server.kill()
        whole = desk.audit()[1]
        words = [keep_desk.program, "audit", desk.folder]
        for taken in (0, 1):
            out, into = os.pipe()
            fcntl.fcntl(into, F_SETPIPE_SZ, 4096)
            if not taken:
                os.close(out)
            done = subprocess.Popen(words, stdout=into, stderr=subprocess.PIPE, text=True)
            os.close(into)
            if taken:
                line = os.read(out, 100)
                os.close(out)
                expect("head has a line", len(whole) > 10_000 and whole.encode().startswith(line), (len(whole), line))
            told = done.stderr.read()
            got = done.wait(PATIENCE), told
            expect("an audit whose reader " + ("stops" if taken else "is not there") + " ends with 0", got == (0, ""), got)
            done.stderr.close()


# --- Files that go while it serves -------------------------------------------------------------------------------------------------

def remove_file(desk):
    os.remove(desk.base)


def remove_log(desk):
    os.remove(os.path.join(desk.folder, LOG))


def move_folder(desk):
    os.rename(desk.folder, desk.at("moved"))


def replace_folder(desk):
    move_folder(desk)
    os.mkdir(desk.folder, 0o700)


def copy_folder(desk):
    move_folder(desk)
    shutil.copytree(desk.at("moved"), desk.folder)


def copy_file(desk):
    shutil.copy(desk.base, desk.at("copy"))
    os.rename(desk.at("copy"), desk.base)


def copy_log(desk):
    path = os.path.join(desk.folder, LOG)
    shutil.copy(path, desk.at("copy"))
    os.rename(desk.at("copy"), path)


def link_log(desk):
    path = os.path.join(desk.folder, LOG)
    os.rename(path, desk.at("moved-log"))
    os.symlink(desk.at("moved-log"), path)


def remove_folder(desk):
    shutil.rmtree(desk.folder)


GONE = [("the file is removed", remove_file), ("the log is removed", remove_log), ("the folder is moved", move_folder),
        ("the folder is moved, and an empty one is there", replace_folder), ("the folder is moved, and a copy is there", copy_folder),
        ("a copy takes the place of the file", copy_file), ("a copy takes the place of the log", copy_log),
        ("the log is behind a link", link_log), ("the folder is removed", remove_folder)]


def try_gone(long, seed):
    """Files that are removed or moved while it serves: `journal failed`, and status 4."""
    for what, act in GONE:
        with Desk() as desk:
            server = serving(desk)
            ann, bob = server.join("ann"), server.join("bob")
            type_in(ann, DENY_BOB)
            see(bob, "[no read")
            begun = time.time()
            act(desk)
            got = server.ended(NOTICED)
            expect(f"{what}: it ends with 4 within {NOTICED} seconds", got == (4, "journal failed\n"), (got, round(time.time() - begun, 1)))
            bob.read_until(lambda one: one.ended, 1)
            if os.path.isdir(desk.at("moved")):
                desk.folder = desk.at("moved")
                state = state_after_start(desk)
                expect(f"{what}: where it is now, all that was shown holds", isinstance(state, State) and state.denied, state)
    with Desk() as desk:
        os.mkdir(desk.at("above"))
        desk.folder = desk.at("above/journal")
        os.mkdir(desk.folder, 0o700)
        server = serving(desk)
        os.rename(desk.at("above"), desk.at("elsewhere"))
        got = server.ended(NOTICED)
        expect(f"the folder above is moved: it ends with 4 within {NOTICED} seconds", got == (4, "journal failed\n"), got)
    with Desk() as desk:
        server = serving(desk)
        ann, bob = server.join("ann"), server.join("bob")
        type_in(ann, DENY_BOB)
        see(bob, "[no read")
        os.link(desk.base, desk.at("second"))
        os.remove(desk.base)
        os.rename(desk.at("second"), desk.base)
        os.chmod(desk.base, 0o400)
        time.sleep(1.5)
        type_in(ann, DROP_FIRST)
        expect("a file that is moved and put back at once: it serves on", see(bob, SECRET) and server.process.poll() is None, server.told())
        server.kill()


ATTACKS = [try_remade, try_remade_rights, try_name_of_killed, try_odd_names, try_dashes, try_true_tables, try_older_versions, try_taken_over,
           try_missing_files, try_forged_tables, try_other_kinds, try_two_names, try_reader_alone, try_files_beside, try_audits_beside,
           try_reader_stops, try_gone, try_torn_end, try_changed_bits, try_changed_frames, try_other_moments, try_changed_file, try_changed_pages]
