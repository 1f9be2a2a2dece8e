"""What the scripts share that try mgd-keep over sockets: a folder with a configuration and a journal, a server over it, the screens that tell
its state, and the count of what passed and failed. The program is that of crates/mgd_keep/out/mgd_keep, unless use() names another one."""
import atexit, os, re, shutil, sqlite3, struct, subprocess, tempfile, time

from try_server import TOP, Terminal

IS_ROOT = os.geteuid() == 0
NOBODY = 65534
ROWS, COLS = 24, 80
USAGE = ("usage: mgd-keep serve FOLDER CONFIG PORT [--forget BUFFER] [--discard] [--owner BUFFER NAME] [--owner-of OLD NEW] "
         "[--list BUFFER ENTRY] | mgd-keep audit FOLDER [--user U] [--buffer B] [--since WHEN]\n")
TICKETS = {"ann": "apple", "bob": "birch", "cat": "cedar", "eve": "elder", "-": "dogwood"}
GROUPS = {"staff": ["ann", "bob"], "desk": ["cat"], "-": ["cat"]}
SECRET = "The door code is 4711."
OWNERS_LIST = "ALLOW OWNER@ rwatdcCo"
NOTES = ["ALLOW ann rwatcC", "ALLOW EVERYONE@ rwat"]
PAGE = ["ALLOW ann rwatdcCo", "ALLOW EVERYONE@ rt"]
# A line of an event. Its user, its buffer and its detail are empty where there is none.
EVENT = re.compile(r"\d{4}-\d\d-\d\dT\d\d:\d\d:\d\dZ\t(\d+)\t([!-~]*)\t([a-z]+)\t([!-~]*)\t(.*)")
# What the lines have for nobody, for no buffer and for no detail.
NONE = ""
# How long anything is waited for.
PATIENCE = 20

program = os.path.join(TOP, "crates", "mgd_keep", "out", "mgd_keep")
passed = failed = 0


def use(path):
    """Names the program. Whether it is there."""
    global program
    program = os.path.abspath(path)
    if not os.access(program, os.X_OK):
        print(f"there is no program {program}; ./mgd prove builds one")
        return False
    return True


def expect(what, is_so, seen=""):
    global passed, failed
    print(("ok    " if is_so else "FAILED ") + what + ("" if is_so else f": {seen!r}"), flush=True)
    passed += bool(is_so)
    failed += not is_so


def wait_for(is_so, most=PATIENCE):
    end = time.time() + most
    while not is_so() and time.time() < end:
        time.sleep(0.002)
    return is_so()


def user(name):
    return f'[[user]]\nname = "{name}"\nticket = "{TICKETS[name]}"\n'


def group(name):
    members = ", ".join(f'"{member}"' for member in GROUPS[name])
    return f'[[group]]\nname = "{name}"\nmembers = [{members}]\n'


def buffer(name, entries, owner="ann", text="", more=""):
    listed = ", ".join(f'"{entry}"' for entry in entries)
    return f'[[buffer]]\nname = "{name}"\nowner = "{owner}"\n{more}list = [{listed}]\ntext = "{text}\\n"\n'


def config(*buffers, users=("ann", "bob", "cat"), groups=("staff", "desk")):
    return "".join([user(name) for name in users] + [group(name) for name in groups] + list(buffers))


def file_buffer(name, entries, path, owner="ann"):
    """A buffer whose text is a file's."""
    listed = ", ".join(f'"{entry}"' for entry in entries)
    return f'[[buffer]]\nname = "{name}"\nowner = "{owner}"\nlist = [{listed}]\nfile = "{path}"\n'


def create_detail(entries, owner="ann", owning=""):
    """The detail of a line that tells a new buffer."""
    return f"{owner}:{owning} {'; '.join(entries) or '-'}"


def list_detail(old, new):
    """The detail of a line that tells a change of a list: the number of the first entry that differs, and the entries up to the common end."""
    first = 0
    while first < min(len(old), len(new)) and old[first] == new[first]:
        first += 1
    last = 0
    while last < min(len(old), len(new)) - first and old[-1 - last] == new[-1 - last]:
        last += 1
    gone, come = old[first:len(old) - last], new[first:len(new) - last]
    return f"{first + 1}: {'; '.join(gone) or '-'} -> {'; '.join(come) or '-'}"


def count_of(line):
    """How many events a line stands for: that is the number after x, if its detail ends with one."""
    found = re.search(r" x (\d+)$", line[3])
    return int(found[1]) if found else 1


PLAIN = config(buffer("notes", NOTES, text=SECRET), buffer("page", PAGE, text="A page."))


class Desk:
    """A folder with a configuration and the folder of a journal."""

    def __init__(self, text=PLAIN, folder=None):
        self.path = os.path.realpath(tempfile.mkdtemp(prefix="mgd-keep-"))
        os.chmod(self.path, 0o755)
        self.folder = folder or self.at("journal")
        if folder is None:
            os.mkdir(self.folder, 0o700)
        self.write(text)
        self.starts = 0

    def __enter__(self):
        return self

    def __exit__(self, *_):
        shutil.rmtree(self.path, ignore_errors=True)

    def at(self, name):
        return os.path.join(self.path, name)

    def write(self, text):
        with open(self.at("served.toml"), "w") as file:
            file.write(text)

    @property
    def base(self):
        return os.path.join(self.folder, "journal.sqlite3")

    def copy(self):
        """A copy of the journal's folder, which SQLite may write in."""
        to = tempfile.mkdtemp(prefix="copy-", dir=self.path)
        for name in os.listdir(self.folder):
            shutil.copy(os.path.join(self.folder, name), os.path.join(to, name))
        return to

    def ask(self, sql):
        """What SQLite answers over a copy."""
        return self.answers(sql)[0]

    def answers(self, *queries):
        """What SQLite answers to each query over one copy: rows, or the words of an error."""
        to = self.copy()
        base = sqlite3.connect(os.path.join(to, "journal.sqlite3"))
        try:
            return [answer_of(base, sql) for sql in queries]
        finally:
            base.close()
            shutil.rmtree(to)

    def is_sound(self):
        """Whether sqlite3 finds the files sound, Python's module or the program where that is installed."""
        if shutil.which("sqlite3") is None:
            return self.ask("PRAGMA integrity_check") == [("ok",)]
        to = self.copy()
        said = subprocess.run(["sqlite3", os.path.join(to, "journal.sqlite3"), "PRAGMA integrity_check"], capture_output=True, text=True)
        shutil.rmtree(to)
        return said.stdout == "ok\n"

    def restore(self, contents):
        """Makes the folder one of these files alone."""
        shutil.rmtree(self.folder, ignore_errors=True)
        os.mkdir(self.folder, 0o700)
        for name, data in contents.items():
            path = os.path.join(self.folder, name)
            with open(path, "wb") as file:
                file.write(data)
            os.chmod(path, 0o600)

    def settle(self):
        """Has SQLite take the log over into the file, as it is."""
        base = sqlite3.connect(self.base)
        base.execute("PRAGMA wal_checkpoint(TRUNCATE)").fetchall()
        base.close()

    def contents(self):
        found = {}
        for name in os.listdir(self.folder):
            with open(os.path.join(self.folder, name), "rb") as file:
                found[name] = file.read()
        return found

    def audit(self, *words):
        done = subprocess.run([program, "audit", self.folder, *words], capture_output=True, text=True, timeout=PATIENCE)
        return done.returncode, done.stdout, done.stderr

    def events(self, *words):
        """What an audit prints, without times and numbers."""
        return [fields(line) for line in self.audit(*words)[1].splitlines()]


def answer_of(base, sql):
    try:
        return base.execute(sql).fetchall()
    except sqlite3.Error as error:
        return str(error)


def fields(line):
    """User, what, buffer and detail of a line."""
    return tuple(line.split("\t")[2:])


# The servers that run. None outlives the script.
running = set()
atexit.register(lambda: [process.kill() for process in running])


class Server:
    """A server over a desk. Where it does not listen, its port is None."""
    terminal = Terminal

    def __init__(self, desk, *options, before=None, surroundings=None):
        desk.starts += 1
        self.desk = desk
        self.paths = [desk.at(f"{name}-{desk.starts}") for name in ("out", "err")]
        with open(self.paths[0], "wb") as out, open(self.paths[1], "wb") as err:
            self.process = subprocess.Popen([program, "serve", desk.folder, desk.at("served.toml"), "0", *options], stdin=subprocess.DEVNULL,
                                            stdout=out, stderr=err, preexec_fn=before, env=surroundings)
        running.add(self.process)
        wait_for(lambda: self.listening() or self.process.poll() is not None)
        found = self.listening()
        self.port = int(found[1]) if found else None

    def said(self):
        with open(self.paths[0]) as file:
            return file.read()

    def told(self):
        with open(self.paths[1]) as file:
            return file.read()

    def listening(self):
        return re.search(r"^listening 127\.0\.0\.1:(\d+)\n", self.said(), re.M)

    def lines(self):
        return [line for line in self.said().splitlines() if not line.startswith("listening ")]

    def ended(self, most=PATIENCE):
        """Status and standard error of one that ends by itself."""
        try:
            status = self.process.wait(most)
            running.discard(self.process)
            return status, self.told()
        except subprocess.TimeoutExpired:
            self.kill()
            return None, self.told()

    def kill(self):
        self.process.kill()
        self.process.wait()
        running.discard(self.process)

    def join(self, name):
        one = self.terminal(self.port, f"{name} {TICKETS[name]}", ROWS, COLS)
        one.read_until(lambda seen: seen.shows(ROWS - 1).startswith("-"), PATIENCE)
        return one


def serving(desk, *options, **how):
    server = Server(desk, *options, **how)
    if server.port is None:
        expect("it serves", False, server.ended())
        raise SystemExit(finish())
    return server


def shows(one, words):
    return any(words in one.shows(row) for row in range(1, ROWS + 1))


def see(one, words, most=PATIENCE):
    """Whether a screen comes to show words."""
    return shows(one.read_until(lambda seen: shows(seen, words), most), words)


def miss(one, words, most=PATIENCE):
    """Whether a screen comes to show them no more."""
    return not shows(one.read_until(lambda seen: not shows(seen, words), most), words)


def type_in(one, keys):
    one.send(keys.encode())


def command(name, answer, number=None):
    return ("" if number is None else f"\x15{number}") + f"\x1bx{name}\r" + ("" if answer is None else f"{answer}\r")


def go_to(name):
    return f"\x18b{name}\r"


LISTING = "\x18\x02"
LEAVE = "\x18\x03"
DENY_BOB = command("acl-insert", "DENY bob rwa", 1)
DROP_FIRST = command("acl-delete", None, 1)


def listed(one):
    """The rows of the list of buffers that a screen shows: owner and group by name."""
    found = {}
    for row in range(1, ROWS - 1):
        words = one.shows(row).replace("*", " ", 1).split()
        if len(words) == 3 and words[0].isdigit():
            owner, _, owning = words[2].partition(":")
            found[words[1]] = (owner, owning)
    return found


class State:
    """What is to be so: whether bob is denied the notes, owner and group of the page, and the buffers that were made."""

    def __init__(self, denied, page, made):
        self.denied, self.page, self.made = denied, page, frozenset(made)

    def __eq__(self, other):
        return vars(self) == vars(other)

    def __repr__(self):
        return f"{self.denied} {self.page} {sorted(self.made)}"


class Watch:
    """A server with the screens that tell its state: bob's with the notes, and ann's with the list of buffers."""

    def __init__(self, desk):
        self.server = serving(desk)
        self.bob, self.list, self.ann = (self.server.join(name) for name in ("bob", "ann", "ann"))
        type_in(self.bob, go_to("notes"))
        type_in(self.list, LISTING)
        see(self.list, "-Buffers")
        see(self.list, " page ")
        self.bob.read_until(lambda one: shows(one, SECRET) or shows(one, "[no read"), PATIENCE)

    def state(self):
        rows = listed(self.list)
        return State(shows(self.bob, "[no read"), rows.get("page"), [name for name in rows if name.startswith("made")])

    def kill(self, after):
        """Kills the server, garbage behind its log or not, and takes what it has sent."""
        time.sleep(after)
        self.server.kill()
        for one in (self.bob, self.list):
            one.read_until(lambda seen: seen.ended, 5)
        state = self.state()
        for one in (self.bob, self.list, self.ann):
            one.close()
        return state


def sums_of(page):
    """The two sums that SQLite's cksumvfs puts at the end of a page."""
    one = two = 0
    for first, second in struct.iter_unpack("<II", page[:-8]):
        one = (one + first + two) & 0xFFFFFFFF
        two = (two + second + one) & 0xFFFFFFFF
    return struct.pack("<II", one, two)


def seal(path):
    """Gives each page of a file its sums again, where it has them."""
    with open(path, "r+b") as file:
        data = file.read()
        size = struct.unpack(">H", data[16:18])[0]
        size = 65536 if size == 1 else size
        if data[20] != 8:
            return
        for at in range(0, len(data), size):
            file.seek(at + size - 8)
            file.write(sums_of(data[at:at + size]))


def made_journal(desk):
    """A journal with a list of its own, in the file and not in its log."""
    server = serving(desk)
    ann, bob = server.join("ann"), server.join("bob")
    type_in(ann, DENY_BOB)
    see(bob, "[no read: entry 1]")
    server.kill()
    desk.settle()


def refused(desk, what, status, words, *options):
    """A start that is refused by these words, or by words of this form, and leaves all files."""
    before = desk.contents()
    server = Server(desk, *options)
    got = server.ended() if server.port is None else ("serves", server.kill())
    is_named = got[1] == words if isinstance(words, str) else isinstance(got[1], str) and words.fullmatch(got[1])
    expect(f"{what} is refused", got[0] == status and is_named, got)
    after = desk.contents()
    expect("and all is left as it is", after == before, changed_files(before, after))


def changed_files(before, after):
    """The files that are not what they were, and how long they were and are, or None."""
    length = lambda files, name: len(files[name]) if name in files else None
    return {name: (length(before, name), length(after, name)) for name in {*before, *after} if before.get(name) != after.get(name)}


def finish():
    print(f"{passed} passed, {failed} failed")
    return 1 if failed else 0
