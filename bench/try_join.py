#!/usr/bin/env python3
"""Tries ./join behind pseudo terminals: python3 bench/try_join.py [PROGRAM]

Most of it joins a server that is played here, so that each byte is known that is sent and taken. Where crates/mgd/out/mgd (or PROGRAM)
is there, some cases join that, over a configuration like examples/office.toml. It is started by hand and ends with status 0 if all is as
it should be.
"""
import fcntl, os, pty, random, re, select, shutil, signal, socket, stat, struct, subprocess, sys, tempfile, termios, time, unicodedata

TOP = os.path.dirname(os.path.dirname(os.path.abspath(__file__)))
PROGRAM = sys.argv[1] if len(sys.argv) > 1 else os.path.join(TOP, "crates", "mgd", "out", "mgd")
JOIN = os.path.join(TOP, "join")
USAGE = "usage: join [--once] [--raw] [--host HOST] [--port PORT] [--ticket-file FILE] [--server-user USER] NAME [TICKET [HOST PORT]]\r\n"
FOLDER = tempfile.TemporaryDirectory()
FIRST = b"\x1b[?7l\x1b[m\x1b[2J\x1b[1;1Hhello\x1b[1;3H"
QUIT = b"\x18\x03"
PAUSE = 0.25  # longer than join waits for the rest of a sequence
GIVEN_BACK = "\x1b[?7h\x1b[m\x1b[24;1H\r\n\x1b[J\x1b[?1049l"
results = []


def expect(what, is_so, seen=""):
    print(("ok    " if is_so else "FAILED ") + what + ("" if is_so else f": {seen!r}"), flush=True)
    results.append(is_so)


def columns(character):
    return 2 if unicodedata.east_asian_width(character) in "WF" else 1


class Screen:
    """A terminal: its cells, each a character and whether it is in reverse, where "" is a right half. What it is not made for, and each
    place outside of it, is noted in faults."""

    SEQUENCE = re.compile(r"\x1b\[([?\d;]*)([A-Za-z])|\x1b\]2;([^\x00-\x1f]*)\x07|[\r\n]|[^\x00-\x1f]", re.S)

    def __init__(self, rows, cols):
        self.faults, self.unread, self.other, self.titles = [], b"", None, [""]
        self.is_wrapping, self.is_reversed, self.is_past = True, False, False
        self.resize(rows, cols)

    def resize(self, rows, cols, fill=" "):
        self.rows, self.cols, self.row, self.col = rows, cols, 0, 0
        self.cells = [[(fill, False)] * cols for _ in range(rows)]

    def feed(self, data):
        self.unread += data
        text = self.unread.decode(errors="ignore")  # a character that is cut at the end waits
        done = 0
        for found in self.SEQUENCE.finditer(text):
            if found.start() != done:
                break
            done = found.end()
            if found[2]:
                self.control(found[1], found[2])
            elif found[3] is not None:
                self.titles[-1] = found[3]
            else:
                self.put(found[0])
        if not re.fullmatch(r"(\x1b(\[[?\d;]*|\][^\x00-\x1f]*)?)?", text[done:]):
            self.faults.append(text[done:])
        self.unread = self.unread[len(text[:done].encode()):]

    def control(self, given, letter):
        self.is_past = False
        if letter == "H":
            row, col = (int(word or 1) for word in (given + ";1").split(";")[:2])
            if not (1 <= row <= self.rows and 1 <= col <= self.cols):
                self.faults.append((row, col))
            self.row, self.col = min(row, self.rows) - 1, min(col, self.cols) - 1
        elif letter == "K":
            self.fill(self.row, self.col)
        elif letter == "J":
            self.fill(self.row, self.col) if given != "2" else None
            for row in range(0 if given == "2" else self.row + 1, self.rows):
                self.fill(row, 0)
        elif letter == "m":
            self.is_reversed = given == "7"
        elif given == "?7" and letter in "hl":
            self.is_wrapping = letter == "h"
        elif given == "?1049" and letter == "h":
            if not self.other:
                self.other = self.cells, self.row, self.col
                self.cells = [[(" ", False)] * self.cols for _ in range(self.rows)]
        elif given == "?1049" and letter == "l":
            if self.other:
                (saved, row, col), self.other = self.other, None
                blank = [(" ", False)] * self.cols
                self.cells = [(cells + blank)[:self.cols] for cells in (saved + [blank] * self.rows)[:self.rows]]
                self.row, self.col = min(row, self.rows - 1), min(col, self.cols - 1)
        elif given == "22;2" and letter == "t":
            self.titles.append(self.titles[-1])
        elif given == "23;2" and letter == "t" and len(self.titles) > 1:
            self.titles.pop()
        else:
            self.faults.append(given + letter)

    def fill(self, row, col):
        self.part(row, col)
        self.cells[row][col:] = [(" ", False)] * (self.cols - col)

    def part(self, row, col):
        if 0 < col < self.cols and self.cells[row][col][0] == "":
            for half in (col - 1, col):
                self.cells[row][half] = (" ", self.cells[row][half][1])

    def put(self, character):
        if character == "\r":
            self.col, self.is_past = 0, False
            return
        if character == "\n" or self.is_wrapping and self.is_past:
            self.is_past = False
            if self.row + 1 == self.rows:
                self.cells = self.cells[1:] + [[(" ", False)] * self.cols]
            else:
                self.row += 1
            if character == "\n":
                return
            self.col = 0
        wide = columns(character)
        if self.col + wide > self.cols:
            self.faults.append(character)
            return
        self.part(self.row, self.col)
        self.part(self.row, self.col + wide)
        self.cells[self.row][self.col:self.col + wide] = [(character, self.is_reversed), ("", self.is_reversed)][:wide]
        self.is_past = self.col + wide == self.cols
        self.col = min(self.col + wide, self.cols - 1)

    def lines(self):
        return ["".join(cell[0] for cell in row).rstrip() for row in self.cells]

    def cut(self, places, cols):
        """What a terminal of another size shows of this one, if these rows are in sight: the columns from a multiple of half of its own on,
        so that the cursor's is among them."""
        half = max(1, cols // 2)
        left = 0 if self.col < cols or cols >= self.cols else min(self.cols - cols, (self.col - half) // half * half)
        cells = [[(" ", False)] * cols for _ in places]
        for row, place in enumerate(places):
            for col in range(left, min(left + cols, self.cols)):
                cells[row][col - left] = self.cells[place][col]
            if self.cells[place][left][0] == "":
                cells[row][0] = (" ", self.cells[place][left][1])
            if left + cols < self.cols and self.cells[place][left + cols][0] == "":
                cells[row][cols - 1] = (" ", self.cells[place][left + cols - 1][1])
        return cells, (places.index(self.row), self.col - left)

    def sights(self, rows):
        """The rows that can be in sight in a terminal of so many: that of the cursor, the last two, and rows that follow each other."""
        if rows >= self.rows:
            return [list(range(self.rows))]
        last = [self.rows - 2, self.rows - 1]
        if rows < 3:
            return [[self.row]] if rows == 1 else [last if self.row in last else [self.row, last[1]]]
        found = [list(range(top, top + rows - 2)) + last for top in range(self.rows - rows + 1)]
        return [places for places in found if self.row in places]


class Server:
    """A server that is played: it takes one connection after the other, and knows the bytes of the last one."""

    def __init__(self):
        self.socket = socket.create_server(("127.0.0.1", 0))
        self.port = str(self.socket.getsockname()[1])
        self.to = ["127.0.0.1", self.port]
        self.got = b""

    def accept(self, answer=FIRST):
        self.socket.settimeout(20)
        self.peer, _ = self.socket.accept()
        self.peer.settimeout(20)
        login = b""
        while not login.endswith(b"\n"):
            login += self.peer.recv(1) or b"end\n"
        self.got = b""
        self.peer.sendall(answer)
        return login

    def take(self, wanted, most=8.0, terminal=None):
        """What is typed until it is so much as is wanted."""
        end = time.monotonic() + most
        while len(self.got) < len(wanted) and time.monotonic() < end:
            if terminal:
                terminal.pump(0)
            if select.select([self.peer], [], [], 0.02)[0]:
                more = self.peer.recv(65536)
                if not more:
                    break
                self.got += more
        got, self.got = self.got, b""
        return got

    def stop(self):
        """Ends as a server does: its port is free then."""
        self.peer.close()
        self.socket.close()

    def start(self):
        self.socket = socket.create_server(("127.0.0.1", int(self.port)))

    def close(self, is_reset=False):
        if is_reset:
            self.peer.setsockopt(socket.SOL_SOCKET, socket.SO_LINGER, struct.pack("ii", 1, 0))
        self.peer.close()


# Stands for a shell: it gives the terminal to a job, and takes it back where the job stops, until SIGUSR1.
LEADER = """
import os, signal, sys
signal.signal(signal.SIGTTOU, signal.SIG_IGN)
job = os.fork()
if job == 0:
    os.setpgid(0, 0)
    os.tcsetpgrp(0, os.getpid())
    signal.signal(signal.SIGTTOU, signal.SIG_DFL)
    os.execv(sys.argv[1], sys.argv[1:])
def go_on(number, frame):
    os.tcsetpgrp(0, job)
    os.kill(job, signal.SIGCONT)
signal.signal(signal.SIGUSR1, go_on)
while True:
    _, status = os.waitpid(job, os.WUNTRACED)
    if not os.WIFSTOPPED(status):
        sys.exit(os.waitstatus_to_exitcode(status) % 256)
    os.tcsetpgrp(0, os.getpgrp())
    os.write(1, b"[stopped %d]" % job)
"""


class Joined:
    """A join whose terminal is a pseudo terminal."""

    def __init__(self, words, rows=24, cols=80, program=JOIN, leader=(), **variables):
        self.terminal, self.slave = pty.openpty()
        self.resize(rows, cols)
        self.screen, self.raw = Screen(rows, cols), b""
        os.chmod(os.ttyname(self.slave), 0o622)
        self.before = self.state()
        self.process = subprocess.Popen([*leader, program, *words], env={"PATH": os.environ["PATH"], "LC_ALL": "C.UTF-8", **variables},
                                        stdin=self.slave, stdout=self.slave, stderr=self.slave, start_new_session=True,
                                        preexec_fn=lambda: fcntl.ioctl(0, termios.TIOCSCTTY, 0))

    def state(self):
        """All that is to be as it was: the terminal's attributes, what stty tells of them, and who may write to it."""
        told = subprocess.run(["stty", "-a"], stdin=self.slave, capture_output=True).stdout
        return termios.tcgetattr(self.slave), told, stat.S_IMODE(os.fstat(self.slave).st_mode)

    def resize(self, rows, cols):
        fcntl.ioctl(self.slave, termios.TIOCSWINSZ, struct.pack("HHHH", rows, cols, 0, 0))

    def type(self, keys):
        os.write(self.terminal, keys)
        return self

    def pump(self, most):
        if select.select([self.terminal], [], [], most)[0]:
            data = os.read(self.terminal, 65536)
            self.raw += data
            self.screen.feed(data)

    @property
    def got(self):
        return self.raw.decode(errors="replace")

    def wait_until(self, is_so, most=8.0):
        end = time.monotonic() + most
        while not is_so() and time.monotonic() < end:
            self.pump(0.02)
        return is_so()

    def wait_for(self, text, most=8.0):
        return self.wait_until(lambda: text in self.got, most)

    def shows(self, text, most=8.0):
        return self.wait_until(lambda: any(text in line for line in self.screen.lines()), most)

    def end(self, most=10.0):
        """Waits for its end: its status, and whether the terminal is as it was."""
        self.wait_until(lambda: self.process.poll() is not None, most)
        self.pump(0.1)
        self.pump(0)
        if re.search(r" at \S+ line \d+", self.got):
            expect("perl warns of nothing", False, re.findall(r".* at \S+ line \d+.*", self.got)[:3])
        if self.process.poll() is None:
            self.process.kill()
            return "it goes on", False
        return self.process.returncode, self.state()[:2] + (self.before[2],) == self.before and self.state() == self.before


def joined(server, words=("--once",), answer=FIRST, **more):
    """One that has begun, and does not come back."""
    one = Joined([*words, "ann", "apple", *server.to], **more)
    one.login = server.accept(answer)
    if answer == FIRST:
        one.wait_until(lambda: one.screen.lines()[0] == "hello" and one.screen.col == 2)
    return one


# What the keys of xterm, tmux, screen, the Linux console and VT220 send, and what is to reach the server.
ARROWS = [(f"{lead}{letter}", f"\x1b[{letter}") for lead in ["\x1b[", "\x1bO"] for letter in "ABCD"]
MOVES = [("\x1b[H", "\x01"), ("\x1bOH", "\x01"), ("\x1b[1~", "\x01"), ("\x1b[7~", "\x01"), ("\x1b[F", "\x05"), ("\x1bOF", "\x05"),
         ("\x1b[4~", "\x05"), ("\x1b[8~", "\x05"), ("\x1b[3~", "\x04"), ("\x1b[5~", "\x1bv"), ("\x1b[6~", "\x16"), ("\x08", "\x7f"),
         ("\x1b\x08", "\x1b\x7f"), ("\x7f", "\x7f")]
SILENT = ["\x1b[2~"] + [f"\x1bO{letter}" for letter in "PQRSMXjklmnopqrstuvwxy"] + [f"\x1b[{number}~" for number in range(11, 35)]
SILENT += [f"\x1b[[{letter}" for letter in "ABCDE"] + [f"\x1b[1;{bits}{letter}" for bits in range(2, 9) for letter in "ABCDHFPQRS"]
SILENT += [f"\x1b[{number};{bits}~" for number in [2, 3, 5, 6, 15, 24] for bits in [2, 5, 8]] + ["\x1b[Z", "\x1b[E", "\x1b[G", "\x1bO5A"]
SILENT += ["\x1b\x1b[A", "\x1b\x1bOA", "\x1b\x1b[5~", "\x1b[I", "\x1b[O", "\x1b[200~", "\x1b[201~", "\x1b[27;5;97~", "\x1b[97;5u"]
SILENT += ["\x1b[<0;10;20M", "\x1b[<0;10;20m", "\x1b[M !!", "\x1b[M#\x7f~", "\x1b[32;10;10M", "\x1b[?64;1;2c", "\x1b[24;80R", "\x1b[?1;2$y"]
SILENT += ["\x1b[7$", "\x1b[>1;95;0c", "\x1b]11;rgb:1e1e/1e1e/1e1e\x1b\\", "\x1b]10;rgb:0/0/0\x07", "\x1bP>|xterm(390)\x1b\\", "\x1b[1 q"]
PLAIN = [bytes([byte]).decode() for byte in range(0x20) if byte not in (0x08, 0x1b, 0x1d)] + [chr(byte) for byte in range(0x20, 0x7f)]
METAS = ["\x1b" + key for key in PLAIN if key not in "[O]P"]
BY_HAND = ["\x1b[", "\x1bO", "\x1b]", "\x1bP", "\x1b\x1b"]
WIDER = ["\u00e9", "\u6f22", "\U0001f600", "\u07ff\u0800\uffff\U0010ffff", "\u4e1b", "\ud7ff\ue000", "\x1b\u00e9"]
PASTE = [("\x1b[200~two\rlines \u6f22\x1b[201~", "two\rlines \u6f22")]
CASES = ARROWS + MOVES + PASTE + [(keys, "") for keys in SILENT] + [(keys, keys) for keys in PLAIN + METAS + BY_HAND + WIDER]


def try_keys(server):
    one = joined(server)
    expect("the login line has the size", one.login == b"login ann apple 24 80\n", one.login)
    for keys, wanted in CASES:
        given, wanted = keys.encode("utf-8", "surrogatepass"), wanted.encode("utf-8", "surrogatepass") + b"."
        wrong = []
        for cut in range(len(given)) if len(given) < 9 else [0, 3]:  # whole, and in two reads
            if cut:
                one.type(given[:cut])
                time.sleep(0.015)
            one.type(given[cut:])
            if keys in BY_HAND or keys == "\x1b[7$":
                time.sleep(PAUSE)
            one.type(b".")
            got = server.take(wanted, terminal=one)
            if got != wanted:
                wrong.append((cut, got))
        expect(f"{keys!r} is {wanted[:-1]!r}", not wrong, wrong)
    server.close()
    one.end()


def typed(server, one, *keys):
    """What arrives of keys between which time goes by."""
    for some in keys:
        one.type(some)
        time.sleep(PAUSE)
    one.type(b".")
    return server.take(b"." * 4096, most=0.4, terminal=one)


def try_slow_keys(server):
    one = joined(server)
    for what, keys, wanted in [
        ("ESC and a key typed slowly", [b"\x1b", b"x"], b"\x1bx"),
        ("ESC, [ and A typed slowly", [b"\x1b", b"[", b"A"], b"\x1b[A"),
        ("ESC [ and A, of which [ came with ESC", [b"\x1b[", b"A"], b"\x1b[A"),
        ("ESC and C-g", [b"\x1b", b"\x07"], b"\x1b\x07"),
        ("ESC [ and C-g", [b"\x1b[", b"\x07"], b"\x1b[\x07"),
        ("ESC [ C-g at once", [b"\x1b[\x07"], b"\x1b[\x07"),
        ("an arrow cut behind its ESC", [b"\x1b", b"[A"], b"\x1b[A"),
        ("Home cut behind its ESC types no more than M-ESC", [b"\x1b", b"[1~"], b"\x1b\x1b\x01"),
        ("ESC, and F5 a while later", [b"\x1b", b"\x1b[15~", b"x"], b"\x1b\x1bx"),
        ("a sequence that does not end", [b"\x1b[1;5", b"x"], b"x"),
        ("a sequence that a control character ends", [b"\x1b[1;5\x07"], b"\x07"),
        ("a mouse report that does not end", [b"\x1b[M!", b"x"], b"x"),
        ("C-q and ESC", [b"\x11\x1b", b"\x1b[A"], b"\x11\x1b\x1b[A"),
        ("C-q and Home", [b"\x11\x1b[H", b"x"], b"\x11x"),
        ("C-q and ^H", [b"\x11\x08"], b"\x11\x08"),
        ("C-q C-q and ^H", [b"\x11\x11\x08"], b"\x11\x11\x7f"),
        ("C-x and an arrow: the word is no key, and no letter is typed", [b"\x18", b"\x1b[A", b"\x1b[A"], b"\x18\x1b[\x1b[A"),
        ("M-[ and an arrow, the same", [b"\x1b[", b"\x1b[A", b"x"], b"\x1b[\x1b[x"),
        ("half a character waits", [b"\xe6\xbc", b"\xa2"], "漢".encode()),
        ("a byte that is no character stays one", [b"\xe6a", b"\xff"], b"\xe6a\xff"),
        ("8-bit CSI and SS3", [b"\x9b3~\x8fA\x9bH"], b"\x04\x1b[A\x01"),
        ("C-] C-] is one", [b"\x1d\x1d"], b"\x1d"),
        ("C-q C-] is one too", [b"\x11\x1d"], b"\x11\x1d"),
        ("ESC, C-] r and a key", [b"\x1b", b"\x1dr", b"x"], b"\x1bx"),
        ("ESC, and C-] r and a key at once", [b"\x1b", b"\x1drx"], b"\x1bx"),
        ("C-] with Meta", [b"\x1b\x1dr", b"x"], b"x"),
        ("C-] and another key sends nothing", [b"\x1dx", b"\x1d\x1b[A", b"\x1d\x1b"], b""),
    ]:
        got = typed(server, one, *keys)
        expect(what, got == wanted + b".", got)
    server.close()
    one.end()

    one = joined(server, LC_ALL="C")
    for what, keys, wanted in [
        ("C: a byte with the eighth bit is a letter with Meta", [b"\xf8", b"\xe6\xe6", b"\xbc", b"\x88"], b"\x1bx\x1bf\x1bf\x1b<\x1b\x7f"),
        ("C: UTF-8 is UTF-8", ["é漢😀".encode(), b"\xe6\xbc\xa2"], "é漢😀漢".encode()),
        ("C: 8-bit sequences", [b"\x9b3~\x8fA"], b"\x04\x1b[A"),
        ("C: M-[ by hand", [b"\x9b", b"A"], b"\x1b[A"),
        ("C: ESC and a letter with Meta", [b"\x1b\xf8"], b"\x1bx"),
    ]:
        got = typed(server, one, *keys)
        expect(what, got == wanted + b".", got)
    server.close()
    one.end()

    one = joined(server, ["--once", "--raw"])
    keys = b"\x1b[1~\x08\x1d\x1d\xff\x1b[200~\x1bOA"
    got = typed(server, one, keys)
    expect("--raw sends all bytes as they are", got == keys + b".", got)
    server.close()
    one.end()


def try_terminfo(server):
    """The keys as the system's database of terminals has them."""
    same = {"\x1b[H": "\x01", "\x1b[F": "\x05", "\x1b\t": "\x1b\t", **{f"\x1bO{letter}": f"\x1b[{letter}" for letter in "ABCD"}}
    meant = {"kcuu1": "\x1b[A", "kcud1": "\x1b[B", "kcuf1": "\x1b[C", "kcub1": "\x1b[D", "khome": "\x01", "kend": "\x05", "kdch1": "\x04",
             "kpp": "\x1bv", "knp": "\x16", "kbs": "\x7f", "kfnd": "\x01", "kslt": "\x05"}
    if not shutil.which("infocmp"):
        return
    one = joined(server)
    for kind in ["xterm", "xterm-256color", "tmux", "tmux-256color", "screen", "screen-256color", "linux", "vt220", "rxvt"]:
        told = subprocess.run(["infocmp", "-1", "-x", kind], capture_output=True, text=True)
        wrong, count = [], 0
        for name, value in re.findall(r"^\t(k\w+)=(.*),$", told.stdout, re.M):
            keys = value.replace("\\E", "\x1b").replace("^I", "\t").replace("^H", "\b").replace("^?", "\x7f").replace("\\", "")
            if not keys.startswith("\x1b") and name not in meant or name == "kmous":  # the beginning of a report
                continue
            one.type(keys.encode())
            if keys.endswith(("$",)):
                time.sleep(PAUSE)
            one.type(b".")
            wanted = meant.get(name, same.get(keys, "")).encode() + b"."
            got = server.take(wanted, terminal=one)
            count += 1
            if got != wanted:
                wrong.append((name, keys, got))
        if count:
            expect(f"the {count} keys of {kind}", not wrong, wrong)
    server.close()
    one.end()


def random_paint(chance, model):
    """Some sequences and characters, which the model has then taken."""
    paint = ""
    for _ in range(chance.randrange(1, 12)):
        kind = chance.randrange(8)
        if kind == 0:
            piece = "\x1b[K"
        elif kind == 1:
            piece = chance.choice(["\x1b[7m", "\x1b[m", "\x1b[7m"])
        elif kind == 2 and chance.randrange(12) == 0:
            piece = "\x1b[2J"
        elif kind < 5:
            piece = f"\x1b[{chance.randrange(model.rows) + 1};{chance.randrange(model.cols) + 1}H"
        else:
            piece = ""
            for _ in range(chance.randrange(1, 30)):
                character = chance.choice("abc  é漢字🙂~")
                if model.col + columns(character) <= model.cols:
                    model.feed(character.encode())
                    paint += character
        model.feed(piece.encode())
        paint += piece
    return paint.encode()


def differences(one, model):
    """How the terminal differs from what it may show: the fewest rows that do, over all choices of rows in sight."""
    found = []
    for places in model.sights(one.screen.rows):
        cells, cursor = model.cut(places, one.screen.cols)
        cells += [[(" ", False)] * one.screen.cols] * (one.screen.rows - len(cells))
        wrong = [(row, one.screen.cells[row], cells[row]) for row in range(one.screen.rows) if one.screen.cells[row] != cells[row]]
        found.append(wrong + ([] if (one.screen.row, one.screen.col) == cursor else [((one.screen.row, one.screen.col), cursor)]))
    return min(found, key=len)


def try_pictures(server):
    for rows, cols in [(6, 20), (24, 80), (70, 170)]:
        chance = random.Random(rows)
        model = Screen(min(rows, 64), min(cols, 160))
        one = Joined(["--once", "ann", "apple", *server.to], rows=rows, cols=cols)
        one.screen.resize(rows, cols, "X")
        first = b"\x1b[?7l\x1b[m\x1b[2J\x1b[1;1H"
        login = server.accept(first)
        model.feed(first)
        expect(f"{rows} by {cols}: the size that is asked for", login == f"login ann apple {min(rows, 64)} {min(cols, 160)}\n".encode(), login)
        wrong = []
        for turn in range(60):
            if turn % 5 == 4:
                while select.select([one.terminal], [], [], 0.1)[0]:
                    one.pump(0)
                size = chance.randrange(1, rows + 9), chance.randrange(2, cols + 9)
                one.screen.resize(*size, "X")
                one.resize(*size)
            paint = random_paint(chance, model)
            cut = chance.randrange(len(paint) + 1)
            server.peer.sendall(paint[:cut])
            if turn % 3 == 0:
                time.sleep(0.01)
            server.peer.sendall(paint[cut:])
            if not one.wait_until(lambda: not differences(one, model), 6.0):
                wrong.append((turn, one.screen.rows, one.screen.cols, differences(one, model)[:2]))
        expect(f"{rows} by {cols}: the picture after 60 paints and 12 resizes", not wrong, wrong[:2])
        expect(f"{rows} by {cols}: nothing is written outside of the terminal", not one.screen.faults, one.screen.faults[:5])
        one.screen.resize(one.screen.rows, one.screen.cols, "W")
        one.type(b"\x1dr")
        expect(f"{rows} by {cols}: C-] r paints over what others wrote", one.wait_until(lambda: not differences(one, model)), one.screen.lines())
        one.type(QUIT)
        server.take(QUIT, terminal=one)
        server.close()
        one.resize(rows, cols)
        ended = one.end()
        expect(f"{rows} by {cols}: its end", ended == (0, True), ended)


def try_strangers(server):
    """A server that sends what is no paint: nothing of it comes to the terminal."""
    one = joined(server)
    before = len(one.raw)
    server.peer.sendall(b"\x1b]0;title\x07\x1b[5;9r\x07\x9b\xc2\x9b31m\x1bc\x1b[?1049h\x1b[31m\xe2\x80\x1b[999;999H\x1b[0;0H\xff\x1b[2;1Hend")
    expect("what is no paint is not shown", one.shows("end") and not one.screen.faults, one.screen.faults)
    raw = one.raw[before:]
    found = re.findall(rb"[\x00-\x1a\x1c-\x1f\x7f-\xff]|\x1b(?!\[(?:\d+;\d+H|K|2J|7m|m|\?7[lh]))", raw)
    expect("nor is any byte of it sent to the terminal", not found, (found, raw))
    server.close()
    one.end()


def try_own_keys(server):
    one = joined(server)
    one.type(b"\x1d?")
    expect("C-] ? says what there is", one.shows("r repaints, q leaves, s fits the size, C-] sends C-]"), one.screen.lines())
    expect("the cursor is where it was", (one.screen.row, one.screen.col) == (0, 2), one.screen.col)
    one.type(b"x")
    server.take(b"x", terminal=one)
    expect("the next key takes it away", one.wait_until(lambda: one.screen.lines()[23] == ""), one.screen.lines())
    one.type(b"\x1dz").shows("r repaints")
    server.peer.sendall(b"\x1b[2;1Hmore")
    expect("so does the next paint", one.wait_until(lambda: one.screen.lines()[23] == "" and one.screen.lines()[1] == "more"), one.screen.lines())
    one.type(b"\x1dq")
    seen = one.end(), server.take(b"?", most=0.5), one.got[-60:]
    tail = GIVEN_BACK + "join: the session is over\r\n"
    expect("C-] q leaves", seen[0] == (0, True) and seen[1] == b"" and one.got.endswith(tail), seen)

    one = joined(server, rows=6, cols=20)
    one.type(b"\x1d?")
    expect("in 20 columns it has room", one.wait_until(lambda: one.screen.lines()[5] == "r repaints, q leaves") and not one.screen.faults,
           one.screen.lines())
    server.close()
    one.end()


def try_ends(server):
    one = joined(server)
    one.type(QUIT)
    got = server.take(QUIT, terminal=one)
    one.type(b"ls\n")  # for the shell: the server is not sent it
    more = server.take(b"ls\n", most=0.4, terminal=one)
    server.close()
    seen = got, more, one.end(), one.got[-60:]
    expect("C-x C-c ends it, and what is typed behind it is not sent", seen[:3] == (QUIT, b"", (0, True)), seen)
    expect("what is typed behind it stays for the next reader", select.select([one.slave], [], [], 1)[0] != [], "")
    tail = GIVEN_BACK + "join: the session is over\r\n"
    expect("the cursor is left below the screen", one.got.endswith(tail), one.got[-80:])

    for what, keys, paint, is_end in [
        ("M-x save-buffers-kill-emacs", b"\x1bxsave-buffers-kill-emacs\r", b"", True),
        ("the same by TAB", b"\x1bxsave-buffers-k\t\r", b"\x1b[24;1HM-x save-buffers-kill-emacs", True),
        ("C-x C-x C-x C-c", b"\x18\x18\x18\x03", b"", True),
        ("C-x C-x C-c", b"\x18\x18\x03", b"", False),
        ("C-q C-x C-c", b"\x11\x18\x03", b"", False),
        ("C-x C-c and then, a while later, another key", b"\x18\x03x", b"", False),
        ("RET in a text about save-buffers-kill-emacs", b"\r", b"\x1b[1;1HM-x save-buffers-kill-emacs", False),
        ("nothing typed", b"", b"", False),
    ]:
        one = joined(server)
        server.peer.sendall(paint)
        if paint:
            one.shows("save-buffers")
        one.type(keys)
        server.take(keys, most=3, terminal=one)
        server.close()
        ended = one.end()
        words = "join: the session is over\r\n" if is_end else "join: the connection was lost: the server closed it\r\n"
        expect(f"{what}: {'left' if is_end else 'lost'}", ended == (0 if is_end else 3, True) and one.got.endswith(words), (ended, one.got[-70:]))

    one = joined(server)
    server.close(is_reset=True)
    seen = one.end(), one.got
    expect("a connection that is reset is lost", seen[0] == (3, True) and seen[1].endswith("join: the connection was lost: Connection reset by peer\r\n"),
           seen)

    one = joined(server)
    os.kill(one.process.pid, signal.SIGSTOP)
    server.peer.settimeout(1)
    try:
        for _ in range(4000):
            server.peer.sendall(b"\x1b[1;1H" + b"x" * 70 + b"\x1b[2;1H" + b"y" * 70)
    except TimeoutError:
        pass
    server.close()
    os.kill(one.process.pid, signal.SIGCONT)
    seen = one.end(30), one.got[-100:]
    wanted = "join: the session was ended as slow: more was painted for it than this terminal took\r\n"
    expect("one that was ended as slow is told so", seen[0] == (3, True) and one.got.endswith(wanted), seen)

    one = joined(server)
    os.kill(one.process.pid, signal.SIGSTOP)
    one.type(b"for the text\r")
    server.close()
    os.kill(one.process.pid, signal.SIGCONT)
    ended = one.end()
    is_left = select.select([one.slave], [], [], 0)[0] != []
    expect("what was typed on into a lost connection is dropped", ended == (3, True) and not is_left, (ended, is_left))

    done = subprocess.Popen([JOIN, "ann", "apple", *server.to], stdin=subprocess.PIPE, stdout=subprocess.PIPE, stderr=subprocess.PIPE)
    login = server.accept()
    done.stdin.write(b"end \x1b")
    done.stdin.close()
    got = server.take(b"end \x1b")
    is_closed = server.peer.recv(1) == b""
    server.close()
    seen = login, got, is_closed, done.wait(10), done.stderr.read()
    expect("the end of its input ends it", seen == (b"login ann apple 24 80\n", b"end \x1b", True, 0, b"join: the session is over\n"), seen)


def try_refusals(server):
    for number, word, told in [
        (1, "Line", "this is no login line"), (2, "NoUser", "no user is called ann"), (3, "Ticket", "this is not the ticket of ann"),
        (4, "Size", "the server paints no screen of 24 rows and 80 columns"), (5, "Full", "all sessions are taken; try again later"),
        (6, "Short", "the server has no memory for a session")]:
        one = Joined(["ann", "apple", *server.to])
        server.accept(f"refused {number} {word}\n".encode())
        server.close()
        seen = one.end(), one.got
        expect(f"refused {number} is told in words", seen == ((1, True), f"join: refused: {told} ({number} {word})\r\n"), seen)
    one = Joined(["ann", "apple", *server.to])
    peer, _ = server.socket.accept()
    peer.sendall(b"refused 5 Full\n")
    peer.close()  # before the login line is read, as a full server does
    seen = one.end(), one.got
    expect("a full server's answer is not lost", seen == ((1, True), "join: refused: all sessions are taken; try again later (5 Full)\r\n"), seen)
    for answer, told in [(b"SSH-2.0-x\r\n", "what answers at {} port {} is not mgd"), (b"refused 7 What\n", "what answers at {} port {} is not mgd"),
                         (b"", "nothing answers at {} port {}; is mgd serve running there?"), (b"refu", "what answers at {} port {} is not mgd")]:
        one = Joined(["ann", "apple", *server.to])
        server.accept(answer)
        server.close()
        seen = one.end(), one.got
        expect(f"the answer {answer!r}", seen == ((1, True), f"join: {told.format(*server.to)}\r\n"), seen)
    free = socket.create_server(("127.0.0.1", 0))
    port = str(free.getsockname()[1])
    free.close()
    for words in [["ann", "apple", "127.0.0.1", port], ["--port", port, "ann", "apple"]]:
        one = Joined(words)
        seen = one.end(), one.got
        expect("no server is told in words", seen == ((1, True), f"join: nothing answers at 127.0.0.1 port {port}; is mgd serve running there?\r\n"), seen)
    one = Joined(["ann", "apple", *server.to])
    peer, _ = server.socket.accept()
    one.wait_for("?", most=0.5)
    one.type(b"\x03")
    seen = one.end(), one.got
    expect("C-c gives up until there is a screen", seen == ((130, True), ""), seen)
    peer.close()


def try_words():
    for words in [[], ["--raw"], ["-x", "ann"], ["--port"], ["ann", "apple", "localhost"], ["ann", "apple", "localhost", "70000"],
                  ["ann", "apple", "-l", "1"], ["ann", "ap ple"], ["", "apple"], ["ann", "apple", "localhost", "80", "more"],
                  ["--host", "a b", "ann", "apple"], ["--port", "x", "ann"]]:
        one = Joined(words)
        seen = one.end(), one.got
        expect(f"{words} is answered by the usage line", seen == ((2, True), USAGE), seen)
    one = Joined(["--help"])
    seen = one.end(), one.got
    expect("--help says more", seen[0] == (0, True) and seen[1].startswith(USAGE) and "C-] q leaves" in seen[1], seen)
    for rows, cols in [(5, 80), (24, 19)]:
        one = Joined(["ann", "apple"], rows=rows, cols=cols)
        seen = one.end(), one.got
        wanted = f"join: a terminal of {rows} rows and {cols} columns is too small; 6 and 20 are needed\r\n"
        expect(f"{rows} by {cols} is too small", seen == ((1, True), wanted), seen)
    one = Joined(["ann", "apple"], TERM="dumb")
    seen = one.end(), one.got
    expect("TERM=dumb is told in words", seen == ((1, True), "join: a dumb terminal shows no screen\r\n"), seen)


def try_tickets(server):
    place = ["--host", "127.0.0.1", "--port", server.port]
    path = os.path.join(FOLDER.name, "ticket")

    def logged_in(what, one):
        login = server.accept()
        expect(what, login == b"login ann apple 24 80\n", login)
        one.shows("hello")
        listed = open(f"/proc/{one.process.pid}/cmdline", "rb").read() if os.path.exists("/proc/self/cmdline") else b""
        expect(f"{what}: it is not in the list of processes", b"apple" not in listed, listed)
        one.type(b"\x1dq")
        ended = one.end()
        expect(f"{what}: its end", ended == (0, True), ended)

    one = Joined([*place, "ann"])
    one.wait_for("Ticket of ann: ")
    one.type(b"app")
    one.type(b"le\r")
    logged_in("a ticket that is asked for", one)
    expect("it is not echoed", "apple" not in one.got and one.got.startswith("Ticket of ann: \r\n"), one.got[:60])
    logged_in("a ticket in MGD_TICKET", Joined([*place, "ann"], MGD_TICKET="apple"))
    logged_in("a ticket as an argument goes before it", Joined(["ann", "apple", *server.to], MGD_TICKET="pear"))
    for text in ["apple", "apple\n", "apple\r\nand more\n"]:
        with open(path, "w") as file:
            file.write(text)
        os.chmod(path, 0o600)
        logged_in(f"a ticket in a file, {text!r}", Joined([*place, "--ticket-file", path, "ann"], MGD_TICKET="pear"))
    for mode, whose in [(0o644, "all users of this machine"), (0o640, "its group")]:
        os.chmod(path, mode)
        words = f"{path} can be read by {whose}; chmod 600 {path}"
        one = Joined([*place, "--ticket-file", path, "ann"], cols=160)
        server.accept()
        expect(f"a file of mode {mode:o} is told of on the screen", one.shows(words) and one.shows("hello"), one.screen.lines())
        one.type(b"x")
        expect("until the next key", one.wait_until(lambda: one.screen.lines()[23] == ""), one.screen.lines())
        one.type(b"\x1dq")
        ended = one.end()
        expect("and once more at the end", ended == (0, True) and one.got.endswith(f"join: {words}\r\njoin: the session is over\r\n"), one.got[-200:])
    os.chmod(path, 0o600)
    with open(path, "w") as file:
        file.write("a" * 64 + "\r\n")
    one = Joined([*place, "--once", "--ticket-file", path, "ann"])
    login = server.accept()
    server.close()
    expect("a ticket of 64 characters", login == b"login ann " + b"a" * 64 + b" 24 80\n" and one.end() == (3, True), login)
    for file in [path, "/dev/zero", "/dev/urandom"]:
        if file == path:
            with open(path, "w") as longer:
                longer.write("a" * 65)
        one = Joined([*place, "--ticket-file", file, "ann"])
        seen = one.end(), one.got
        expect(f"more than 64 bytes of {os.path.basename(file)}", seen[0] == (1, True) and f"the first line of {file} is no ticket" in seen[1], seen)
    one = Joined(["--once", "--raw", "--", "-x", "apple", *server.to])
    login = server.accept()
    one.shows("hello")
    server.close()
    expect("a name that begins with - stands behind --", login == b"login -x apple 24 80\n" and one.end() == (3, True), login)
    with open(path, "w") as file:
        file.write("\napple\n")
    one = Joined([*place, "--ticket-file", path, "ann"])
    seen = one.end(), one.got
    expect("a file without one", seen == ((1, True), f"join: the first line of {path} is no ticket\r\n"), seen)
    one = Joined([*place, "--ticket-file", path + "s", "ann"])
    seen = one.end(), one.got
    expect("no file", seen == ((1, True), f"join: {path}s cannot be read: No such file or directory\r\n"), seen)
    one = Joined([*place, "ann"], MGD_TICKET="")
    seen = one.end(), one.got
    expect("an empty MGD_TICKET", seen == ((1, True), "join: MGD_TICKET is no ticket\r\n"), seen)
    one = Joined([*place, "ann"])
    one.wait_for("Ticket of ann: ")
    one.type(b"\r")
    seen = one.end(), one.got
    expect("an empty answer", seen == ((1, True), "Ticket of ann: \r\njoin: that is no ticket\r\n"), seen)
    one = Joined([*place, "ann"])
    one.wait_for("Ticket of ann: ")
    one.type(b"app\x03")
    seen = one.end(), one.got
    expect("C-c at the question", seen == ((130, True), "Ticket of ann: \r\n"), seen)


def try_signals(server):
    for number in [signal.SIGHUP, signal.SIGINT, signal.SIGQUIT, signal.SIGTERM]:
        one = joined(server)
        during = one.state()
        one.process.send_signal(number)
        ended = one.end()
        expect(f"{number.name} ends it", ended == (128 + number, True), ended)
        expect(f"{number.name}: the screen is given back", one.got.endswith(GIVEN_BACK), one.got[-60:])
        expect(f"{number.name}: the terminal was its own", during[0] != one.before[0] and during[2] & 0o022 == 0, during)

    one = joined(server, leader=[sys.executable, "-c", LEADER])
    raw = termios.tcgetattr(one.slave)
    job = os.tcgetpgrp(one.terminal)
    os.kill(job, signal.SIGTSTP)
    stopped = one.wait_for(f"[stopped {job}]")
    expect("SIGTSTP stops it, and gives the terminal back", stopped and one.state() == one.before, one.state())
    server.peer.sendall(b"\x1b[2;1Hmore")
    one.screen.resize(10, 40, "X")
    one.resize(10, 40)
    os.kill(one.process.pid, signal.SIGUSR1)
    expect("SIGCONT paints anew, in the size of then",
           one.wait_until(lambda: one.screen.lines() == ["hello", "more"] + [""] * 8) and (one.screen.row, one.screen.col) == (1, 4), one.screen.lines())
    expect("it has the terminal again", one.wait_until(lambda: termios.tcgetattr(one.slave) == raw), termios.tcgetattr(one.slave))
    os.kill(job, signal.SIGSTOP)
    one.wait_until(lambda: one.got.count("[stopped") == 2)
    termios.tcsetattr(one.slave, termios.TCSANOW, one.before[0])
    one.screen.resize(10, 40, "X")
    os.kill(one.process.pid, signal.SIGUSR1)
    expect("so does SIGCONT after SIGSTOP", one.wait_until(lambda: one.screen.lines() == ["hello", "more"] + [""] * 8), one.screen.lines())
    one.type(QUIT)
    got = server.take(QUIT, terminal=one)
    server.close()
    one.resize(24, 80)
    seen = got, one.end()
    expect("and the keys come as before", seen == (QUIT, (0, True)), seen)

    one = joined(server, leader=[sys.executable, "-c", LEADER])
    job = os.tcgetpgrp(one.terminal)
    os.kill(job, signal.SIGSTOP)
    one.wait_for("[stopped")
    os.kill(job, signal.SIGTERM)
    os.kill(job, signal.SIGCONT)
    ended = one.end()
    expect("SIGTERM ends one that is stopped and has no terminal", ended == (128 + signal.SIGTERM, True), ended)


def try_full_terminal(server):
    """A terminal that takes nothing: one signal ends it after a second, and two at once."""
    for numbers in [[signal.SIGTERM], [signal.SIGTERM, signal.SIGTERM], [signal.SIGHUP, signal.SIGINT]]:
        one = joined(server)
        termios.tcflow(one.slave, termios.TCOOFF)
        server.peer.sendall(b"\x1b[2;1Hmore")
        time.sleep(0.5)
        start = time.monotonic()
        for number in numbers:
            one.process.send_signal(number)
            time.sleep(0.3)
        try:
            status = one.process.wait(5)
        except subprocess.TimeoutExpired:
            status = "it goes on"
            one.process.kill()
        taken = time.monotonic() - start
        names = " and ".join(number.name for number in numbers)
        is_so = status in ([128 + numbers[0]] if len(numbers) == 1 else [128 + numbers[0], -numbers[1]]) and taken < 3
        expect(f"a full terminal: {names}", is_so, (status, taken))
        termios.tcflow(one.slave, termios.TCOON)
        expect("and its attributes are as they were", termios.tcgetattr(one.slave) == one.before[0] and one.state()[2] == one.before[2], one.state())
        server.close()


# Listens as another user, and takes what comes.
STRANGER = """
import os, socket, sys
os.setgid(65534), os.setuid(65534)
sock = socket.create_server(("127.0.0.1", int((sys.argv + ["0"])[1])))
print(sock.getsockname()[1], flush=True)
while True:
    peer, _ = sock.accept()
    print(peer.recv(200), flush=True)
    peer.close()
"""


def try_return(server):
    """A connection that is lost, and what is typed until it is there again."""
    lost = "join: the connection was lost: the server closed it\r\n"
    for what, keys in [("C-c", b"\x03"), ("C-x C-c", b"\x18\x03"), ("C-] q", b"\x1dq")]:
        one = joined(server, [])
        server.stop()
        is_told = one.shows("the server is away; C-c leaves")
        one.type(b"for the text\r")
        is_counted = one.shows("the server is away (2 s); C-c leaves", 4)
        one.type(keys)
        ended = one.end()
        is_left = select.select([one.slave], [], [], 0)[0] != []
        seen = is_told, is_counted, ended, one.got.endswith(GIVEN_BACK + lost), is_left
        expect(f"a lost connection is told in the last row, and {what} leaves", seen == (True, True, (3, True), True, False), (seen, one.got[-300:]))
        server.start()

    for answer, wanted in [(b"refused 3 Ticket\n", "refused: this is not the ticket of ann (3 Ticket)"), (b"refused 2 NoUser\n", "refused: no user is called ann (2 NoUser)"),
                           (b"SSH-2.0-x\r\n", "what answers at 127.0.0.1 port {} is not mgd")]:
        one = joined(server, [])
        server.close()
        login = server.accept(answer)
        ended = one.end()
        server.close()
        expect(f"at the return the answer {answer!r} ends it", login == b"login ann apple 24 80\n" and ended == (1, True)
               and one.got.endswith(GIVEN_BACK + f"join: {wanted.format(server.port)}\r\n"), (login, ended, one.got[-120:]))
    one = joined(server, [])
    server.close()
    for _ in range(2):
        server.accept(b"refused 5 Full\n")
        server.close()
        is_told = one.shows("refused: all sessions are taken; try again later (5 Full)")
    login = server.accept()
    got = server.take(b"\x07", terminal=one)
    expect("a full server is asked again, and the first key is C-g", is_told and login == b"login ann apple 24 80\n" and got == b"\x07", (is_told, login, got))
    one.type(b"for the text \x1d")
    time.sleep(0.3)
    more = server.take(b"?", most=0.3, terminal=one)
    one.type(b"q")
    ended = one.end()
    server.close()
    expect("until the windows are there no key is sent, and C-] q leaves", more == b"" and ended == (3, True), (more, ended))

    for what, words, keys in [("--once", ["--once"], b""), ("after C-x C-c", [], QUIT)]:
        one = joined(server, words)
        one.type(keys)
        server.take(keys, terminal=one)
        server.close()
        ended = one.end()
        expect(f"{what}: it does not come back", ended == (0 if keys else 3, True), ended)
    done = subprocess.Popen([JOIN, "ann", "apple", *server.to], stdin=subprocess.PIPE, stdout=subprocess.PIPE, stderr=subprocess.PIPE)
    server.accept()
    server.close()
    seen = done.wait(10), done.stderr.read()
    expect("one whose input is no terminal does not come back", seen == (3, lost.replace("\r", "").encode()), seen)


def try_changed_holder(server):
    """The port of a server that is gone is another user's: nothing is sent there. If it is the first one's again, it comes back."""
    if os.getuid() or not os.path.exists("/proc/net/tcp"):
        return print("left out: a port that changes hands, for which this has to be root of Linux")
    for number in range(3):
        one = joined(server, ["--server-user", "root"] if number else [])
        server.stop()
        stranger = subprocess.Popen([sys.executable, "-c", STRANGER, server.port], stdout=subprocess.PIPE, text=True)
        stranger.stdout.readline()
        is_told = one.shows(f"port {server.port} of 127.0.0.1 belongs to a program of nobody; the ticket is not sent")
        time.sleep(1.5)
        got = select.select([stranger.stdout], [], [], 0)[0] and stranger.stdout.readline()
        expect(f"a foreign holder of the port gets 0 bytes, and no connection ({number + 1})", is_told and not got, (is_told, got, one.screen.lines()[23]))
        stranger.kill()
        stranger.wait()
        stranger.stdout.close()
        server.start()
        login = server.accept()
        expect("the first holder gets the login line again", login == b"login ann apple 24 80\n", login)
        drop(server, one)


def try_unseen_holder(server):
    """If it cannot be seen who holds the port, the ticket is sent again for RET alone."""
    leader = ["unshare", "--mount", "sh", "-c", 'mount -t tmpfs none /proc && exec "$@"', "sh"]
    if os.getuid() or subprocess.run([*leader, "true"], stderr=subprocess.DEVNULL).returncode:
        return print("left out: a port whose holder cannot be seen, for which this has to be root with a list of mounts of its own")
    one = joined(server, [], leader=leader)
    one.resize(30, 90)
    one.screen.resize(30, 90, "X")
    is_told = one.wait_until(lambda: "C-] s fits the size" in one.screen.lines()[23])
    expect("an unseen holder: no size is fitted by itself", is_told, one.screen.lines()[23])
    server.close()
    is_told = one.wait_until(lambda: "who holds the port cannot be seen here; RET joins again" in one.screen.lines()[23])
    one.type(b"for the text")
    server.socket.settimeout(1)
    try:
        server.socket.accept()
        is_waiting = False
    except TimeoutError:
        is_waiting = True
    one.type(b"\r")
    login = server.accept()
    expect("an unseen holder: no connection until RET", is_told and is_waiting and login == b"login ann apple 30 90\n", (is_told, is_waiting, login))
    drop(server, one)


def drop(server, one):
    """Ends one that would come back."""
    one.process.terminate()
    one.end()
    server.close()


def try_size_of_what_is_lost(server):
    """Where a session has more than its screen shows, another size is told of, and waits for C-] s."""
    for keys, is_lost in [(b"\x0b", True), (b"\x00", True), (b"\x13a\r", True), (b"\x1bx", True), (b"\x18(", True), (b"\x18k", True), (b"\x1f", True), (b"\x1530\x18f", True),
                          (b"abc\r\x0e\x1b[A\x1bv\x182\x18o\x18g12\r\x18\x13\xe6\xbc\xa2\x18bnotes\r\x181\x18\x02", False), (b"", False)]:
        one = joined(server, [])
        one.type(keys)
        server.take(keys, terminal=one)
        one.resize(30, 90)
        one.screen.resize(30, 90, "X")
        if is_lost:
            is_told = one.wait_until(lambda: "C-] s fits the size; kills, marks and macros go" in one.screen.lines()[23])
            server.socket.settimeout(0.3)
            try:
                server.socket.accept()
                is_told = False
            except TimeoutError:
                pass
            expect(f"after {keys!r} another size is told of", is_told, one.screen.lines()[23])
            one.type(b"\x1ds")
        before = server.peer
        login = server.accept()
        expect(f"after {keys!r} " + ("C-] s logs in" if is_lost else "it logs in by itself") + " in the new size", login == b"login ann apple 30 90\n", login)
        before.settimeout(5)
        expect("and ends the session of before", before.recv(1) == b"")
        before.close()
        drop(server, one)
    one = joined(server, [])
    one.type(b"\x18")
    server.take(b"\x18", terminal=one)
    one.resize(30, 90)
    server.socket.settimeout(1)
    try:
        server.socket.accept()
        is_waiting = False
    except TimeoutError:
        is_waiting = True
    one.type(b"o")
    login = server.accept()
    expect("what is half typed is waited for", is_waiting and login == b"login ann apple 30 90\n", (is_waiting, login))
    drop(server, one)
    one = joined(server, [])
    before = server.peer
    one.resize(30, 90)
    server.accept(b"refused 5 Full\n")
    server.peer.close()
    is_told = one.shows("the size stays: refused: all sessions are taken; try again later (5 Full)")
    one.type(b"\x1dq")
    expect("if no session is free the one that there is stays", is_told and one.end()[0] == 0, one.screen.lines())
    before.close()
    one = joined(server, [])
    one.type(b"\x1ds")
    expect("C-] s in the same size does nothing", one.shows("the screen has the size of the terminal"), one.screen.lines())
    drop(server, one)


def try_screen_and_title(server):
    """What the terminal showed is there again, with its title."""
    for kind in ["xterm-256color", "tmux-256color", "screen", "linux"]:
        one = Joined(["--once", "ann", "apple", *server.to], TERM=kind)
        one.screen.feed(b"\x1b]2;a shell\x07before\r\n$ join\r\n")
        server.accept()
        wanted = "a shell" if kind == "linux" else f"ann on mgd, 127.0.0.1 {server.port}"
        expect(f"{kind}: the title", one.shows("hello") and one.screen.titles[-1] == wanted, one.screen.titles)
        one.type(b"\x1dq")
        ended = one.end()
        lines = one.screen.lines()[:4]
        expect(f"{kind}: the screen of before is there again", ended == (0, True) and lines == ["before", "$ join", "join: the session is over", ""]
               and one.screen.titles == ["a shell"] and not one.screen.faults, (ended, lines, one.screen.titles, one.screen.faults))
        server.close()


def try_strangers_port(server):
    """Who listens is looked at before the ticket is sent."""
    one = Joined(["--once", "--server-user", "root", "ann", "apple", *server.to])
    if os.getuid() or not os.path.exists("/proc/net/tcp"):
        one.process.kill()
        return print("left out: a port of another user, for which this has to be root of Linux")
    login = server.accept()
    server.close()
    expect("root's port is trusted", login == b"login ann apple 24 80\n" and "belongs to" not in one.got, (login, one.got))
    one.end()
    stranger = subprocess.Popen([sys.executable, "-c", STRANGER], stdout=subprocess.PIPE, text=True)
    port = stranger.stdout.readline().strip()
    words = f"join: port {port} of 127.0.0.1 belongs to a program of nobody, which can keep the ticket"
    for host in ["127.0.0.1", "localhost"]:
        one = Joined(["--host", host, "--port", port, "ann"])
        is_told = one.wait_for("Ticket of ann: ")
        expect(f"a port of another user is told of before the ticket is asked for, {host}", is_told and one.got.startswith(words + "\r\n"), one.got)
        one.type(b"\x03")
        expect("and C-c gives up", one.end() == (130, True), one.got)
    one = Joined(["--server-user", "root", "ann", "apple", "127.0.0.1", port])
    seen = one.end(), one.got
    expect("with --server-user no ticket is sent there", seen == ((1, True), f"{words}; it is not sent\r\n"), seen)
    one = Joined(["--server-user", "nobody", "ann", "apple", "127.0.0.1", port])
    got = stranger.stdout.readline()
    expect("but to that user it is", "login ann apple" in got and one.end()[0] == 1 and "belongs" not in one.got, (got, one.got))
    stranger.kill()
    stranger.wait()


def try_tmux(server):
    """Characters that tmux leaves out, or takes for narrow, in place of others: nothing of what stood there is left."""
    if not shutil.which("tmux"):
        return print("left out: tmux is not there")
    place = ["tmux", "-u", "-L", f"mgd-try-{os.getpid()}", "-f", "/dev/null"]
    surroundings = {**os.environ, "LC_ALL": "C.UTF-8", "TERM": "xterm", "MGD_TICKET": "apple"}
    run = lambda *words: subprocess.run([*place, *words], env=surroundings, capture_output=True, text=True).stdout
    run("new", "-d", "-x", "80", "-y", "24", f"{JOIN} --once --port {server.port} ann")
    login = server.accept()
    expect("tmux: it joins", login == b"login ann apple 24 80\n", login)
    strange = ["\u2028", "\u0378", "\u2630", "\u4dc0", "\U0001d300", "\ufdd0", "\ue000", "\u6f22", "\u00e9", "\U0001f600", "\u00ad", "\U000e0001"]
    server.peer.sendall(b"".join(b"\x1b[%d;1H" % (row + 1) + b"#" * 40 for row in range(len(strange))))
    deadline = time.monotonic() + 5
    while run("capture-pane", "-p").count("#" * 40) < len(strange) and time.monotonic() < deadline:
        time.sleep(0.1)
    server.peer.sendall(b"".join(b"\x1b[%d;3H" % (row + 1) + character.encode() + b"\x1b[%d;3H" % (row + 1) for row, character in enumerate(strange)) + b"\x1b[20;1Hdone")
    while "done" not in run("capture-pane", "-p") and time.monotonic() < deadline:
        time.sleep(0.1)
    lines = run("capture-pane", "-p").splitlines()
    wide = re.compile(r"[\u6f22\U0001f600\u2630\u4dc0\U0001d300]")
    wrong = []
    for row, character in enumerate(strange):
        taken = 2 if wide.search(character) else 1
        if not lines[row].startswith("##") or lines[row][2:3] == "#" or lines[row].count("#") > 40 - taken:
            wrong.append((character, lines[row]))
    expect("tmux: what it leaves out or narrows leaves nothing behind", not wrong, wrong)
    server.close()
    run("kill-server")


class Multiplexed:
    """A window of tmux or of screen that was opened for a join, and what it shows."""

    def __init__(self, kind, words, rows=24, cols=80):
        self.kind, self.name = kind, f"mgd-try-{os.getpid()}"
        self.surroundings = {"PATH": os.environ["PATH"], "LC_ALL": "C.UTF-8", "TERM": "xterm", "SCREENDIR": os.path.join(FOLDER.name, "screens"), "HOME": FOLDER.name}
        self.terminal, self.slave = pty.openpty()
        fcntl.ioctl(self.slave, termios.TIOCSWINSZ, struct.pack("HHHH", rows, cols, 0, 0))
        if kind == "tmux":
            start = ["tmux", "-u", "-L", self.name, "-f", "/dev/null", "new", "-s", self.name, " ".join([JOIN, *words]), ";", "set", "status", "off"]
        else:
            os.makedirs(self.surroundings["SCREENDIR"], mode=0o700, exist_ok=True)
            start = ["screen", "-U", "-c", "/dev/null", "-S", self.name, JOIN, *words]
        self.process = subprocess.Popen(start, env=self.surroundings, stdin=self.slave, stdout=self.slave, stderr=self.slave, start_new_session=True,
                                        preexec_fn=lambda: fcntl.ioctl(0, termios.TIOCSCTTY, 0))

    def resize(self, rows, cols):
        fcntl.ioctl(self.slave, termios.TIOCSWINSZ, struct.pack("HHHH", rows, cols, 0, 0))
        self.process.send_signal(signal.SIGWINCH)

    def type(self, keys):
        os.write(self.terminal, keys)

    def pump(self, most):
        while select.select([self.terminal], [], [], most)[0]:
            try:
                os.read(self.terminal, 65536)
            except OSError:
                return
            most = 0

    def lines(self):
        self.pump(0.1)
        if self.kind == "tmux":
            run = subprocess.run(["tmux", "-u", "-L", self.name, "capture-pane", "-p"], env=self.surroundings, capture_output=True, text=True)
            return run.stdout.splitlines()
        path = os.path.join(FOLDER.name, "hardcopy")
        with open(path, "w"):
            pass
        subprocess.run(["screen", "-S", self.name, "-X", "hardcopy", path], env=self.surroundings, capture_output=True)
        self.pump(0.1)
        with open(path, encoding="utf-8", errors="replace") as file:
            return [line.rstrip() for line in file.read().splitlines()]

    def wait_until(self, is_so, most=10.0):
        end = time.monotonic() + most
        while time.monotonic() < end:
            lines = self.lines()
            if is_so(lines):
                return True
        return False

    def shows(self, *texts, most=10.0):
        return self.wait_until(lambda lines: all(any(text in line for line in lines) for text in texts), most)

    def end(self):
        """Waits until the window is closed."""
        end = time.monotonic() + 5
        while self.process.poll() is None and time.monotonic() < end:
            self.pump(0.1)
        is_over = self.process.poll() is not None
        if not is_over:
            kill = ["tmux", "-L", self.name, "kill-server"] if self.kind == "tmux" else ["screen", "-S", self.name, "-X", "quit"]
            subprocess.run(kill, env=self.surroundings, capture_output=True)
            self.process.kill()
        self.process.wait()
        os.close(self.terminal)
        os.close(self.slave)
        return is_over


def multiplexers():
    for kind in ["tmux", "screen"]:
        if shutil.which(kind):
            yield kind
        else:
            print(f"left out: {kind} is not there")


def try_words_in_windows(server):
    """A window that was opened for a join shows its last words, and closes at RET."""
    for kind in multiplexers():
        window = Multiplexed(kind, ["ann", "apple", *server.to])
        server.accept(b"refused 3 Ticket\n")
        server.close()
        is_told = window.shows("join: refused: this is not the ticket of ann (3 Ticket)", "join: RET closes this window")
        expect(f"{kind}: the words of a refused login stay in the window", is_told, window.lines())
        window.type(b"\r")
        expect(f"{kind}: RET closes it", window.end())
        window = Multiplexed(kind, ["--once", "ann", "apple", *server.to])
        server.accept()
        window.shows("hello")
        server.close()
        is_told = window.shows("join: the connection was lost: the server closed it", "join: RET closes this window")
        expect(f"{kind}: so do those of a lost connection", is_told, window.lines())
        window.type(b"\r")
        expect(f"{kind}: RET closes it", window.end())
        window = Multiplexed(kind, ["ann", "apple", *server.to])
        server.accept()
        window.shows("hello")
        server.close()
        server.accept()
        window.type(b"\x03")
        window.type(b"\r")
        window.pump(0.5)
        expect(f"{kind}: C-c leaves while the server is away", window.shows("join: the connection was lost", most=0.5) or window.process.poll() is not None)
        server.close()
        window.type(b"\r")
        window.end()
        window = Multiplexed(kind, ["--once", "ann", "apple", *server.to])
        server.accept()
        window.shows("hello")
        window.type(QUIT)
        server.take(QUIT)
        server.close()
        expect(f"{kind}: after C-x C-c it closes at once", window.end())


SEATS = """[[user]]
name = "ann"
ticket = "q7RzL0c2VnWb5XtYd8Ks3GmP"
[[buffer]]
name = "notes"
owner = "ann"
list = ["ALLOW OWNER@ rwatdcCo"]
file = "notes.txt"
[[buffer]]
name = "plans"
owner = "ann"
list = ["ALLOW OWNER@ rwatc"]
file = "plans.txt"
[[buffer]]
name = "box"
owner = "ann"
list = ["ALLOW OWNER@ atc"]
[[buffer]]
name = "a-very-long-name-of-32-letters-x"
owner = "ann"
list = ["ALLOW OWNER@ rwat"]
text = "long\\n"
"""


class Program:
    """The program over a configuration of four buffers, which is started and ended."""

    def __init__(self):
        self.folder = os.path.join(FOLDER.name, "seats")
        os.mkdir(self.folder)
        with open(os.path.join(self.folder, "seats.toml"), "w") as file:
            file.write(SEATS)
        for name, line in [("notes", "note {0}\twith a \u6f22 wide one, a TAB and {0} more of it\n"), ("plans", "plan {0}\n")]:
            with open(os.path.join(self.folder, f"{name}.txt"), "w", encoding="utf-8") as file:
                file.write("".join(line.format(number) for number in range(1, 301)))
        self.port = "0"
        self.start()
        self.words = ["ann", "q7RzL0c2VnWb5XtYd8Ks3GmP", "127.0.0.1", self.port]

    def start(self):
        for _ in range(20):
            self.process = subprocess.Popen([PROGRAM, "serve", "seats.toml", self.port], stdout=subprocess.PIPE, stderr=subprocess.DEVNULL, cwd=self.folder)
            line = self.process.stdout.readline().decode()
            if line:
                self.port = line.strip().rpartition(":")[2]
                return
            self.process.wait()
            time.sleep(0.1)
        sys.exit(f"{PROGRAM} does not serve")

    def stop(self):
        self.process.kill()
        self.process.wait()


# Two windows: line 120 of notes from its column 28 on, and line 77 of plans, which is selected; and their mode lines.
TWO = b"\x18g120\r\x1520\x06\x182\x18o\x18bplans\r\x18g77\r\x153\x18^"
FOUR = TWO + b"\x182\x18o\x18bbox\r\x182\x18o\x18\x02\x18p\x18p"


def mode_lines(lines):
    return [(number, line.rstrip("-")) for number, line in enumerate(lines) if line.startswith("-")]


def seats(rows):
    """The mode lines of TWO in as many rows: the windows keep their proportions, and the longer one has what is over."""
    upper = {24: 8, 40: 14, 20: 6}[rows]
    return [(upper, "----notes-L120-C28"), (rows - 2, "----plans-L77-C0")]


def is_connected(process):
    """Whether the server has the connection of a join still: its socket is established."""
    numbers = {os.readlink(f"/proc/{process}/fd/{name}") for name in os.listdir(f"/proc/{process}/fd")}
    with open("/proc/net/tcp") as file:
        return any(f"socket:[{row.split()[9]}]" in numbers and row.split()[3] == "01" for row in file.readlines()[1:])


def try_seats():
    """Loss and return, and other sizes, over the program."""
    if not os.path.exists(PROGRAM):
        return print(f"      {PROGRAM} is not there: a return to the windows is not tried")
    program = Program()
    for what, keys, last in [("one window", b"\x18g250\r", "notes-L250-C0"), ("two windows", TWO, "plans-L77-C0"), ("four windows", FOUR, "-Buffers"),
                             ("a shown list", b"\x182\x1bxacl-list\r", "-Acl-notes"), ("a prompt", TWO + b"\x18o\x18bpl", "plans-L77-C0"),
                             ("a long name", b"\x18ba-very-long-name-of-32-letters-x\r\x182", "32-letters-x-L1-C0")]:
        one = Joined(program.words)
        one.shows("-notes-L1-C0")
        one.type(keys).shows(last)
        one.wait_until(lambda: False, 0.4)
        before = mode_lines(one.screen.lines())
        cursor = [number for number, _ in before if number > one.screen.row][:1] if "prompt" not in what else [before[0][0]]
        program.stop()
        is_away = one.shows("the server is away")
        program.start()
        start = time.monotonic()
        is_back = one.shows("a new session: kills, marks and macros are gone")
        taken = time.monotonic() - start
        after = mode_lines(one.screen.lines())
        selected = [number for number, _ in after if number > one.screen.row][:1]
        expect(f"{what}: after a restart they are there again, at their lines, within 2 s", is_away and is_back and taken < 2 and before == after
               and selected == cursor and len(before) >= 1, (is_away, is_back, taken, before, after, selected, cursor))
        one.type(b"\x18o")
        is_typing = one.wait_until(lambda: one.screen.lines()[23].strip() == "")
        one.type(QUIT)
        ended = one.end()
        expect(f"{what}: it goes on, and C-x C-c ends it", is_typing and ended == (0, True), ended)

    one = Joined(program.words)
    one.shows("-notes-L1-C0")
    for keys, last in [(b"\x18g99\r\x157\x06", "notes-L99-C"), (b"\x18bplans\r\x18g66\r\x05", "plans-L66-C7"), (b"\x18bbox\r", "-box-(no read)")]:
        one.type(keys).shows(last)
    one.wait_until(lambda: False, 0.3)
    program.stop()
    one.shows("the server is away")
    program.start()
    is_back = one.shows("a new session")
    is_there = [one.type(b"\x18b" + name + b"\r").shows(last) for name, last in [(b"plans", "plans-L66-C7"), (b"notes", "notes-L99-C7")]]
    expect("buffers out of sight are at their places too", is_back and all(is_there), (is_back, is_there, one.screen.lines()))
    one.type(QUIT)
    one.end()

    one = Joined(program.words)
    one.shows("-notes-L1-C0")
    program.stop()
    one.shows("the server is away")
    program.start()
    words = "a new session: kills, marks and macros are gone"
    one.shows(words)
    with socket.create_connection((program.words[2], int(program.port))) as other:
        other.sendall(b" ".join([b"login", *(word.encode() for word in program.words[:2]), b"24 80\nfrom another: "]))
        is_changed = one.shows("from another: ")
        is_kept = words in one.screen.lines()[23]
        one.wait_until(lambda: False, 5.5)
        other.sendall(b"more ")
        is_gone = one.shows("from another: more ") and one.wait_until(lambda: one.screen.lines()[23] == "")
        other.sendall(b"\x18\x03")
    expect("what others type does not take the words of a return away before 5 s", is_changed and is_kept and is_gone, (is_changed, is_kept, is_gone, one.screen.lines()))
    one.type(QUIT)
    one.end()

    one = Joined(program.words)
    one.shows("-notes-L1-C0")
    one.type(TWO + b"\x182\x18o\x18bmine\r").shows("-mine-L1-C0")
    program.stop()
    one.shows("the server is away")
    program.start()
    is_told = one.shows("a new session: kills, marks and macros are gone; there is no mine")
    names = [line[4:].split("-")[0] for _, line in mode_lines(one.screen.lines())]
    one.type(b"\x18\x02")
    one.shows("-Buffers")
    is_made = any(" mine ann" in line for line in one.screen.lines())
    expect("a buffer that is gone is told of, and not made", is_told and names == ["notes", "plans", "notes"] and not is_made, (is_told, names, one.screen.lines()))
    one.type(QUIT)
    one.end()

    one = Joined(program.words)
    one.shows("-notes-L1-C0")
    one.type(b"\x0b").shows("-**-notes-")  # a kill
    one.type(TWO).shows("plans-L77-C0")
    one.wait_until(lambda: False, 0.3)
    before = mode_lines(one.screen.lines())
    one.screen.resize(40, 120)
    one.resize(40, 120)
    is_told = one.wait_until(lambda: "C-] s fits the size" in one.screen.lines()[23])
    one.type(b"\x1ds")
    is_fitted = one.shows("a new session of this size: kills, marks and macros are gone") and "plans-L77" in one.screen.lines()[38]
    expect("a kill is not lost by itself, and C-] s fits the size", is_told and is_fitted, one.screen.lines())
    one.type(QUIT)
    one.end()

    one = Joined(program.words)
    one.shows("-notes-L1-C0")
    one.type(TWO).shows("plans-L77-C0")
    one.wait_until(lambda: False, 0.3)
    before = mode_lines(one.screen.lines())
    os.kill(one.process.pid, signal.SIGSTOP)
    with socket.create_connection((program.words[2], int(program.port))) as other:
        other.sendall(b" ".join([b"login", *(word.encode() for word in program.words[:2]), b"64 160\n"]))
        other.settimeout(0.01)
        for turn in range(4000):
            other.sendall(b"\x18bplans\r\x18g77\r\x0f\x04" if turn == 0 else b"\x0f\x04" * 100)
            try:
                while other.recv(65536):
                    pass
            except TimeoutError:
                pass
            if turn % 10 == 9 and not is_connected(one.process.pid):
                break
        other.sendall(b"\x18\x03")
    os.kill(one.process.pid, signal.SIGCONT)
    is_back = one.shows("the session was ended as slow; a new session: kills, marks and macros are gone", 60)
    expect("a session that was ended as slow is begun again", is_back and [place for place, _ in mode_lines(one.screen.lines())] == [place for place, _ in before], one.screen.lines())
    one.type(QUIT)
    one.end()

    one = Joined(program.words)
    one.shows("-notes-L1-C0")
    one.type(TWO).shows("plans-L77-C0")
    program.process.send_signal(signal.SIGSTOP)
    start = time.monotonic()
    one.type(b"x")
    is_told = one.shows("the server does not answer (3 s); C-] q leaves", 6)
    is_counted = one.shows("the server does not answer (5 s); C-] q leaves", 4)
    program.process.send_signal(signal.SIGCONT)
    is_going_on = one.wait_until(lambda: one.screen.lines()[23] == "" and "xplan 77" in "".join(one.screen.lines()))
    expect("a server that stands still is told of, and goes on", is_told and is_counted and is_going_on, (is_told, is_counted, one.screen.lines()))
    one.type(b"\x07").wait_until(lambda: False, 4)
    expect("one that has nothing to show is not", "does not answer" not in one.screen.lines()[23], one.screen.lines()[23])
    program.process.send_signal(signal.SIGSTOP)
    one.type(b"y")
    one.shows("does not answer")
    one.type(b"\x1dq")
    seen = one.end()
    expect("and C-] q leaves it", seen == (0, True), seen)
    program.process.send_signal(signal.SIGCONT)

    program.stop()
    program.start()
    sizes = [(40, 120), (20, 60), (24, 80)]
    one = Joined(program.words)
    one.shows("-notes-L1-C0")
    one.type(TWO).shows("plans-L77-C0")
    one.wait_until(lambda: False, 0.3)
    first = mode_lines(one.screen.lines())
    for rows, cols in sizes:
        one.screen.resize(rows, cols, "X")
        one.resize(rows, cols)
        is_fitted = one.wait_until(lambda: mode_lines(one.screen.lines()) == seats(rows) and len(one.screen.lines()[rows - 2]) == cols)
        expect(f"plain: {rows} by {cols} has both windows at their lines", is_fitted and not one.screen.faults, (one.screen.lines(), one.screen.faults))
    expect("plain: and back in the first size they are as they were", mode_lines(one.screen.lines()) == first, (first, one.screen.lines()))
    one.type(QUIT)
    one.end()
    for kind in multiplexers():
        window = Multiplexed(kind, program.words)
        window.shows("-notes-L1-C0")
        window.type(TWO)
        window.shows("plans-L77-C0")
        first = mode_lines(window.lines())
        for rows, cols in sizes:
            window.resize(rows, cols)
            is_fitted = window.wait_until(lambda lines: mode_lines(lines) == seats(rows) and len(lines[rows - 2]) == cols)
            expect(f"{kind}: {rows} by {cols} has both windows at their lines", is_fitted, window.lines())
        expect(f"{kind}: and back in the first size they are as they were", window.wait_until(lambda lines: mode_lines(lines) == first), (first, window.lines()))
        program.stop()
        is_away = window.shows("the server is away")
        program.start()
        is_back = window.shows("a new session: kills, marks and macros are gone") and mode_lines(window.lines()) == first
        expect(f"{kind}: after a restart both windows are there again", is_away and is_back, (is_away, window.lines()))
        window.type(QUIT)
        expect(f"{kind}: C-x C-c closes the window", window.end())
    program.stop()


def try_program():
    """The same over the program itself, as far as it is there."""
    if not os.path.exists(PROGRAM):
        print(f"      {PROGRAM} is not there: not tried over the program")
        return
    shutil.copytree(os.path.join(TOP, "examples"), os.path.join(FOLDER.name, "examples"))
    config = os.path.join("examples", "office.toml")
    ticket = re.search(r'name = "ann"\nticket = "(.*)"', open(os.path.join(TOP, config)).read())[1]
    process = subprocess.Popen([PROGRAM, "serve", config, "0"], stdout=subprocess.PIPE, cwd=FOLDER.name)
    place = ["127.0.0.1", process.stdout.readline().decode().strip().rpartition(":")[2]]
    one = Joined(["ann", ticket, *place])
    expect("mgd: the screen is shown", one.shows("-notes-L1-C0-"), one.screen.lines())
    one.type(b"\x1b[F\x11\x13\x11\x11\x11\x03\x11\x1c\x11\x1a.\x1b[1~")
    expect("mgd: C-s, C-q, C-c, C-\\ and C-z are keys, and Home and End", one.shows("^S^Q^C^\\^Z.") and one.shows("-L1-C0-"), one.screen.lines())
    other = Joined(["ann", ticket, *place], rows=6, cols=20)
    expect("mgd: another sees it", other.shows("Notes of the office$"), other.screen.lines())
    other.type(b"\x1bxsave-buffers-k\t").shows("$buffers-kill-emacs")
    other.type(b"\r")
    ended = other.end()
    expect("mgd: M-x save-buffers-kill-emacs ends it", ended == (0, True) and other.got.endswith("join: the session is over\r\n"), (ended, other.got[-60:]))
    one.type(QUIT)
    ended = one.end()
    expect("mgd: C-x C-c ends it", ended == (0, True), ended)
    one = Joined(["ann", "pear", *place])
    seen = one.end(), one.got
    expect("mgd: a refused login is told in words", seen == ((1, True), "join: refused: this is not the ticket of ann (3 Ticket)\r\n"), seen)
    one = Joined(["--once", "ann", ticket, *place])
    one.shows("-notes-")
    process.kill()
    process.wait()
    seen = one.end(), one.got[-70:]
    expect("mgd: with --once a server that is killed is told", seen[0] == (3, True) and "join: the connection was lost: " in seen[1], seen)
    one = Joined(["ann", ticket, *place])
    seen = one.end(), one.got
    expect("mgd: no server is told in words", seen[0] == (1, True) and "nothing answers" in seen[1], seen)


def main():
    server = Server()
    try_words()
    try_refusals(server)
    try_tickets(server)
    try_ends(server)
    try_signals(server)
    try_full_terminal(server)
    try_strangers(server)
    try_strangers_port(server)
    try_return(server)
    try_changed_holder(server)
    try_unseen_holder(server)
    try_size_of_what_is_lost(server)
    try_screen_and_title(server)
    try_words_in_windows(server)
    try_seats()
    try_tmux(server)
    try_own_keys(server)
    try_slow_keys(server)
    try_keys(server)
    try_terminfo(server)
    try_pictures(server)
    try_program()
    failed = results.count(False)
    print(f"{results.count(True)} passed, {failed} failed")
    sys.exit(1 if failed else 0)


main()
