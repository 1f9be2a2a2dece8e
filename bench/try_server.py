#!/usr/bin/env python3
"""Tries a server over sockets: python3 bench/try_server.py [PROGRAM]

It starts the server that stands in crates/mgd/out/mgd (or PROGRAM) on a port of its own, over bench/office.toml, logs in as
terminals do, and looks at what they show. It is started by hand and ends with status 0 if all is as it should be.
"""
import os, re, signal, socket, subprocess, sys, tempfile, time

TOP = os.path.dirname(os.path.dirname(os.path.abspath(__file__)))
PROGRAM = sys.argv[1] if len(sys.argv) > 1 else os.path.join(TOP, "crates", "mgd", "out", "mgd")
OFFICE = os.path.join(TOP, "bench", "office.toml")
failures = []


def expect(what, is_so, seen=""):
    print(("ok    " if is_so else "FAILED ") + what + ("" if is_so else f": {seen!r}"))
    if not is_so:
        failures.append(what)


class Terminal:
    """A socket, and a screen that it paints."""

    def __init__(self, port, login=None, rows=6, cols=40, room=None):
        self.socket = socket.socket()
        if room is not None:
            self.socket.setsockopt(socket.SOL_SOCKET, socket.SO_RCVBUF, room)
        self.socket.connect(("127.0.0.1", port))
        self.rows, self.cols = rows, cols
        self.cells = [[" "] * cols for _ in range(rows)]
        self.row = self.col = 1
        self.got = b""
        self.rest = b""
        self.ended = False
        if login is not None:
            self.send(f"login {login} {rows} {cols}\n".encode())

    def send(self, data):
        try:
            self.socket.sendall(data)
        except OSError:
            self.ended = True

    def read(self, quiet=0.15, most=5.0):
        """Takes what comes, until nothing has come for a while."""
        end = time.time() + most
        while not self.ended and time.time() < end:
            self.socket.settimeout(quiet)
            try:
                data = self.socket.recv(65536)
            except socket.timeout:
                break
            except OSError:
                data = b""
            if not data:
                self.ended = True
            self.got += data
            self.paint(data)
        return self

    def drain(self, quiet=2.0):
        """Takes all that comes, and paints nothing of it."""
        self.socket.settimeout(quiet)
        while not self.ended:
            try:
                data = self.socket.recv(65536)
            except socket.timeout:
                break
            except OSError:
                data = b""
            self.ended = not data
            self.got += data

    def read_some(self, most=20.0):
        """Waits until something has come."""
        end = time.time() + most
        while not self.got and not self.ended and time.time() < end:
            self.read(quiet=0.2)
        return self

    def read_until(self, is_there, most=60.0):
        """Takes what comes until something is there."""
        end = time.time() + most
        while not is_there(self) and not self.ended and time.time() < end:
            self.read(quiet=0.02)
        return self

    def paint(self, data):
        data = self.rest + data
        at = 0
        while at < len(data):
            if data[at] != 0x1B:
                if 0x20 <= data[at] <= 0x7E:
                    self.cells[self.row - 1][self.col - 1] = chr(data[at])
                    self.col = min(self.col + 1, self.cols)
                at += 1
                continue
            found = re.match(rb"\x1b\[(\??[0-9;]*)([A-Za-z])", data[at:])
            if not found:
                break
            words, name = found.group(1).decode(), found.group(2)
            if name == b"H":
                self.row, self.col = (int(w) for w in words.split(";"))
            elif name == b"J":
                self.cells = [[" "] * self.cols for _ in range(self.rows)]
            elif name == b"K":
                for col in range(self.col - 1, self.cols):
                    self.cells[self.row - 1][col] = " "
            at += found.end()
        self.rest = data[at:]

    def shows(self, row):
        return "".join(self.cells[row - 1]).rstrip()

    def close(self):
        self.socket.close()


def start(config, port="0"):
    server = subprocess.Popen([PROGRAM, "serve", config, port], stdout=subprocess.PIPE, stderr=subprocess.PIPE)
    line = server.stdout.readline().decode()
    found = re.fullmatch(r"listening 127\.0\.0\.1:(\d+)\n", line)
    expect("prints where it listens", found is not None, line)
    return server, int(found.group(1))


def run(*words):
    done = subprocess.run([PROGRAM, *words], capture_output=True, timeout=20)
    return done.returncode, done.stderr.decode()


def answer(port, data, end=False):
    """What a connection is told that sends this."""
    one = Terminal(port)
    one.send(data)
    if end:
        one.socket.shutdown(socket.SHUT_WR)
    one.read_some()
    one.read(quiet=1.0)
    one.close()
    return one.got, one.ended


def try_refusals(port):
    rows = [
        (b"login ann apple 6 2", True, b"refused 1 Line\n"),
        (b"login ann apple 06 20\n", False, b"refused 1 Line\n"),
        (b"hello\n", False, b"refused 1 Line\n"),
        (b"x" * 129, False, b"refused 1 Line\n"),
        (b"login eve apple 6 20\n", False, b"refused 2 NoUser\n"),
        (b"login ann zz 6 20\n", False, b"refused 3 Ticket\n"),
        (b"login ann apple 5 20\r\n", False, b"refused 4 Size\n"),
        (b"login ann apple 5 20\nkeys behind the line", False, b"refused 4 Size\n"),
    ]
    for data, end, wanted in rows:
        got = answer(port, data, end)
        expect(f"{data[:30]!r} is answered {wanted!r} and closed", got == (wanted, True), got)


def try_two(port):
    ann, bob = Terminal(port, "ann apple"), Terminal(port, "bob birch")
    ann.read(), bob.read()
    expect("ann sees the notes", ann.shows(1) == "Notes of the office.", ann.shows(1))
    ann.send(b"Hello bob! ")
    bob.read(), ann.read()
    expect("bob sees what ann types", bob.shows(1) == "Hello bob! Notes of the office.", bob.shows(1))
    expect("ann sees it too", ann.shows(1) == "Hello bob! Notes of the office.", ann.shows(1))
    bob.send(b"\x01>")
    bob.read(), ann.read()
    expect("ann sees what bob types", ann.shows(1).startswith(">Hello"), ann.shows(1))
    cat = Terminal(port, "cat cedar").read()
    cat.send(b"x")
    cat.read()
    expect("cat is denied", cat.shows(6).startswith("Denied: "), cat.shows(6))
    cat.send(b"\x18\x03")
    cat.read(quiet=1.0)
    expect("C-x C-c ends cat's connection", cat.ended)
    bob.socket.setsockopt(socket.SOL_SOCKET, socket.SO_LINGER, b"\x01\0\0\0\0\0\0\0")
    bob.close()
    ann.send(b"still here ")
    ann.read()
    expect("a reset peer leaves ann's session", "still here" in ann.shows(1), ann.shows(1))
    ann.send(b"\r" * 3000)
    ann.read(quiet=1.0, most=60)
    expect("3,000 pasted lines end nobody", not ann.ended)
    ann.socket.shutdown(socket.SHUT_WR)
    ann.read(quiet=1.0)
    expect("a peer that sends no more is closed", ann.ended)
    ann.close()


def try_full(port):
    all_of_them = [Terminal(port, "ann apple") for _ in range(64)]
    for one in all_of_them:
        one.read_some()
    expect("64 are served", all(one.got and not one.ended for one in all_of_them))
    got = answer(port, b"")
    expect("the 65th is refused", got == (b"refused 5 Full\n", True), got)
    all_of_them.pop().close()
    time.sleep(0.3)
    again = Terminal(port, "bob birch").read_some()
    expect("one that ended leaves its place", b"\x1b[" in again.got, again.got)
    for one in all_of_them + [again]:
        one.close()
    time.sleep(0.5)
    last = Terminal(port, "bob birch").read_some()
    expect("all that ended leave theirs", b"\x1b[" in last.got, last.got)
    last.close()


def try_silence():
    """Those who do not log in keep nobody out for longer than a minute."""
    server, port = start(OFFICE)
    ann = Terminal(port, "ann apple").read_some()
    begin = time.time()
    late = [Terminal(port) for _ in range(63)]
    for one in late[::2]:
        one.send(b"login ann apple")
    time.sleep(0.5)
    got = answer(port, b"")
    expect("63 silent connections and a session are 64", got == (b"refused 5 Full\n", True), got)
    time.sleep(max(0, begin + 55 - time.time()))
    for one in late:
        one.read(quiet=0.01)
    expect("they are there after 55 seconds", not any(one.ended for one in late))
    time.sleep(max(0, begin + 65 - time.time()))
    for one in late:
        one.read(quiet=0.01)
    expect("they are closed after 65 seconds, and told nothing", all(one.ended and not one.got for one in late), [one.got for one in late if one.got])
    again = Terminal(port, "bob birch").read_some()
    expect("another is let in then", b"\x1b[" in again.got, again.got)
    ann.send(b"here ")
    ann.read()
    expect("a session that was silent as long goes on", ann.shows(1).startswith("here "), ann.shows(1))
    for one in late + [ann, again]:
        one.close()
    server.kill()
    server.wait()


def try_words():
    usage = "usage: mgd replay | mgd serve CONFIG PORT\n"
    for words in [(), ("serve",), ("serve", OFFICE), ("serve", OFFICE, "65536"), ("serve", OFFICE, "+80"), ("serve", OFFICE, ""),
                  ("serve", OFFICE, "-1"), ("serve", OFFICE, "0", "x"), ("replay", "x"), ("other",)]:
        got = run(*words)
        expect(f"{words[:1] + words[2:]} is answered by the usage line", got == (2, usage), got)


def try_configurations():
    rows = [
        (b"= 1", "top 0: Toml\n"), (b"\xff", "top 0: Toml\n"), (b"color = 1\n", "top 0: Key\n"),
        (b'[[user]]\nname = "ann"\n', "user 1: Key\n"),
        (b'[[user]]\nname = "ann"\nticket = "t"\n[[buffer]]\nname = "b"\nowner = "ann"\nlist = []\nfile = "/nowhere"\n', "buffer 1: File\n"),
    ]
    for text, wanted in rows:
        with tempfile.NamedTemporaryFile(suffix=".toml") as file:
            file.write(text)
            file.flush()
            got = run("serve", file.name, "0")
        expect(f"{text[-20:]!r} is refused: {wanted.strip()}", got == (1, wanted), got)
    for name in ["/nowhere.toml", "/"]:
        got = run("serve", name, "0")
        expect(f"{name} cannot be read", got == (1, "top 0: File\n"), got)


def try_file():
    with tempfile.TemporaryDirectory() as folder:
        path = os.path.join(folder, "letter.txt")
        with open(path, "w") as file:
            file.write("Dear all,\n")
        config = os.path.join(folder, "letter.toml")
        with open(config, "w") as file:
            file.write('[[user]]\nname = "ann"\nticket = "t"\n[[buffer]]\nname = "b"\nowner = "ann"\n'
                       f'list = ["ALLOW ann rwat"]\nfile = "{path}"\n')
        server, port = start(config)
        ann = Terminal(port, "ann t").read()
        expect("the text of a file is shown", ann.shows(1) == "Dear all,", ann.shows(1))
        ann.close()
        server.kill()
        server.wait()


def try_slow():
    """A terminal that takes nothing is ended, and the others go on."""
    letters = "abcdefghijklmnopqrstuvwxyz" * 7
    text = "".join(letters[row % 26:][:150] + "\\n" for row in range(60))
    with tempfile.TemporaryDirectory() as folder:
        config = os.path.join(folder, "wide.toml")
        with open(config, "w") as file:
            for name in ("ann", "bob", "cat"):
                file.write(f'[[user]]\nname = "{name}"\nticket = "t"\n')
            file.write(f'[[buffer]]\nname = "b"\nowner = "ann"\nlist = ["ALLOW EVERYONE@ rwat"]\ntext = "{text}"\n')
        server, port = start(config)
        slow = Terminal(port, "bob t", 64, 160, room=4096)
        slow.read_some()
        ann, cat = Terminal(port, "ann t", 64, 160).read(), Terminal(port, "cat t", 64, 160).read()
        # Each time the whole text goes and comes back, on all three screens. Nobody types on before that has come.
        while len(ann.got) < 10_000_000 and not ann.ended:
            wanted = len(ann.got) + 4 * len(text) // 2
            ann.send(b"\x18h\x17\x19" * 4)
            ann.read_until(lambda one: len(one.got) >= wanted)
            cat.read(quiet=0.02)
        ann.send(b"\x1b<still here ")
        is_typed = lambda one: one.shows(1).startswith("still here abc")
        ann.read_until(is_typed), cat.read_until(is_typed)
        expect("whoever reads sees what is typed", is_typed(ann), (ann.ended, ann.shows(1)))
        expect("so does the third", is_typed(cat), (cat.ended, cat.shows(1)))
        slow.drain()
        expect("who took nothing was ended", slow.ended)
        expect("and was not sent all", len(slow.got) < len(ann.got) - 262144, (len(slow.got), len(ann.got)))
        again = Terminal(port, "bob t", 64, 160).read_until(is_typed)
        expect("and can come again", is_typed(again), again.shows(1))
        expect("the server goes on", server.poll() is None, server.poll())
        server.kill()
        server.wait()


def main():
    try_words()
    try_configurations()
    try_file()
    try_slow()
    try_silence()
    server, port = start(OFFICE)
    try:
        got = run("serve", OFFICE, str(port))
        expect("a port in use", got == (3, "listening failed\n"), got)
        try_refusals(port)
        try_two(port)
        try_full(port)
        expect("the server goes on", server.poll() is None, server.poll())
    finally:
        server.kill()
        server.wait()
    print(f"{len(failures)} failed")
    sys.exit(1 if failures else 0)


if __name__ == "__main__":
    main()
