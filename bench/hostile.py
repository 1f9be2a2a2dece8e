#!/usr/bin/env python3
"""Attacks a server over sockets, while one honest person types:

    python3 bench/hostile.py [--seconds N] [--clients N] [--seed N] [--unproved | PROGRAM]

It starts the server that stands in crates/mgd/out/mgd (or PROGRAM; or the sources, by `./mgd try`) on a port of its own. Hostile clients send
random bytes, cut logins, floods of keys, take nothing of what they are sent, and connect and reset. The honest person types keys
into a buffer of her own, one at a time, and each of her screens has to become the one that `replay` prints for the same keys.
Figures are printed; status 0 where every screen came and the server went on. It is started by hand.
"""
import argparse
import collections
import os
import random
import re
import resource
import socket
import struct
import subprocess
import sys
import tempfile
import threading
import time

TOP = os.path.dirname(os.path.dirname(os.path.abspath(__file__)))
PROGRAM = os.path.join(TOP, "crates", "mgd", "out", "mgd")
ROWS, COLS = 10, 40

# How long a screen of the honest person may take to come, in seconds.
PATIENCE = 60

# The most keys that are prepared for each second, and for a try of the sources, whose output is limited.
KEYS_A_SECOND = 200
UNPROVED_KEYS = 1800

CONFIG = """
[[user]]
name = "ann"
ticket = "apple"

[[user]]
name = "eve"
ticket = "elder"

[[buffer]]
name = "own"
owner = "ann"
list = ["ALLOW OWNER@ rwatdcCo"]

[[buffer]]
name = "yard"
owner = "eve"
list = ["ALLOW EVERYONE@ rwatdcCo"]
"""

SCRIPT = f"""user ann
user eve
buffer own ann
entry own ALLOW OWNER@ rwatdcCo
buffer yard eve
entry yard ALLOW EVERYONE@ rwatdcCo
open a ann {ROWS} {COLS}
show a
"""

# Tokens of a script with their bytes, and how often each is typed. None of them shows what others' buffers are called.
TOKENS = [
    (24, None),  # a letter or a space
    (3, ("RET", b"\r")), (3, ("C-f", b"\x06")), (3, ("C-b", b"\x02")), (2, ("C-n", b"\x0e")), (2, ("C-p", b"\x10")),
    (2, ("C-a", b"\x01")), (2, ("C-e", b"\x05")), (2, ("C-d", b"\x04")), (2, ("DEL", b"\x7f")), (2, ("C-k", b"\x0b")),
    (2, ("C-y", b"\x19")), (2, ("C-_", b"\x1f")), (1, ("M-f", b"\x1bf")), (1, ("M-b", b"\x1bb")), (1, ("M-d", b"\x1bd")),
    (1, ("C-v", b"\x16")), (1, ("M-v", b"\x1bv")), (1, ("C-SPC", b"\x00")), (1, ("C-w", b"\x17")), (1, ("C-t", b"\x14")),
    (1, ("M-u", b"\x1bu")), (1, ("C-x C-x", b"\x18\x18")), (1, ("C-x '2", b"\x182")), (1, ("C-x 'o", b"\x18o")),
    (1, ("C-x '1", b"\x181")), (1, ("C-u '3", b"\x153")), (1, ("C-s 'e C-s", b"\x13e\x13")), (1, ("C-g", b"\x07")),
    (1, ("C-l", b"\x0c")), (1, ("M-%", b"\x1b%")),
]


def typed(seed, count):
    """So many tokens of a script with their bytes."""
    source = random.Random(seed)
    weights, tokens = zip(*TOKENS)
    keys = []
    for token in source.choices(tokens, weights, k=count):
        if token is None:
            letter = source.choice("abcdefgh tuvwxyz")
            token = ("SPC" if letter == " " else "'" + letter, letter.encode())
        keys.append(token)
    return keys


class Program:
    """What is tried: a program that stands somewhere, or the sources of this repository (`None`)."""

    def __init__(self, path):
        self.words = [path] if path else [os.path.join(TOP, "mgd"), "try"]

    def replay(self, script):
        return subprocess.run([*self.words, "replay"], input=script, capture_output=True)

    def serve(self, config):
        return subprocess.Popen([*self.words, "serve", config, "0"], stdout=subprocess.PIPE, stderr=subprocess.STDOUT)


def screens_of(program, keys):
    """The screens that `replay` prints: the first, and one for each key."""
    script = SCRIPT + "".join(f"keys a {token}\nshow a\n" for token, _ in keys)
    done = program.replay(script.encode())
    lines = done.stdout.decode().split("\n")
    size = ROWS + 2
    starts = [at for at, line in enumerate(lines) if line == "screen a"]
    screens = ["\n".join(lines[at + 1:at + size]) for at in starts]
    if len(screens) != len(keys) + 1:
        sys.exit(f"replay printed {len(screens)} screens for {len(keys)} keys: {done.stderr.decode()[-300:]}")
    return screens


class Screen:
    """A terminal: its cells, each with whether it is shown in reverse, and its cursor."""

    def __init__(self):
        self.row = self.col = 1
        self.is_reversed = False
        self.rest = b""
        self.cells = [[(" ", False)] * COLS for _ in range(ROWS)]

    def put(self, character):
        self.cells[self.row - 1][self.col - 1] = (character, self.is_reversed)
        self.col = min(self.col + 1, COLS)

    def order(self, words, name):
        if name == "H":
            self.row, self.col = (int(word or 1) for word in (words + ";").split(";")[:2])
        elif name == "J":
            self.cells = [[(" ", False)] * COLS for _ in range(ROWS)]
        elif name == "K":
            self.cells[self.row - 1][self.col - 1:] = [(" ", False)] * (COLS - self.col + 1)
        elif name == "m":
            self.is_reversed = words == "7"

    def paint(self, data):
        data, at = self.rest + data, 0
        while at < len(data):
            if data[at] != 0x1B:
                self.put(chr(data[at]))
                at += 1
                continue
            found = re.compile(rb"\x1b\[(\??[0-9;]*)([A-Za-z])").match(data, at)
            if not found:
                break
            self.order(found.group(1).decode(), found.group(2).decode())
            at = found.end()
        self.rest = data[at:]

    def text(self):
        rows = []
        for row in self.cells:
            ends = "!!" if all(reverse for _, reverse in row) else "||"
            rows.append(ends[0] + "".join(character for character, _ in row) + ends[1])
        return "\n".join(rows + [f"cursor {self.row} {self.col}"])


def connect(port):
    stream = socket.socket()
    stream.settimeout(5)
    stream.connect(("127.0.0.1", port))
    return stream


class Honest(threading.Thread):
    """Types one key after another, each when the screen of the one before has come."""

    def __init__(self, port, keys, screens, end):
        super().__init__(daemon=True)
        self.keys, self.screens, self.end = keys, screens, end
        self.stream = connect(port)
        self.stream.sendall(f"login ann apple {ROWS} {COLS}\n".encode())
        self.screen = Screen()
        self.times = []
        self.fault = None

    def wait_for(self, wanted):
        """Takes what comes until this screen stands. False: it did not come in time."""
        end = time.monotonic() + PATIENCE
        while self.screen.text() != wanted:
            left = end - time.monotonic()
            if left <= 0:
                return False
            self.stream.settimeout(left)
            try:
                data = self.stream.recv(65536)
            except OSError:
                return False
            if not data:
                return False
            self.screen.paint(data)
        return True

    def run(self):
        try:
            self.type_all()
        except OSError as fault:
            self.fault = f"after {len(self.times)} keys: {fault}"

    def type_all(self):
        if not self.wait_for(self.screens[0]):
            self.fault = "no first screen"
            return
        for (token, data), wanted in zip(self.keys, self.screens[1:]):
            if time.monotonic() > self.end:
                return
            start = time.monotonic()
            self.stream.sendall(data)
            if not self.wait_for(wanted):
                self.fault = f"after {len(self.times)} keys, {token} shows\n{self.screen.text()}\nand not\n{wanted}"
                return
            self.times.append(time.monotonic() - start)


class Hostile(threading.Thread):
    """One connection after another, each of some kind."""

    def __init__(self, port, seed, end, counts):
        super().__init__(daemon=True)
        self.port, self.end, self.counts = port, end, counts
        self.random = random.Random(seed)
        self.kinds = [self.random_bytes, self.cut_login, self.flood, self.slow_reader, self.storm, self.guess, self.half_close, self.silence]

    def run(self):
        while time.monotonic() < self.end:
            kind = self.random.choice(self.kinds)
            try:
                kind()
            except OSError:
                self.counts["connections that ended early"] += 1
            self.counts[kind.__name__] += 1
            time.sleep(self.random.random() / 20)

    def is_on(self, until):
        return time.monotonic() < min(until, self.end)

    def send(self, stream, data):
        stream.sendall(data)
        self.counts["bytes sent"] += len(data)

    def take(self, stream, seconds):
        """Takes what comes, for so long."""
        stream.settimeout(seconds)
        try:
            data = stream.recv(65536)
        except socket.timeout:
            return True
        self.counts["bytes taken"] += len(data)
        return bool(data)

    def reset(self, stream):
        stream.setsockopt(socket.SOL_SOCKET, socket.SO_LINGER, struct.pack("ii", 1, 0))
        stream.close()

    def log_in(self, rows=6, cols=20, room=None):
        stream = socket.socket()
        if room is not None:
            stream.setsockopt(socket.SOL_SOCKET, socket.SO_RCVBUF, room)
        stream.settimeout(5)
        stream.connect(("127.0.0.1", self.port))
        self.send(stream, f"login eve elder {rows} {cols}\n".encode())
        return stream

    def keys(self, count):
        """Keys of all kinds, and no call of a macro: one alone may take hours."""
        data = bytes(self.random.choices(range(256), k=count))
        return data.replace(b"\x18e", b"\x18o").replace(b"\x18\x03", b"\x18o")

    def random_bytes(self):
        with connect(self.port) as stream:
            self.send(stream, self.random.randbytes(self.random.randrange(1, 400)))
            self.take(stream, 0.5)

    def cut_login(self):
        line = b"login eve elder 6 20\n"
        stream = connect(self.port)
        self.send(stream, line[:self.random.randrange(len(line))])
        time.sleep(self.random.random())
        self.reset(stream) if self.random.random() < 0.5 else stream.close()

    def flood(self):
        stream, until = self.log_in(), time.monotonic() + 3
        with stream:
            while self.is_on(until):
                self.send(stream, self.keys(2000))
                if not self.take(stream, 0.01):
                    return

    def slow_reader(self):
        stream, until = self.log_in(64, 160, room=4096), time.monotonic() + 5
        with stream:
            stream.settimeout(1)
            while self.is_on(until):
                self.send(stream, self.keys(500))
                time.sleep(0.05)

    def storm(self):
        for _ in range(self.random.randrange(1, 60)):
            self.reset(connect(self.port))
            self.counts["connections of storms"] += 1

    def guess(self):
        with connect(self.port) as stream:
            self.send(stream, b"login ann %d 10 40\n" % self.random.randrange(10**9))
            self.take(stream, 2)

    def half_close(self):
        with self.log_in() as stream:
            self.send(stream, self.keys(50))
            stream.shutdown(socket.SHUT_WR)
            self.take(stream, 1)

    def silence(self):
        with connect(self.port) as stream:
            self.take(stream, self.random.random() * 3)


def start(program, config):
    """The server, and its port."""
    server = program.serve(config)
    for line in server.stdout:
        found = re.search(r"listening 127\.0\.0\.1:(\d+)", line.decode(errors="replace"))
        if found:
            return server, int(found.group(1))
    sys.exit("the server does not listen")


def held_by(server):
    """The descriptors and the kilobytes that the server holds."""
    try:
        with open(f"/proc/{server.pid}/status") as status:
            size = re.search(r"VmRSS:\s+(\d+)", status.read())
        return len(os.listdir(f"/proc/{server.pid}/fd")), int(size.group(1)) if size else 0
    except OSError:
        return 0, 0


def is_served(port):
    """Whether the places of those who left are free again."""
    for _ in range(50):
        try:
            with connect(port) as stream:
                stream.sendall(b"login eve elder 6 20\n")
                if stream.recv(4096).startswith(b"\x1b"):
                    return True
        except OSError:
            pass
        time.sleep(0.1)
    return False


def tell(honest, counts):
    times = sorted(honest.times)
    print(f"{len(times)} keys of the honest person, each screen as `replay` prints it")
    if times:
        print(f"milliseconds to the screen: median {times[len(times) // 2] * 1000:.1f}, of a hundred the slowest "
              f"{times[len(times) * 99 // 100] * 1000:.1f}, of all {times[-1] * 1000:.1f}")
    for name, count in sorted(counts.items()):
        print(f"{count:12,} {name.replace('_', ' ')}")


def main():
    parser = argparse.ArgumentParser(description=__doc__, formatter_class=argparse.RawDescriptionHelpFormatter)
    parser.add_argument("--seconds", type=float, default=60)
    parser.add_argument("--clients", type=int, default=64)
    parser.add_argument("--seed", type=int, default=1)
    parser.add_argument("--unproved", action="store_true")
    parser.add_argument("program", nargs="?", default=PROGRAM)
    given = parser.parse_args()
    program = Program(None if given.unproved else os.path.abspath(given.program))
    resource.setrlimit(resource.RLIMIT_NOFILE, (4096, max(4096, resource.getrlimit(resource.RLIMIT_NOFILE)[1])))
    count = int(given.seconds * KEYS_A_SECOND)
    keys = typed(given.seed, min(count, UNPROVED_KEYS) if given.unproved else count)
    screens = screens_of(program, keys)
    with tempfile.NamedTemporaryFile("w", suffix=".toml") as config:
        config.write(CONFIG)
        config.flush()
        server, port = start(program, config.name)
        try:
            before = held_by(server)
            end = time.monotonic() + given.seconds
            counts = collections.Counter()
            honest = Honest(port, keys, screens, end)
            hostile = [Hostile(port, given.seed * 1000 + number, end, counts) for number in range(given.clients)]
            for one in [honest, *hostile]:
                one.start()
            for one in [honest, *hostile]:
                one.join(given.seconds + 2 * PATIENCE)
            honest.stream.close()
            goes_on = server.poll() is None and is_served(port)
            time.sleep(0.5)
            tell(honest, counts)
            # What a look holds is not to be seen from here.
            if not given.unproved:
                after = held_by(server)
                print(f"descriptors {before[0]} before, {after[0]} after; kilobytes {before[1]:,} before, {after[1]:,} after")
        finally:
            server.terminate()
            server.wait()
    if honest.fault:
        print("FAILED " + honest.fault)
    if not goes_on:
        print("FAILED the server does not go on")
    sys.exit(1 if honest.fault or not goes_on else 0)


main()
