"""What standard output of mgd-keep has, when nobody reads it for a while: part of try_keep.py."""
import os, pty, re, shutil, socket, subprocess, threading, time, tty

import keep_desk
from keep_desk import Desk, EVENT, IS_ROOT, NOBODY, TICKETS, buffer, command, config, expect, running, wait_for

# How long standard output is not read, and the longest that a key is to take.
SECONDS = 30
LONGEST = 0.1
TYPISTS = 10
# So many changes of a list, of 65 bytes at least each, are more than a pipe and the printer hold.
CHANGES = 3000
COUNT = re.compile(r"not printed: (\d+) lines")
LISTENING = re.compile(r"listening 127\.0\.0\.1:\d+")


def free_port():
    with socket.socket() as one:
        one.bind(("127.0.0.1", 0))
        return one.getsockname()[1]


class Reader:
    """The reading end of a standard output, which reads nothing before `begin`."""

    def __init__(self, descriptor):
        self.descriptor = descriptor
        self.got = b""
        self.thread = threading.Thread(target=self.read, daemon=True)

    def read(self):
        while True:
            try:
                data = os.read(self.descriptor, 65536)
            except OSError:
                return
            if not data:
                return
            self.got += data

    def begin(self):
        self.thread.start()

    def lines(self):
        return self.got.decode().splitlines()


def open_pipe():
    reading, writing = os.pipe()
    return reading, writing


def open_terminal():
    reading, writing = pty.openpty()
    tty.setraw(writing)
    return reading, writing


def open_sockets():
    reading, writing = socket.socketpair()
    return reading.detach(), writing.detach()


class Typist(threading.Thread):
    """Types a letter again and again, each when the one before is answered, and notes how long the answer took."""

    def __init__(self, port, name, number):
        super().__init__(daemon=True)
        self.socket = socket.create_connection(("127.0.0.1", port))
        self.socket.setsockopt(socket.IPPROTO_TCP, socket.TCP_NODELAY, 1)
        self.times = []
        self.ends = threading.Event()
        self.is_slow = False
        self.socket.sendall(f"login {name} {TICKETS[name]} 24 80\n".encode())
        self.quiet()
        self.socket.sendall(f"\x18btext{number}\r".encode())
        self.quiet()

    def quiet(self, seconds=0.2):
        """Takes what comes, until nothing comes for a while."""
        self.socket.settimeout(seconds)
        try:
            while self.socket.recv(65536):
                pass
        except socket.timeout:
            pass

    def run(self):
        self.socket.settimeout(10)
        letters = 0
        while not self.ends.is_set():
            begun = time.monotonic()
            self.socket.sendall(b"x" if letters % 40 < 39 else b"\x01")
            try:
                if not self.socket.recv(65536):
                    return
            except socket.timeout:
                self.is_slow = True
                return
            self.times.append(time.monotonic() - begun)
            letters += 1
            time.sleep(0.03)


def change_lists(port, times):
    """Has somebody change a list so many times, and waits until all that is done. Whether it was."""
    one = socket.create_connection(("127.0.0.1", port))
    one.sendall(f"login ann {TICKETS['ann']} 24 80\n".encode())
    one.sendall(b"\x18bnotes\r")
    keys = (command("acl-insert", "DENY bob rwa", 1) + command("acl-delete", None, 1)).encode()
    taker = threading.Thread(target=drain, args=(one,), daemon=True)
    taker.start()
    for _ in range(times // 2):
        one.sendall(keys)
    one.sendall(b"\x18\x03")
    taker.join(300)
    return not taker.is_alive()


def drain(one):
    try:
        while one.recv(65536):
            pass
    except OSError:
        pass


def connects(port):
    try:
        socket.create_connection(("127.0.0.1", port), timeout=1).close()
        return True
    except OSError:
        return False


def gaps_of(lines):
    """What is wrong with the numbers of events and the counts between them, if anything is, and the last number."""
    last, counted = 0, 0
    for line in lines:
        count, event = COUNT.fullmatch(line), EVENT.fullmatch(line)
        if LISTENING.fullmatch(line):
            continue
        if count:
            counted += int(count[1])
        elif event:
            number = int(event[1])
            if number != last + counted + 1:
                return f"{last}, then {counted} not printed, then {number}", last
            last, counted = number, 0
        else:
            return f"no line: {line!r}", last
    return None, last + counted


def is_part(some, all_lines):
    left = iter(all_lines)
    return all(line in left for line in some)


def try_output(what, opened, before=None, is_of_nobody=False):
    names = ["ann", "bob", "cat"]
    texts = [buffer(f"text{i}", ["ALLOW EVERYONE@ rwat"], text="A text.") for i in range(TYPISTS)]
    text = config(buffer("notes", keep_desk.NOTES, text=keep_desk.SECRET), *texts)
    quick = "/dev/shm" if os.path.isdir("/dev/shm") else None
    with Desk(text) as desk:
        if quick is not None:
            desk.folder = os.path.join(quick, os.path.basename(desk.path))
            os.mkdir(desk.folder, 0o700)
        program = keep_desk.program
        if is_of_nobody:
            os.chown(desk.folder, NOBODY, NOBODY)
            program = shutil.copy(program, desk.at("program"))
            os.chmod(program, 0o755)
        reading, writing = opened()
        port = free_port()
        with open(desk.at("err"), "wb") as err:
            server = subprocess.Popen([program, "serve", desk.folder, desk.at("served.toml"), str(port)], stdin=subprocess.DEVNULL, stdout=writing,
                                      stderr=err, preexec_fn=before)
        running.add(server)
        os.close(writing)
        try:
            wait_for(lambda: connects(port) or server.poll() is not None)
            typists = [Typist(port, names[i % 3], i) for i in range(TYPISTS)]
            is_done = change_lists(port, CHANGES)
            expect(f"{what} that nobody reads: {CHANGES} changes of a list are made", is_done and server.poll() is None, server.poll())
            for typist in typists:
                typist.start()
            time.sleep(SECONDS)
            for typist in typists:
                typist.ends.set()
            for typist in typists:
                typist.join(15)
            times = sorted(each for typist in typists for each in typist.times)
            worst = times[-1] if times else None
            print(f"      {len(times)} keys in {SECONDS} s; median {times[len(times) // 2] * 1000:.1f} ms, longest {times[-1] * 1000:.1f} ms" if times else "      no keys")
            expect(f"{what} that nobody reads for {SECONDS} s: no key of {TYPISTS} typists takes more than {LONGEST} s",
                   len(times) > TYPISTS * SECONDS and worst <= LONGEST and not any(typist.is_slow for typist in typists), (len(times), worst))
            reader = Reader(reading)
            reader.begin()
            wait_for(lambda: reader.lines() and COUNT.fullmatch(reader.lines()[-1]), 10)
            time.sleep(2.5)
            server.kill()
            server.wait()
            time.sleep(0.3)
            lines = reader.lines()
            told = desk.audit()[1].splitlines()
            wrong, last = gaps_of(lines)
            expect(f"{what}: `listening` is a line of it", any(LISTENING.fullmatch(line) for line in lines), lines[:3])
            expect(f"{what}: what was printed and the counts are all events", wrong is None and last == len(told), (wrong, last, len(told)))
            expect(f"{what}: some lines were not printed", sum(bool(COUNT.fullmatch(line)) for line in lines) > 0, len(lines))
            expect(f"{what}: each line that was printed is one of the audit", is_part([line for line in lines if EVENT.fullmatch(line)], told), lines[:3])
        finally:
            server.kill()
            server.wait()
            running.discard(server)
            if quick is not None:
                shutil.rmtree(desk.folder, ignore_errors=True)


def become_nobody():
    os.setgroups([])
    os.setgid(NOBODY)
    os.setuid(NOBODY)


def try_unread_output():
    """Standard output that nobody reads makes no key wait, and what it lacks is counted."""
    try_output("a pipe", open_pipe)
    try_output("a terminal", open_terminal)
    try_output("a socket", open_sockets)
    if IS_ROOT:
        try_output("a pipe of another user", open_pipe, become_nobody, True)
        try_output("a terminal of another user", open_terminal, become_nobody, True)
    else:
        print("left out: a pipe and a terminal of another user, which only root can make")
