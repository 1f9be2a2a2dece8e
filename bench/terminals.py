"""Terminals that are read together: sockets of sessions, and pseudo terminals of programs. What they are sent is counted and passed over."""
import collections
import fcntl
import os
import pty
import selectors
import shutil
import struct
import termios
import time

ROWS, COLS = 24, 80


class Missing(Exception):
    """What a measure lacks, in words."""


def need(*names):
    """The programs without which there is no measure."""
    for name in names:
        if shutil.which(name) is None:
            raise Missing(f"{name} is not installed")


def in_terminal(command, kind="vt100", **environment):
    """Runs a program behind a pseudo terminal: its process, and the terminal."""
    child, terminal = pty.fork()
    if child == 0:
        try:
            fcntl.ioctl(0, termios.TIOCSWINSZ, struct.pack("HHHH", ROWS, COLS, 0, 0))
            os.environ.update(TERM=kind, **environment)
            os.execvp(command[0], command)
        finally:
            os._exit(127)
    return child, terminal


class Terminals:
    def __init__(self, terminals=()):
        self.selector = selectors.DefaultSelector()
        self.taken = collections.Counter()
        self.open = set()
        for terminal in terminals:
            self.add(terminal)

    def add(self, terminal):
        self.selector.register(terminal, selectors.EVENT_READ)
        self.open.add(terminal)

    def take(self, wait):
        """Reads what is there, or comes first within so many seconds. The terminals that were sent something, and when it was read."""
        sent = []
        for key, _ in self.selector.select(max(wait, 0)):
            try:
                data = os.read(key.fd, 65536)
            except OSError:  # a program behind a pseudo terminal, or a peer, has ended
                data = b""
            if data:
                self.taken[key.fd] += len(data)
                sent.append((key.fd, time.perf_counter()))
            else:
                self.selector.unregister(key.fd)
                self.open.remove(key.fd)
        return sent

    def settle(self, wait, quiet):
        """Reads until nothing more comes, once something came, or did not in time."""
        while self.take(wait):
            wait = quiet

    def type_in(self, terminal, data, wait, wanted=()):
        """Types, and waits until the terminal, or each of those that are wanted, is sent something. The seconds until each was."""
        wanted, times = set(wanted or [terminal]), {}
        start = time.perf_counter()
        os.write(terminal, data)
        while wanted & self.open - times.keys():
            left = start + wait - time.perf_counter()
            if left <= 0:
                break
            for one, read in self.take(left):
                if one in wanted:
                    times.setdefault(one, read - start)
        return times

    def wait_for_end(self, terminals, wait):
        """Reads until these have ended. Whether they have."""
        end = time.monotonic() + wait
        while self.open & set(terminals) and time.monotonic() < end:
            self.take(end - time.monotonic())
        return not self.open & set(terminals)
