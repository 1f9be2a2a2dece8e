#!/usr/bin/env python3
"""The time from a key to the screens that show it, in one run: a served mgd, mg, tmux and screen in which mg runs, and a bare echo.

The first of 1, 8 and 64 terminals types letters and deletes them, each key once all that the one before drew has come; all of them show one
text. mg and the echo have one terminal. For each: the time to the typist's own screen and to the last of the screens, as the 50th and the
99th of a hundred, and the system calls for each key of what serves one terminal. Then the keys that so many
sessions paste into one text, for each second that the server has a processor. The times are those of a reader in Python, which the bare echo
tells; on a busy machine they are worth nothing.

usage: bench/latency.py [--keys N] [--clients N,..] [PROGRAM]
"""
import argparse
import contextlib
import functools
import gc
import os
import pathlib
import re
import signal
import subprocess
import tempfile
import time

from count import PROGRAM
from script import Case, text_of
from served import LEAVE, config_of, log_in, serving
from terminals import Missing, Terminals, in_terminal, need

CASE = Case(text=24400, word=5)
# Letters that the text does not have, so that each of them and each deletion is seen on all screens.
KEYS = [letter.encode() for letter in "abcdefghijklmnopqrst"] + [b"\x7f"] * 20
# How long is waited, in seconds: for a first screen and until it is whole, for a key's screens, and until all that a key drew has come.
FIRST, WHOLE, SHOWN, QUIET = 10.0, 0.5, 2.0, 0.002
PASTED = 20000
PASTED_LINE = b"a" * 59 + b"\r"
CALLS_KEYS = 200


@contextlib.contextmanager
def running(*commands, kind="vt100", **environment):
    """Programs behind pseudo terminals. The terminals."""
    started = []
    try:
        for command in commands:
            started.append(in_terminal(command, kind, **environment))
        yield [terminal for _, terminal in started]
    finally:
        for child, terminal in started:
            with contextlib.suppress(ProcessLookupError):
                os.kill(child, signal.SIGTERM)
            os.close(terminal)
            os.waitpid(child, 0)


def mg(folder):
    """The words that run mg over the text."""
    need("mg")
    file = pathlib.Path(folder, "busy.txt")
    file.write_text(text_of(CASE))
    return ["mg", "-n", str(file)]


@functools.cache
def mgd(program):
    """mgd as a subject: like the others, it takes a folder, the number of terminals, and the words of what runs it."""
    return functools.partial(served, program)


def sessions(stack, port, count):
    return [stack.enter_context(log_in(port, "ann", CASE)).fileno() for _ in range(count)]


@contextlib.contextmanager
def served(program, folder, count, wrapper=()):
    with contextlib.ExitStack() as stack:
        port, _ = stack.enter_context(serving(program, config_of(CASE, folder), wrapper))
        yield sessions(stack, port, count)


def mg_alone(folder, _, wrapper=()):
    return running([*wrapper, *mg(folder)])


def echo(folder, _, wrapper=()):
    return running([*wrapper, "sh", "-c", "stty raw -echo; exec cat"])


@contextlib.contextmanager
def shared(words, start, attach, ask, end, count, **environment):
    """A program that shows one screen on several terminals, by the words of its commands."""

    def is_done(command):
        return subprocess.run(command, env={**os.environ, **environment}, stdout=subprocess.DEVNULL, check=False).returncode == 0

    if not is_done(start):
        raise Missing(f"{' '.join(start)} does not start")
    try:
        end_of_wait = time.monotonic() + FIRST
        while not is_done([*words, *ask]) and time.monotonic() < end_of_wait:
            time.sleep(0.1)
        with running(*[[*words, *attach]] * count, kind="xterm", **environment) as terminals:
            yield terminals
    finally:
        is_done([*words, *end])


def tmux(folder, count, wrapper=()):
    need("tmux")
    config = pathlib.Path(folder, "tmux.conf")
    config.write_text("set -g status off\n")
    words = ["tmux", "-S", os.path.join(folder, "tmux"), "-f", str(config)]
    start = [*wrapper, *words, "new-session", "-d", "-x", str(CASE.cols), "-y", str(CASE.rows), *mg(folder)]
    return shared(words, start, ["attach"], ["has-session"], ["kill-server"], count)


def screen(folder, count, wrapper=()):
    need("screen")
    sockets = pathlib.Path(folder, "screens")
    sockets.mkdir(mode=0o700, exist_ok=True)
    words = ["screen", "-c", "/dev/null", "-S", "latency"]
    start = [*wrapper, *words, "-d", "-m", *mg(folder)]
    return shared(words, start, ["-x"], ["-Q", "windows"], ["-X", "quit"], count, SCREENDIR=str(sockets))


def keys(count):
    return (KEYS[number % len(KEYS)] for number in range(count))


def first_screens(terminals):
    together = Terminals(terminals)
    end = time.monotonic() + FIRST
    while any(together.taken[terminal] == 0 for terminal in together.open) and time.monotonic() < end:
        together.take(end - time.monotonic())
    together.settle(WHOLE, WHOLE)
    if together.open != set(terminals):
        raise Missing(f"{len(terminals) - len(together.open)} of {len(terminals)} terminals ended at once")
    return together


def times(subject, count, number):
    """The seconds to the typist's screen and to the last screen, for each of so many keys, and how many keys were not shown everywhere."""
    own, last, lost = [], [], 0
    with tempfile.TemporaryDirectory() as folder, subject(folder, count) as terminals:
        together = first_screens(terminals)
        for key in keys(number):
            together.settle(QUIET, QUIET)
            shown = together.type_in(terminals[0], key, SHOWN, terminals)
            if len(shown) < len(terminals):
                lost += 1
            else:
                own.append(shown[terminals[0]])
                last.append(max(shown.values()))
            if lost > number // 10:
                raise Missing(f"{lost} of {lost + len(own)} keys were not shown on all screens")
    return own, last, lost


def calls_listed(report, wait=10.0):
    """The system calls of a report of strace, which writes it when all that it traces has ended."""
    end = time.monotonic() + wait
    while time.monotonic() < end:
        lines = pathlib.Path(report).read_text().splitlines() if os.path.exists(report) else []
        if lines and lines[-1].endswith(" total"):
            return sum(int(line.split()[3]) for line in lines if re.match(r" *[\d.]+ +[\d.]+ +\d+ +\d+ .*(?<! total)$", line))
        time.sleep(0.05)
    raise Missing("strace told nothing: it may not trace here")


@functools.cache
def system_calls(subject, number=CALLS_KEYS):
    """The system calls for each key of what serves one terminal: those of 2n keys less those of n, over n."""
    need("strace")
    counts = []
    for typed in (number, 2 * number):
        with tempfile.TemporaryDirectory() as folder:
            report = os.path.join(folder, "calls")
            with subject(folder, 1, ["strace", "-D", "-f", "-c", "-o", report]) as terminals:
                together = first_screens(terminals)
                for key in keys(typed):
                    together.type_in(terminals[0], key, SHOWN)
                    together.settle(QUIET, QUIET)
            counts.append(calls_listed(report))
    return (counts[1] - counts[0]) / number


def processor_time(process):
    """The seconds that a process ran."""
    try:
        return int(pathlib.Path(f"/proc/{process}/schedstat").read_text().split()[0]) / 1e9
    except FileNotFoundError:
        raise Missing("the system does not tell how long a process ran") from None


@functools.cache
def pasted(program, count):
    """The keys for each second that the server runs, where so many sessions paste into one text."""
    each = PASTED_LINE * (PASTED // count // len(PASTED_LINE))
    with tempfile.TemporaryDirectory() as folder, contextlib.ExitStack() as stack:
        port, server = stack.enter_context(serving(program, config_of(CASE, folder)))
        streams = sessions(stack, port, count)
        together = first_screens(streams)
        before = processor_time(server)
        for stream in streams:
            os.write(stream, each + LEAVE)
        if not together.wait_for_end(streams, 600):
            raise Missing("what was pasted was not handled in ten minutes")
        return count * len(each) / (processor_time(server) - before)


def part(sorted_times, of_hundred):
    """In microseconds."""
    return sorted_times[min(len(sorted_times) * of_hundred // 100, len(sorted_times) - 1)] * 1e6


def tell(name, count, subject, number):
    own, last, lost = times(subject, count, number)
    parts = [f"own screen {part(sorted(own), 50):,.1f} / {part(sorted(own), 99):,.1f}"]
    if count > 1:
        parts.append(f"last of {count} screens {part(sorted(last), 50):,.1f} / {part(sorted(last), 99):,.1f}")
    if lost:
        parts.append(f"{lost} keys were not shown everywhere")
    print(f"{name}, {count}: {', '.join(parts)}", flush=True)


def tried(name, measure):
    """Measures, or says what is missing."""
    try:
        measure()
    except Missing as lack:
        print(f"{name}: not measured, {lack}", flush=True)


def main():
    parser = argparse.ArgumentParser(description=__doc__.splitlines()[0])
    parser.add_argument("--keys", type=int, default=2000)
    parser.add_argument("--clients", type=lambda words: [int(word) for word in words.split(",")], default=[1, 8, 64])
    parser.add_argument("program", nargs="?", default=PROGRAM)
    options = parser.parse_args()
    subjects = {"echo": echo, "mg": mg_alone, "mgd": mgd(options.program), "tmux with mg": tmux, "screen with mg": screen}
    # A collection of garbage in the midst of a key would count as that key's time.
    gc.disable()
    print(f"load {os.getloadavg()[0]:.1f} on {os.cpu_count()} processors; microseconds, 50th / 99th of a hundred")
    for name, subject in subjects.items():
        for count in options.clients if subject not in (echo, mg_alone) else [1]:
            tried(f"{name}, {count}", lambda: tell(name, count, subject, options.keys))
    print("system calls a key, one terminal")
    for name, subject in subjects.items():
        tried(name, lambda: print(f"{name}: {system_calls(subject):.1f}", flush=True))
    print("keys pasted into one text, for each second that the server runs")
    for count in options.clients:
        tried(f"mgd, {count}", lambda: print(f"mgd, {count}: {pasted(options.program, count):,.0f}", flush=True))


if __name__ == "__main__":
    main()
