#!/usr/bin/env python3
"""What it costs to keep a journal, in one run: mgd beside mgd-keep.

The instructions of a typed key, of the whole server and of its engine, and its system calls; the time from a key to its screen, alone and while
somebody else pastes 10 MB into a text of their own, which is kept once a second; and how long a start takes over a journal that has 256 unsaved
texts of 100,000 characters. Times are as latency.py has them; on a busy machine they are worth nothing.

usage: bench/keep_cost.py [--keys N] [PROGRAM PROGRAM_THAT_KEEPS]
"""
import argparse
import contextlib
import gc
import multiprocessing
import os
import pathlib
import select
import signal
import subprocess
import tempfile
import time

from count import PROGRAM, TOP
from latency import CASE, QUIET, SHOWN, first_screens, keys, mgd, part, system_calls, times
from script import Case
from served import config_of, log_in, per_key, serving, words_of
from terminals import Missing, Terminals

KEEPS = str(TOP / "crates/mgd_keep/out/mgd_keep")
# 900,000 characters in lines, and all of them taken out again.
FULL = (b"a" * 59 + b"\r") * 15_000 + b"\x18h\x17"
PASTES = 12
BUFFERS, LONG = 256, 100_000


def paste(stream):
    """Sends what is pasted, and takes what is painted."""
    left = memoryview(FULL * PASTES)
    stream.setblocking(False)
    while left:
        readable, writable, _ = select.select([stream], [stream], [])
        if readable and not stream.recv(1 << 20):
            return
        if writable:
            left = left[stream.send(left[:65536]):]
    while select.select([stream], [], [], 1)[0] and stream.recv(1 << 20):
        pass


def beside_paste(program):
    """The seconds to the typist's screen, for each key while somebody else pastes."""
    found = []
    with tempfile.TemporaryDirectory() as folder, contextlib.ExitStack() as stack:
        port, _ = stack.enter_context(serving(program, config_of(CASE, folder)))
        typist = stack.enter_context(log_in(port, "ann", CASE))
        other = stack.enter_context(log_in(port, "bob", CASE))
        together = first_screens([typist.fileno()])
        other.sendall(b"\x18bpasted\r")
        pasting = multiprocessing.get_context("fork").Process(target=paste, args=[other])
        pasting.start()
        for key in keys(1_000_000):
            together.settle(QUIET, QUIET)
            found.append(together.type_in(typist.fileno(), key, SHOWN).get(typist.fileno(), SHOWN))
            if not pasting.is_alive():
                break
        pasting.join()
    return found


def typed(stream, data, wait=60):
    """Types, and waits until what that paints is there."""
    stream.sendall(data)
    together = Terminals([stream.fileno()])
    together.settle(wait, 0.3)


def start(program):
    """The seconds until a server listens whose journal has so many unsaved texts, and how many it has."""
    with tempfile.TemporaryDirectory() as folder:
        config = config_of(Case(), folder)
        with serving(program, config) as (port, server), log_in(port, "ann", CASE) as stream:
            typed(stream, b"\x18bb0\r" + b"a" * 999 + b"\r")
            typed(stream, b"\x18h\x1bw\x1b>" + b"\x15" + str(LONG // 1000 - 1).encode() + b"\x19")
            typed(stream, b"\x18h\x1bw")
            for number in range(1, BUFFERS - 2):
                typed(stream, f"\x18bb{number}\r".encode() + b"\x19", 5)
            # One text a turn, and a turn lasts 50 ms at most.
            time.sleep(BUFFERS * 0.05 + 5)
            os.kill(server, signal.SIGKILL)
        count = subprocess.run(["sqlite3", str(pathlib.Path(folder, "journal", "journal.sqlite3")), f"SELECT count(*) FROM text WHERE length(body) >= {LONG}"],
                               capture_output=True, text=True, check=False).stdout.strip()
        begun = time.monotonic()
        with serving(program, config):
            return time.monotonic() - begun, count


def told(what, measure):
    try:
        print(f"{what}: {measure()}", flush=True)
    except Missing as lack:
        print(f"{what}: not measured, {lack}", flush=True)


def instructions(plain, keeps):
    first, second = per_key(CASE, plain), per_key(CASE, keeps)
    key = second.whole - second.kept
    return (f"whole server {key / first.whole:.3f} ({first.whole:,.0f} to {key:,.0f}, beside {second.kept:,.0f} of what is kept once a second), "
            f"engine {second.engine / first.engine:.3f} ({first.engine:,.0f} to {second.engine:,.0f}), at most 1.1")


def parts(found):
    found = sorted(found)
    return f"{part(found, 50):,.0f} / {part(found, 99):,.0f} of {len(found)} keys"


def main():
    parser = argparse.ArgumentParser(description=__doc__.splitlines()[0])
    parser.add_argument("--keys", type=int, default=2000)
    parser.add_argument("programs", nargs="*", default=[PROGRAM, KEEPS])
    options = parser.parse_args()
    plain, keeps = options.programs
    gc.disable()
    print(f"load {os.getloadavg()[0]:.1f} on {os.cpu_count()} processors; times in microseconds, 50th / 99th of a hundred")
    told("instructions a typed key, mgd-keep to mgd", lambda: instructions(plain, keeps))
    for name, program in (("mgd", plain), ("mgd-keep", keeps)):
        told(f"{name}: system calls a key", lambda: f"{system_calls(mgd(program)):.1f}")
        for clients in (1, 8):
            told(f"{name}: a key of one of {clients}", lambda: parts(times(mgd(program), clients, options.keys)[0]))
        told(f"{name}: a key beside a paste of 10 MB", lambda: parts(beside_paste(program)))
    told(f"mgd-keep: a start with {BUFFERS} texts of {LONG:,} (at most 3 s)", lambda: "{:.2f} s ({} texts)".format(*start(keeps)))


if __name__ == "__main__":
    main()
