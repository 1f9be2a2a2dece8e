#!/usr/bin/env python3
"""A case that is played over a server: the instructions for each key, of the whole server and of its engine.

The server runs under valgrind's callgrind; each key is typed a pause after the answer to the one before. The engine is all that is done below
`type_all` of mgs_wire, which hands a session's bytes to it: no sockets, and no writing of answers. A run of 2n keys less one of n, over n.

usage: bench/served.py [--program PATH] [the options of bench/script.py]
"""
import argparse
import contextlib
import dataclasses
import functools
import json
import os
import pathlib
import re
import socket
import subprocess
import tempfile
import threading

from count import PROGRAM
from script import add_options, buffers_of, bytes_of, case_of, opened, prepared, text_of, typed
from terminals import Missing, Terminals, need

ENGINE = r"mgs_wire\b.*\btype_all\b"
# What mgd-keep does once a second: it keeps the texts that were edited.
KEPT = r"mgs_keep\b.*\bkeep_next\b"
LEAVE = b"\x18\x03"
# How long a key's answer is waited for, where it may have none; a login's answer; and the end of a session that left.
ANSWER, LOGIN, END = 0.5, 60, 3600
# The pause between a key's answer and the next key: the server takes a second turn once a socket can be written to, and waits then.
PAUSE = 0.02


def config_of(case, folder):
    """Writes the case's configuration, in which each user's ticket is the user's name. Its path."""
    tables = [f'[[user]]\nname = "{user}"\nticket = "{user}"\n' for user in ("ann", "bob", "cat")]
    for name, owner, entries in buffers_of(case):
        table = f'[[buffer]]\nname = "{name}"\nowner = "{owner}"\nlist = {json.dumps(entries)}\n'
        if name == "busy" and case.text:
            text = pathlib.Path(folder, "busy.txt")
            text.write_text(text_of(case))
            table += f'file = "{text}"\n'
        tables.append(table)
    config = pathlib.Path(folder, "config.toml")
    config.write_text("\n".join(tables))
    return str(config)


def words_of(program, config):
    """What serves a configuration; mgd-keep has its journal beside it."""
    if "keep" not in os.path.basename(program):
        return [program, "serve", config, "0"]
    folder = pathlib.Path(config).with_name("journal")
    folder.mkdir(mode=0o700, exist_ok=True)
    return [program, "serve", str(folder), config, "0"]


def port_said(output):
    """The port of the line that tells it, behind what mgd-keep prints of events; None where there is none."""
    for line in output:
        if found := re.fullmatch(rb"listening 127\.0\.0\.1:(\d+)\n", line):
            return int(found[1])
    return None


def drain(output):
    while output.read1(65536):
        pass


@contextlib.contextmanager
def serving(program, config, wrapper=()):
    """Serves, with the words of a program before it that runs it. The port, and the process."""
    if not os.access(program, os.X_OK):
        raise Missing(f"there is no program {program}; ./mgd prove builds one")
    server = subprocess.Popen([*wrapper, *words_of(program, config)], stdout=subprocess.PIPE, stderr=subprocess.DEVNULL)
    try:
        port = port_said(server.stdout)
        if port is None:
            raise Missing(f"{' '.join([*wrapper, program])} does not serve")
        # What mgd-keep prints of events is to be taken, or it waits.
        threading.Thread(target=drain, args=[server.stdout], daemon=True).start()
        yield port, server.pid
    finally:
        server.terminate()
        # What runs it may end after it, and say what it counted.
        server.wait()


def log_in(port, user, case):
    """A session, whose first screen has come and is still to be read."""
    stream = socket.create_connection(("127.0.0.1", port), LOGIN)
    stream.setsockopt(socket.IPPROTO_TCP, socket.TCP_NODELAY, 1)
    stream.sendall(f"login {user} {user} {case.rows} {case.cols}\n".encode())
    if stream.recv(1, socket.MSG_PEEK) != b"\x1b":
        raise Missing(f"{user} was answered {stream.recv(128)!r}")
    stream.settimeout(None)
    return stream


def play(case, port):
    """Opens the sessions, types, and waits until all that was typed is handled."""
    with contextlib.ExitStack() as stack:
        streams = {label: stack.enter_context(log_in(port, user, case)) for label, user in opened(case)}
        terminals = Terminals(stream.fileno() for stream in streams.values())
        terminals.settle(PAUSE, PAUSE)
        for label, tokens in [*prepared(case), *typed(case)]:
            terminals.type_in(streams[label].fileno(), bytes_of(tokens), ANSWER)
            terminals.settle(PAUSE, PAUSE)
        # A session reads its bytes in order, so it ends after the last key.
        typists = {streams[label].fileno() for label, _ in typed(case)}
        for typist in typists:
            os.write(typist, LEAVE)
        if not terminals.wait_for_end(typists, END):
            raise Missing("the server did not handle all that was typed")


@dataclasses.dataclass(frozen=True)
class Counts:
    engine: float
    whole: float
    kept: float = 0


def number(digits):
    return int(digits.replace(",", ""))


def counted(program, case):
    """The instructions of one run."""
    need("valgrind")
    with tempfile.TemporaryDirectory() as folder:
        profile = os.path.join(folder, "profile")
        with serving(program, config_of(case, folder), ["valgrind", "--tool=callgrind", f"--callgrind-out-file={profile}"]) as (port, _):
            play(case, port)
        listed = subprocess.run(
            ["callgrind_annotate", "--inclusive=yes", "--threshold=100", "--auto=no", profile], capture_output=True, text=True, check=True
        ).stdout
    lines = re.findall(r"^ *([\d,]+) \([ \d.]+%\)  (.*)$", listed, re.MULTILINE)
    total = lambda pattern: sum(number(digits) for digits, name in lines if re.search(pattern, name))
    if not total(ENGINE):
        raise Missing(f"{program} has no function type_all of mgs_wire: it has no names, or was built into another one")
    return Counts(total(ENGINE), total("^PROGRAM TOTALS$"), total(KEPT))


@functools.cache
def per_key(case, program=PROGRAM):
    """The instructions for each key of a case."""
    once = counted(program, case)
    twice = counted(program, dataclasses.replace(case, keys=2 * case.keys))
    return Counts((twice.engine - once.engine) / case.keys, (twice.whole - once.whole) / case.keys, (twice.kept - once.kept) / case.keys)


def main():
    parser = argparse.ArgumentParser(description=__doc__.splitlines()[0])
    parser.add_argument("--program", default=PROGRAM)
    add_options(parser)
    options = parser.parse_args()
    counts = per_key(case_of(options), options.program)
    print(f"{'engine':10} {counts.engine:12,.0f}")
    print(f"{'whole':10} {counts.whole:12,.0f}")


if __name__ == "__main__":
    try:
        main()
    except Missing as lack:
        print(f"not counted: {lack}")
