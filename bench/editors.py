#!/usr/bin/env python3
"""Instructions for each key of mg(1) and jove(1) on a terminal of 24 by 80, beside those of mgd's engine over a server (`served.py`).

Each editor runs under callgrind behind a pseudo terminal: n keys and 2n keys of a case, each typed after the answer to the one before, into
the text that the case has. One that is not installed is passed over. Debian has both, as the packages `mg` and `jove`.

usage: bench/editors.py [PROGRAM]
"""
import dataclasses
import functools
import os
import pathlib
import re
import sys
import tempfile

from count import PROGRAM
from script import Case, bytes_of, prepared, text_of, typed
from served import per_key as per_key_served
from terminals import Missing, Terminals, in_terminal, need

# How long an editor that runs under valgrind is waited for, in seconds: until it has drawn, after a key, and until nothing more comes.
FIRST_DRAWN, KEY_DRAWN, QUIET = 20.0, 5.0, 0.1
# C-x C-c, and what an editor may then have to be told to leave a changed text unsaved.
LEAVE = (b"\x18\x03", b"n", b"y", b"\r", b"yes\r")
EDITORS = {"mg": ["-n"], "jove": []}


def leave(child, terminal, terminals):
    ended = False
    for answer in LEAVE:
        if terminal in terminals.open:
            terminals.type_in(terminal, answer, KEY_DRAWN)
            terminals.settle(QUIET, QUIET)
        ended = os.waitpid(child, os.WNOHANG)[0] != 0
        if ended:
            break
    os.close(terminal)
    if not ended:
        os.waitpid(child, 0)


def run(command, case):
    """Types what a case types, and leaves without saving. The bytes drawn for the keys."""
    child, terminal = in_terminal(command)
    terminals = Terminals([terminal])
    terminals.settle(FIRST_DRAWN, 1.0)

    def play(steps):
        for _, tokens in steps:
            terminals.type_in(terminal, bytes_of(tokens), KEY_DRAWN)
            terminals.settle(QUIET, QUIET)

    play(prepared(case))
    before = terminals.taken[terminal]
    play(typed(case))
    drawn = terminals.taken[terminal] - before
    leave(child, terminal, terminals)
    return drawn


def counted(editor, case):
    """The instructions of one run, and the bytes drawn for its keys."""
    with tempfile.TemporaryDirectory() as folder:
        profile, log, file = (os.path.join(folder, name) for name in ("profile", "log", "busy.txt"))
        if case.text:
            pathlib.Path(file).write_text(text_of(case))
        command = ["valgrind", "--tool=callgrind", f"--callgrind-out-file={profile}", f"--log-file={log}"]
        drawn = run([*command, editor, *EDITORS[editor], file], case)
        return int(re.search(r"Collected : (\d+)", pathlib.Path(log).read_text())[1]), drawn


@functools.cache
def per_key(editor, case):
    """The instructions, and the bytes drawn, for each key of a case."""
    need("valgrind", editor)
    (once, few), (twice, many) = counted(editor, case), counted(editor, dataclasses.replace(case, keys=2 * case.keys))
    return (twice - once) / case.keys, (many - few) / case.keys


def main():
    program, case = sys.argv[1] if len(sys.argv) > 1 else PROGRAM, Case()
    own = None
    try:
        own = per_key_served(case, program).engine
        print(f"mgd: {own:,.0f} instructions a key")
    except Missing as lack:
        print(f"mgd: {lack}")
    for editor in EDITORS:
        try:
            each, drawn = per_key(editor, case)
        except Missing as lack:
            print(f"{editor}: {lack}")
            continue
        beside = f"; mgd has {own / each:.2f} times" if own else ""
        print(f"{editor}: {each:,.0f} instructions and {drawn:.1f} bytes a key{beside}")


if __name__ == "__main__":
    main()
