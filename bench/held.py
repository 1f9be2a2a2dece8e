#!/usr/bin/env python3
"""How long one command of one user holds all others: processor seconds of a server, until its answer is whole.

Each row is typed over a server of its own, whose time is read of the system before the last keys of the row and after them. With two programs
each row stands for both, the first before the second.

usage: bench/held.py [--only WORDS] [PROGRAM ..]
"""
import argparse
import contextlib
import dataclasses
import pathlib
import tempfile
import time

from count import PROGRAM
from script import ALL_RIGHTS, Case
from served import log_in, serving
from terminals import Missing, Terminals

MOST = 1_048_576
MILLION = 1_000_000
# A server that has taken less than a tenth of so many seconds has done all that it was sent: its turns go on.
QUIET = 0.3
ALL = 600
C_S, C_R, C_G, C_U, C_X, ESC, RET = b"\x13", b"\x12", b"\x07", b"\x15", b"\x18", b"\x1b", b"\r"
START, END = ESC + b"<", ESC + b">"
PATTERN = b"a" * 110 + b"b"
LONG = b"a" * 119 + b"b"
# A keyboard macro of 505 bytes, which is almost as long as one may be.
MACRO = C_X + b"(" + C_S + PATTERN + C_S * 392 + C_X + b")"


@dataclasses.dataclass(frozen=True)
class Row:
    what: str
    text: str
    before: bytes
    keys: bytes
    viewers: int = 0
    asked: str = ""


ROWS = (
    Row("forty failing C-s of a pattern of 111 on 1,000,000 characters", "a" * MILLION, b"", C_S + PATTERN + C_S * 40, asked="0.4"),
    Row("39,200 failing C-s by one key on 1,000,000 characters", "a" * MILLION, MACRO, C_U + b"100" + C_X + b"e", asked="5"),
    Row("a failing C-s of 120 characters on 1,048,576", "a" * MOST, b"", C_S + LONG, asked="0.01 a search"),
    Row("a failing M-s of 120 characters on 1,048,576", "a" * MOST, ESC + b"s" + LONG, RET, asked="0.01"),
    Row("a failing M-% of 120 characters on 1,048,576", "a" * MOST, ESC + b"%" + LONG + RET + b"x", RET, asked="0.01"),
    Row("an ordinary C-s over 1,000,000 of words", "some words in a line here and the\n" * (MILLION // 34), b"", C_S + b"zebra"),
    Row("an ordinary C-r over 1,000,000 of words", "some words in a line here and the\n" * (MILLION // 34), END, C_R + b"zebra"),
    Row("`!` of 1,048,576 letters", "a" * MOST, ESC + b"%a" + RET + b"b" + RET, b"!", asked="0.4"),
    Row("C-x g 9999999 in 1,048,576 line feeds", "\n" * MOST, C_X + b"g9999999", RET, asked="0.001"),
    Row("C-x = at the end of 1,048,576 line feeds", "\n" * MOST, END + C_X, b"="),
    Row("RET at the start of a line of 1,000,000 with 62 viewers at its end", "a" * MILLION, b"", RET, viewers=62, asked="0.1"),
    Row("a letter there", "a" * MILLION, b"", b"x", viewers=62),
    Row("C-n at the end of a line of 100,000", "a" * 100_000 + "\n" + "b" * 100_000, ESC + b"<\x05", b"\x0e"),
    Row("M-w of 1,048,576 characters", "a" * MOST, START + b"\0" + END + ESC, b"w"),
)


def spent(process):
    """The seconds that a process of one thread had a processor."""
    return int(pathlib.Path(f"/proc/{process}/schedstat").read_text().split()[0]) / 1e9


def settled(process, terminals):
    """Reads all that comes, until the server has taken no time for a while. Its seconds."""
    end = time.monotonic() + ALL
    while time.monotonic() < end:
        before, rest = spent(process), time.monotonic() + QUIET
        while time.monotonic() < rest:
            terminals.take(0.02)
        if spent(process) - before < QUIET / 10:
            return spent(process)
    raise Missing("the server did not come to rest")


def held(program, row):
    """The processor seconds that the last keys of a row take."""
    with tempfile.TemporaryDirectory() as folder, contextlib.ExitStack() as stack:
        text = pathlib.Path(folder, "busy.txt")
        text.write_text(row.text)
        config = pathlib.Path(folder, "config.toml")
        config.write_text(
            '[[user]]\nname = "ann"\nticket = "ann"\n'
            f'[[buffer]]\nname = "busy"\nowner = "ann"\nlist = ["ALLOW OWNER@ {ALL_RIGHTS}"]\nfile = "{text}"\n'
        )
        port, process = stack.enter_context(serving(program, str(config)))
        typist, *viewers = [stack.enter_context(log_in(port, "ann", Case())) for _ in range(1 + row.viewers)]
        terminals = Terminals(stream.fileno() for stream in (typist, *viewers))
        for viewer in viewers:
            viewer.sendall(END)
        typist.sendall(row.before)
        start = settled(process, terminals)
        typist.sendall(row.keys)
        return settled(process, terminals) - start


def main():
    parser = argparse.ArgumentParser(description=__doc__.splitlines()[0])
    parser.add_argument("--only", default="", help="the rows in whose words this stands")
    parser.add_argument("programs", nargs="*", default=[PROGRAM])
    options = parser.parse_args()
    for row in ROWS:
        if options.only in row.what:
            times = ", ".join(f"{held(program, row):.4f}" for program in options.programs)
            print(f"{row.what}: {times} s" + f" (asked {row.asked})" * bool(row.asked), flush=True)


if __name__ == "__main__":
    try:
        main()
    except Missing as lack:
        print(f"not measured: {lack}")
