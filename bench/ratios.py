#!/usr/bin/env python3
"""Pairs of cases, and what is asked of them: ratios of the engine's instructions for each key of a served run, and some other measures.

The engine is what is done below `type_all` (`served.py`). Each row has what is compared, what was found, the two numbers behind it, and what
is asked for. Nothing fails where that is missed; a row that lacks something says what. With more programs each row is counted for all.

usage: bench/ratios.py [--text N] [--only WORDS] [PROGRAM ..]
"""
import argparse
import functools
import pathlib
import re
import subprocess
import tempfile
from dataclasses import dataclass, replace
from typing import Callable

import editors
import latency
from count import PROGRAM
from script import Case
from served import per_key
from terminals import Missing, need

SMALL = 1000
NO_COMMAND = ("C-g",)
TO_AND_FRO = ("C-f", "C-b")
LIMIT = pathlib.Path(__file__).resolve().parent / "limit.c"
# 400 lines of words, and none. The keys leave the point on the first screen, and left of its last column.
LINES = 400
PLAIN = Case(text=LINES * 61, word=5, keys=30)
EMPTY = Case(keys=PLAIN.keys)
MACRO = ("C-x", "'(", "'x", "C-f", "C-x", "')")
HUGE = Case(text=1000000, keys=10)
LONG = Case(text=100000, line=100000)
# Lines of one character, of which an argument and C-k kill many.
SHORT_LINES = Case(text=200000, line=1, tokens=("C-k",))


@dataclass(frozen=True)
class Row:
    what: str
    measure: Callable  # of a program: what was found, and the numbers behind it
    asked: float = None
    is_least: bool = False  # what is asked for is the least, and not the most

    def tell(self, program):
        try:
            found, *numbers = self.measure(program)
        except Missing as lack:
            return f"{self.what}: not measured, {lack}"
        behind = f" ({' to '.join(f'{number:,.0f}' for number in numbers)})" if numbers else ""
        bound = f"at {'least' if self.is_least else 'most'} {self.asked:g}" if self.asked else "no bound"
        return f"{self.what}: {found:,.2f}{behind}, {bound}"


def to(large, small):
    return large / small, large, small


def engine(case, program):
    return per_key(case, program).engine


def pair(what, case, other, asked):
    """What is compared, a case, the one it is compared with, and the ratio asked for."""
    return Row(what, lambda program: to(engine(case, program), engine(other, program)), asked)


def added(what, case, other, asked):
    """What a case costs more than another one, to that one."""
    return Row(what, lambda program: to(engine(case, program) - engine(other, program), engine(other, program)), asked)


def beside_mg(what, case, asked, part="engine"):
    return Row(what, lambda program: to(getattr(per_key(case, program), part), editors.per_key("mg", case)[0]), asked)


@functools.cache
def limit(lines):
    """The instructions that limit.c takes for each key, typed at the start of so many lines."""
    need("cc", "valgrind")
    with tempfile.TemporaryDirectory() as folder:
        program, counts = f"{folder}/limit", []
        subprocess.run(["cc", "-O2", "-o", program, LIMIT], check=True)
        for keys in (PLAIN.keys, 2 * PLAIN.keys):
            command = ["valgrind", "--tool=callgrind", f"--callgrind-out-file={folder}/profile", program, str(keys), str(lines)]
            said = subprocess.run(command, capture_output=True, text=True, check=True).stderr
            counts.append(int(re.search(r"Collected : (\d+)", said)[1]))
    return (counts[1] - counts[0]) / PLAIN.keys


def idle_connection(program):
    """What one of 63 idle connections on another buffer costs the whole server, for each key."""
    many, none = (per_key(case, program).whole for case in (replace(PLAIN, others=63), PLAIN))
    return (many - none) / 63, many, none


def failing_search(program):
    """What a search that finds nothing costs, for each character that it passes."""
    case = Case(text=100000, keys=10, tokens=("C-s", "'q", "C-g"))
    twice, once = (engine(each, program) for each in (replace(case, text=2 * case.text), case))
    return (twice - once) / case.text, twice, once


def pasting(program):
    return to(latency.pasted(program, 64), latency.pasted(program, 1))


def kills(count):
    """C-k, where so many characters were killed in a row, a line of one and its line feed in turn. An argument kills most of them at once."""
    lines, before = count // 2, ()
    while lines > 0:
        times = min(lines, 9999)
        before += (*(f"M-{digit}" for digit in str(times)), "C-k")
        lines -= times
    return replace(SHORT_LINES, before=before)


def rows(large):
    for place in ("start", "middle", "end"):
        for what, tokens in (("typing", ("'x",)), ("a step on and back", TO_AND_FRO)):
            case = Case(text=large, place=place, tokens=tokens)
            # The last place has no character after it to step over.
            if place == "end" and tokens == TO_AND_FRO:
                case = replace(case, tokens=TO_AND_FRO[::-1])
            yield pair(f"{what} at the {place}, text of {large} to {SMALL}", case, replace(case, text=SMALL), 1.5)
    yield pair("typing at the start of a line of 100000 to 1000", LONG, replace(LONG, text=1000), 1.5)
    alone, idle, many = Case(), Case(tokens=NO_COMMAND), Case(keys=3000)
    yield pair("typing, 63 idle on another buffer to none", replace(alone, others=63), alone, 1.5)
    yield pair("typing, 63 idle on the same buffer to none", replace(alone, same=63), alone, None)
    yield pair("no command, 63 idle on the same buffer to none", replace(idle, same=63), idle, 2.0)
    yield beside_mg("engine to mg, typing", PLAIN, 0.4)
    yield beside_mg("engine to mg, C-f", replace(PLAIN, tokens=("C-f",)), 0.5)
    yield beside_mg("engine to mg, M-f", replace(PLAIN, tokens=("M-f",)), 0.5)
    yield beside_mg("engine to mg, C-x e of two commands", replace(PLAIN, keys=15, before=MACRO, tokens=("C-x", "'e")), 0.6)
    yield Row("engine to bench/limit.c, typing into an empty text", lambda program: to(engine(EMPTY, program), limit(0)), 7)
    yield Row("engine to bench/limit.c, typing in front of a line", lambda program: to(engine(PLAIN, program), limit(LINES)), 5)
    yield beside_mg("whole server to mg, typing into an empty text with pauses", EMPTY, 0.75, "whole")
    yield Row("system calls a key, without viewers", lambda program: (latency.system_calls(latency.mgd(program)),), 3)
    yield Row("an idle connection, instructions a key", idle_connection, 60)
    yield added("a viewer of the same rows to the typist", replace(PLAIN, same=1), PLAIN, 0.3)
    yield added("a viewer elsewhere in the text to the typist", replace(PLAIN, elsewhere=1), PLAIN, 0.1)
    yield pair("typing, 63 marks elsewhere in the text to none", replace(PLAIN, left=63), PLAIN, 1.3)
    yield pair("two typists at both ends of 1000000, to both at the start", replace(HUGE, second="end"), replace(HUGE, second="start"), 25)
    yield pair("typing at the end of a line of 100000, to its start", replace(LONG, place="end"), LONG, 1.5)
    down = Case(text=160, line=80, keys=10, before=("C-e",), tokens=("C-n", "C-p"))
    yield pair("C-n and C-p at the end of a line of 100000, to one of 80", replace(down, text=200000, line=100000), down, 3)
    yield pair("a typed key by a list of 64 entries, to one of 1", replace(PLAIN, entries=64), PLAIN, 1.3)
    yield pair("3000 keys in one line, to 300", many, replace(many, keys=300), 1.3)
    yield Row("a search that finds nothing, instructions a character", failing_search, 10)
    yield pair("C-k after 80000 in a row, to 1000", kills(80000), kills(1000), 2)
    yield Row("64 sessions pasting into one text, keys a second of the server, to one", pasting, 0.06, True)
    listed = replace(PLAIN, listings=1)
    yield pair("one viewer of a listing of 256 buffers, to one of 2", replace(listed, buffers=256), listed, 3)


def main():
    parser = argparse.ArgumentParser(description=__doc__.splitlines()[0])
    parser.add_argument("--text", type=int, default=100000)
    parser.add_argument("--only", default="", help="the rows that have these words")
    parser.add_argument("programs", nargs="*", default=[PROGRAM])
    options = parser.parse_args()
    for row in rows(options.text):
        if options.only in row.what:
            for program in options.programs:
                print(row.tell(program), flush=True)


if __name__ == "__main__":
    main()
