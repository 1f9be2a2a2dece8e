#!/usr/bin/env python3
"""Cases that are counted: ann types into the buffer `busy`, while sessions of others, and of her own, are open.

A case is played as a script for `mgd replay`, which this program writes, or over a server (`served.py`). The keys are measured against a run
of twice as many, so all that comes before them falls out. Without `place` the point stays at the text's start.

usage: bench/script.py [--keys N] [--text N] [--line N] [--word N] [--place start|middle|end] [--same N] [--elsewhere N] [--left N]
                       [--others N] [--listings N] [--buffers N] [--second start|middle|end] [--rows N] [--cols N] [--entries N]
                       [--before TOKEN ..] [--tokens TOKEN ..]
"""
import argparse
import dataclasses

# The most that an argument before a command says.
MOST_TIMES = 9999
PLACES = ("start", "middle", "end")
ALL_RIGHTS = "rwatdcCo"
NAMED = {"RET": b"\r", "TAB": b"\t", "SPC": b" ", "ESC": b"\x1b", "DEL": b"\x7f", "C-SPC": b"\0", "C-_": b"\x1f"}


@dataclasses.dataclass(frozen=True)
class Case:
    """What is typed, and over what."""

    keys: int = 40  # how many times the tokens are sent
    text: int = 0  # characters of the buffer, line feeds included
    line: int = 60  # characters of each line, its line feed not included
    word: int = 0  # letters before each space of a line; 0: it has none
    place: str = "start"  # where the point is at first
    same: int = 0  # idle sessions whose windows show the same buffer
    elsewhere: int = 0  # idle sessions whose windows show the end of the same buffer
    left: int = 0  # idle sessions whose windows left the end of the same buffer, and have marks there
    others: int = 0  # idle sessions whose windows show another one
    listings: int = 0  # idle sessions whose windows show the list of buffers
    buffers: int = 2  # the buffers of that list
    second: str = ""  # where a second session types the same tokens in turn; "": there is none
    rows: int = 24
    cols: int = 80
    entries: int = 1  # of the access list, of which the last grants
    before: tuple = ()  # what is typed once before
    tokens: tuple = ("'x",)


def text_of(case):
    """The text of the buffer."""
    lines, left = [], case.text
    while left > 0:
        characters = min(case.line, left)
        feed = left > characters
        words = ("x" * case.word + " ") * (characters // (case.word + 1) + 1) if case.word else "x" * characters
        lines.append(words[:characters] + "\n" * feed)
        left -= characters + feed
    return "".join(lines)


def text_lines(case):
    """`text` lines that fill the buffer."""
    for line in text_of(case).splitlines(keepends=True):
        words = " SPC ".join("'" + word if word else "" for word in line.rstrip("\n").split(" "))
        yield " ".join(["text busy", *words.split(), *["RET"] * line.endswith("\n")])


def buffers_of(case):
    """The buffers in their order: name, owner, entries. A session shows the first one whose attributes its user may read: bob shows `busy`,
    and cat, who may not, shows `calm`. ann sees all of them in a list of buffers."""
    busy = ["ALLOW cat a"] * (case.entries - 1)
    if case.same or case.elsewhere or case.left:
        busy.append("ALLOW bob rt")
    yield "busy", "ann", [*busy, f"ALLOW OWNER@ {ALL_RIGHTS}"]
    yield "calm", "cat", [f"ALLOW OWNER@ {ALL_RIGHTS}", *["ALLOW ann t"] * (case.listings > 0)]
    for number in range(2, case.buffers):
        yield f"more-{number}", "ann", [f"ALLOW OWNER@ {ALL_RIGHTS}"]


def opened(case):
    """The sessions in their order: label, user."""
    yield "a", "ann"
    if case.second:
        yield "b", "ann"
    bobs = ("s", "bob", case.same), ("e", "bob", case.elsewhere), ("f", "bob", case.left)
    for letter, user, count in (*bobs, ("o", "cat", case.others), ("l", "ann", case.listings)):
        yield from ((f"{letter}{number}", user) for number in range(count))


def motions(case, place):
    """Tokens that take a point from the text's start to its place, some at a time."""
    left = {"start": 0, "middle": case.text // 2, "end": case.text}[place]
    while left > 0:
        times = min(MOST_TIMES, left)
        yield [f"M-{digit}" for digit in str(times)] + ["C-f"]
        left -= times


def prepared(case):
    """What the sessions type first: label, tokens."""
    for label, place in (("a", case.place), ("b", case.second or "start")):
        yield from ((label, tokens) for tokens in motions(case, place))
    yield from ((f"e{number}", ["M->"]) for number in range(case.elsewhere))
    yield from ((f"f{number}", ["M->", "C-x", "'b", "'bobs", "RET"]) for number in range(case.left))
    yield from ((f"l{number}", ["C-x", "C-b"]) for number in range(case.listings))
    if case.before:
        yield "a", case.before


def typed(case):
    """What is measured: label, tokens."""
    return [(label, case.tokens) for label in ("a", "b")[: 2 if case.second else 1]] * case.keys


def script(case):
    """The lines of the case."""
    lines = ["user ann", "user bob", "user cat"]
    for name, owner, entries in buffers_of(case):
        lines += [f"buffer {name} {owner}", *(f"entry {name} {entry}" for entry in entries)]
    lines += text_lines(case)
    lines += [f"open {label} {user} {case.rows} {case.cols}" for label, user in opened(case)]
    lines += [f"keys {label} {' '.join(tokens)}" for steps in (prepared(case), typed(case)) for label, tokens in steps]
    return "\n".join(lines) + "\n"


def bytes_of(tokens):
    """The bytes that tokens send."""
    return b"".join(byte_of(token) for token in tokens)


def byte_of(token):
    if token in NAMED:
        return NAMED[token]
    if token.startswith("'"):
        return token[1:].encode()
    kind, key = token[:2], token[2:]
    if kind == "M-":
        return b"\x1b" + NAMED.get(key, key.encode())
    if kind == "C-" and len(key) == 1 and "a" <= key <= "z":
        return bytes([ord(key) - 96])
    raise ValueError(f"{token} is no token of keys")


def add_options(parser):
    """The options that a case is read from."""
    for field in dataclasses.fields(Case):
        option = f"--{field.name}"
        if isinstance(field.default, tuple):
            parser.add_argument(option, nargs="+", default=field.default)
        elif field.name in ("place", "second"):
            parser.add_argument(option, choices=PLACES, default=field.default)
        else:
            parser.add_argument(option, type=int, default=field.default)


def case_of(options):
    values = {field.name: getattr(options, field.name) for field in dataclasses.fields(Case)}
    return Case(**{name: tuple(value) if isinstance(value, list) else value for name, value in values.items()})


if __name__ == "__main__":
    parser = argparse.ArgumentParser(description=__doc__.splitlines()[0])
    add_options(parser)
    print(script(case_of(parser.parse_args())), end="")
