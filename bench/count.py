#!/usr/bin/env python3
"""Instructions for each key of a case, parted by what they are for.

Counted by valgrind's callgrind over the program that `./mgd` built: a run of 2n keys less a run of n, over n. A function
that was built into another one counts for that one: so `draw` has the comparison of old and new screens, and the walks
along lines for it. `player` is what a script's player does and a server does not: its terminals, the reading of lines.

usage: bench/count.py [--program PATH] [the options of bench/script.py]
"""
import argparse
import collections
import dataclasses
import pathlib
import re
import subprocess
import tempfile

from script import add_options, case_of, script

TOP = pathlib.Path(__file__).resolve().parent.parent
PROGRAM = str(TOP / "crates/mgd/out/mgd")

# The first pattern that a function's name has says its group.
GROUPS = (
    ("player", r"mgs_replay|mgs_script|mgs_keys|mgs_term|mgs_engine::driving|utf8|core::str|read_until"),
    # Rows of cells that are compared, and not names.
    ("draw", r"groups_equal::<i32"),
    ("look-ups", r"Buffers::buffer\b|Buffers::place(d|_of)\b|Buffers::find|groups_equal|indexmap|lookup"),
    ("settle", r"mgs_world::settl|mgs_lines"),
    ("draw", r"mgs_engine::draw|mgs_screen|mgs_grid|itoa"),
    ("paint", r"mgs_paint"),
    ("decide", r"mgs_policy|mgs_acl"),
    ("copies", r"memcpy|memmove|memset"),
    ("memory", r"malloc|free|realloc|grow_amortized"),
    ("act", r"mgs_"),
)
OTHER = "other"


def group_of(function):
    for group, pattern in GROUPS:
        if re.search(pattern, function):
            return group
    return OTHER


def instructions(program, text):
    """The instructions of one run over a script, by group."""
    with tempfile.TemporaryDirectory() as folder:
        profile = pathlib.Path(folder) / "profile"
        source = pathlib.Path(folder) / "script"
        source.write_text(text)
        command = ["valgrind", "--tool=callgrind", f"--callgrind-out-file={profile}", program, "replay"]
        with source.open() as lines:
            subprocess.run(command, stdin=lines, capture_output=True, check=True)
        listed = subprocess.run(
            ["callgrind_annotate", "--threshold=100", "--auto=no", str(profile)],
            capture_output=True, text=True, check=True,
        ).stdout
    counts = collections.Counter()
    for number, function in re.findall(r"^ *([\d,]+) \([ \d.]+%\)  (\S*:.*)$", listed, re.MULTILINE):
        counts[group_of(function)] += int(number.replace(",", ""))
    return counts


def per_key(case, program=PROGRAM):
    """Instructions for each key of a case, by group."""
    once = instructions(program, script(case))
    twice = instructions(program, script(dataclasses.replace(case, keys=2 * case.keys)))
    return {group: (twice[group] - once[group]) / case.keys for group in sorted(once | twice)}


def server_part(counts):
    """What a server would do too."""
    return sum(number for group, number in counts.items() if group != "player")


if __name__ == "__main__":
    parser = argparse.ArgumentParser(description=__doc__.splitlines()[0])
    parser.add_argument("--program", default=PROGRAM)
    add_options(parser)
    options = parser.parse_args()
    counts = per_key(case_of(options), options.program)
    for group, number in sorted(counts.items(), key=lambda part: -part[1]):
        print(f"{group:10} {number:12,.0f}")
    print(f"{'all':10} {sum(counts.values()):12,.0f}")
    print(f"{'no player':10} {server_part(counts):12,.0f}")
