#!/usr/bin/env python3
"""Has each growth of a run refused in turn, and tells each run whose output is not the stored one.

    python3 bench/refused_growth.py [--program PATH] [--first N] [--last N]

The program plays rows of keys at an engine, and where memory is refused to an act it compares what is shown with what a refused act leaves,
and types the keys again (crates/mgs_hostile_tests). So whichever one growth is refused, it has to say the same of each row. It is run once for each
of the blocks that it asks for, over a small library that `cc` compiles and that refuses that one. Behind each row it says how the row came out with
growths that it refused itself: these lines are left out, since a block that is refused beside one of those is the second. `rt run` in
crates/mgs_hostile_tests builds the program. Status 1 where a row came out otherwise, or a run did not end by itself."""
import argparse
import os
import pathlib
import subprocess
import sys
import tempfile

TOP = pathlib.Path(__file__).resolve().parent.parent
CRATE = TOP / "crates/mgs_hostile_tests"
# A run takes some milliseconds.
SECONDS = 60


def rows(output):
    """The lines that tell how rows came out with no growth refused by the program itself."""
    return [line for line in output.splitlines() if not line.startswith(b" ")]


def run(program, library, counted, refused):
    """The status and the output of a run in which this block is refused: none where it is 0."""
    surroundings = {**os.environ, "LD_PRELOAD": library, "COUNT_TO": counted, "REFUSED": str(refused)}
    done = subprocess.run([program], env=surroundings, stdin=subprocess.DEVNULL, capture_output=True, timeout=SECONDS)
    return done.returncode, done.stdout


def main():
    options = argparse.ArgumentParser()
    options.add_argument("--program", default=str(CRATE / "out/mgs_hostile_tests"))
    options.add_argument("--first", type=int, default=1)
    options.add_argument("--last", type=int)
    options = options.parse_args()
    wanted = (0, (CRATE / "stdout").read_bytes())
    wrong = 0
    with tempfile.TemporaryDirectory() as folder:
        library, counted = f"{folder}/refused_growth.so", f"{folder}/count"
        source = str(TOP / "bench/refused_growth.c")
        subprocess.run(["cc", "-shared", "-fPIC", "-O2", "-o", library, source, "-ldl"], check=True)
        if run(options.program, library, counted, 0) != wanted:
            sys.exit("the program does not print what is stored, with all memory that it asks for")
        count = int(pathlib.Path(counted).read_text())
        if count == 0:
            sys.exit("the program asks the C library for no block: one that `rt try` built has an allocator of its own")
        last = min(count, options.last or count)
        for refused in range(options.first, last + 1):
            try:
                status, output = run(options.program, library, counted, refused)
            except subprocess.TimeoutExpired:
                status, output = "no", b""
            if (status, rows(output)) != (wanted[0], rows(wanted[1])):
                wrong += 1
                print(f"block {refused}: status {status}\n{output.decode(errors='replace')}", flush=True)
    print(f"{last + 1 - options.first} of {count} blocks were refused, each in a run of its own: {wrong} runs came out otherwise")
    sys.exit(1 if wrong else 0)


if __name__ == "__main__":
    main()
