"""Plays random scripts with mgd, and compares every screen after every byte with those of plain_editor.py.

    python3 bench/try_scripts.py [--program PATH] [--seed N] [--count N] [--steps N]

A script has up to four buffers with random access lists, owners and texts, and up to three sessions. The first difference of a
script is printed with the keys before it, and the script is left in a file. Status 1 where there was one."""
import argparse
import os
import random
import re
import subprocess
import sys
import tempfile

from plain_editor import ORDER, TABLE, Buffer, World, read_entry

TOP = os.path.dirname(os.path.dirname(os.path.abspath(__file__)))
NAMED_KEYS = {0x00: "C-SPC", 0x09: "TAB", 0x0D: "RET", 0x1B: "ESC", 0x1F: "C-_", 0x20: "SPC", 0x7F: "DEL"}
ARGUMENTS = [b"", b"", b"", b"", b"\x15", b"\x152", b"\x1b3", b"\x150", b"\x15\x15", b"\x1b7"]
ASKING = [b"\x18b", b"\x18b", b"\x18\x06", b"\x18k"]
WINDOWS = [b"\x182", b"\x18o", b"\x180", b"\x181", b"\x18^", b"\x18\x02", b"\x16", b"\x1bv", b"\x18p", b"\x18n", b"\x18g", b"\x18g2\r", b"\x153\x18g"]
RULES = ["acl-list", "acl-insert", "acl-delete", "acl-replace", "set-owner", "set-group", "insert-buffer", "shrink-window", "goto-line"]
WRONG_ENTRIES = ["ALLOW ann x", "deny ann r", "ALLOW", "ALLOW ann r w", "  ALLOW   ann  rw  ", ""]
LETTERS = ["rw", "rwat", "r", "w", "a", "at", "t", "rwatdcCo", "C", "rt"]
MACROS = [b"\x18(", b"\x18(", b"\x18)", b"\x18)", b"\x18e", b"\x18e", b"\x153\x18e", b"\x1bsa\r", b"\x1brb\r", b"\x1bs\r"]
SEARCHING = [b"\x13", b"\x12", b"\x13a", b"\x12b", b"\x13ab\x13", b"\x12b\x12", b"\x13c\x7f", b"\x13\x13", b"\x12\x12", b"\x13\x12", b"\x12\x13\x13",
             b"\x13bE\x7f\x7f\x7f", b"\x12zz\x7f", b"\x13a\r", b"\x12d\r", b"\x13 \x13\x13\x07", b"\x13b\x12\x12\x13", b"\x13d\x0b", b"\x12a\t",
             b"\x13b\x1bf", b"\x13a\x152\x06", b"\x13" + b"a" * 121 + b"\x7f", b"\x7f", b"\r", b"\x07"]
PAST_ASCII = "\u00e9\u00f6\u00c9\u6f22\u5b57\u0301\U0001f600"
REPLACEMENTS = [b"\x1b%a\rxy\r", b"\x1b%ab\r\r", b"\x1b%b\rB\ry", b"\x1b%a\rb\r!", b"\x1b% \r\t\rn", b"\x1b%e\rEe\r", b"\x1b%\r\r",
                b"y", b"yn", b"n", b"\x7f", b"!", b".", b"q", b"\r", b" ", b"z", b"\x07", b"\x18(\x1b%a\rc\r!\x18)", b"\x18e"]


def token(character):
    """The character as a token of a script; None where no token has it."""
    byte = ord(character)
    if byte > 127:
        return "'" + character
    if byte in NAMED_KEYS:
        return NAMED_KEYS[byte]
    if 1 <= byte <= 26:
        return "C-" + chr(byte + 96)
    return "'" + chr(byte) if 33 <= byte <= 126 else None


def text_tokens(text):
    names = {"\n": "RET", "\t": "TAB", " ": "SPC"}
    return " ".join(names.get(c, "'" + c) for c in text)


class Script:
    """A random script, and the screens that it is to print."""

    def __init__(self, seed, steps):
        self.random = random.Random(seed)
        self.world, self.lines, self.screens = World(), [], []
        self.set_up()
        for _ in range(steps):
            self.step()

    def entry(self):
        r = self.random
        who = r.choice(self.world.users + ["OWNER@", "GROUP@", "EVERYONE@", "EVERYONE@"] + ["group:" + g for g in self.world.groups])
        letters = "".join(r.sample(ORDER, r.randint(1, 8))) if r.random() < .6 else r.choice(LETTERS)
        return "%s %s %s" % ("ALLOW" if r.random() < .75 else "DENY", who, letters)

    def text(self):
        r = self.random
        letters = "ab cdE1.\t\n\n  xyZ" + PAST_ASCII * 2 if r.random() < .4 else "ab cd\nE"
        return "".join(r.choice(letters) for _ in range(r.choice([0, 1, 3, 10, 30, 80, 200])))

    def set_up(self):
        r, w = self.random, self.world
        w.users = ["ann", "bob", "cat"]
        self.lines += ["user " + u for u in w.users]
        if r.random() < .5:
            w.groups = {"staff": ["ann", "bob"], "crew": ["cat"]}
            self.lines += ["group staff ann bob", "group crew cat"]
        for name in r.sample(["notes", "names", "secret", "x", "note", "!a~"], r.randint(0, 4)):
            self.buffer(name)
        self.labels = []
        for label in "abc"[:r.randint(1, 3)]:
            user, (rows, cols) = r.choice(w.users), r.choice([(6, 20), (6, 40), (10, 30), (24, 80), (7, 25)])
            self.lines.append("open %s %s %d %d" % (label, user, rows, cols))
            w.open(label, user, rows, cols)
            self.labels.append(label)
        self.show()

    def buffer(self, name):
        r, w = self.random, self.world
        b = Buffer(name, r.choice(w.users), text=self.text())
        self.lines.append("buffer %s %s" % (name, b.owner))
        if w.groups and r.random() < .6:
            b.group = r.choice(list(w.groups))
            self.lines.append("owngroup %s %s" % (name, b.group))
        entries = ["ALLOW OWNER@ rwatdcCo"] if r.random() < .6 else []
        entries += [self.entry() for _ in range(r.choice([0, 1, 2, 3]))]
        for e in entries:
            b.entries.append(read_entry(e))
            self.lines.append("entry %s %s" % (name, e))
        if b.text:
            self.lines.append("text %s %s" % (name, text_tokens(b.text)))
        w.buffers.append(b)

    def show(self):
        for label in self.labels:
            self.lines.append("show " + label)
            self.screens.append((len(self.lines), self.world.screen(label)))

    def step(self):
        label = self.random.choice(self.labels)
        for character in self.keys().decode():
            if token(character) is None:
                continue
            self.lines.append("keys %s %s" % (label, token(character)))
            for byte in character.encode():
                self.world.byte(label, byte)
            self.show()

    def keys(self):
        """A few bytes that make sense together."""
        r = self.random
        if r.random() < .15:
            return r.choice(SEARCHING)
        if r.random() < .15:
            return r.choice(REPLACEMENTS)
        if r.random() < .15:
            return self.past_ascii()
        x = r.random()
        if x < .30:
            return bytes(r.choice(b"abcE .x1\t") for _ in range(r.randint(1, 4)))
        if x < .62:
            return r.choice(ARGUMENTS) + r.choice(list(TABLE))
        if x < .70:
            return self.named(r.choice(ASKING))
        if x < .86:
            return self.command()
        if x < .92:
            return r.choice(WINDOWS)
        if x < .98:
            return r.choice(MACROS)
        return bytes([r.randint(0, 127)])

    def past_ascii(self):
        """Characters past ASCII, where they are taken and where they are not."""
        r = self.random
        typed = "".join(r.choice(PAST_ASCII) for _ in range(r.choice([1, 1, 2, 3, 12]))).encode()
        before = r.choice([b"", b"", b"", b"\x153", b"\x11", b"\x152\x11", b"\x18", b"\x1b", b"\x1b[", b"\x18(", b"\x13", b"\x12", b"\x13\x13", b"\x1bs", b"\x1br",
                           b"\x1b%", b"\x1b%a\r", b"\x18b", b"\x18k", b"\x1bx", b"\x18g", b"\x1bxacl-insert\rALLOW ", b"\x1bxset-owner\r", b"\x1bxset-group\r", b"\x1bx\x1b", b"\x18b\x1b["])
        behind = r.choice([b"", b"", b"\r", b"\r", b"\x7f", b"\x7f\r", b"\t", b"a\r", b"\r\r", b"\x07", b"\x13", b"\x18)\x18e", b"\ry", b"\r!", b"x\r!"])
        return before + typed + behind

    def name(self):
        return self.random.choice([b.name for b in self.world.buffers] + ["new", "n", "zzz"]).encode()

    def named(self, asking):
        r, name = self.random, self.name()
        end = r.choice([b"\r", b"\r", b"\r", b"\t\r", b"\t", b"\x07", b"\x7f\r"])
        return asking + (name[:r.randint(0, len(name))] + end if r.random() < .5 else name + b"\r")

    def command(self):
        r = self.random
        argument = r.choice([b"", b"", b"\x151", b"\x152", b"\x153", b"\x150", b"\x1565"])
        name = r.choice(RULES + [r.choice(self.world.names), "nonsense"])
        keys = argument + b"\x1bx" + name.encode() + b"\r"
        if name in ("acl-insert", "acl-replace"):
            return keys + (self.entry() if r.random() < .8 else r.choice(WRONG_ENTRIES)).encode() + b"\r"
        if name == "set-owner":
            return keys + r.choice([b"ann", b"bob", b"cat", b"eve", b""]) + b"\r"
        if name == "set-group":
            return keys + r.choice([b"staff", b"crew", b"ann", b"eve", b"", b""]) + b"\r"
        if name == "insert-buffer":
            return keys + self.name() + b"\r"
        if name == "goto-line" and not argument:
            return keys + r.choice([b"1", b"2", b"0", b"99", b"x", b"", b"12345678", b"0000003"]) + b"\r"
        return keys

    def source(self):
        return "\n".join(self.lines) + "\n"

    def difference(self, printed):
        """The number of the line whose screen was printed differently, that screen and what stands in its place."""
        at = 0
        for number, screen in self.screens:
            if not printed.startswith(screen, at):
                return number, screen, printed[at:at + len(screen)]
            at += len(screen)
        return None


def report(seed, script, number, expected, printed):
    path = os.path.join(tempfile.gettempdir(), "mgd_script_%d.mgd" % seed)
    with open(path, "w", encoding="utf-8") as file:
        file.write(script.source())
    keys = [line for line in script.lines[:number] if line.startswith("keys")][-12:]
    print("seed %d, line %d of %s, after\n%s\nexpected\n%s\nprinted\n%s" % (seed, number, path, "\n".join(keys), expected, printed))


def main():
    options = argparse.ArgumentParser(description=__doc__.split("\n")[0])
    options.add_argument("--program", default=os.path.join(TOP, "crates", "mgd", "out", "mgd"))
    options.add_argument("--seed", type=int, default=1)
    options.add_argument("--count", type=int, default=100)
    options.add_argument("--steps", type=int, default=40)
    options.add_argument("--write", metavar="FOLDER", help="write the scripts there, and play none")
    options.add_argument("--read", metavar="FILE", help="compare what `rt try --cases` printed of them, and play none")
    chosen = options.parse_args()
    seeds = range(chosen.seed, chosen.seed + chosen.count)
    if chosen.write:
        write_scripts(chosen.write, seeds, chosen)
        return
    printed_cases = cases_of(chosen.read) if chosen.read else None
    played = differ = 0
    for seed in seeds:
        script = Script(seed, chosen.steps)
        if printed_cases is None:
            run = subprocess.run([chosen.program, "replay"], input=script.source().encode(), capture_output=True)
            printed = run.stdout.decode()
        elif seed in printed_cases:
            printed = printed_cases[seed]
        else:
            continue
        played += 1
        found = script.difference(printed)
        if found:
            differ += 1
            report(seed, script, *found)
    print("%d scripts, %d differ" % (played, differ))
    sys.exit(1 if differ else 0)


def write_scripts(folder, seeds, chosen):
    os.makedirs(folder, exist_ok=True)
    for seed in seeds:
        with open(os.path.join(folder, "%06d" % seed), "w", encoding="utf-8") as file:
            file.write(Script(seed, chosen.steps).source())


def cases_of(path):
    with open(path, encoding="utf-8") as file:
        parts = re.split(r"^== (\d+)\n", file.read(), flags=re.M)
    return {int(parts[i]): parts[i + 1] for i in range(1, len(parts), 2) if "run=no-answer" not in parts[i + 1]}


main()
