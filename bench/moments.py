"""The texts of one person's buffers, moment by moment: what the keys that were typed make of them after each byte, by plain_editor.py, and
which of these moments a screen has shown, and when. Nobody else touches these buffers."""
import time

from plain_editor import Buffer, Entry, World

USERS = ["ann", "bob", "cat"]
WORDS = "a list of words that are pasted in lines and edited again".split()


class Person:
    """Somebody at a terminal, and a plain account of what is on it."""

    def __init__(self, name, terminal, chance):
        self.name, self.terminal, self.chance = name, terminal, chance
        self.names = [f"{name}{letter}" for letter in "123"]
        self.world = World()
        self.world.users = USERS
        self.world.open(name, name, terminal.rows, terminal.cols)
        self.typed = 0
        self.number = 0
        # From which byte on the texts are as they are.
        self.moments = [(0, {})]
        # When which byte's screen was there.
        self.shown = []

    def texts(self):
        return {buffer.name: buffer.text for buffer in self.world.buffers}

    def rows(self):
        return [line[1:-1].rstrip() for line in self.world.screen(self.name).splitlines()[1:-1]]

    def is_shown(self, terminal):
        return [terminal.shows(row) for row in range(1, terminal.rows + 1)] == self.rows()

    def account(self, keys):
        """What is there after each of these bytes."""
        for byte in keys.encode():
            self.world.byte(self.name, byte)
            self.typed += 1
            texts = self.texts()
            if texts != self.moments[-1][1]:
                self.moments.append((self.typed, texts))

    def of(self, name, first, last):
        """The texts that a buffer had from one byte on until another one; None where it was not there."""
        begun = max(at for at, _ in self.moments if at <= first)
        return [texts.get(name) for at, texts in self.moments if begun <= at <= last]

    def seen_until(self, moment):
        """The last byte whose screen was there by then."""
        return max((byte for at, byte in self.shown if at <= moment), default=0)

    def paste(self):
        chosen = self.chance.choices(WORDS, k=self.chance.choice([5, 50, 300]))
        return "".join(word + self.chance.choice("   \r") for word in chosen)

    def keys(self):
        """A few commands that make sense together."""
        chance = self.chance
        self.number += 1
        return chance.choice([
            lambda: f"{self.number} " * 5,
            self.paste,
            self.paste,
            lambda: "\x1b<\x1b%" + chance.choice("aeio") + "\r" + chance.choice(["", "E", "uu"]) + "\r!",
            lambda: "\x18(\x01" + chance.choice("xyz") + "\x0e\x18)\x15" + str(chance.randint(2, 40)) + "\x18e",
            lambda: "\x1b<" + "\x0b" * chance.randint(1, 9) + "\x1b>\x19",
            lambda: "\x1b\x7f" * chance.randint(1, 9),
            lambda: "\x1f" * chance.randint(1, 60),
            lambda: "\x1b>\x00\x1b<\x17" + chance.choice(["", "\x19\x19"]),
            lambda: f"\x18b{chance.choice(self.names)}\r",
            lambda: f"\x18b{chance.choice(self.names)}\r",
            lambda: f"\x18k{chance.choice(self.names)}\r",
        ])()

    def step(self, killed, patience):
        """Types something, and waits until its screen is there, or the server is not."""
        keys = self.keys()
        self.account(keys)
        self.terminal.send(keys.encode())
        if self.terminal.read_until(lambda seen: self.is_shown(seen) or killed.is_set(), patience) and self.is_shown(self.terminal):
            self.shown.append((time.time(), self.typed))
            return True
        return killed.is_set()


def rows_of(name, text, rows, cols):
    """What a terminal shows of a text, all but its mode line and its last row."""
    world = World()
    world.users = [name]
    world.buffers = [Buffer("text", name, [Entry("ALLOW", "OWNER@", "rt")], text)]
    world.open(name, name, rows, cols)
    return [line[1:-1].rstrip() for line in world.screen(name).splitlines()[1:rows - 1]]
