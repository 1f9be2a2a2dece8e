"""A second, plain account of the editor, written from the commands' descriptions and not from the program: a world, the bytes of its
sessions, and the screens that they see. It knows no terminal, no bytes of paints and no want of memory. `try_scripts.py` plays
random scripts against it."""
import unicodedata

RIGHTS = [("r", "READ_DATA"), ("w", "WRITE_DATA"), ("a", "APPEND_DATA"), ("t", "READ_ATTRIBUTES"), ("d", "DELETE"),
          ("c", "READ_ACL"), ("C", "WRITE_ACL"), ("o", "WRITE_OWNER")]
ORDER = "".join(x for x, _ in RIGHTS)
NAME = dict(RIGHTS)
LIMIT = 1048576


class Fault(Exception):
    def __init__(self, text, keep=False):
        self.text = text
        self.keep = keep      # the kind stays (undo)


class Quit(Exception):
    pass


class Entry:
    def __init__(self, kind, who, letters):
        self.kind, self.who, self.letters = kind, who, "".join(x for x in ORDER if x in letters)

    def text(self):
        return "%s %s %s" % (self.kind, self.who, self.letters)


def read_entry(text):
    words = [w for w in text.split(" ") if w]
    if len(words) < 1 or words[0] not in ("ALLOW", "DENY"):
        return "Kind"
    if len(words) < 2 or not good_who(words[1]):
        return "Who"
    if len(words) < 3 or any(x not in ORDER for x in words[2]):
        return "Letters"
    if len(words) > 3:
        return "Trailing"
    return Entry(words[0], words[1], words[2])


def good_user(name):
    return 1 <= len(name) <= 32 and all(x in "abcdefghijklmnopqrstuvwxyz0123456789-_" for x in name)


def good_who(who):
    if who in ("OWNER@", "GROUP@", "EVERYONE@"):
        return True
    if who.startswith("group:"):
        return good_user(who[6:])
    return good_user(who)


def good_name(name):
    return 1 <= len(name) <= 32 and all(33 <= ord(x) <= 126 for x in name)


class Buffer:
    def __init__(self, name, owner, entries=None, text=""):
        self.name, self.owner, self.group, self.entries, self.text = name, owner, None, entries or [], text
        self.items, self.serial, self.modified, self.file = {}, 0, False, False


class Window:
    def __init__(self, shows, height, point=0, mark=None, top=0, row=0):
        self.shows, self.height, self.point, self.mark, self.top, self.row = shows, height, point, mark, top, row

    def buffer(self):
        return self.shows[1] if self.shows and self.shows[0] == "buffer" else None

    def subject(self):
        return self.shows[1] if self.shows and self.shows[0] in ("buffer", "acl") else None

    def copy(self, height):
        return Window(self.shows, height, self.point, self.mark, self.top, self.row)


def is_word(c):
    return c.isascii() and c.isalnum()


def white(c):
    return c in " \t"


def sequence(data):
    """The character that these bytes are in UTF-8; "" where they are its first ones, and None where they are none."""
    try:
        return data.decode()
    except UnicodeDecodeError as fault:
        return "" if fault.reason == "unexpected end of data" else None


def is_within(keys):
    """Whether the bytes of a character are half read, also behind C-q."""
    return keys.lstrip(b"\x11")[:1] > b"\x7f"


class Session:
    def __init__(self, user, rows, cols):
        self.user, self.rows, self.cols = user, rows, cols
        self.windows, self.sel, self.places = [], 0, {}
        self.kill, self.pattern, self.fill = "", "", 72
        self.macro, self.recording, self.playing = [], False, False
        self.echo, self.arg, self.keys, self.kind = "", None, b"", ("other",)
        self.mode = ("plain",)
        self.ended = None

    def window(self):
        return self.windows[self.sel]


TABLE = {
    b"\r": "newline", b"\x06": "forward-char", b"\x02": "backward-char", b"\x0f": "open-line", b"\n": "newline-and-indent",
    b"\x01": "beginning-of-line", b"\x05": "end-of-line", b"\x0e": "next-line", b"\x10": "previous-line", b"\x16": "scroll-up",
    b"\x1bv": "scroll-down", b"\x0c": "recenter", b"\x1b<": "beginning-of-buffer", b"\x1b>": "end-of-buffer",
    b"\x1bf": "forward-word", b"\x1bb": "backward-word", b"\x1b}": "forward-paragraph", b"\x1b{": "backward-paragraph",
    b"\x18=": "what-cursor-position", b"\x00": "set-mark-command", b"\x18\x18": "exchange-point-and-mark",
    b"\x18h": "mark-whole-buffer", b"\x04": "delete-char", b"\x7f": "delete-backward-char", b"\x0b": "kill-line",
    b"\x1bd": "kill-word", b"\x1b\x7f": "backward-kill-word", b"\x17": "kill-region", b"\x1bw": "copy-region-as-kill",
    b"\x19": "yank", b"\x1f": "undo", b"\x18u": "undo", b"\x14": "transpose-chars", b"\x1b~": "not-modified",
    b"\x1b ": "just-one-space", b"\x1b\\": "delete-horizontal-space", b"\x18\x0f": "delete-blank-lines", b"\x1b^": "join-line",
    b"\x1bu": "upcase-word", b"\x1bl": "downcase-word", b"\x1bc": "capitalize-word", b"\x18\x15": "upcase-region",
    b"\x18\x0c": "downcase-region", b"\x1bq": "fill-paragraph", b"\x18f": "set-fill-column", b"\x18\x13": "save-buffer",
    b"\x18b": "switch-to-buffer", b"\x18\x06": "find-file", b"\x18k": "kill-buffer", b"\x18\x02": "list-buffers",
    b"\x180": "delete-window", b"\x181": "delete-other-windows", b"\x182": "split-window-vertically", b"\x18o": "other-window",
    b"\x18n": "next-window", b"\x18p": "previous-window", b"\x18^": "enlarge-window", b"\x1bx": "execute-extended-command",
    b"\x18\x03": "save-buffers-kill-emacs", b"\x07": "keyboard-quit", b"\x18g": "goto-line",
    b"\x13": "isearch-forward", b"\x12": "isearch-backward", b"\x1bs": "search-forward", b"\x1br": "search-backward", b"\x18(": "start-kbd-macro", b"\x18)": "end-kbd-macro",
    b"\x18e": "call-last-kbd-macro", b"\x1b%": "query-replace",
    b"\x1b[A": "previous-line", b"\x1b[B": "next-line", b"\x1b[C": "forward-char", b"\x1b[D": "backward-char",
}
KEYLESS = ["insert-buffer", "shrink-window", "acl-list", "acl-insert", "acl-delete", "acl-replace", "set-owner", "set-group"]
UNNAMED = ["execute-extended-command", "start-kbd-macro", "end-kbd-macro", "call-last-kbd-macro", "quoted-insert"]


class World:
    def __init__(self):
        self.users, self.groups, self.buffers, self.sessions = [], {}, [], {}
        self.table = TABLE
        self.names = sorted(set(x for x in self.table.values() if x not in UNNAMED) | set(KEYLESS))

    # RIGHTS
    def matches(self, e, b, user):
        if e.who == "EVERYONE@":
            return True
        if e.who == "OWNER@":
            return user == b.owner
        if e.who == "GROUP@":
            return user in self.groups.get(b.group, [])
        if e.who.startswith("group:"):
            return user in self.groups.get(e.who[6:], [])
        return e.who == user

    def decide(self, b, user, wanted):
        wanted = [x for x in ORDER if x in wanted]
        decider = {}
        for x in wanted:
            for n, e in enumerate(b.entries, 1):
                if x in e.letters and self.matches(e, b, user):
                    decider[x] = (n, e)
                    break
        denied = [(n, x) for x, (n, e) in decider.items() if e.kind == "DENY"]
        if denied:
            least = min(n for n, _ in denied)
            bit = [x for x in ORDER if (least, x) in denied][0]
            return ("denied", least, bit)
        missing = [x for x in wanted if x not in decider]
        if missing:
            return ("none", None, missing[0])
        return None

    def may(self, b, user, x):
        return self.decide(b, user, x) is None

    def need(self, b, user, wanted):
        d = self.decide(b, user, wanted)
        if d:
            if d[0] == "denied":
                raise Fault("Denied: entry %d denies %s" % (d[1], NAME[d[2]]))
            raise Fault("Denied: no entry grants %s" % NAME[d[2]])

    def find(self, name):
        for b in self.buffers:
            if b.name == name:
                return b
        return None

    # OPEN
    def open(self, label, user, rows, cols):
        if user not in self.users:
            return "1 NoUser"
        if not (6 <= rows <= 64 and 20 <= cols <= 160):
            return "2 Size"
        s = Session(user, rows, cols)
        shows = None
        for b in self.buffers:
            if self.may(b, user, "t"):
                shows = ("buffer", b)
                break
        s.windows = [Window(shows, rows - 2)]
        self.sessions[label] = s
        self.settle()
        return None

    # EDITS
    def edit(self, b, a, z, put):
        if a == z and not put:
            return
        if len(b.text) - (z - a) + len(put) > LIMIT:
            raise Fault("Buffer full")
        removed = b.text[a:z]
        b.text = b.text[:a] + put + b.text[z:]
        b.serial += 1
        b.items[b.serial] = (a, removed, len(put))
        b.items.pop(b.serial - 1000, None)
        b.modified = True

        def shift(m):
            return m if m is None or m <= a else a if m < z else m - (z - a) + len(put)
        for s in self.sessions.values():
            if s.ended:
                continue
            for w in s.windows:
                if w.buffer() is b:
                    w.point, w.mark, w.top = shift(w.point), shift(w.mark), shift(w.top)
            if b in s.places:
                p, m = s.places[b]
                s.places[b] = (shift(p), shift(m))
            if s.mode[0] in ("search", "replace") and s.mode[1]["buffer"] is b:
                st = s.mode[1]
                st["anchor"] = shift(st["anchor"])
                st["origin"] = shift(st["origin"])

    def full(self, b, a, z, put):
        if (a != z or put) and len(b.text) - (z - a) + len(put) > LIMIT:
            raise Fault("Buffer full")

    # SETTLING
    def settle(self):
        for s in self.sessions.values():
            if s.ended:
                continue
            for w in s.windows:
                b = w.buffer()
                if b and self.may(b, s.user, "r"):
                    line = b.text.count("\n", 0, w.point)
                    top = b.text.count("\n", 0, w.top)
                    if not (top <= line < top + w.height):
                        w.top = line_start_of(b.text, max(0, line - w.height // 2))

    # KEYS
    def byte(self, label, byte):
        s = self.sessions[label]
        if s.ended:
            return
        s.echo = ""
        if s.recording:
            if len(s.macro) >= 512:
                s.recording, s.macro = False, []
                s.echo, s.kind = "Macro too long", ("other",)
                self.settle()
                return
            s.macro.append(byte)
        try:
            self.handle(s, byte)
        except Quit:
            s.ended = "Quit"
        self.settle()

    def handle(self, s, byte):
        """True: the play of a macro goes on."""
        m = s.mode[0]
        if m == "plain":
            return self.key(s, byte)
        if m == "prompt":
            return self.prompt(s, byte)
        if m == "search":
            return self.search(s, byte)
        return self.replace(s, byte)

    def fail(self, s, f):
        s.echo = f.text
        s.arg, s.keys, s.mode = None, b"", ("plain",)
        if not (f.keep and s.kind[0] == "undo"):
            s.kind = ("other",)
        return False

    def character(self, s, keys, byte):
        """What a byte makes of the keys before it: the character that it ends, "" where that goes on; else none."""
        return sequence((keys + bytes([byte])).lstrip(b"\x11")) if is_within(keys) or keys in (b"", b"\x11") else None

    def unbound(self, s):
        """Typed bytes are no character: the mode stays."""
        s.echo, s.keys, s.kind = "Key not bound", b"", ("other",)
        return False

    def key(self, s, byte):
        keys = s.keys
        if (is_within(keys) or byte > 127) and byte != 7:
            found = self.character(s, keys, byte)
            if found == "":
                s.keys = keys + bytes([byte])
                return True
            if found is None:
                return self.fail(s, Fault("Key not bound"))
            s.keys, arg, s.arg = b"", s.arg, None
            return self.run(s, "self-insert-command", arg and arg[0], found)
        if keys == b"\x11":
            s.keys, arg, s.arg = b"", s.arg, None
            return self.run(s, "self-insert-command", arg and arg[0], chr(byte))
        if byte == 7:
            s.keys, s.arg = b"", None
            return self.run(s, "keyboard-quit", None)
        if byte == 27 and not keys.endswith(b"\x1b"):
            s.keys = keys + b"\x1b"
            return True
        if not keys and byte == 21:
            s.arg = (min(9999, s.arg[0] * 4), False) if s.arg else (4, False)
            return True
        if 48 <= byte <= 57 and ((not keys and s.arg) or keys == b"\x1b"):
            d = byte - 48
            s.arg = (min(9999, s.arg[0] * 10 + d) if s.arg and s.arg[1] else d, True)
            s.keys = b""
            return True
        if not keys and byte == 17:
            s.keys = b"\x11"
            return True
        word = keys + bytes([byte])
        if word in self.table:
            s.keys, arg, s.arg = b"", s.arg, None
            return self.run(s, self.table[word], arg[0] if arg else None)
        if any(k.startswith(word) for k in self.table):
            s.keys = word
            return True
        s.keys = b""
        if len(word) == 1 and (32 <= byte <= 126 or byte == 9):
            arg, s.arg = s.arg, None
            return self.run(s, "self-insert-command", arg[0] if arg else None, chr(byte))
        return self.fail(s, Fault("Key not bound"))

    PROMPTS = {"switch-to-buffer": "Switch to buffer: ", "find-file": "Find file: ", "kill-buffer": "Kill buffer: ",
               "insert-buffer": "Insert buffer: ", "execute-extended-command": "M-x ", "acl-insert": "Entry: ", "acl-replace": "Entry: ",
               "set-owner": "Owner: ", "set-group": "Group: ", "search-forward": "Search: ", "search-backward": "Search: ", "query-replace": "Query replace: ", "goto-line": "Goto line: "}

    def run(self, s, name, n, typed=None):
        if name == "call-last-kbd-macro":
            return self.play(s, 1 if n is None else n)
        if name in self.PROMPTS and not (name == "goto-line" and n is not None):
            s.arg, s.keys, s.kind = None, b"", ("other",)
            s.mode = ("prompt", {"command": name, "text": self.PROMPTS[name], "input": "", "n": n, "esc": b""})
            return True
        return self.act(s, name, n, typed)

    def act(self, s, name, n, typed=None, **more):
        before = (s.kind,)
        try:
            go = self.command(s, name, n, typed, **more)
            s.arg, s.keys = None, b""
            return go is not False
        except Fault as f:
            s.kind = before[0]
            return self.fail(s, f)

    # PROMPTS
    def prompt(self, s, byte):
        p = s.mode[1]
        if byte == 7:
            return self.fail(s, Fault("Quit"))
        if is_within(p["esc"]) or byte > 127:
            found = self.character(s, p["esc"], byte)
            p["esc"] = p["esc"] + bytes([byte]) if found == "" else b""
            if found is None:
                return self.unbound(s)
            p["input"] = (p["input"] + found)[:120]
            return True
        if p["esc"]:
            if byte == 27 and not p["esc"].endswith(b"\x1b"):
                p["esc"] += b"\x1b"
            elif byte == 91 and p["esc"] == b"\x1b":
                p["esc"] = b"\x1b["
            else:
                p["esc"] = b""
            return True
        if byte == 13:
            return self.answer(s, p)
        if byte == 127:
            p["input"] = p["input"][:-1]
        elif byte == 9:
            names = self.candidates(s, p)
            names = [x for x in names if x.startswith(p["input"])]
            if not names:
                s.echo = "No match"
            else:
                a, z = min(names), max(names)
                k = 0
                while k < min(len(a), len(z)) and a[k] == z[k]:
                    k += 1
                p["input"] = a[:k]
        elif 32 <= byte <= 126:
            if len(p["input"]) < 120:
                p["input"] += chr(byte)
        elif byte == 27:
            p["esc"] = b"\x1b"
        return True

    def candidates(self, s, p):
        c = p["command"]
        if c in ("switch-to-buffer", "find-file", "kill-buffer", "insert-buffer"):
            return [b.name for b in self.buffers if self.may(b, s.user, "t")]
        if c == "execute-extended-command":
            return self.names
        return []

    def answer(self, s, p):
        c, text, n = p["command"], p["input"], p["n"]
        if c == "execute-extended-command":
            if text not in self.names:
                return self.fail(s, Fault("No such command"))
            s.mode = ("plain",)
            return self.run(s, text, n)
        if c == "query-replace" and "old" not in p:
            s.mode = ("prompt", {"command": c, "text": "With: ", "input": "", "n": n, "esc": b"", "old": text})
            return True
        s.mode = ("plain",)
        if c == "query-replace":
            return self.act(s, c, n, text, old=p["old"])
        return self.act(s, c, n, text)

    # COMMANDS
    def here(self, s):
        b = s.window().buffer()
        if b is None:
            raise Fault("No buffer")
        return b

    def place(self, s, b):
        return s.window().point if self.may(b, s.user, "r") else len(b.text)

    def insert_needs(self, s, b, reading=False):
        p = self.place(s, b)
        self.need(b, s.user, ("r" if reading else "") + ("a" if p == len(b.text) else "w"))
        return p

    def put(self, s, b, a, z, text, point=None, mark=None):
        self.full(b, a, z, text)
        self.edit(b, a, z, text)
        w = s.window()
        w.point = a + len(text) if point is None else point
        if mark is not None:
            w.mark = mark

    def killing(self, s, piece, front, kind):
        k = (piece + s.kill if front else s.kill + piece) if kind[0] == "kill" else piece
        if len(k) > LIMIT:
            raise Fault("Kill too large")
        return k

    def command(self, s, name, n, typed=None, **more):
        kind, s.kind = s.kind, ("other",)
        given, n = n, 1 if n is None else n
        w = s.window()
        rw = {"delete-char", "delete-backward-char", "kill-line", "kill-word", "backward-kill-word", "kill-region", "undo", "transpose-chars",
              "just-one-space", "delete-horizontal-space", "delete-blank-lines", "join-line", "upcase-word", "downcase-word", "capitalize-word",
              "upcase-region", "downcase-region", "fill-paragraph", "not-modified", "save-buffer", "replace-match"}
        reads = {"forward-char", "backward-char", "beginning-of-line", "end-of-line", "next-line", "previous-line", "scroll-up", "scroll-down",
                 "recenter", "beginning-of-buffer", "end-of-buffer", "forward-word", "backward-word", "forward-paragraph", "backward-paragraph",
                 "goto-line", "what-cursor-position", "set-mark-command", "exchange-point-and-mark", "mark-whole-buffer", "copy-region-as-kill",
                 "isearch-forward", "isearch-backward", "search-forward", "search-backward", "query-replace", "search-step", "skip-match"}
        if name in ("scroll-up", "scroll-down") and w.shows and w.shows[0] in ("listing", "acl"):
            w.row = min(512, max(0, w.row + (w.height if name == "scroll-up" else -w.height)))
            return
        if name == "self-insert-command" or name in ("newline", "open-line", "yank"):
            b = self.here(s)
            p = self.insert_needs(s, b)
            if name == "yank":
                if not s.kill:
                    raise Fault("Nothing to yank")
                self.put(s, b, p, p, s.kill * n, mark=p)
                w.mark = p
            elif name == "open-line":
                self.put(s, b, p, p, "\n" * n, point=p)
            else:
                self.put(s, b, p, p, ("\n" if name == "newline" else typed) * n)
            return
        if name == "newline-and-indent":
            b = self.here(s)
            p = self.insert_needs(s, b, True)
            bol = line_start(b.text, p)
            q = bol
            while q < p and white(b.text[q]):
                q += 1
            self.put(s, b, p, p, "\n" * n + b.text[bol:q])
            return
        if name in rw or name in reads:
            b = self.here(s)
            self.need(b, s.user, "rw" if name in rw else "r")
            return getattr(self, name.replace("-", "_"))(s, b, w, w.point, len(b.text), n, given, kind, typed, **more)
        return getattr(self, name.replace("-", "_"))(s, w, n, given, typed)

    # MOTIONS
    def forward_char(self, s, b, w, p, L, n, given, kind, typed):
        if p == L and n > 0:
            raise Fault("End of buffer")
        w.point = min(p + n, L)

    def backward_char(self, s, b, w, p, L, n, given, kind, typed):
        if p == 0 and n > 0:
            raise Fault("Beginning of buffer")
        w.point = max(p - n, 0)

    def beginning_of_line(self, s, b, w, p, L, n, given, kind, typed):
        w.point = line_start(b.text, p)

    def end_of_line(self, s, b, w, p, L, n, given, kind, typed):
        w.point = line_end(b.text, p)

    def lines(self, s, b, w, p, n, kind, down):
        k, last = b.text.count("\n", 0, p), b.text.count("\n")
        if down and k == last and n > 0:
            raise Fault("End of buffer")
        if not down and k == 0 and n > 0:
            raise Fault("Beginning of buffer")
        return min(k + n, last) if down else max(k - n, 0)

    def vertical(self, s, b, w, p, n, kind, down):
        k = self.lines(s, b, w, p, n, kind, down)
        goal = kind[1] if kind[0] == "line" else column(b.text, p)
        q = line_start_of(b.text, k)
        z = line_end(b.text, q)
        best = q
        for x in range(q, z + 1):
            if column(b.text, x) <= goal:
                best = x
        w.point = best
        s.kind = ("line", goal)

    def next_line(self, s, b, w, p, L, n, given, kind, typed):
        self.vertical(s, b, w, p, n, kind, True)

    def previous_line(self, s, b, w, p, L, n, given, kind, typed):
        self.vertical(s, b, w, p, n, kind, False)

    def scroll_up(self, s, b, w, p, L, n, given, kind, typed):
        m = max(w.height - 2, 1) if given is None else given
        w.point = line_start_of(b.text, self.lines(s, b, w, p, m, kind, True))

    def scroll_down(self, s, b, w, p, L, n, given, kind, typed):
        m = max(w.height - 2, 1) if given is None else given
        w.point = line_start_of(b.text, self.lines(s, b, w, p, m, kind, False))

    def recenter(self, s, b, w, p, L, n, given, kind, typed):
        w.top = line_start_of(b.text, max(0, b.text.count("\n", 0, p) - w.height // 2))

    def beginning_of_buffer(self, s, b, w, p, L, n, given, kind, typed):
        w.point = 0

    def end_of_buffer(self, s, b, w, p, L, n, given, kind, typed):
        w.point = L

    def forward_word(self, s, b, w, p, L, n, given, kind, typed):
        if p == L and n > 0:
            raise Fault("End of buffer")
        w.point = fw(b.text, p, n)

    def backward_word(self, s, b, w, p, L, n, given, kind, typed):
        if p == 0 and n > 0:
            raise Fault("Beginning of buffer")
        w.point = bw(b.text, p, n)

    def forward_paragraph(self, s, b, w, p, L, n, given, kind, typed):
        if p == L and n > 0:
            raise Fault("End of buffer")
        ls = b.text.split("\n")
        k = b.text.count("\n", 0, p)
        q = p
        for _ in range(n):
            while k < len(ls) and blank(ls[k]):
                k += 1
            while k < len(ls) and not blank(ls[k]):
                k += 1
            if k >= len(ls):
                q = L
                k = len(ls) - 1
                # stays at the end from here on
                w.point = L
                return
            q = line_start_of(b.text, k)
        w.point = q

    def backward_paragraph(self, s, b, w, p, L, n, given, kind, typed):
        if p == 0 and n > 0:
            raise Fault("Beginning of buffer")
        ls = b.text.split("\n")
        q = p
        for _ in range(n):
            k = b.text.count("\n", 0, q)
            if q == line_start(b.text, q):
                k -= 1
            if k < 0:
                q = 0
                break
            while k >= 0 and blank(ls[k]):
                k -= 1
            if k < 0:
                q = 0
                break
            while k > 0 and not blank(ls[k - 1]):
                k -= 1
            q = line_start_of(b.text, k)
        w.point = q

    def goto_line(self, s, b, w, p, L, n, given, kind, typed):
        if given is None:
            if not (1 <= len(typed) <= 7 and all("0" <= x <= "9" for x in typed)):
                raise Fault("Not a number")
            given = int(typed)
        k = min(max(given, 1) - 1, b.text.count("\n"))
        w.point = line_start_of(b.text, k)

    def what_cursor_position(self, s, b, w, p, L, n, given, kind, typed):
        where = "point %d of %d line %d column %d" % (p, L, b.text.count("\n", 0, p) + 1, column(b.text, p))
        s.echo = ("end " if p == L else "char %d " % ord(b.text[p])) + where

    def set_mark_command(self, s, b, w, p, L, n, given, kind, typed):
        w.mark = p
        s.echo = "Mark set"

    def exchange_point_and_mark(self, s, b, w, p, L, n, given, kind, typed):
        if w.mark is None:
            raise Fault("No mark")
        w.point, w.mark = w.mark, p

    def mark_whole_buffer(self, s, b, w, p, L, n, given, kind, typed):
        w.point, w.mark = 0, L

    def copy_region_as_kill(self, s, b, w, p, L, n, given, kind, typed):
        if w.mark is None:
            raise Fault("No mark")
        s.kill = self.killing(s, b.text[min(p, w.mark):max(p, w.mark)], False, kind)
        s.kind = ("kill",)

    # ALTERATIONS
    def delete_char(self, s, b, w, p, L, n, given, kind, typed):
        if p == L and n > 0:
            raise Fault("End of buffer")
        self.put(s, b, p, min(p + n, L), "")

    def delete_backward_char(self, s, b, w, p, L, n, given, kind, typed):
        if p == 0 and n > 0:
            raise Fault("Beginning of buffer")
        self.put(s, b, max(p - n, 0), p, "")

    def kills(self, s, b, a, z, front, kind):
        k = self.killing(s, b.text[a:z], front, kind)
        self.put(s, b, a, z, "")
        s.kill, s.kind = k, ("kill",)

    def kill_line(self, s, b, w, p, L, n, given, kind, typed):
        if given is None:
            if p == L:
                raise Fault("End of buffer")
            z = p + 1 if b.text[p] == "\n" else line_end(b.text, p)
            return self.kills(s, b, p, z, False, kind)
        if n == 0:
            return self.kills(s, b, line_start(b.text, p), p, True, kind)
        if p == L:
            raise Fault("End of buffer")
        z = p
        for _ in range(n):
            q = b.text.find("\n", z)
            if q < 0:
                z = L
                break
            z = q + 1
        self.kills(s, b, p, z, False, kind)

    def kill_word(self, s, b, w, p, L, n, given, kind, typed):
        if p == L and n > 0:
            raise Fault("End of buffer")
        self.kills(s, b, p, fw(b.text, p, n), False, kind)

    def backward_kill_word(self, s, b, w, p, L, n, given, kind, typed):
        if p == 0 and n > 0:
            raise Fault("Beginning of buffer")
        self.kills(s, b, bw(b.text, p, n), p, True, kind)

    def kill_region(self, s, b, w, p, L, n, given, kind, typed):
        if w.mark is None:
            raise Fault("No mark")
        self.kills(s, b, min(p, w.mark), max(p, w.mark), False, kind)

    def undo(self, s, b, w, p, L, n, given, kind, typed):
        target = b.serial
        if kind[0] == "undo" and kind[1] is b and kind[3] == b.serial:
            target = kind[2] - 1
        if target not in b.items:
            raise Fault("No further undo information", keep=True)
        a, removed, added = b.items[target]
        self.put(s, b, a, a + added, removed)
        s.kind = ("undo", b, target, b.serial)

    def transpose_chars(self, s, b, w, p, L, n, given, kind, typed):
        if p == 0:
            raise Fault("Beginning of buffer")
        q = p - 1 if p == L or b.text[p] == "\n" else p
        if q == 0:
            raise Fault("Beginning of buffer")
        self.put(s, b, q - 1, q + 1, b.text[q] + b.text[q - 1], point=q + 1)

    def around(self, t, p):
        a = z = p
        while a > 0 and white(t[a - 1]):
            a -= 1
        while z < len(t) and white(t[z]):
            z += 1
        return a, z

    def just_one_space(self, s, b, w, p, L, n, given, kind, typed):
        a, z = self.around(b.text, p)
        self.put(s, b, a, z, " ")

    def delete_horizontal_space(self, s, b, w, p, L, n, given, kind, typed):
        a, z = self.around(b.text, p)
        self.put(s, b, a, z, "")

    def delete_blank_lines(self, s, b, w, p, L, n, given, kind, typed):
        ls = b.text.split("\n")
        k = b.text.count("\n", 0, p)
        if not blank(ls[k]):
            j = k
            while j + 1 < len(ls) and blank(ls[j + 1]):
                j += 1
            a = line_end(b.text, p)
            z = line_start_of(b.text, j) + len(ls[j])
            point = p
            self.full(b, a, z, "")
            self.edit(b, a, z, "")
            w.point = point
        else:
            i = j = k
            while i > 0 and blank(ls[i - 1]):
                i -= 1
            while j + 1 < len(ls) and blank(ls[j + 1]):
                j += 1
            a = line_start_of(b.text, i)
            z = line_start_of(b.text, j) + len(ls[j])
            self.put(s, b, a, z, "", point=a)

    def join_line(self, s, b, w, p, L, n, given, kind, typed):
        bol = line_start(b.text, p)
        if bol == 0:
            raise Fault("Beginning of buffer")
        a, z = bol - 1, bol
        while a > 0 and white(b.text[a - 1]):
            a -= 1
        while z < L and white(b.text[z]):
            z += 1
        self.put(s, b, a, z, " ", point=a)

    def cases(self, s, b, p, n, f):
        L = len(b.text)
        if p == L and n > 0:
            raise Fault("End of buffer")
        z = fw(b.text, p, n)
        self.put(s, b, p, z, f(b.text[p:z]), point=z)

    def upcase_word(self, s, b, w, p, L, n, given, kind, typed):
        self.cases(s, b, p, n, upper)

    def downcase_word(self, s, b, w, p, L, n, given, kind, typed):
        self.cases(s, b, p, n, lower)

    def capitalize_word(self, s, b, w, p, L, n, given, kind, typed):
        def capitalized(t):
            out, i = "", 0
            while i < len(t):
                if not is_word(t[i]):
                    out += t[i]
                    i += 1
                    continue
                j = i
                while j < len(t) and is_word(t[j]):
                    j += 1
                seen = False
                for c in t[i:j]:
                    if c.isalpha():
                        out += lower(c) if seen else upper(c)
                        seen = True
                    else:
                        out += c
                i = j
            return out
        self.cases(s, b, p, n, capitalized)

    def regions(self, s, b, w, p, f):
        if w.mark is None:
            raise Fault("No mark")
        a, z, m = min(p, w.mark), max(p, w.mark), w.mark
        self.put(s, b, a, z, f(b.text[a:z]), point=p)
        w.mark = m if a != z else w.mark

    def upcase_region(self, s, b, w, p, L, n, given, kind, typed):
        self.regions(s, b, w, p, upper)

    def downcase_region(self, s, b, w, p, L, n, given, kind, typed):
        self.regions(s, b, w, p, lower)

    def fill_paragraph(self, s, b, w, p, L, n, given, kind, typed):
        ls = b.text.split("\n")
        k = b.text.count("\n", 0, p)
        if blank(ls[k]):
            return
        i = j = k
        while i > 0 and not blank(ls[i - 1]):
            i -= 1
        while j + 1 < len(ls) and not blank(ls[j + 1]):
            j += 1
        a = line_start_of(b.text, i)
        z = line_start_of(b.text, j) + len(ls[j])
        words = [x for x in b.text[a:z].replace("\n", " ").replace("\t", " ").split(" ") if x]
        out, col = "", 0
        for x in words:
            width = column_after(x, 0)
            if out == "":
                out, col = x, column_after(x, 0)
            elif column_after(" " + x, col) > s.fill:
                out += "\n" + x
                col = width
            else:
                out += " " + x
                col = column_after(" " + x, col)
        self.put(s, b, a, z, out)

    def not_modified(self, s, b, w, p, L, n, given, kind, typed):
        b.modified = False

    def save_buffer(self, s, b, w, p, L, n, given, kind, typed):
        if s.playing:
            raise Fault("In macro")
        if not b.file:
            raise Fault("No file")

    # OTHERS
    def set_fill_column(self, s, w, n, given, typed):
        if given is None:
            raise Fault("No argument")
        if given == 0:
            raise Fault("Bad column")
        s.fill = given

    def keyboard_quit(self, s, w, n, given, typed):
        if s.recording:
            s.recording, s.macro = False, []
        raise Fault("Quit")

    def save_buffers_kill_emacs(self, s, w, n, given, typed):
        if s.playing:
            raise Fault("In macro")
        raise Quit()

    # WINDOWS
    def leave(self, s, w):
        b = w.buffer()
        if b:
            s.places[b] = (w.point, w.mark)

    def come(self, s, shows):
        w = s.window()
        self.leave(s, w)
        point, mark = 0, None
        if shows[0] == "buffer":
            point, mark = s.places.get(shows[1], (0, None))
        s.windows[s.sel] = Window(shows, w.height, point, mark)

    def delete_window(self, s, w, n, given, typed):
        if len(s.windows) == 1:
            raise Fault("Only one window")
        i = s.sel
        self.leave(s, w)
        if i == 0:
            s.windows[1].height += w.height + 1
        else:
            s.windows[i - 1].height += w.height + 1
        del s.windows[i]
        s.sel = max(i - 1, 0)

    def delete_other_windows(self, s, w, n, given, typed):
        for x in s.windows:
            if x is not w:
                self.leave(s, x)
        w.height = s.rows - 2
        s.windows, s.sel = [w], 0

    def split_window_vertically(self, s, w, n, given, typed):
        h = w.height
        if h < 3:
            raise Fault("Window too small")
        if len(s.windows) == 8:
            raise Fault("Too many windows")
        low = w.copy(h - 1 - h // 2)
        w.height = h // 2
        s.windows.insert(s.sel + 1, low)

    def other_window(self, s, w, n, given, typed):
        s.sel = (s.sel + 1) % len(s.windows)
    next_window = other_window

    def previous_window(self, s, w, n, given, typed):
        s.sel = (s.sel - 1) % len(s.windows)

    def enlarge_window(self, s, w, n, given, typed):
        if len(s.windows) == 1:
            raise Fault("Only one window")
        x = s.windows[s.sel + 1] if s.sel + 1 < len(s.windows) else s.windows[s.sel - 1]
        if x.height - n < 1:
            raise Fault("Impossible change")
        w.height, x.height = w.height + n, x.height - n

    def shrink_window(self, s, w, n, given, typed):
        if len(s.windows) == 1:
            raise Fault("Only one window")
        x = s.windows[s.sel + 1] if s.sel + 1 < len(s.windows) else s.windows[s.sel - 1]
        if w.height - n < 1:
            raise Fault("Impossible change")
        w.height, x.height = w.height - n, x.height + n

    def list_buffers(self, s, w, n, given, typed):
        self.come(s, ("listing",))

    # BY NAME
    def switch_to_buffer(self, s, w, n, given, typed):
        b = self.find(typed)
        if b:
            self.need(b, s.user, "t")
        else:
            if not good_name(typed):
                raise Fault("Bad name")
            if len(self.buffers) >= 256:
                raise Fault("Too many buffers")
            b = Buffer(typed, s.user, [Entry("ALLOW", "OWNER@", "rwatdcCo")])
            self.buffers.append(b)
        self.come(s, ("buffer", b))
    find_file = switch_to_buffer

    def kill_buffer(self, s, w, n, given, typed):
        if typed == "":
            b = w.subject()
            if b is None:
                raise Fault("No buffer")
        else:
            b = self.find(typed)
            if b is None:
                raise Fault("No such buffer")
        self.need(b, s.user, "d")
        self.buffers.remove(b)
        for x in self.sessions.values():
            for y in x.windows:
                if y.subject() is b:
                    y.shows, y.point, y.mark, y.top, y.row = None, 0, None, 0, 0
            x.places.pop(b, None)
            if x.mode[0] in ("search", "replace") and x.mode[1]["buffer"] is b:
                x.mode = ("plain",)

    def insert_buffer(self, s, w, n, given, typed):
        b = self.here(s)
        src = self.find(typed)
        if src is None:
            raise Fault("No such buffer")
        self.need(src, s.user, "r")
        p = self.insert_needs(s, b)
        self.put(s, b, p, p, src.text)
        w.mark = p

    # RULES
    def ruled(self, w):
        b = w.subject()
        if b is None:
            raise Fault("No buffer")
        return b

    def acl_list(self, s, w, n, given, typed):
        b = self.ruled(w)
        self.need(b, s.user, "c")
        self.come(s, ("acl", b))

    def acl_insert(self, s, w, n, given, typed):
        b = self.ruled(w)
        self.need(b, s.user, "C")
        e = read_entry(typed)
        if isinstance(e, str):
            raise Fault("Bad entry: " + e)
        k = len(b.entries) + 1 if given is None else given
        if not 1 <= k <= len(b.entries) + 1:
            raise Fault("No such entry")
        if len(b.entries) >= 64:
            raise Fault("List full")
        b.entries.insert(k - 1, e)

    def acl_delete(self, s, w, n, given, typed):
        b = self.ruled(w)
        self.need(b, s.user, "C")
        if not 1 <= n <= len(b.entries):
            raise Fault("No such entry")
        del b.entries[n - 1]

    def acl_replace(self, s, w, n, given, typed):
        b = self.ruled(w)
        self.need(b, s.user, "C")
        e = read_entry(typed)
        if isinstance(e, str):
            raise Fault("Bad entry: " + e)
        if not 1 <= n <= len(b.entries):
            raise Fault("No such entry")
        b.entries[n - 1] = e

    def set_owner(self, s, w, n, given, typed):
        b = self.ruled(w)
        self.need(b, s.user, "o")
        if typed not in self.users:
            raise Fault("No such user")
        b.owner = typed

    def set_group(self, s, w, n, given, typed):
        b = self.ruled(w)
        self.need(b, s.user, "o")
        if typed and typed not in self.groups:
            raise Fault("No such group")
        b.group = typed or None

    # SEARCHES
    def isearch_forward(self, s, b, w, p, L, n, given, kind, typed, back=False):
        s.mode = ("search", {"buffer": b, "back": back, "pattern": "", "origin": p, "anchor": p, "failing": False})

    def isearch_backward(self, s, b, w, p, L, n, given, kind, typed):
        self.isearch_forward(s, b, w, p, L, n, given, kind, typed, True)

    def search(self, s, byte):
        st = s.mode[1]
        if byte == 7:
            s.window().point = st["origin"]
            return self.fail(s, Fault("Quit"))
        if is_within(s.keys) or byte > 127:
            found = self.character(s, s.keys, byte)
            if found == "":
                s.keys += bytes([byte])
                return True
            s.keys, s.arg = b"", None
            return self.unbound(s) if found is None else self.act(s, "search-step", None, byte=ord(found))
        if not (32 <= byte <= 126 or byte in (19, 18, 127)):
            if st["pattern"]:
                s.pattern = st["pattern"]
            s.mode = ("plain",)
            return True if byte == 13 else self.key(s, byte)
        return self.act(s, "search-step", None, byte=byte)

    def search_step(self, s, b, w, p, L, n, given, kind, typed, byte=0):
        st = s.mode[1]
        exact, seek = True, True
        if 32 <= byte <= 126 or byte > 127:
            st["pattern"] = (st["pattern"] + chr(byte))[:120]
        elif byte == 127:
            st["pattern"] = st["pattern"][:-1]
            st["anchor"] = st["origin"]
            if not st["pattern"]:
                w.point, st["failing"], seek = st["origin"], False, False
        else:
            st["back"] = byte == 18
            if st["pattern"]:
                exact = False
            elif s.pattern:
                st["pattern"] = s.pattern
            else:
                seek = False
        if seek:
            t, x, a = lower(b.text), lower(st["pattern"]), st["anchor"]
            if st["back"]:
                q = max([i for i in range(0, a + (1 if exact else 0)) if t.startswith(x, i)], default=-1)
            else:
                q = t.find(x, a if exact else a + 1)
            st["failing"] = q < 0
            if q >= 0:
                st["anchor"] = q
                w.point = q if st["back"] else q + len(x)

    def pattern_for(self, s, typed):
        x = typed or s.pattern
        if not x:
            raise Fault("No pattern")
        return lower(x)

    def search_forward(self, s, b, w, p, L, n, given, kind, typed):
        x = self.pattern_for(s, typed)
        q = lower(b.text).find(x, p)
        if q < 0:
            raise Fault("Not found")
        w.point = q + len(x)

    def search_backward(self, s, b, w, p, L, n, given, kind, typed):
        x = self.pattern_for(s, typed)
        q = max([i for i in range(0, p) if lower(b.text).startswith(x, i)], default=-1)
        if q < 0:
            raise Fault("Not found")
        w.point = q

    # QUERY-REPLACE
    def query_replace(self, s, b, w, p, L, n, given, kind, typed, old=""):
        if not old:
            raise Fault("No pattern")
        s.mode = ("replace", {"buffer": b, "old": old, "new": typed, "count": 0, "anchor": p, "origin": p})
        self.next_match(s, b, w, p)

    def next_match(self, s, b, w, q):
        st = s.mode[1]
        q = lower(b.text).find(lower(st["old"]), q)
        if q < 0:
            s.echo, s.mode = "Replaced %d" % st["count"], ("plain",)
        else:
            st["anchor"] = q
            w.point = q + len(st["old"])

    def replace(self, s, byte):
        st = s.mode[1]
        if byte in (121, 32):
            return self.act(s, "replace-match", None)
        if byte in (110, 127):
            return self.act(s, "skip-match", None)
        if byte == 33:
            while s.mode[0] == "replace" and s.mode[1] is st:
                if not self.act(s, "replace-match", None):
                    return False
            return True
        if byte == 46:
            return self.act(s, "replace-match", None, last=True)
        if byte in (113, 13):
            s.echo, s.mode = "Replaced %d" % st["count"], ("plain",)
            return True
        if byte == 7:
            return self.fail(s, Fault("Quit"))
        return True

    def replace_match(self, s, b, w, p, L, n, given, kind, typed, last=False):
        st = s.mode[1]
        a, q = st["anchor"], st["anchor"]
        if lower(b.text).startswith(lower(st["old"]), a):
            self.full(b, a, a + len(st["old"]), st["new"])
            new = st["new"]
            self.edit(b, a, a + len(st["old"]), new)
            w.point = q = a + len(new)
            st["count"] += 1
        if last:
            s.echo, s.mode = "Replaced %d" % st["count"], ("plain",)
        else:
            self.next_match(s, b, w, q)

    def skip_match(self, s, b, w, p, L, n, given, kind, typed):
        st = s.mode[1]
        a = st["anchor"]
        self.next_match(s, b, w, a + len(st["old"]) if lower(b.text).startswith(lower(st["old"]), a) else a)

    # MACROS
    def start_kbd_macro(self, s, w, n, given, typed):
        if s.recording or s.playing:
            raise Fault("In macro")
        s.recording, s.macro = True, []

    def end_kbd_macro(self, s, w, n, given, typed):
        if s.playing:
            raise Fault("In macro")
        if not s.recording:
            raise Fault("Not in macro")
        s.recording, s.macro = False, s.macro[:-2]

    def play(self, s, n):
        for bad, text in ((s.recording or s.playing, "In macro"), (not s.macro, "No macro"), (n > 100, "Too many")):
            if bad:
                return self.fail(s, Fault(text))
        s.kind, s.playing = ("other",), True
        for byte in s.macro * n:
            s.echo = ""
            if not self.handle(s, byte):
                break
        s.playing = False
        return True

    # SCREEN
    def screen(self, label):
        s = self.sessions[label]
        if s.ended:
            return "ended %s %s\n" % (label, s.ended)
        rows, at = [], None
        C = s.cols
        first = 1
        for i, w in enumerate(s.windows):
            lines, cursor = self.window_rows(s, w, i == s.sel)
            rows += [("|", fit(x, C)) for x in lines]
            rows.append(("!", fill(self.mode_line(s, w), C)))
            if i == s.sel:
                at = (first + cursor[0], cursor[1] + 1)
            first += w.height + 1
        line = self.line(s)
        if s.echo:
            rows.append(("|", fit(s.echo, C)))
        elif line is not None:
            line = cells(line)
            shown = line if len(line) <= C - 1 else "$" + whole(line[-(C - 2):])
            rows.append(("|", fit(shown, C)))
            if s.mode[0] == "prompt":
                at = (s.rows, len(shown) + 1)
        else:
            rows.append(("|", " " * C))
        out = "screen %s\n" % label
        for m, x in rows:
            out += m + x.replace(HALF, "") + m + "\n"
        return out + "cursor %d %d\n" % at

    def line(self, s):
        if s.mode[0] == "prompt":
            return s.mode[1]["text"] + s.mode[1]["input"]
        if s.mode[0] == "search":
            st = s.mode[1]
            return ("Failing I-search" if st["failing"] else "I-search") + (" backward" if st["back"] else "") + ": " + st["pattern"]
        if s.mode[0] == "replace":
            return "Replace? "
        return None

    def window_rows(self, s, w, selected):
        h, C = w.height, s.cols
        if w.shows is None:
            return [""] * h, (0, 0)
        if w.shows[0] == "listing":
            rows = []
            for b in self.buffers:
                if self.may(b, s.user, "t"):
                    rows.append("%s %7d %s %s" % ("*" if b.modified else " ", len(b.text), b.name, b.owner + (":" + b.group if b.group else "")))
            return pad(rows[w.row:], h), (0, 0)
        if w.shows[0] == "acl":
            b = w.shows[1]
            d = self.decide(b, s.user, "c")
            rows = ["%d %s" % (i, e.text()) for i, e in enumerate(b.entries, 1)] if d is None else ["[no acl: %s]" % why(d)]
            return pad(rows[w.row:], h), (0, 0)
        b = w.shows[1]
        d = self.decide(b, s.user, "r")
        if d is not None:
            return pad(["[no read: %s]" % why(d)], h), (0, 0)
        top = b.text.count("\n", 0, w.top)
        ls = b.text.split("\n")[top:top + h]
        rows = [cells(x) for x in ls]
        cursor = (0, 0)
        if selected:
            k = b.text.count("\n", 0, w.point) - top
            c = column(b.text, w.point)
            if c >= C - 1:
                step = (C - 2) // 2
                sh = (c // step - 1) * step
                row = rows[k]
                part = row[sh:sh + C]
                more = len(row) - sh > C
                part = "$" + whole(part[1:])
                if more:
                    part = whole(part[:C - 1], row[sh + C - 1]) + "$"
                rows[k] = part
                cursor = (k, c - sh)
            else:
                cursor = (k, c)
        return pad(rows, h), cursor

    def mode_line(self, s, w):
        if w.shows is None:
            return "-None"
        if w.shows[0] == "listing":
            return "-Buffers"
        b = w.shows[1]
        t = self.may(b, s.user, "t")
        if w.shows[0] == "acl":
            return "-Acl-" + (b.name if t else "?")
        flag = ("**" if b.modified else "--") if t else "??"
        name = b.name if t else "?"
        pos = "(no read)"
        if self.may(b, s.user, "r"):
            pos = "L%d-C%d" % (b.text.count("\n", 0, w.point) + 1, column(b.text, w.point))
        return "-%s-%s-%s-" % (flag, name, pos)


def why(d):
    return "entry %d" % d[1] if d[0] == "denied" else "no entry"


def pad(rows, h):
    rows = rows[:h]
    return rows + [""] * (h - len(rows))


# The second cell of a character of two columns.
HALF = "\0"


def whole(row, behind=" "):
    """A part of a row, in which a half that lost its other half is a blank."""
    row = " " + row[1:] if row.startswith(HALF) else row
    return row[:-1] + " " if row and behind == HALF else row


def fit(text, C):
    return text.ljust(C) if len(text) <= C else whole(text[:C - 1], text[C - 1]) + "$"


def fill(text, C):
    # the last '-' of a buffer's mode line is one of the filling
    if len(text) == C + 1 and text.endswith("-"):
        text = text[:-1]
    return text.ljust(C, "-") if len(text) <= C else text[:C - 1] + "$"


def cells(line):
    out = ""
    for c in line:
        out += glyph(c, len(out))
    return out


def glyph(c, col):
    o = ord(c)
    if 32 <= o <= 126:
        return c
    if c == "\t":
        return " " * (8 - col % 8)
    if o < 32:
        return "^" + chr(o + 64)
    if o == 127:
        return "^?"
    if o < 160 or unicodedata.category(c) in ("Mn", "Me", "Cf"):
        return "\\u{%x}" % o
    return c + HALF if unicodedata.east_asian_width(c) in "WF" else c


def column(text, p):
    return len(cells(text[line_start(text, p):p]))


def column_after(x, col):
    for c in x:
        col += len(glyph(c, col))
    return col


def line_start(t, p):
    return t.rfind("\n", 0, p) + 1


def line_end(t, p):
    q = t.find("\n", p)
    return len(t) if q < 0 else q


def line_start_of(t, k):
    p = 0
    for _ in range(k):
        p = t.find("\n", p) + 1
    return p


def blank(x):
    return all(white(c) for c in x)


def fw(t, p, n):
    for _ in range(n):
        while p < len(t) and not is_word(t[p]):
            p += 1
        while p < len(t) and is_word(t[p]):
            p += 1
    return p


def bw(t, p, n):
    for _ in range(n):
        while p > 0 and not is_word(t[p - 1]):
            p -= 1
        while p > 0 and is_word(t[p - 1]):
            p -= 1
    return p


def upper(t):
    return "".join(c.upper() if "a" <= c <= "z" else c for c in t)


def lower(t):
    return "".join(c.lower() if "A" <= c <= "Z" else c for c in t)
