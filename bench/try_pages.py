#!/usr/bin/env python3
"""Runs what the pages say: python3 bench/try_pages.py [--only WORD] [--look] [MGD MGD_KEEP]

It takes the indented blocks out of README.md, docs/TUTORIAL.md and docs/OPERATING.md, in their order. Commands run as they stand, screens are
compared with those of a server over sockets, and each message that is a heading of `The bad day` is provoked. The programs are those of
crates/mgd/out and crates/mgd_keep/out, or MGD and MGD_KEEP.

It needs root and Linux: each page runs in a mount, network and process namespace of its own, with overlays over the folders that the
commands write in, so the machine stays as it is. `systemctl` and `journalctl` are stand-ins there that start and stop the programs as the
units do; bench/try_systemd.sh tries the units. The copy of the sources takes the programs for proved ones. Commands that prove or test
everything are named and left out; `./mgd try` runs the given program, and with --look the sources without proof (some minutes).
--only README, TUTORIAL, OPERATING or messages runs one part. --script prints the tutorial as a script for `mgd replay`.
"""
import argparse, os, pty, re, select, shutil, signal, socket, subprocess, sys, tempfile, time

TOP = os.path.dirname(os.path.dirname(os.path.abspath(__file__)))
PARTS = ["README", "TUTORIAL", "OPERATING", "messages"]
PAGES = {"README": "README.md", "TUTORIAL": "docs/TUTORIAL.md", "OPERATING": "docs/OPERATING.md"}
LONG = re.compile(r"^(\./mgd (prove|test|wrong)|\.ci/run)\b")
KEY = re.compile(r"(?:[CM]-(?:SPC|DEL|RET|[!-~])|M-C-.|RET|TAB|SPC|ESC|DEL)")
BYTES = {"RET": b"\r", "TAB": b"\t", "SPC": b" ", "ESC": b"\x1b", "DEL": b"\x7f"}
passed = failed = 0


def expect(what, is_so, seen=""):
    global passed, failed
    print(("ok    " if is_so else "FAILED ") + what + ("" if is_so else f": {seen}"), flush=True)
    passed += bool(is_so)
    failed += not is_so


def note(words):
    print(f"      {words}", flush=True)


# --- Pages -------------------------------------------------------------------------------------------------------------------------

class Block:
    """Indented lines of a page, without the indentation, and the heading above them."""

    def __init__(self, page, number, heading, lines):
        self.page, self.number, self.heading, self.lines = page, number, heading, lines
        self.name = f"{page}:{number}"

    def kind(self):
        first = self.lines[0]
        if re.match(r"\w+ (types|sees) ", first):
            return "screens"
        if KEY.match(first.split()[0]):
            return "keys"
        if first.startswith("entry "):
            return "entries"
        if re.match(r"(restrict,|Match )", first):
            return "sshd"
        if re.match(r"user  ", first):
            return "output"
        return "commands"


def blocks_of(part):
    blocks, heading, lines, start = [], "", [], 0
    with open(os.path.join(TOP, PAGES[part]), encoding="utf-8") as file:
        page = file.read().split("\n")
    for number, line in enumerate(page + ["end"], 1):
        if line.startswith("    ") and (lines or page[number - 2] == "" or page[number - 2].startswith("#")):
            if not lines:
                start = number
            lines.append(line[4:])
            continue
        if lines and not line and number < len(page) and page[number].startswith("    "):
            lines.append("")
            continue
        if lines:
            blocks.append(Block(PAGES[part], start, heading, lines))
            lines = []
        if line.startswith("#"):
            heading = line.lstrip("# ")
    return blocks


def tables_of(part):
    """The commands that stand in tables, each with its line."""
    with open(os.path.join(TOP, PAGES[part]), encoding="utf-8") as file:
        for number, line in enumerate(file, 1):
            cells = re.split(r" (?<!\\)\| ", line.strip().strip("|"))
            if line.startswith("| ") and len(cells) > 2:
                for found in re.findall(r"`([^`]+)`", cells[1]):
                    if re.match(r"(bash|ss|du|df|systemctl|journalctl) ", found):
                        yield number, found.replace("\\|", "|")


def headings_below(title):
    """The headings of a section that are messages, which stand between backticks."""
    inside = False
    with open(os.path.join(TOP, PAGES["OPERATING"]), encoding="utf-8") as file:
        for line in file:
            if line.startswith("## "):
                inside = line.strip() == f"## {title}"
            elif inside and line.startswith("### `"):
                yield line.strip()[5:-1]


def tokens_of(keys):
    """The tokens of a script for keys as a page writes them: words that are no keys are texts, with a space between two."""
    tokens, after_prefix, after_text = [], False, False
    for word in keys.split():
        if after_prefix:
            tokens.append(word if KEY.fullmatch(word) else f"'{word}")
            after_prefix = after_text = False
        elif KEY.fullmatch(word):
            tokens.append(word)
            after_prefix, after_text = word == "C-x", False
        else:
            tokens += (["SPC"] if after_text else []) + [f"'{word}"]
            after_text = True
    return tokens


def bytes_of(token):
    if token.startswith("'"):
        return token[1:].encode()
    if token in BYTES:
        return BYTES[token]
    name = token[2:]
    if token.startswith("M-"):
        return b"\x1b" + BYTES.get(name, name.encode())
    return b"\x00" if name == "SPC" else bytes([ord(name.upper()) & 0x1F])


def keys_of(text):
    return b"".join(bytes_of(token) for token in tokens_of(text))


def steps_of(block):
    """Each step of a block of screens: who, whether keys are typed, and the lines."""
    steps = []
    for line in block.lines:
        found = re.match(r"(\w+) (types|sees) +(.*)", line)
        if found:
            steps.append((found[1], found[2] == "types", [found[3]]))
        elif line.strip():
            steps[-1][2].append(line.strip())
    return steps


def parts_of(rows):
    """Text, mode line and echo line of a screen as the page has it."""
    at = next(i for i, row in enumerate(rows) if row.startswith("-") and row.endswith("---"))
    return rows[:at], rows[at].rstrip("-"), (rows[at + 1:] or [None])[0]


def is_screen(rows, text, mode, echo):
    """Whether the rows of a terminal are those, with blanks below the text."""
    shown = [row.rstrip() for row in rows]
    above = shown[:-2]
    return (above[:len(text)] == text and not any(above[len(text):]) and shown[-2].rstrip("-") == mode and
            (echo is None or shown[-1] == echo))


def tutorial_script():
    """The tutorial as a script, and what each of its screens has to be. What a file answers is left out: a script has none."""
    script = ["user ann", "user bob", "buffer list ann", "entry list ALLOW OWNER@ rwatcCo", "text list 'Shopping SPC 'list RET",
              "open ann ann 8 60", "open bob bob 8 60"]
    wanted = []
    for block in blocks_of("TUTORIAL"):
        if block.kind() != "screens":
            continue
        for who, types, lines in steps_of(block):
            if types:
                script.append(f"keys {who} " + " ".join(tokens_of(lines[0])))
                continue
            script.append(f"show {who}")
            text, mode, echo = parts_of(lines)
            saved = "C-x C-s" in script[-2]
            wanted.append((block.name, who, text, "-**" + mode[3:] if saved else mode, "No file" if saved else echo))
    return "\n".join(script) + "\n", wanted


# --- A world of its own ------------------------------------------------------------------------------------------------------------

SYSTEMCTL = r'''#!/usr/bin/env python3
# Stands in for systemctl: starts and stops the programs as the units of contrib do.
import glob, os, re, shutil, signal, subprocess, sys, time
words = [word for word in sys.argv[1:] if not word.startswith("-")]
verb, names = (words + [""])[0], [word.split(".")[0] for word in words[1:] if word.startswith("mgd")]
name = (names + [""])[0]
if verb == "daemon-reload" or verb == "edit":
    sys.exit(0)
unit = f"/etc/systemd/system/{name}.service"
if not os.path.exists(unit):
    sys.exit(f"Unit {name}.service could not be found.")
log, mark, home = f"/var/log/{name}.log", f"/run/{name}.pid", f"/var/lib/{name}"
private = f"/var/lib/private/{name}"

def pid():
    try:
        found = int(open(mark).read())
        os.kill(found, 0)
        return found if "mgd" in open(f"/proc/{found}/cmdline").read() and open(f"/proc/{found}/stat").read().split()[2] != "Z" else None
    except (OSError, ValueError):
        return None

def stop():
    running = pid()
    if running is None:
        return
    if os.path.exists("/etc/mgd-ops.ticket"):
        subprocess.run(["mgd-ops", "--ticket-file", "/etc/mgd-ops.ticket", "ops", "save-all"], stdout=open(log, "a"), stderr=subprocess.STDOUT)
    os.kill(running, signal.SIGTERM)
    while pid() is not None:
        time.sleep(0.02)

def start():
    if pid() is not None:
        return
    os.makedirs("/var/lib/private", 0o700, exist_ok=True)
    if os.path.isdir(home) and not os.path.islink(home):
        os.rename(home, private)
    os.makedirs(private, 0o700, exist_ok=True)
    if not os.path.islink(home):
        os.symlink(private, home)
    once = "/run/mgd-keep.once"
    options = []
    if name == "mgd-keep":
        os.makedirs(f"{private}/journal", 0o700, exist_ok=True)
        if os.path.exists(once):
            options = open(once).read().split("=", 1)[1].split()
    command = ["mgd-keep", "serve", f"{private}/journal"] if name == "mgd-keep" else ["mgd", "serve"]
    command += ["/etc/mgd.toml", "7000", *options]
    before = os.path.getsize(log) if os.path.exists(log) else 0
    with open(log, "a") as out:
        subprocess.run(["mgd-check", "/etc/mgd.toml"], cwd=private, stdout=out, stderr=out)
        started = subprocess.Popen(command, cwd=private, stdin=subprocess.DEVNULL, stdout=out, stderr=out, start_new_session=True)
    open(mark, "w").write(str(started.pid))
    while started.poll() is None and "listening 127" not in open(log).read()[before:]:
        time.sleep(0.02)
    if started.poll() is not None:
        sys.exit(f"Job for {name}.service failed because the control process exited with error code.")
    if os.path.exists(once):
        os.remove(once)

if verb in ("stop", "disable", "restart"):
    if verb != "disable" or "--now" in sys.argv:
        stop()
if verb in ("start", "enable", "restart"):
    start()
if verb == "status":
    print(f"Active: {'active (running)' if pid() else 'inactive (dead)'}")
    print("".join(open(log).readlines()[-10:]))
if verb == "show":
    print("MemoryCurrent=" + str(int(open(f"/proc/{pid()}/statm").read().split()[1]) * 4096))
'''
JOURNALCTL = r'''#!/usr/bin/env python3
# Stands in for journalctl: prints the lines of a unit's log.
import sys
words = sys.argv[1:]
lines = open(f"/var/log/{words[words.index('-u') + 1]}.log").readlines()
print("".join(lines[-int(words[words.index("-n") + 1]):] if "-n" in words else lines), end="")
'''


def run(command, **how):
    return subprocess.run(command, check=True, capture_output=True, text=True, **how)


def function_of(script, name):
    return re.search(rf"^{name}\(\) \{{\n.*?^\}}\n", script, re.S | re.M)[0]


class World:
    """Overlays over this machine's folders, a copy of the sources with the programs, what an installation has, and the stand-ins."""

    def __init__(self, programs):
        run(["ip", "link", "set", "lo", "up"])
        run(["mount", "--make-rprivate", "/"])
        self.base = tempfile.mkdtemp(prefix="try-pages-")
        run(["mount", "-t", "tmpfs", "-o", "mode=0755", "tmpfs", self.base])
        for folder in ("etc", "var", "srv", "root", "run", "usr/local"):
            upper, work = (os.path.join(self.base, kind, folder) for kind in ("upper", "work"))
            os.makedirs(upper)
            os.makedirs(work)
            run(["mount", "-t", "overlay", "-o", f"lowerdir=/{folder},upperdir={upper},workdir={work}", "overlay", f"/{folder}"])
        self.tree = os.path.join(self.base, "mgd")
        self.copy_sources()
        self.take_programs(programs)
        self.stand_in()
        os.environ.update(HOME="/root", LC_ALL="C.UTF-8", TERM="xterm", PATH=f"{self.base}/bin:/usr/local/bin:" + os.environ["PATH"])
        os.environ.pop("DESTDIR", None)

    def copy_sources(self):
        files = run(["git", "-C", TOP, "ls-files", "-z", "--cached", "--others", "--exclude-standard"]).stdout.split("\0")
        for name in filter(None, files):
            source, target = os.path.join(TOP, name), os.path.join(self.tree, name)
            if os.path.exists(source):
                os.makedirs(os.path.dirname(target), exist_ok=True)
                shutil.copy(source, target)

    def take_programs(self, programs):
        for name, program in zip(("mgd", "mgd_keep"), programs):
            out = os.path.join(self.tree, "crates", name, "out")
            os.makedirs(out, exist_ok=True)
            shutil.copy(program, os.path.join(out, name))
        with open(os.path.join(self.tree, "mgd"), encoding="utf-8") as file:
            script = file.read()
        sums = "".join(function_of(script, name) for name in ("crates_below", "sum_of_sources"))
        keep = "cd crates && sha256sum < mgd/out/mgd > mgd/out/mgd.sum && sha256sum < mgd_keep/out/mgd_keep >> mgd/out/mgd.sum"
        run(["bash", "-c", f"top=$PWD\n{sums}\n(sum_of_sources) > crates/mgd/out/mgd.sources\n{keep}"], cwd=self.tree)
        state = run(["./mgd", "--state"], cwd=self.tree).stdout.strip()
        expect("the copy of the sources has programs", state == "proved", state)

    def stand_in(self):
        os.makedirs(os.path.join(self.base, "bin"))
        for name, text in (("systemctl", SYSTEMCTL), ("journalctl", JOURNALCTL)):
            path = os.path.join(self.base, "bin", name)
            with open(path, "w") as file:
                file.write(text)
            os.chmod(path, 0o755)

    def install(self):
        run(["./install.sh", "/usr/local"], cwd=self.tree)


def end_of(process, most=20):
    try:
        return process.wait(most)
    except subprocess.TimeoutExpired:
        process.kill()
        return process.wait()


def on_terminal(command, cwd, most=30):
    """Runs a command behind a terminal of 24 by 80, leaves by C-x C-c once a mode line is shown: its status and what came."""
    pid, fd = pty.fork()
    if pid == 0:
        os.chdir(cwd)
        os.execvp("bash", ["bash", "-c", f"stty rows 24 cols 80; exec {command}"])
    seen, left, end = b"", False, time.time() + most
    while time.time() < end:
        if select.select([fd], [], [], 0.2)[0]:
            try:
                data = os.read(fd, 65536)
            except OSError:
                break
            if not data:
                break
            seen += data
        elif not left and (b"---" in seen or b"-None" in seen):
            os.write(fd, b"\x18\x03")
            left = True
    try:
        os.kill(pid, 0)
        if time.time() >= end:
            os.kill(pid, signal.SIGKILL)
    except OSError:
        pass
    status = os.waitstatus_to_exitcode(os.waitpid(pid, 0)[1])
    os.close(fd)
    return status, seen


class Shell:
    """Runs the commands of blocks, and keeps the servers that they start."""

    def __init__(self, world, look):
        self.world, self.look, self.servers, self.said = world, look, [], ""

    def run(self, block):
        lines = []
        for line in self.joined(block.lines):
            command = line.split("   #")[0].strip() if "<<" not in line else line
            if LONG.match(command):
                note(f"{block.name}: `{command}` is left out: it proves or tests everything")
            elif re.match(r"(\./join|mgd-join) ", command):
                self.do(block, lines)
                lines = []
                status, seen = on_terminal(command, self.world.tree)
                expect(f"{block.name}: {command}", status == 0, (status, seen[-300:]))
            elif re.search(r"\b(serve|keep)\b.* 7000$", command) and "\n" not in command:
                self.serve(block, lines, command)
                lines = []
            else:
                lines.append(line)
        self.do(block, lines)

    @staticmethod
    def joined(lines):
        """Commands, one with the text behind its `<<`."""
        commands, end = [], None
        for line in lines:
            if end is not None:
                commands[-1] += "\n" + line
                end = None if line == end else end
                continue
            commands.append(line)
            found = re.search(r"<<-?'?(\w+)'?", line)
            end = found[1] if found else None
        return [command for command in commands if command.strip()]

    def do(self, block, lines):
        if not lines:
            return
        done = subprocess.run(["bash", "-e", "-c", "\n".join(lines)], cwd=self.world.tree, capture_output=True, text=True,
                              stdin=subprocess.DEVNULL, timeout=300)
        self.said = done.stdout
        first = lines[0].split("\n")[0]
        expect(f"{block.name}: {first}{' ..' if len(lines) > 1 or chr(10) in lines[0] else ''}", done.returncode == 0,
               (done.returncode, done.stdout[-500:], done.stderr[-500:]))

    def serve(self, block, lines, command):
        if command.startswith("./mgd try ") and not self.look:
            note(f"{block.name}: `{command}` runs the given program (--look: the sources without proof)")
            command = command.replace("./mgd try ", "./mgd ")
        out = tempfile.TemporaryFile()
        server = subprocess.Popen(["bash", "-e", "-c", "\n".join([*lines, f"exec {command}" if "=" not in command.split()[0] else command])],
                                  cwd=self.world.tree, stdout=out, stderr=out, stdin=subprocess.DEVNULL, start_new_session=True)
        self.servers.append(server)
        end = time.time() + (900 if self.look else 30)
        said = b""
        while b"listening" not in said and server.poll() is None and time.time() < end:
            time.sleep(0.1)
            out.seek(0)
            said = out.read()
        expect(f"{block.name}: {command}", b"listening 127.0.0.1:7000" in said, said[-500:])

    def end_servers(self):
        for server in self.servers:
            try:
                os.killpg(server.pid, signal.SIGTERM)
            except OSError:
                pass
            end_of(server)
        self.servers = []


# --- The pages ---------------------------------------------------------------------------------------------------------------------

def terminal(login, rows=24, cols=80, port=7000):
    from try_server import Terminal
    one = Terminal(port, login, rows, cols)
    one.read_until(lambda seen: seen.shows(rows - 1).startswith("-"), 20)
    return one


def rows_of(one):
    return [one.shows(row) for row in range(1, one.rows + 1)]


def settle(ones, is_so, most=20):
    """Reads all terminals until something is so."""
    end = time.time() + most
    while not is_so() and time.time() < end:
        for one in ones:
            one.read(quiet=0.05)
    return is_so()


def tickets_in(page):
    return dict(re.findall(r"\./join (\w+) (\w{24})", page))


def try_readme(world, look):
    shell = Shell(world, look)
    with open(os.path.join(TOP, "README.md"), encoding="utf-8") as file:
        tickets = tickets_in(file.read())
    with open(os.path.join(TOP, "examples", "two-users.mgd"), encoding="utf-8") as file:
        example = file.read().splitlines()
    for block in blocks_of("README"):
        if block.kind() == "entries":
            lines = [line.split("   ")[0].rstrip() for line in block.lines]
            wanted = [line for line in example if line.startswith("entry ")]
            expect(f"{block.name}: the entries are those of examples/two-users.mgd", lines == wanted, lines)
        elif block.kind() == "keys":
            ann, bob = (terminal(f"{name} {tickets[name]}") for name in ("ann", "bob"))
            text = rows_of(bob)[0]
            for line in block.lines:
                keys, _, words = line.partition("   #")
                shown = re.search(r"\[.*\]", words)
                ann.send(keys_of(keys))
                wanted = shown[0] if shown else text
                is_so = settle([ann, bob], lambda: rows_of(bob)[0] == wanted)
                expect(f"{block.name}: {keys.strip()}: bob's screen has {wanted[:40]!r}", is_so, rows_of(bob)[0])
        else:
            shell.run(block)
    shell.end_servers()


def try_tutorial(world, look):
    shell, ones = Shell(world, look), {}
    with open(os.path.join(TOP, PAGES["TUTORIAL"]), encoding="utf-8") as file:
        tickets = tickets_in(file.read())
    for block in blocks_of("TUTORIAL"):
        if block.kind() != "screens":
            shell.run(block)
            continue
        for who, types, lines in steps_of(block):
            if who not in ones:
                ones[who] = terminal(f"{who} {tickets[who]}")
            if types:
                ones[who].send(keys_of(lines[0]))
                time.sleep(0.3)
                continue
            wanted = parts_of(lines)
            is_so = settle(ones.values(), lambda: is_screen(rows_of(ones[who]), *wanted), 10)
            expect(f"{block.name}: {who} sees {' / '.join(lines)}", is_so, [row for row in rows_of(ones[who]) if row])
    expect("C-x C-s wrote the file of the tutorial", os.path.exists("/root/tour/list.txt") and
           open("/root/tour/list.txt").read() == "Shopping list\nbread,\nmilk", open("/root/tour/list.txt").read())
    shell.end_servers()
    try_script(world)


def try_script(world):
    """The same screens by a script, without a server."""
    script, wanted = tutorial_script()
    done = subprocess.run([os.path.join(world.tree, "crates", "mgd", "out", "mgd"), "replay"], input=script, capture_output=True, text=True)
    screens = re.findall(r"^screen (\w+)\n((?:[|!].*[|!]\n)+)", done.stdout, re.M)
    expect("the tutorial is played as a script", done.returncode == 0 and len(screens) == len(wanted), (done.returncode, done.stderr, len(screens)))
    for (name, who, *rows), (label, printed) in zip(wanted, screens):
        shown = [row[1:-1] for row in printed.splitlines()]
        expect(f"{name}: {who} sees the same in a script", label == who and is_screen(shown, *rows), shown)


def ticket_of(name):
    with open("/etc/mgd.toml") as file:
        return re.search(rf'name = "{name}"\nticket = "(\w+)"', file.read())[1]


def answer_to(login):
    """The first line that a login is answered by, or what its screen begins with."""
    with socket.create_connection(("127.0.0.1", 7000)) as one:
        one.sendall(f"login {login} 24 80\n".encode())
        one.settimeout(5)
        return one.recv(200).decode(errors="replace")


def typed(name, keys, is_so):
    """Whether what a user types brings the screen to something."""
    one = terminal(f"{name} {ticket_of(name)}")
    one.send(keys_of(keys))
    seen = settle([one], lambda: is_so(rows_of(one)), 10)
    one.send(keys_of("C-x C-c"))
    time.sleep(0.2)
    return seen


def audit(*words):
    return run(["mgd-keep", "audit", "/var/lib/private/mgd-keep/journal", *words]).stdout


# What is done before the n-th block below a heading, and what has to be so after it.

def make_page(state):
    """dan makes a buffer by C-x b."""
    typed("dan", "C-x b page RET text", lambda rows: "page" in rows[-2])
    state["dan"] = ticket_of("dan")
    time.sleep(1.5)


def dan_is_gone(state):
    return answer_to(f"dan {state['dan']}").startswith("refused 2 NoUser") and "\towner\tpage\tdan -> ann" in audit()


def note_ticket(state):
    state["ann"] = ticket_of("ann")


def ticket_is_new(state):
    return answer_to(f"ann {state['ann']}").startswith("refused 3 Ticket") and not answer_to(f"ann {ticket_of('ann')}").startswith("refused")


def shut_bob_out(state):
    typed("ann", "C-x b notes RET C-u 1 M-x acl-insert RET DENY bob r RET M-x acl-list RET", lambda rows: rows[0] == "1 DENY bob r")
    state["shut"] = typed("bob", "C-x b notes RET", lambda rows: rows[0] == "[no read: entry 1]")


def bob_reads(state):
    return state["shut"] and typed("bob", "C-x b notes RET", lambda rows: rows[0].startswith("Notes of the office"))


def type_and_save(state):
    typed("ann", "C-x b notes RET M-< later: C-x C-s", lambda rows: rows[-1] == "Wrote notes")


def text_is_back(state):
    return typed("ann", "C-x b notes RET M-<", lambda rows: rows[0].startswith("Notes of the office"))


def backup_is_whole(state):
    folder = f"/srv/backup/mgd-keep-{time.strftime('%F')}"
    names = set(os.listdir(folder)) | set(os.listdir(f"{folder}/journal"))
    return {"notes.txt", "mgd.toml", "journal.sqlite3", "journal.sqlite3-wal"} <= names and os.stat("/srv/backup").st_mode & 0o077 == 0


BEFORE = {("Remove a user", 0): make_page, ("Rotate a ticket, or shut somebody out", 0): note_ticket, ("Change a list", 0): shut_bob_out,
          ("Backup and restore", 3): type_and_save}
AFTER = {
    ("Serve at boot", 0): ("ann can log in", lambda state: typed("ann", "", lambda rows: rows[0].startswith("Notes of the office"))),
    ("Add a user", 0): ("dan can log in", lambda state: not answer_to(f"dan {ticket_of('dan')}").startswith("refused")),
    ("Remove a user", 0): ("dan cannot log in, and ann owns the page", dan_is_gone),
    ("Rotate a ticket, or shut somebody out", 0): ("only the new ticket is ann's", ticket_is_new),
    ("Change a list", 0): ("bob, whom ann had shut out, reads again", bob_reads),
    ("Add a text", 0): ("the new text can be saved", lambda state: typed("ann", "C-x b plan RET x C-x C-s", lambda rows: rows[-1] == "Wrote plan")),
    ("Backup and restore", 0): ("the backup has texts, journal and configuration, for root alone", backup_is_whole),
    ("Backup and restore", 3): ("the text is that of the backup", text_is_back),
    ("Begin a new journal", 1): ("the journal begins anew", lambda state: "\towner\tpage" not in audit() and "\tcreate\tnotes" in audit()),
}


def try_operating(world, look):
    shell = Shell(world, look)
    moves, state, heading, count = None, {}, "", 0
    for block in blocks_of("OPERATING"):
        if block.heading == "By hand":
            shell.end_servers()
            run(["systemctl", "stop", "mgd-keep"])
        count = count + 1 if block.heading == heading else 0
        heading = block.heading
        BEFORE.get((heading, count), lambda state: None)(state)
        if block.kind() == "output":
            wanted = [line.split() for line in block.lines]
            got = [line.split() for line in shell.said.splitlines()]
            expect(f"{block.name}: the table is what was printed", [line for line in got if line in wanted] == wanted, got)
        elif block.kind() == "sshd":
            note(f"{block.name}: lines for sshd are left out")
        elif any("disable --now mgd\n" in line + "\n" for line in block.lines):
            moves = block
        else:
            shell.run(block)
        if (heading, count) in AFTER:
            what, is_so = AFTER[heading, count]
            expect(f"{block.name}: then {what}", is_so(state))
    shell.end_servers()
    run(["systemctl", "start", "mgd-keep"])
    for number, command in tables_of("OPERATING"):
        done = subprocess.run(["bash", "-c", command], cwd="/root", capture_output=True, text=True, timeout=60)
        is_count = "grep -c" in command
        expect(f"{PAGES['OPERATING']}:{number}: {command[:70]}", done.returncode == 0 or is_count and done.stdout.strip().isdigit(),
               (done.returncode, done.stdout, done.stderr))
    run(["systemctl", "stop", "mgd-keep"])
    shell.end_servers()
    if moves:
        try_move(world, shell, moves)


def try_move(world, shell, block):
    """From mgd to mgd-keep: the same world, with mgd before and no folder of mgd-keep."""
    for path in ("/var/lib/private/mgd-keep", "/var/lib/private/mgd"):
        shutil.rmtree(path, ignore_errors=True)
    for path in ("/var/lib/mgd-keep", "/var/lib/mgd"):
        if os.path.islink(path):
            os.unlink(path)
    os.makedirs("/var/lib/mgd", 0o700)
    for name in re.findall(r'file = "(.*)"', open("/etc/mgd.toml").read()):
        with open(f"/var/lib/mgd/{name}", "w") as file:
            file.write("of mgd\n")
    shutil.copy(os.path.join(world.tree, "contrib", "mgd.service"), "/etc/systemd/system/")
    run(["systemctl", "enable", "--now", "mgd"])
    shell.run(block)
    with open("/var/lib/private/mgd-keep/notes.txt") as file:
        expect(f"{block.name}: mgd-keep has the files of mgd", file.read() == "of mgd\n")
    run(["systemctl", "stop", "mgd-keep"])


# --- Messages ----------------------------------------------------------------------------------------------------------------------

def ended(server):
    """What a server that ends said, with its status."""
    status, said = server.ended()
    return f"{said}status {status}"


def at_start(desk, **how):
    from keep_desk import Server
    server = Server(desk, **how)
    if server.port is None:
        return ended(server)
    said = server.told()
    server.kill()
    return said


def changed(desk, keys=None):
    """A journal in which somebody changed a list, some times, and whose server was killed."""
    from keep_desk import DENY_BOB, DROP_FIRST, serving, type_in
    server = serving(desk)
    ann = server.join("ann")
    type_in(ann, (DENY_BOB + DROP_FIRST) * 4 if keys is None else keys)
    ann.read(quiet=0.5)
    time.sleep(1.6)
    server.kill()


def flip(path, at):
    with open(path, "r+b") as file:
        file.seek(at)
        byte = file.read(1)
        file.seek(at)
        file.write(bytes([byte[0] ^ 0x10]))


def forged(statement):
    import sqlite3
    from keep_desk import Desk, made_journal, seal
    with Desk() as desk:
        made_journal(desk)
        base = sqlite3.connect(desk.base)
        base.execute(statement)
        base.commit()
        base.execute("PRAGMA wal_checkpoint(TRUNCATE)").fetchall()
        base.close()
        seal(desk.base)
        return at_start(desk)


def journal_failed():
    from keep_desk import Desk, serving
    with Desk() as desk:
        server = serving(desk)
        os.remove(desk.base)
        return ended(server)


def disk_is_full():
    from keep_desk import Desk
    with Desk() as desk:
        run(["mount", "-t", "tmpfs", "-o", "size=16k,mode=0700", "tmpfs", desk.folder])
        try:
            return at_start(desk)
        finally:
            run(["umount", desk.folder])


def limited(size):
    import resource
    return lambda: resource.setrlimit(resource.RLIMIT_AS, (size, size))


def out_of_memory():
    from keep_desk import Desk
    said = ""
    with Desk() as desk:
        changed(desk)
        for megabytes in range(96, 4, -4):
            words = at_start(desk, before=limited(megabytes << 20))
            said += words if words not in said else ""
    return said


def file_is_damaged():
    from keep_desk import Desk, made_journal
    with Desk() as desk:
        made_journal(desk)
        flip(desk.base, 4096 + 2000)
        return at_start(desk)


def log_is_damaged():
    from keep_desk import Desk
    with Desk() as desk:
        changed(desk)
        flip(desk.base + "-wal", 32 + 24 + 1000)
        return at_start(desk)


def file_is_missing():
    from keep_desk import Desk
    with Desk() as desk:
        changed(desk)
        os.remove(desk.base)
        return at_start(desk)


def second_name():
    from keep_desk import Desk
    with Desk() as desk:
        changed(desk)
        os.link(desk.base, desk.at("second"))
        return at_start(desk)


def two_servers():
    from keep_desk import Desk, serving
    with Desk() as desk:
        server = serving(desk)
        said = at_start(desk)
        server.kill()
        return said


def open_folder():
    from keep_desk import Desk
    with Desk() as desk:
        os.chmod(desk.folder, 0o755)
        return at_start(desk)


def owner_is_gone():
    from keep_desk import Desk, NOTES, PAGE, buffer, config
    with Desk(config(buffer("notes", NOTES), buffer("page", PAGE, owner="eve"), users=("ann", "bob", "cat", "eve"))) as desk:
        changed(desk)
        desk.write(config(buffer("notes", NOTES), buffer("page", PAGE)))
        return at_start(desk)


def killed_buffer():
    from keep_desk import Desk
    with Desk() as desk:
        changed(desk, "\x18kpage\r")
        return at_start(desk)


def changed_file():
    from keep_desk import Desk, NOTES, config, file_buffer
    with Desk() as desk:
        path = desk.at("notes.txt")
        with open(path, "w") as file:
            file.write("of the file\n")
        desk.write(config(file_buffer("notes", NOTES, path)))
        changed(desk, "typed ")
        with open(path, "w") as file:
            file.write("of another program\n")
        return at_start(desk)


def user_twice():
    from keep_desk import Desk, PLAIN, user
    with Desk(user("ann") + PLAIN) as desk:
        return at_start(desk)


def port_is_taken():
    import keep_desk
    with keep_desk.Desk() as desk, socket.create_server(("127.0.0.1", 0)) as other:
        command = [keep_desk.program, "serve", desk.folder, desk.at("served.toml"), str(other.getsockname()[1])]
        done = subprocess.run(command, capture_output=True, text=True, timeout=20)
        return f"{done.stderr}status {done.returncode}"


def foreign_program():
    listen = ("import os, socket, time; os.setuid(65534); one = socket.create_server(('127.0.0.1', 0)); "
              "print(one.getsockname()[1], flush=True); time.sleep(60)")
    other = subprocess.Popen([sys.executable, "-c", listen], stdout=subprocess.PIPE, text=True)
    port = other.stdout.readline().strip()
    done = subprocess.run([os.path.join(TOP, "join"), "--server-user", "mgd", "--port", port, "ann"], capture_output=True, text=True, timeout=20,
                          stdin=subprocess.DEVNULL, env={**os.environ, "MGD_TICKET": "apple"})
    other.kill()
    other.wait()
    return f"{done.stderr}status {done.returncode}"


def server_is_full():
    from keep_desk import Desk, serving
    with Desk() as desk:
        server = serving(desk)
        ones = [socket.create_connection(("127.0.0.1", server.port)) for _ in range(64)]
        time.sleep(0.3)
        with socket.create_connection(("127.0.0.1", server.port)) as last:
            last.settimeout(10)
            said = last.recv(100).decode()
        for one in ones:
            one.close()
        server.kill()
        return said


def memory_is_full():
    from keep_desk import Desk, serving, type_in
    with Desk() as desk:
        server = serving(desk, before=limited(150 << 20), surroundings={**os.environ, "MALLOC_MMAP_THRESHOLD_": "131072"})
        ann = server.join("ann")
        # The text is doubled until it is full, and then killed and put back: each of these edits keeps 4 MB.
        type_in(ann, "\x18h\x1bw\x1b>\x19" * 16)
        ann.read(quiet=0.5)
        for keys in ("\x18h\x17", "\x19") * 100:
            type_in(ann, keys)
            ann.read(quiet=0.05)
            if "No memory" in ann.shows(ann.rows):
                break
        said = ann.shows(ann.rows)
        server.kill()
        return said


def save_fails():
    from keep_desk import Desk, NOTES, config, file_buffer, see, serving, type_in
    with Desk() as desk:
        path = desk.at("notes.txt")
        with open(path, "w") as file:
            file.write("of the file\n")
        desk.write(config(file_buffer("notes", NOTES, path)))
        os.chmod(path, 0o444)
        server = serving(desk)
        ann = server.join("ann")
        type_in(ann, "typed \x18\x13")
        see(ann, "Save failed", 5)
        server.kill()
        return ann.shows(ann.rows)


MESSAGES = {
    "journal failed": journal_failed,
    "journal: the disk is full": disk_is_full,
    "journal: no memory": out_of_memory,
    "journal: out of memory": out_of_memory,
    "journal: the file is damaged or no database": file_is_damaged,
    "journal: the log is damaged: no crash leaves it so": log_is_damaged,
    "journal: the file is missing beside its log": file_is_missing,
    "not as its events say": lambda: forged("UPDATE buffer SET owner = 'bob' WHERE name = 'page'"),
    "does not follow from those before it": lambda: forged("DELETE FROM event WHERE number = (SELECT min(number) FROM event WHERE what = 'login')"),
    "journal: the system does not open, read or write the file": second_name,
    "journal: another process has the file open": two_servers,
    "not a folder of yours with mode 0700": open_folder,
    "owner eve is no user": owner_is_gone,
    "a user made or killed it, so CONFIG's is not taken": killed_buffer,
    "its file was changed since": changed_file,
    "user 2: Twice": user_twice,
    "listening failed": port_is_taken,
    "belongs to a program of": foreign_program,
    "refused 5 Full": server_is_full,
    "No memory": memory_is_full,
    "Save failed": save_fails,
}


def try_messages(programs):
    import keep_desk
    keep_desk.use(programs[1])
    os.environ["MALLOC_MMAP_THRESHOLD_"] = "131072"
    headings = list(headings_below("The bad day"))
    for heading in headings:
        provoke = MESSAGES.get(heading)
        said = provoke() if provoke else "nothing provokes it"
        expect(f"{PAGES['OPERATING']}: `{heading}`", heading in said, said[-300:])
    absent = [message for message in MESSAGES if message not in headings]
    expect("each message that is provoked has a heading", not absent, absent)


# --- All of it ---------------------------------------------------------------------------------------------------------------------

def try_quotes():
    """Each line that docs/PROOF-TUTORIAL.md quotes stands in the file that was named last before it."""
    path, lines = None, []
    with open(os.path.join(TOP, "docs", "PROOF-TUTORIAL.md"), encoding="utf-8") as file:
        for number, line in enumerate(file, 1):
            named = re.findall(r"`(crates/[^`]+)`", line)
            if named:
                path = named[-1]
                with open(os.path.join(TOP, path), encoding="utf-8") as source:
                    lines = source.read()
            elif line.startswith("    "):
                expect(f"docs/PROOF-TUTORIAL.md:{number} stands in {path}", line.strip() in lines, line.strip())


def inside(part, programs, look):
    """One part, in namespaces of its own."""
    sys.argv[1:] = []
    world = World(programs)
    if part == "messages":
        try_messages(programs)
    else:
        if part == "OPERATING":
            world.install()
        {"README": try_readme, "TUTORIAL": try_tutorial, "OPERATING": try_operating}[part](world, look)
    print(f"{part}: {passed} passed, {failed} failed", flush=True)


def main():
    options = argparse.ArgumentParser(description=__doc__.split("\n")[0])
    options.add_argument("--only", choices=PARTS)
    options.add_argument("--look", action="store_true")
    options.add_argument("--script", action="store_true")
    options.add_argument("--inside", help=argparse.SUPPRESS)
    options.add_argument("programs", nargs="*")
    chosen = options.parse_args()
    if chosen.script:
        print(tutorial_script()[0], end="")
        return 0
    if not chosen.inside and not chosen.only:
        try_quotes()
    programs = chosen.programs or [os.path.join(TOP, "crates", name, "out", name) for name in ("mgd", "mgd_keep")]
    programs = [os.path.abspath(path) for path in programs]
    if chosen.inside:
        inside(chosen.inside, programs, chosen.look)
        return 0
    missing = [path for path in programs if not os.access(path, os.X_OK)]
    if len(programs) != 2 or missing or os.geteuid() != 0 or shutil.which("unshare") is None:
        print(f"this needs root, unshare and the two programs {' '.join(programs)}; ./mgd prove builds them")
        return 1
    total = [passed, failed]
    for part in [chosen.only] if chosen.only else PARTS:
        command = ["unshare", "--mount", "--net", "--pid", "--fork", "--kill-child", "--mount-proc", sys.executable, os.path.abspath(__file__),
                   "--inside", part, *(["--look"] if chosen.look else []), *programs]
        done = subprocess.run(command, stdout=subprocess.PIPE, text=True)
        print(done.stdout, end="", flush=True)
        found = re.search(rf"^{part}: (\d+) passed, (\d+) failed$", done.stdout, re.M)
        total = [total[0] + int(found[1]), total[1] + int(found[2])] if found else [total[0], total[1] + 1]
    print(f"{total[0]} passed, {total[1]} failed")
    return 1 if total[1] else 0


sys.exit(main())
