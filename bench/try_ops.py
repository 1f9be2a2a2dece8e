#!/usr/bin/env python3
"""Tries mgd-ops over a server: python3 bench/try_ops.py [PROGRAM [KEEP]]

It starts the server that stands in crates/mgd/out/mgd (or PROGRAM) over texts in a folder of its own, changes some as another user would,
and looks at what contrib/mgd-ops prints and saves. If crates/mgd_keep/out/mgd_keep (or KEEP) is there, it does the same with the journal.
It is started by hand and ends with status 0 if all is as it should be.
"""
import os, re, shutil, signal, socket, subprocess, sys, tempfile, time

TOP = os.path.dirname(os.path.dirname(os.path.abspath(__file__)))
PROGRAM = os.path.abspath(sys.argv[1]) if len(sys.argv) > 1 else os.path.join(TOP, "crates", "mgd", "out", "mgd")
KEEP = os.path.abspath(sys.argv[2]) if len(sys.argv) > 2 else os.path.join(TOP, "crates", "mgd_keep", "out", "mgd_keep")
OPS = os.path.join(TOP, "contrib", "mgd-ops")
MANY = 130
failed = 0


def expect(what, is_so, seen=""):
    global failed
    print(("ok    " if is_so else "FAILED ") + what + ("" if is_so else f": {seen!r}"))
    failed += not is_so


def buffer(name, entries, more=""):
    return f'[[buffer]]\nname = "{name}"\nowner = "ann"\n' + more + "list = [" + ", ".join(f'"{entry}"' for entry in entries) + "]\n"


OWNER = "ALLOW OWNER@ rwatcCo"
LONG = [f"ALLOW u{number} rwat" for number in range(63)] + ["ALLOW ops rwtc"]
CONFIG = (
    '[[user]]\nname = "ann"\nticket = "apple"\n[[user]]\nname = "ops"\nticket = "orange"\n[[group]]\nname = "staff"\nmembers = ["ann"]\n'
    + buffer("notes", [OWNER, "ALLOW ops rwtc"], 'group = "staff"\nfile = "notes.txt"\n')
    + buffer("wide", [OWNER, "ALLOW ops rwt"], 'file = "wide.txt"\n')
    + buffer("hidden", [OWNER], 'file = "hidden.txt"\n')
    + buffer("readonly", [OWNER, "ALLOW ops rtc"], 'file = "readonly.txt"\n')
    + buffer("nofile", [OWNER, "ALLOW ops rwtc"])
    + buffer("long", LONG)
    + "".join(buffer(f"b{number}", [OWNER, "ALLOW ops rwtc"], f'text = "{number} \u6f22\u2630\u00e9"\n') for number in range(MANY))
)
PUT = (
    CONFIG.replace(f'list = ["{OWNER}", "ALLOW ops rwtc"]\n[[buffer]]\nname = "wide"', f'list = ["{OWNER}", "ALLOW ops rwatc"]\n[[buffer]]\nname = "wide"')
    .replace(f'name = "nofile"\nowner = "ann"\nlist = ["{OWNER}", "ALLOW ops rwtc"]', f'name = "nofile"\nowner = "ann"\nlist = ["{OWNER}", "ALLOW ops rwatc"]')
    + buffer("room", [OWNER, "ALLOW ops rwat"], 'file = "room.txt"\n') + buffer("box", [OWNER, "ALLOW ops at"])
)


def ops(port, *words, name="ops", options=(), given=None, **variables):
    ran = subprocess.run([OPS, "--port", port, *options, name, *words], capture_output=True, input=given, text=True,
                         env={**os.environ, "MGD_TICKET": "orange", **variables})
    return ran.returncode, ran.stdout, ran.stderr


def edit(port):
    """ann changes five texts and one list."""
    with socket.create_connection(("127.0.0.1", int(port))) as ann:
        ann.sendall(b"login ann apple 24 80\n" + b"".join(b"\x18b" + name + b"\rx" for name in [b"notes", b"wide", b"hidden", b"readonly", b"nofile"])
                    + b"\x18bb7\r\x151\x1bxacl-insert\rDENY bob r\r")
        time.sleep(0.7)


def read(name):
    with open(name, encoding="utf-8") as file:
        return file.read()


def try_all(port):
    expect("nothing is to be saved", ops(port, "save-all") == (0, "", ""), ops(port, "save-all"))
    edit(port)
    status, told, _ = ops(port, "buffers")
    lines = told.splitlines()
    wanted = ["notes ann staff 4 not saved", "wide ann - 6 not saved", "readonly ann - 4 not saved", "nofile ann - 1 not saved", "long ann - 0"]
    expect("buffers prints what it sees, with owners", status == 0 and lines[:5] == wanted and len(lines) == 5 + MANY, lines[:6] + lines[-1:])
    status, told, _ = ops(port, "lists")
    tables = told.split("\n\n")
    expect("lists prints a table of a configuration", tables[0] == f'[[buffer]]\nname = "notes"\nowner = "ann"\ngroup = "staff"\nlist = ["{OWNER}", "ALLOW ops rwtc"]', tables[0])
    expect("a list that it may not see is told, with status 1", tables[1].endswith("# list: Denied: no entry grants READ_ACL") and status == 1, (status, tables[1]))
    expect("one of 64 entries is whole", tables[4].endswith("list = [" + ", ".join(f'"{entry}"' for entry in LONG) + "]"), tables[4])
    expect("one that was changed is as it is now", tables[5 + 7].endswith(f'list = ["DENY bob r", "{OWNER}", "ALLOW ops rwtc"]'), tables[12])
    expect("all are there", len(re.findall(r"^list = ", told, re.M)) == 4 + MANY, len(tables))
    status, told, _ = ops(port, "save-all")
    wanted = ["notes: Wrote notes", "wide: Wrote wide", "readonly: Denied: no entry grants WRITE_DATA", "nofile: No file"]
    expect("save-all saves what it may, and tells the rest with status 1", status == 1 and told.splitlines() == wanted, (status, told))
    texts = [read(f"{name}.txt") for name in ["notes", "wide", "hidden", "readonly"]]
    expect("the files have it", texts == ["xold", "x\u6f22\u5b57 \u2630\n", "old", "old"], texts)
    expect("and it is not saved again", ops(port, "save-all")[1].splitlines() == wanted[2:], ops(port, "save-all"))


def try_config(port):
    """Lists and rights with the configuration beside them."""
    with open("ops.toml", encoding="utf-8") as file:
        text = file.read()
    with open("later.toml", "w", encoding="utf-8") as file:
        file.write(text.replace('owner = "ann"\nlist = ["ALLOW OWNER@ rwatcCo", "ALLOW ops rwtc"]\n[[buffer]]\nname = "long"', 'owner = "ops"\nlist = ["ALLOW OWNER@ rwat"]\n[[buffer]]\nname = "long"')
                   + buffer("gone", [OWNER]))
    status, told, said = ops(port, "lists", options=["--config", "later.toml"])
    tables = dict((re.search(r'^name = "(.*)"$', part, re.M)[1], part) for part in told.split("\n\n") if "[[buffer]]" in part)
    expect("lists with a configuration has the files", tables["notes"] == f'[[buffer]]\nname = "notes"\nowner = "ann"\ngroup = "staff"\nlist = ["{OWNER}", "ALLOW ops rwtc"]\nfile = "notes.txt"',
           (tables["notes"], said))
    expect("and the texts", tables["b3"].endswith('\ntext = "3 \u6f22\u2630\u00e9"'), tables["b3"])
    expect("it tells what differs", tables["nofile"].startswith("# not as CONFIG has it: owner, list\n[[buffer]]") and tables["b7"].startswith("# not as CONFIG has it: list\n"), (tables["nofile"], tables["b7"]))
    ends = told.splitlines()
    expect("and what is not seen of it", '# not seen: CONFIG has the buffer "hidden"' in ends and '# not seen: CONFIG has the buffer "gone"' in ends, ends[-3:])
    with open("again.toml", "w", encoding="utf-8") as file:
        file.write(text[:text.index("[[buffer]]")] + "\n\n".join(part for part in told.split("\n\n") if "\nlist = " in part))
    ran = subprocess.run([OPS.replace("mgd-ops", "mgd-check"), "again.toml", "--", PROGRAM], capture_output=True, text=True)
    expect("what it prints is served as a configuration", ran.returncode == 0 and "mgd serves it" in ran.stdout, ran.stdout[-300:])
    with socket.create_connection(("127.0.0.1", int(port))) as ann:
        ann.sendall(b"login ann apple 24 80\n" + b"\x18bb9\r\x151\x1bxacl-insert\rALLOW guss w\r\x18bmine\r\x1bxacl-insert\rALLOW ops tc\r")
        time.sleep(0.7)
    status, told, said = ops(port, "lists", options=["--config", "ops.toml"])
    expect("a buffer that was made in a session is told", '# made in a session: CONFIG does not have it\n[[buffer]]\nname = "mine"\nowner = "ann"\nlist = ["ALLOW OWNER@ rwatdcCo", "ALLOW ops tc"]\n' in told, told[-400:])
    status, told, said = ops(port, "rights", options=["--config", "ops.toml"])
    lines = told.splitlines()
    expect("rights warns of what it does not see", lines[0] == "wide: warning: its list is not seen: Denied: no entry grants READ_ACL" and status == 1, (status, lines[:3], said))
    expect("and as mgd-check of what may be a mistake", 'b9: warning: entry 1, "ALLOW guss w", matches nobody: guss is no user' in lines, lines[:9])
    rows = [line.split() for line in lines if line.startswith(("user ", "ops "))]
    found = dict(cell for names, letters in zip(rows[::2], rows[1::2]) for cell in zip(names, letters))
    expect("and prints who may do what now", [found[name] for name in ["notes", "b9", "mine"]] == ["rw-t-c--", "rw-t-c--", "---t-c--"] and "wide" not in found, found)
    for path, words in [("nowhere.toml", "nowhere.toml cannot be read by"), ("notes.txt", "")]:
        for task in ["lists", "rights"]:
            status, told, said = ops(port, task, options=["--config", path])
            expect(f"{task} with {path}: status 9", status == 9 and words in said + told, (status, told[-200:], said))


def try_put(port):
    """Texts that are typed in."""
    text = "one\n\ttwo \u6f22 \u00e9 \U0001f600\n" + "".join(chr(code) for code in range(32)) + "\x7f~" + "line\n" * 400 + "end"
    before = ops(port, "buffers")[1]
    seen = ops(port, "put", "notes", given=text)
    expect("put types a text", seen == (0, f"notes: {len(text)} characters typed\n", ""), seen)
    ops(port, "save-all")
    expect("at the end, as it is", open("notes.txt", encoding="utf-8", newline="").read() == "xold" + text, open("notes.txt", newline="").read()[:60])
    seen = ops(port, "put", "b8", given="more")
    expect("a buffer without the right to append at its end", seen == (1, "b8: Denied: no entry grants APPEND_DATA; of its 4 characters at most 4 were typed\n", ""), seen)
    seen = ops(port, "put", "none", given="more")
    after = ops(port, "buffers")[1]
    expect("a buffer that is not there is not made: status 1", seen == (1, "", "mgd-ops: ops sees no buffer none\n") and " none " not in after and len(after.splitlines()) == len(before.splitlines()), seen)
    for given, words in [(b"caf\xe9", "the text is no UTF-8"), (b"\xed\xa0\x80", "the text "), (b"x" * 1_048_577, "the text has more than 1048576 characters")]:
        ran = subprocess.run([OPS, "--port", port, "ops", "put", "notes"], input=given, capture_output=True, env={**os.environ, "MGD_TICKET": "orange"})
        expect(f"{given[:5]!r} is not typed: status 9", ran.returncode == 9 and words in ran.stderr.decode(), ran)
    seen = ops(port, "put", "nofile", given="")
    expect("an empty text", seen == (0, "nofile: 0 characters typed\n", ""), seen)
    seen = ops(port, "put", "room", given="a" * 1_000)
    expect("a text that does not fit: status 10", seen[0] == 10 and seen[1].startswith("room: Buffer full; of its 1000 characters at most "), seen)
    seen = ops(port, "put", "box", given="\u6f22 in a box\n")
    expect("a user without r types at the end", seen == (0, "box: 11 characters typed\n", ""), seen)


def try_who(port):
    """Who is connected, as the system tells."""
    seen = ops(port, "who", MGD_TICKET="")
    expect("who prints nobody if nobody is there", seen == (0, "", ""), seen)
    join = os.path.join(TOP, "join")
    joined = [subprocess.Popen([join, "ann", "apple", "127.0.0.1", port], stdin=subprocess.PIPE, stdout=subprocess.PIPE, stderr=subprocess.PIPE) for _ in range(2)]
    other = socket.create_connection(("127.0.0.1", int(port)))
    time.sleep(1)
    account = subprocess.run(["id", "-un"], capture_output=True, text=True).stdout.strip()
    seen = ops(port, "who", MGD_TICKET="")
    expect("who prints users of join, accounts and numbers", seen == (0, f"? {account} 1\nann {account} 2\n", ""), seen)
    other.close()
    for one in joined:
        one.communicate()
    seen = ops(port, "who", options=["--host", "192.0.2.1"])
    expect("on the server's machine alone", seen == (2, "", "mgd-ops: who is connected is seen on the machine of the server alone\n"), seen)


def try_journal():
    """What the journal of mgd-keep tells: who is there, and the lists that ops does not see."""
    if not os.path.exists(KEEP):
        return print(f"      {KEEP} is not there: the journal is not tried")
    os.mkdir("bin")
    for script in ["mgd-ops", "mgd-check"]:
        shutil.copy(OPS.replace("mgd-ops", script), "bin")
    os.symlink(KEEP, "bin/mgd-keep")
    os.mkdir("journal", mode=0o700)

    def run(*words, given=None):
        ran = subprocess.run(["bin/mgd-ops", *words], capture_output=True, input=given, text=True)
        return ran.returncode, ran.stdout, ran.stderr

    for turn in range(2):
        process = subprocess.Popen([KEEP, "serve", "journal", "ops.toml", "0"], stdout=subprocess.PIPE, stderr=subprocess.DEVNULL,
                                   env={**os.environ, "MALLOC_MMAP_THRESHOLD_": "131072"})
        port = next(line for line in iter(process.stdout.readline, b"") if line.startswith(b"listening")).decode().strip().rpartition(":")[2]
        here = ["--port", port, "--journal", "journal", "ops"]
        people = [socket.create_connection(("127.0.0.1", int(port))) for _ in range(3)]
        for one, keys in zip(people, [b"login ann apple 24 80\n\x18bdraft\rx", b"login ann apple 24 80\n", b"login ops orange 24 80\n"]):
            one.sendall(keys)
        time.sleep(0.4)
        if turn == 0:
            people[0].sendall(b"\x18bb5\r\x151\x1bxacl-insert\rDENY bob r\r\x1bxset-group\rstaff\r\x1bxset-owner\rops\r\x18bdead\r\x18kdead\r\x18bdraft\r\x1bxacl-insert\rALLOW bob tr\r")
        people[2].sendall(b"\x18\x03")
        time.sleep(2)
        status, told, said = run(*here, "who")
        expect(f"who tells from the journal who is there (start {turn + 1})", status == 0 and re.fullmatch(r"ann 2 \d{4}-\d\d-\d\dT\d\d:\d\d:\d\dZ\n", told) and said == "", (status, told, said))
        status, told, said = run(*here[:-1], "--config", "ops.toml", "ops", "lists")
        tables = dict((re.search(r'^name = "(.*)"$', part, re.M)[1], part) for part in told.split("\n\n") if "[[buffer]]" in part)
        expect("lists from the journal has what ops does not see", status == 0 and f'name = "hidden"\nowner = "ann"\nlist = ["{OWNER}"]\nfile = "hidden.txt"' in tables["hidden"], (tables.get("hidden"), said))
        expect("and what was made in a session, but not what was killed",
               tables["draft"] == '# made in a session: CONFIG does not have it\n[[buffer]]\nname = "draft"\nowner = "ann"\nlist = ["ALLOW OWNER@ rwatdcCo", "ALLOW bob rt"]' and "dead" not in tables, tables.get("draft"))
        expect("and what was changed", tables["b5"].startswith('# not as CONFIG has it: owner, group, list\n[[buffer]]\nname = "b5"\nowner = "ops"\ngroup = "staff"\nlist = ["DENY bob r", '), tables["b5"])
        status, told, said = run(*here[:-1], "--config", "ops.toml", "ops", "rights")
        expect("rights from the journal", status == 0 and "draft: warning: entry 2, \"ALLOW bob rt\", matches nobody: bob is no user" in told and "\nops " in told, (status, told[:500], said))
        process.kill()
        process.wait()
        for one in people:
            one.close()
    lines = subprocess.run([KEEP, "audit", "journal"], capture_output=True, text=True).stdout
    with open("lines", "w") as file:
        file.write(lines)
    first = run("--journal", "lines", "ops", "lists")
    expect("a file with the lines of an audit, and standard input", first[0] == 0 and 'name = "draft"' in first[1] and run("--journal", "-", "ops", "lists", given=lines) == first, first[2])
    status, told, said = run("--port", port, "--journal", "lines", "ops", "who")
    expect("without the server's process the sessions of a crash are told too, with a word", status == 0 and told.startswith("ann 4 ") and "cannot be seen" in said, (status, told, said))
    for journal in ["nowhere", "notes.txt", "bin"]:
        seen = run("--journal", journal, "ops", "lists")
        expect(f"the journal {journal}: status 9", seen[0] == 9 and seen[1] == "" and seen[2] != "", seen)


def try_ends(port):
    ticket = "ops.ticket"
    for text, wanted in [("orange\n", 0), ("orange", 0), ("orange\r\nmore", 0), ("apple\n", 5), ("\n", 8), ("o" * 65, 8)]:
        with open(ticket, "w") as file:
            file.write(text)
        ran = subprocess.run([OPS, "--port", port, "--ticket-file", ticket, "ops", "buffers"], capture_output=True, text=True)
        expect(f"a ticket in a file, {text[:9]!r}: status {wanted}", ran.returncode == wanted, ran)
    ran = subprocess.run([OPS, "--port", port, "--ticket-file", ".", "ops", "buffers"], capture_output=True, text=True)
    expect("a ticket that cannot be read: status 8", ran.returncode == 8 and ". cannot be read: Is a directory" in ran.stderr, ran)
    seen = ops(port, "buffers", MGD_TICKET="pear")
    expect("a refused login: status 5", seen == (5, "", "mgd-ops: the login of ops is refused 3 Ticket\n"), seen)
    many = [socket.create_connection(("127.0.0.1", int(port))) for _ in range(64)]
    time.sleep(0.3)
    seen = ops(port, "buffers")
    for one in many:
        one.close()
    time.sleep(0.3)
    expect("a full server: status 6", seen == (6, "", "mgd-ops: the login of ops is refused 5 Full\n"), seen)
    other = socket.create_server(("127.0.0.1", 0))
    child = subprocess.Popen([OPS, "--port", str(other.getsockname()[1]), "ops", "buffers"], env={**os.environ, "MGD_TICKET": "orange"}, stderr=subprocess.PIPE, text=True)
    peer = other.accept()[0]
    peer.recv(100)
    peer.sendall(b"HTTP/1.1 400 Bad Request\r\n")
    seen = child.wait(10), child.stderr.read()
    expect("something else that answers: status 3", seen == (3, f"mgd-ops: what answers at 127.0.0.1 port {other.getsockname()[1]} is not mgd\n"), seen)
    peer.close()
    other.close()
    for words in [[], ["what"], ["who", "lists"], ["put"], ["put", "a", "b"], ["rights"], ["lists", "more"]]:
        seen = ops(port, *words)
        expect(f"{words} is answered by the usage line", seen[0] == 2 and seen[2].startswith("usage: mgd-ops"), seen)


# Listens as another user.
STRANGER = """
import os, socket
os.setgid(65534), os.setuid(65534)
sock = socket.create_server(("127.0.0.1", 0))
print(sock.getsockname()[1], flush=True)
while True:
    peer, _ = sock.accept()
    print(peer.recv(200), flush=True)
    peer.close()
"""


def try_stranger():
    if os.getuid() or not os.path.exists("/proc/net/tcp"):
        return print("left out: a port of another user, for which this has to be root of Linux")
    stranger = subprocess.Popen([sys.executable, "-c", STRANGER], stdout=subprocess.PIPE, text=True)
    port = stranger.stdout.readline().strip()
    seen = ops(port, "buffers")
    words = f"mgd-ops: port {port} of 127.0.0.1 belongs to a program of nobody, which could keep the ticket; it is not sent\n"
    got = stranger.stdout.readline()
    expect("a port of another user gets no ticket, and 0 bytes: status 7", seen == (7, "", words) and got == "b''\n", (seen, got))
    for user in ["nobody", "65534"]:
        ran = subprocess.run([OPS, "--port", port, "--server-user", user, "ops", "buffers"], env={**os.environ, "MGD_TICKET": "orange"}, capture_output=True, text=True)
        expect(f"but with --server-user {user} it does", "login ops orange" in stranger.stdout.readline() and ran.returncode == 3, ran)
    stranger.kill()
    stranger.wait()


def try_server_that_stands_still(server, port):
    server.send_signal(signal.SIGSTOP)
    start = time.monotonic()
    child = subprocess.Popen([OPS, "--port", port, "ops", "buffers"], env={**os.environ, "MGD_TICKET": "orange"}, stderr=subprocess.PIPE, text=True)
    try:
        seen = child.wait(60), child.stderr.read()
    except subprocess.TimeoutExpired:
        child.kill()
        seen = "it waits"
    server.send_signal(signal.SIGCONT)
    expect("a server that stands still is not waited for without end", seen == (4, "mgd-ops: the server does not answer: the login\n") and time.monotonic() - start < 40, seen)


def serving(config, *tries):
    """Starts the server over a configuration, and tries each of these at its port."""
    with open("ops.toml", "w", encoding="utf-8") as file:
        file.write(config)
    process = subprocess.Popen([PROGRAM, "serve", "ops.toml", "0"], stdout=subprocess.PIPE)
    place = process.stdout.readline().decode().strip().rpartition(":")[2]
    try:
        for one in tries:
            one(place)
        if try_ends in tries:
            try_server_that_stands_still(process, place)
    finally:
        process.kill()
        process.wait()
    return place


with tempfile.TemporaryDirectory() as folder:
    os.chdir(folder)
    for name, text in [("notes", "old"), ("wide", "\u6f22\u5b57 \u2630\n"), ("hidden", "old"), ("readonly", "old"), ("room", "x" * 1_048_000)]:
        with open(f"{name}.txt", "w", encoding="utf-8") as file:
            file.write(text)
    place = serving(CONFIG, try_all, try_config, try_who, try_ends)
    serving(PUT, try_put)
    try_journal()
    try_stranger()
    gone = ops(place, "buffers")
    expect("no server: status 3", gone == (3, "", f"mgd-ops: nothing answers at 127.0.0.1 port {place}\n"), gone)
    os.chdir("/")
print(f"{failed} failed")
sys.exit(1 if failed else 0)
