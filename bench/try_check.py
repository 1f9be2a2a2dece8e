#!/usr/bin/env python3
"""Tries mgd-check: python3 bench/try_check.py [--answers] [PROGRAM]

It writes configurations with one fault or one mistake each, and looks at what contrib/mgd-check says of them, and of which line. With
--answers it prints what was said of each. The program that tells the faults is crates/mgd/out/mgd, or PROGRAM. It is started by hand and
ends with status 0 if all is as it should be.
"""
import os, resource, shutil, subprocess, sys, tempfile

TOP = os.path.dirname(os.path.dirname(os.path.abspath(__file__)))
WORDS = [word for word in sys.argv[1:] if word != "--answers"]
PROGRAM = WORDS[0] if WORDS else os.path.join(TOP, "crates", "mgd", "out", "mgd")
CHECK = os.path.join(TOP, "contrib", "mgd-check")
BASE = """# A configuration without a fault.
[[user]]
name = "ann"
ticket = "q7RzL0c2VnWb5XtYd8Ks3GmP"

[[user]]
name = "bob"
ticket = "Hj4Tz9Ue1BxMw6QkFp0Ld2Sa"

[[buffer]]
name = "notes"
owner = "ann"
list = ["ALLOW OWNER@ rwatcCo", "ALLOW bob rwat"]
"""
GROUP = '[[group]]\nname = "staff"\nmembers = ["ann"]\n'
failed = 0


def expect(what, is_so, seen=""):
    global failed
    print(("ok    " if is_so else "FAILED ") + what + ("" if is_so else f": {seen!r}"))
    failed += not is_so


def line_of(text, words):
    """The number of the line that has these words."""
    return 1 + next(number for number, line in enumerate(text.split("\n")) if words in line)


def check(folder, text, *options, mode=0o600, **how):
    path = os.path.join(folder, "it.toml")
    with open(path, "wb") as file:
        file.write(text if isinstance(text, bytes) else text.encode())
    os.chmod(path, mode)
    return subprocess.run([CHECK, *options, path, "--", PROGRAM], capture_output=True, text=True, cwd=folder, **how)


def try_one(what, folder, text, status, begins, words=None, **how):
    """One configuration, the status, and what a line has that is printed: behind its line's number, where words are named."""
    ran = check(folder, text, **how)
    wanted = f"it.toml:{line_of(text, words)}: {begins}" if words else f"it.toml: {begins}"
    expect(what, ran.returncode == status and any(wanted in line for line in ran.stdout.splitlines()), (wanted, ran.returncode, ran.stdout, ran.stderr))
    if "--answers" in sys.argv:
        print("".join(f"      {line.replace(folder + '/', '')}\n" for line in ran.stdout.splitlines()), end="")


def changed(old, new):
    assert BASE.count(old) == 1, old
    return BASE.replace(old, new)


def with_file(path):
    return BASE + f'file = "{path}"\n'


def make_files(folder):
    """Files that are none of a text, each with what is said of it."""
    at = lambda name: os.path.join(folder, name)
    for name, bytes_ in [("latin.txt", "Grüße\nvon hier\n".encode("latin-1")), ("long.txt", b"x" * 1_048_577), ("huge.txt", b"x" * 5_000_000)]:
        with open(at(name), "wb") as file:
            file.write(bytes_)
    os.mkdir(at("folder"))
    os.mkfifo(at("pipe"))
    os.symlink("nowhere", at("link"))


def try_faults(folder):
    make_files(folder)
    list_of = lambda *entries: changed('["ALLOW OWNER@ rwatcCo", "ALLOW bob rwat"]', "[" + ", ".join(entries) + "]")
    entry = lambda words: changed('"ALLOW bob rwat"', f'\n  "{words}"')
    users = "".join(f'[[user]]\nname = "u{number}"\nticket = "q7RzL0c2VnWb5XtYd{number:07}"\n' for number in range(257))
    rows = [
        ("no value", BASE + "x = \n", 'top 0: Toml: a value is missing; name = "ann" is the form', "x = "),
        ("a string without quotes", changed('owner = "ann"', "owner = ann"), 'top 0: Toml: "ann" is no value; a string stands between two "', "owner = "),
        ("a key twice", BASE + 'name = "again"\n', "top 0: Toml: the key name stands twice; line 11 has it too", "again"),
        ("a string without an end", changed('name = "bob"', 'name = "bob'), 'top 0: Toml: a string has no " at its end', 'name = "bob'),
        ("a list without an end", changed('rwat"]', 'rwat"') + "\n" + GROUP, "top 0: Toml: the list that begins here has no ] at its end", "list ="),
        ("one bracket", changed('[[user]]\nname = "bob"', '[user] # one\nname = "bob"'), "top 0: Toml: the heading [user] stands twice; a table of a list has two brackets, [[user]]", "# one"),
        ("one bracket of one", changed("[[buffer]]", "[buffer]"), "top 0: Key: buffer has to be a list of tables, each with the heading [[buffer]], in two brackets", "[buffer]"),
        ("another heading", BASE + "[[users]]\n", "top 0: Key: there is no key users here; the lists are [[user]], [[group]] and [[buffer]]", "[[users]]"),
        ("another key of all", 'title = "x"\n' + BASE, "top 0: Key: there is no key title here", "title"),
        ("a key too many", changed('owner = "ann"', 'owner = "ann"\ncolour = "red"'), "buffer 1: Key: a buffer has no key colour; its keys are file, group, list, name, owner, text", "colour"),
        ("a key too few", changed('owner = "ann"\n', ""), "buffer 1: Key: the key owner is missing; a buffer needs list and name and owner", "[[buffer]]"),
        ("a number", changed('owner = "ann"', "owner = 3"), 'buffer 1: Key: owner has to be a string, as owner = ".."', "owner"),
        ("a string for a list", list_of().replace("[]", '"ALLOW bob r"'), 'buffer 1: Key: list has to be a list of strings, as list = ["..", ".."]', "list ="),
        ("text and file", BASE + 'text = "a"\nfile = "latin.txt"\n', "buffer 1: Key: a buffer has a text or a file, and not both; line 14 has the text", "file ="),
        ("a name", changed('name = "bob"', 'name = "Bob"'), 'user 2: Name: "Bob" is no name of a user: it has the character "B"; a name is 1 to 32 of', "Bob"),
        ("a long name", changed('name = "bob"', f'name = "{"b" * 33}"'), "is no name of a user: it has 33 characters; a name is 1 to 32 of", "bbb"),
        ("a ticket with a space", changed('ticket = "Hj4', 'ticket = "H j4'), "user 2: Name: the ticket of bob has a space; a ticket is 1 to 64 characters", "H j4"),
        ("a long ticket", changed('ticket = "Hj4', f'ticket = "{"7" * 60}'), "user 2: Name: the ticket of bob has 81 characters; a ticket is 1 to 64", "777"),
        ("a name twice", changed('name = "bob"', 'name = "ann" # again'), 'user 2: Twice: "ann" is the name of another user, on line 3; one of them needs another name', "again"),
        ("an owner", changed('owner = "ann"', 'owner = "eve"'), 'buffer 1: Unknown: the owner "eve" is no user; the users are ann, bob', "eve"),
        ("a group as an owner", changed('owner = "ann"', 'owner = "staff"') + GROUP, 'buffer 1: Unknown: the owner "staff" is no user; staff is a group; the users are', "owner ="),
        ("an owning group", changed('owner = "ann"', 'owner = "ann"\ngroup = "staff"'), 'buffer 1: Unknown: the owning group "staff" is no group; there is no group', "staff"),
        ("no group's name", changed('owner = "ann"', 'owner = "ann"\ngroup = "group:staff"'), "here the name stands alone, without group:", "staff"),
        ("a member", BASE + '[[group]]\nname = "staff"\nmembers = ["ann",\n "eve"]\n', 'group 1: Unknown: the member "eve" is no user', "eve"),
        ("a member's name", BASE + '[[group]]\nname = "staff"\nmembers = ["ann",\n "Eve"]\n', 'group 1: Unknown: the member "Eve" is no user, and no name of one: it has the character "E"', "Eve"),
        ("an entry's type", entry("Allow bob rw"), 'buffer 1: Entry: entry 2, "Allow bob rw": "Allow" has to be ALLOW or DENY', "Allow"),
        ("an entry's who", entry("ALLOW owner@ rw"), '"owner@" has to be OWNER@, GROUP@, EVERYONE@, a user\'s name, or group: and', "owner@"),
        ("an entry without letters", entry("DENY bob"), "the letters are missing; they are one or more of r w a t d c C o", "DENY bob"),
        ("an entry's letters", entry("ALLOW bob r,w"), '"r,w" has the character ","; the letters are r w a t d c C o, in one word', "r,w"),
        ("an entry's end", entry("ALLOW bob r w"), '"w" stands behind the letters, which are one word; the form is TYPE WHO LETTERS', "bob r w"),
        ("a long list", list_of(*['"ALLOW bob r"'] * 65), "buffer 1: Long: the list has 65 entries, and 64 are the most", "ALLOW bob r"),
        ("a long text", BASE + f'text = "{"x" * 1_048_577}"\n', "buffer 1: Long: the text has 1,048,577 characters, and 1,048,576 are the most", "text ="),
        ("too many users", users, "user 257: Long: there are 257 users, and 256 are the most", None),
        ("no file", with_file("/nonexistent/x"), 'buffer 1: File: "/nonexistent/x" cannot be read: No such file or directory', "/nonexistent"),
        ("no file, counted from a folder", with_file("none.txt"), f'"none.txt", counted from {folder}, cannot be read: No such file', "none.txt"),
        ("a folder", with_file("folder"), "is a folder, and has to be a regular file", "file ="),
        ("a pipe", with_file("pipe"), "is no regular file", "file ="),
        ("a link that leads nowhere", with_file("link"), "is a link to what is not there", "file ="),
        ("a file of Latin-1", with_file("latin.txt"), "is no UTF-8: the byte 0xFC on line 1 belongs to no character, as in files of Latin-1 or Windows; iconv", "file ="),
        ("a long file", with_file("long.txt"), "has 1,048,577 characters; 1,048,576 characters are the most of a text", "file ="),
        ("a longer file", with_file("huge.txt"), "has more than 4,194,304 bytes; 1,048,576 characters are the most of a text", "file ="),
        ("users in one value", 'user = [{name = "ann", ticket = "t"},\n {name = "Bob", ticket = "t"}]\n', "user 2: Name", "Bob"),
    ]
    for what, text, begins, words in rows:
        if words is None:
            text, words = text + "# here", "u256"
            begins_line = line_of(text, words) - 1
            ran = check(folder, text)
            expect(what, f"it.toml:{begins_line}: {begins}" in ran.stdout and ran.returncode == 1, ran.stdout)
        elif begins.startswith(("top", "user", "group", "buffer")):
            try_one(what, folder, text, 1, begins, words)
        else:
            ran = check(folder, text)
            expect(what, any(f":{line_of(text, words)}: " in line and begins in line for line in ran.stdout.splitlines()) and ran.returncode == 1, ran.stdout)
            if "--answers" in sys.argv:
                print("".join(f"      {line.replace(folder + '/', '')}\n" for line in ran.stdout.splitlines()), end="")
    for what, text, begins in [
        ("a document of Latin-1", BASE.encode() + "# Grüße\n".encode("latin-1"), ":14: top 0: Toml: it is no UTF-8: the byte 0xFC on line 14"),
        ("a document of UTF-16", BASE.encode("utf-16"), ":1: top 0: Toml: it is no UTF-8: it is UTF-16; iconv -f UTF-16 -t UTF-8"),
        ("a control character", BASE.replace("notes", "no\0tes").encode(), ":11: top 0: Toml: the byte 0x00 is a control character"),
        ("lines that end with CR", BASE.replace("\n", "\r").encode(), ":1: top 0: Toml: a CR stands without an LF behind it"),
    ]:
        ran = check(folder, text)
        expect(what, begins in ran.stdout and ran.returncode == 1, ran.stdout)
        if "--answers" in sys.argv:
            print("".join(f"      {line.replace(folder + '/', '')}\n" for line in ran.stdout.splitlines()), end="")


def try_all_at_once(folder):
    """All faults of one document, by their lines."""
    text = BASE.replace('"bob"', '"Bob"').replace('owner = "ann"', "owner = ann").replace("ALLOW bob rwat", "ALLOW bob x") + 'colour = "red"\n' + GROUP.replace("ann", "eve") + "x = y = z\n"
    ran = check(folder, text)
    told = [line.split(": ")[0].rpartition(":")[2] + " " + line.split(": ")[2] for line in ran.stdout.splitlines()[:-1]]
    expect("all faults of one document", told == ["7 Name", "12 Toml", "13 Entry", "14 Key", "18 Toml"], ran.stdout)
    expect("and their number", ran.stdout.endswith("it.toml: mgd does not serve it: 5 faults\n") and ran.returncode == 1, ran.stdout)
    for old, new in [('"Hj4', '"Hj 4'), ('"Hj4Tz9Ue1BxMw6QkFp0Ld2Sa"', "Hj4Tz9Ue"), ('"Hj4', '"Hj4" Tz9'), ('"Hj4', "Hj4Tz9 4"), ('ticket = "H', "ticket H")]:
        ran = check(folder, changed(old, new))
        expect(f"no ticket is told of {new}", ran.returncode == 1 and "Tz9" not in ran.stdout + ran.stderr, ran.stdout)


def try_warnings(folder):
    notes = os.path.join(folder, "notes.txt")
    with open(notes, "w") as file:
        file.write("notes\n")
    os.chmod(notes, 0o600)
    two = '[[buffer]]\nname = "again"\nowner = "ann"\nlist = ["ALLOW OWNER@ rwat"]\n'
    listed = lambda entries: changed('"ALLOW OWNER@ rwatcCo", "ALLOW bob rwat"', entries)
    ticket = lambda word: changed("q7RzL0c2VnWb5XtYd8Ks3GmP", word)
    rows = [
        ("a short ticket", ticket("elevenchars"), "warning: the ticket of ann can be guessed: it has fewer than 12", "elevenchars"),
        ("one character", ticket("aaaaaaaaaaaaaaaa"), "warning: the ticket of ann can be guessed: it has fewer than 6 different", "aaaa"),
        ("an alphabet", ticket("abcdefghijklmnop"), "warning: the ticket of ann can be guessed: its characters follow each other", "abcd"),
        ("a name in it", ticket("xx-Ann-2026-xx"), "warning: the ticket of ann can be guessed: it has the name in it", "Ann-"),
        ("the ticket of an example", ticket("UAyuQ3Z8BhNZBXYPbsDB9tRW"), "warning: the ticket of ann can be guessed: it stands in an example", "UAyu"),
        ("one ticket", ticket("Hj4Tz9Ue1BxMw6QkFp0Ld2Sa").replace('0Ld2Sa"\n\n[[buffer', '0Ld2Sa" # two\n\n[[buffer'), "warning: ann and bob have one ticket", "# two"),
        ("nobody reads", listed('"ALLOW EVERYONE@ a"'), "warning: nobody may read notes, which needs r", "list ="),
        ("a denial before", changed('"ALLOW OWNER@', '"DENY EVERYONE@ r", "ALLOW OWNER@'), "warning: nobody may read notes", "list ="),
        ("nobody writes", listed('"ALLOW EVERYONE@ rt", "DENY EVERYONE@ w"'), "warning: nobody may change notes, which needs a, or r and w", "list ="),
        ("nobody saves", listed('"ALLOW EVERYONE@ at"') + f'file = "{notes}"\n', "warning: nobody may save notes, which needs r and w", "list ="),
        ("nobody of that name", changed("ALLOW bob", "ALLOW bbo"), 'warning: entry 2, "ALLOW bbo rwat", matches nobody: bbo is no user', "bbo"),
        ("a denial of nobody", changed('"ALLOW OWNER@', '"DENY bbo r",\n "ALLOW OWNER@'), 'warning: entry 1, "DENY bbo r", matches nobody: bbo is no user', "bbo"),
        ("a group without its word", BASE.replace("ALLOW bob", "ALLOW staff") + GROUP, "matches nobody: staff is no user; the group is written group:staff", "ALLOW staff"),
        ("no owning group", changed("ALLOW bob", "ALLOW GROUP@"), "matches nobody: notes has no owning group", "GROUP@"),
        ("a denial behind", listed('"ALLOW EVERYONE@ rwat",\n "DENY bob w"'), 'warning: entry 2, "DENY bob w", decides nothing: entry 1 decides w before it; a DENY has to stand before', "DENY bob"),
        ("a denial half behind", listed('"ALLOW EVERYONE@ rat",\n "DENY bob rw"'), "does not deny all that it says: entry 1 decides r before it; a DENY has to", "DENY bob"),
        ("an entry behind", listed('"ALLOW EVERYONE@ rwat",\n "ALLOW bob rw"'), 'warning: entry 2, "ALLOW bob rw", decides nothing: entry 1 decides rw before it', "bob rw"),
        ("d for everybody", listed('"ALLOW EVERYONE@ rwatd"'), "lets everybody kill notes, which takes it from every screen (the letter d)", "rwatd"),
        ("C for everybody", listed('"ALLOW EVERYONE@ rwatC"'), "lets everybody change who may do what with notes (the letter C)", "rwatC"),
        ("o for everybody", listed('"ALLOW EVERYONE@ rwato"'), "lets everybody give notes to another owner (the letter o)", "rwato"),
        ("two of one file", BASE + f'file = "{notes}"\n' + two + f'file = "{folder}/./notes.txt" # two\n', "warning: again and notes are saved in one file", "# two"),
        ("many users", "".join(f'[[user]]\nname = "u{number}"\nticket = "q7RzL0c2VnWb5XtYd{number:07}" #{number}\n' for number in range(65)) + "# it\n",
         "warning: there are 65 users, and 64 sessions are the most at once", '[[user]]\nname = "u64"'),
    ]
    for what, text, begins, words in rows:
        ran = check(folder, text)
        number = 193 if words.startswith("[[user") else line_of(text, words)
        is_so = ran.returncode == 0 and any(line.startswith(f"{folder}/it.toml:{number}: warning: ") and begins in line for line in ran.stdout.splitlines())
        expect(what, is_so, ran.stdout)
        if "--answers" in sys.argv:
            print("".join(f"      {line.replace(folder + '/', '')}\n" for line in ran.stdout.splitlines()[:-1]), end="")
    for what, mode, begins in [("written by all", 0o606, "can be written by all users"), ("written by nobody", 0o400, "cannot be written by its owner")]:
        os.chmod(notes, mode)
        try_one("a file " + what, folder, with_file(notes), 0, f"warning: {notes} {begins}", "file =")
    os.chmod(notes, 0o600)
    with open(notes, "w", encoding="utf-8-sig") as file:
        file.write("notes\n")
    try_one("a byte order mark in a file", folder, with_file(notes), 0, f"warning: {notes} begins with a byte order mark", "file =")
    with open(notes, "w") as file:
        file.write("notes\n")
    try_one("a byte order mark", folder, "\ufeff" + BASE, 0, "warning: begins with a byte order mark", "\ufeff")
    try_one("tickets that all may read", folder, BASE, 0, "warning: can be read by all users", mode=0o644)
    try_one("no user", folder, "", 0, "warning: there is no user, so nobody can log in")
    try_one("nothing", folder, with_file(notes), 0, "mgd serves it")
    expect("and no warning", check(folder, with_file(notes)).stdout == f"{folder}/it.toml: mgd serves it\n", check(folder, with_file(notes)).stdout)
    try_one("the same, in other words", folder, "'user' = [{\"name\" = '''ann''', ticket = \"\"\"\\\n  q7RzL0c2VnWb\\u0035XtYd8Ks3GmP\"\"\"}] # x\n", 0, "mgd serves it")


def try_access_lists(folder):
    """What is said of files and folders that have an access list of the file system."""
    if not shutil.which("setfacl") or not shutil.which("getfacl"):
        return print("left out: access lists of the file system, for which setfacl and getfacl are wanted")
    inside = os.path.join(folder, "listed")
    os.mkdir(inside)
    notes = os.path.join(inside, "notes.txt")
    with open(notes, "w") as file:
        file.write("notes\n")
    if subprocess.run(["setfacl", "-m", "u:65534:r", notes], stderr=subprocess.DEVNULL).returncode:
        return print("left out: this file system has no access lists")
    try_one("a file with an access list of the file system", folder, with_file(notes), 0, f"warning: {notes} has an access list of the file system", "file =")
    subprocess.run(["setfacl", "-b", notes], check=True)
    expect("one without it", "file system" not in check(folder, with_file(notes)).stdout)
    subprocess.run(["setfacl", "-d", "-m", "u:65534:r", inside], check=True)
    try_one("a folder with one", folder, with_file(notes), 0, f"warning: the folder of {notes} has an access list of the file system", "file =")


def try_rights(folder):
    """The table of who may what."""
    text = BASE.replace("ALLOW bob rwat", "DENY bob w\", \"ALLOW group:staff rwt") + '[[buffer]]\nname = "box"\nowner = "bob"\nlist = ["ALLOW EVERYONE@ at"]\n' + GROUP.replace('"ann"', '"ann", "bob"')
    ran = check(folder, text, "--rights")
    wanted = ["user  notes     box", "ann   rwat-cCo  --at----", "bob   r--t----  --at----"]
    expect("--rights prints who may what", ran.stdout.splitlines()[-3:] == wanted, ran.stdout)
    ran = check(folder, text, "--why")
    wanted = ['ann on notes, d: no entry grants it', 'bob on notes, w: entry 2, "DENY bob w", denies it', 'bob on notes, adcCo: no entry grants it']
    expect("--why names the deciding entries", ran.stdout.splitlines()[-5:-2] == wanted, ran.stdout)
    many = BASE + "".join(f'[[buffer]]\nname = "{"b" * 20}{number}"\nowner = "ann"\nlist = ["ALLOW EVERYONE@ rwat"]\n' for number in range(30))
    ran = check(folder, many, "--rights")
    expect("a wide table is parted", max(map(len, ran.stdout.splitlines())) <= 120 and ran.stdout.count("\nann ") > 3, ran.stdout[-500:])


def try_from(folder):
    """Where paths count from."""
    inside = os.path.join(folder, "inside")
    os.mkdir(inside)
    with open(os.path.join(inside, "there.txt"), "w") as file:
        file.write("there\n")
    ran = check(folder, with_file("there.txt"))
    expect("a path counts from here", ran.returncode == 1 and "cannot be read" in ran.stdout, ran.stdout)
    ran = check(folder, with_file("there.txt"), "--from", "inside")
    expect("with --from it counts from that folder", ran.returncode == 0, ran.stdout)
    ran = check(folder, with_file("there.txt"), "--from", "nowhere")
    expect("a folder that is not there", ran.returncode == 1 and "nowhere cannot be entered: No such file" in ran.stderr, ran.stderr)
    for words in [[], ["--rights"], ["-x"], ["a", "b"], ["a", "--"], ["--from"]]:
        ran = subprocess.run([CHECK, *words], capture_output=True, text=True)
        expect(f"{words} is answered by the usage line", ran.returncode == 2 and ran.stderr.startswith("usage: mgd-check"), ran.stderr)


def try_reasons(folder):
    """What the system says of what cannot be read, which another user than root tries."""
    who = {"user": 65534, "group": 65534, "extra_groups": []} if os.getuid() == 0 else {}
    name = "nobody" if who else subprocess.run(["id", "-un"], capture_output=True, text=True).stdout.strip()
    ran = check(folder, BASE, mode=0, **who)
    wanted = f"mgd-check: {folder}/it.toml cannot be read by {name}: Permission denied\n"
    expect("a configuration that may not be read, with the reason", ran.returncode == 1 and ran.stderr.endswith(wanted), (ran.returncode, ran.stderr))
    secret = os.path.join(folder, "secret.txt")
    with open(secret, "w") as file:
        file.write("secret\n")
    os.chmod(secret, 0)
    text = with_file(secret)
    ran = check(folder, text, mode=0o644, **who)
    wanted = f"/it.toml:{line_of(text, 'secret.txt')}: buffer 1: File: \"{secret}\" cannot be read by {name}: Permission denied\n"
    expect("a file that may not be read, with the reason", ran.returncode == 1 and wanted in ran.stdout, (ran.returncode, ran.stdout, ran.stderr))
    os.unlink(secret)


def try_owners(folder):
    """A file that root made in the folder of another user, who serves."""
    if os.getuid():
        return print("left out: a file of another owner, for which this has to be root")
    inside = os.path.join(folder, "served")
    os.mkdir(inside)
    notes = os.path.join(inside, "notes.txt")
    with open(notes, "w") as file:
        file.write("notes\n")
    os.chown(inside, 65534, 65534)
    words = f"warning: {notes} belongs to root, and its folder to nobody; a server that runs as the folder's owner may not be able to read or save it (chown --reference={inside} {notes})"
    try_one("a file of root in another user's folder", folder, with_file(notes), 0, words, "file =")
    try_one("the same by a path that counts from here", folder, with_file("served/notes.txt"), 0, words.replace(f"warning: {notes}", "warning: served/notes.txt"), "file =")
    os.chown(notes, 65534, 65534)
    ran = check(folder, with_file(notes))
    expect("with the owner of its folder it is no mistake", ran.stdout == f"{folder}/it.toml: mgd serves it\n", ran.stdout)
    os.chown(notes, 0, 0)
    os.chmod(inside, 0o1777)
    ran = check(folder, with_file(notes))
    expect("nor is it in a folder that all may write and none may clear", "belongs to" not in ran.stdout, ran.stdout)


def try_accounts(folder):
    """An account that has the name of the service's user. It is put into a list of accounts that this process alone sees."""
    listed = os.path.join(folder, "passwd")
    with open("/etc/passwd") as file:
        accounts = file.read()
    check(folder, BASE)
    for account, is_told in [("mgd:x:1234:1234::/home/mgd:/bin/sh", True), ("mgd:x:900:900::/:/usr/sbin/nologin", True),
                             ("mgd:x:61999:61999::/:/usr/sbin/nologin", False), ("mgdx:x:1234:1234::/:/bin/sh", False)]:
        with open(listed, "w") as file:
            file.write(accounts + account + "\n")
        words = ["unshare", "--mount", "sh", "-c", 'mount --bind "$1" /etc/passwd && shift && exec "$@"', "sh", listed, CHECK, "it.toml", "--", PROGRAM]
        ran = subprocess.run(words, capture_output=True, text=True, cwd=folder)
        if "mgd serves it" not in ran.stdout:
            return print("left out: an account called mgd, for which this has to be root with a list of mounts of its own")
        wanted = "it.toml: warning: this machine has an account mgd: the service runs as it, and whoever has the account reads all tickets and texts"
        expect(f"the account {account[:11]} is {'' if is_told else 'not '}warned of", (wanted in ran.stdout) == is_told and ("account" in ran.stdout) == is_told, ran.stdout)


def try_lists(folder):
    """Buffers of another file in the place of those of the configuration, and the form in which buffers are printed."""
    text = BASE + 'file = "none.txt"\n' + GROUP
    now = '[[buffer]]\nname = "notes"\nowner = "ann"\nlist = ["DENY bob w", "ALLOW guss w", "ALLOW EVERYONE@ rwat", "DENY ann r"]\n\n' \
          '[[buffer]]\nname = "mine"\nowner = "bob"\nlist = ["ALLOW OWNER@ rwatdcCo"]\n'
    with open(os.path.join(folder, "now.toml"), "w") as file:
        file.write(now)
    check(folder, text)
    wanted = ('notes: warning: entry 2, "ALLOW guss w", matches nobody: guss is no user\n'
              'notes: warning: entry 4, "DENY ann r", decides nothing: entry 3 decides r before it; a DENY has to stand before what it takes away\n'
              'it.toml: the lists were judged with its users and groups: 2 warnings\nuser  notes     mine\nann   rwat----  --------\nbob   r-at----  rwatdcCo\n')
    for name, given in [("now.toml", None), ("-", now)]:
        ran = subprocess.run([CHECK, "--rights", "--lists", name, "it.toml"], input=given, capture_output=True, text=True, cwd=folder)
        expect(f"--lists {name} judges other buffers, and asks no program", (ran.returncode, ran.stdout, ran.stderr)
               == (0, wanted, ""), (ran.stdout, ran.stderr))
    for given, words in [(now.replace('owner = "bob"', 'owner = "eve"'), 'buffer 2: Unknown: the owner "eve" is no user'), ("x = \n", "standard input: a value is missing")]:
        ran = subprocess.run([CHECK, "--lists", "-", "it.toml"], input=given, capture_output=True, text=True, cwd=folder)
        expect(f"a fault there is told: {words}", ran.returncode == 1 and words in ran.stdout, ran.stdout)
    ran = subprocess.run([CHECK, "--lists", "nowhere", "it.toml"], capture_output=True, text=True, cwd=folder)
    expect("a file that is not there", ran.returncode == 1 and "nowhere cannot be read by" in ran.stderr and "No such file" in ran.stderr, ran.stderr)
    check(folder, text.replace("ALLOW bob rwat", "  ALLOW   bob  tawr ") + '[[buffer]]\nname = "q\\"\\\\"\nowner = "bob"\ngroup = "staff"\nlist = []\ntext = "a\\n\\u0001"\n')
    ran = subprocess.run([CHECK, "--tables", "it.toml"], capture_output=True, text=True, cwd=folder)
    wanted = ('[[buffer]]\nname = "notes"\nowner = "ann"\nlist = ["ALLOW OWNER@ rwatcCo", "ALLOW bob rwat"]\nfile = "none.txt"\n\n'
              '[[buffer]]\nname = "q\\"\\\\"\nowner = "bob"\ngroup = "staff"\nlist = []\ntext = "a\\u000A\\u0001"\n\n')
    expect("--tables prints the buffers in one form", (ran.returncode, ran.stdout) == (0, wanted), (ran.stdout, ran.stderr))
    check(folder, changed('owner = "ann"', 'owner = "eve"'))
    ran = subprocess.run([CHECK, "--tables", "it.toml"], capture_output=True, text=True, cwd=folder)
    expect("--tables of one with a fault", ran.returncode == 1 and 'the owner "eve" is no user' in ran.stdout and "[[buffer]]" not in ran.stdout, ran.stdout)
    for words in [["--lists"], ["--lists", "now.toml"], ["--lists", "now.toml", "it.toml", "--", PROGRAM]]:
        ran = subprocess.run([CHECK, *words], capture_output=True, text=True, cwd=folder)
        expect(f"{words[:3]} is answered by the usage line", ran.returncode == 2 and ran.stderr.startswith("usage: mgd-check"), ran.stderr)


def try_sizes(folder):
    """What is long or deep is read in a time that goes with its length."""
    for what, text in [
        ("100,000 brackets", "x = " + "[" * 100_000 + "]" * 100_000 + "\n"),
        ("100,000 tables in each other", "x = " + "{a=" * 100_000 + "1" + "}" * 100_000 + "\n"),
        ("a key of 100,000 words", "a" + ".a" * 100_000 + " = 1\n"),
        ("100,000 lines", BASE + "# more\n\n" * 50_000),
        ("a list of 100,000", BASE + 'text = "' + "\\u0041" * 100_000 + '"\n' + '[[group]]\nname = "g"\nmembers = [' + '"ann", ' * 100_000 + "]\n"),
        ("50,000 faults of form", BASE + "x\n" * 50_000),
        ("as much as there may be", "".join(f'[[user]]\nname = "u{n}"\nticket = "q7RzL0c2VnWb5XtYd{n:07}"\n' for n in range(256))
         + "".join(f'[[buffer]]\nname = "b{n}"\nowner = "u0"\nlist = [' + '"ALLOW EVERYONE@ rwat", ' * 64 + "]\n" for n in range(256))),
    ]:
        start = resource.getrusage(resource.RUSAGE_CHILDREN).ru_utime
        ran = check(folder, text, "--rights", timeout=120)
        taken = resource.getrusage(resource.RUSAGE_CHILDREN).ru_utime - start
        expect(f"{what} take less than 10 seconds", ran.returncode in (0, 1) and not ran.stderr and taken < 10, (taken, ran.stdout[-300:], ran.stderr[-300:]))


def try_locales(folder):
    """Whether it tells of a locale that is none of UTF-8."""
    for locale, is_told in [({"LC_ALL": "C"}, True), ({}, True), ({"LANG": "C.UTF-8"}, False), ({"LANG": "C.UTF-8", "LC_CTYPE": "C"}, True)]:
        surroundings = {name: value for name, value in os.environ.items() if name not in ("LC_ALL", "LC_CTYPE", "LANG")}
        ran = check(folder, BASE, env={**surroundings, **locale})
        expect(f"the locale {locale}", ran.returncode == 0 and ("not one of UTF-8" in ran.stderr) == is_told, ran.stderr)


os.environ["LC_ALL"] = "C.UTF-8"
with tempfile.TemporaryDirectory() as folder:
    folder = os.path.realpath(folder)
    os.chmod(folder, 0o755)
    try_faults(folder)
    try_all_at_once(folder)
    try_warnings(folder)
    try_access_lists(folder)
    try_rights(folder)
    try_from(folder)
    try_reasons(folder)
    try_owners(folder)
    try_accounts(folder)
    try_lists(folder)
    try_sizes(folder)
    try_locales(folder)
print(f"{failed} failed")
sys.exit(1 if failed else 0)
