#!/usr/bin/env python3
"""Looks for the names that stand in docs/PROMISES.md: python3 bench/check_promises.py

In its table each row names a call (`mgs_acl::List::insert`, and others of that crate behind it), clauses of it, and edits or tests. The
call has to be a function or a type of the crate, the clause a label or a word of an `ensures` of one of the row's calls (or of a `ghost`
member), the edit a file in `must-fail` or `wrong` of its crate, the test a function of its crate. Names of the last column are of the call's
crate until another one is named. In the other tables a name has to be a word, a file or an edit of one of the row's crates, and in all other
lines a name with a `_` or `::` one of any crate, and a path has to be there. It prints each name that is not, and then ends with status 1.
"""
import glob, os, re, sys

TOP = os.path.dirname(os.path.dirname(os.path.abspath(__file__)))
PAGE = "docs/PROMISES.md"
COLUMNS = ["Promise", "Call", "Clause", "Edits and tests"]
NAME = re.compile(r"[A-Za-z_]\w*")
failed = 0


def fail(line, what):
    global failed
    failed += 1
    print(f"{PAGE}:{line}: {what}")


def read(path):
    with open(path, encoding="utf-8", errors="replace") as file:
        return file.read()


class Crate:
    """The names of one crate: its functions with their clauses, its types, words, files and edits."""

    def __init__(self, folder):
        self.name, self.clauses = os.path.basename(folder), {}
        self.files, self.words, self.types, self.ghosts = set(), set(), set(), set()
        for path in glob.glob(f"{folder}/**/*", recursive=True):
            self.files.add(os.path.basename(path).rsplit(".", 1)[0])
            if path.endswith((".rt", ".antt")):
                text = read(path)
                self.words.update(NAME.findall(text))
                if path.endswith(".rt"):
                    self.take_functions(text)
                    for ghost in re.findall(r"\bghost (\w+ = .*)", text):
                        self.ghosts.update(NAME.findall(ghost))
        edits = [path for kind in ("must-fail", "wrong") for path in glob.glob(f"{folder}/{kind}/*.edit")]
        self.edits = {os.path.basename(path)[:-5] for path in edits}

    def take_functions(self, text):
        """Each function with the words of its clauses: all that stands up to the next function."""
        starts = list(re.finditer(r"^[ \t]*(?:pub(?:\([^)]*\))? )?(?:const )?(?:unsafe )?fn (\w+)", text, re.M))
        for at, start in enumerate(starts):
            end = starts[at + 1].start() if at + 1 < len(starts) else len(text)
            clauses = self.clauses.setdefault(start[1], set())
            for clause in re.finditer(r"^[ \t]*ensures(?: (\w+))?(.*(?:\n[ \t]+[^\sef{}].*)*)", text[start.end():end], re.M):
                clauses.update([clause[1]] if clause[1] else [], NAME.findall(clause[2]))
        self.types.update(re.findall(r"\b(?:struct|enum|trait|type) (\w+)", text))

    def proofs(self):
        """What shows a clause's teeth: edits, and the functions of a crate of tests."""
        return self.edits | (set(self.clauses) if self.name.endswith("_tests") else set())

    def has(self, name):
        return name in self.words or name in self.files or name in self.edits


crates = {os.path.basename(folder): Crate(folder) for folder in glob.glob(f"{TOP}/crates/*")}
everywhere = set().union(*(crate.words | crate.files | crate.edits for crate in crates.values()), crates)
everywhere.update(NAME.findall(read(f"{TOP}/crates.txt")))


def names_in(cell):
    """What stands between backticks, and which crate was named last before it."""
    crate = None
    for found in re.finditer(r"`([^`]+)`|\b(mg[ds]_\w+)", cell):
        if found[2]:
            crate = found[2]
        else:
            yield crate, found[1]


def try_call(line, cell):
    """The crate of a row and the functions that it names."""
    crate, calls = None, []
    for _, name in names_in(cell):
        parts = name.split("::")
        if parts[0] in crates:
            crate = parts.pop(0)
        if crate is None:
            fail(line, f"`{name}` has no crate")
            continue
        for part in parts[:-1]:
            if part not in crates[crate].types:
                fail(line, f"{crate} has no type `{part}`")
        if parts and parts[-1] not in crates[crate].clauses and parts[-1] not in crates[crate].types:
            fail(line, f"{crate} has no function `{parts[-1]}`")
        calls += parts[-1:]
    return crate, calls


def try_row(line, call, clause, proofs):
    crate, calls = try_call(line, call)
    if crate is None:
        return
    for _, name in names_in(clause):
        if name not in crates[crate].ghosts and not any(name in crates[crate].clauses.get(one, ()) for one in calls):
            fail(line, f"no clause of {', '.join(calls)} of {crate} has `{name}`")
    for other, name in names_in(proofs):
        owner = other or crate
        if "/" in name:
            if not os.path.exists(os.path.join(TOP, name)):
                fail(line, f"there is no `{name}`")
        elif owner not in crates or name not in crates[owner].proofs():
            fail(line, f"{owner} has no edit or test `{name}`")


def try_other_row(line, cells):
    """A row of another table: a name behind a crate is one of that crate, or of another one of the row."""
    text = " | ".join(cells)
    named = [crates[name] for name in re.findall(r"\bmg[ds](?:_\w+)?", text) if name in crates]
    for _, name in names_in(text):
        for word in NAME.findall(name.split("/")[-1].split(".")[0]):
            if named and not any(crate.has(word) for crate in named):
                fail(line, f"none of the row's crates has `{word}`")


def try_words(line, text):
    for name in re.findall(r"`([^`]+)`", text):
        if "/" in name:
            if not os.path.exists(os.path.join(TOP, name.split()[0])):
                fail(line, f"there is no `{name}`")
        elif "_" in name or "::" in name:
            for word in NAME.findall(name):
                if word not in everywhere:
                    fail(line, f"nothing is called `{word}`")


rows, columns = 0, None
for number, text in enumerate(read(os.path.join(TOP, PAGE)).split("\n"), 1):
    if not text.startswith("|"):
        columns = None
        try_words(number, text)
        continue
    cells = [cell.strip() for cell in text.strip().strip("|").split(" | ")]
    if columns is None:
        columns = cells
    elif set(text) <= set("|- "):
        continue
    elif columns == COLUMNS:
        rows += 1
        if len(cells) != len(COLUMNS):
            fail(number, f"a row of {len(cells)} cells")
        else:
            try_row(number, *cells[1:])
    else:
        try_other_row(number, cells)
if rows == 0:
    fail(1, f"there is no table with the columns {', '.join(COLUMNS)}")
print(f"{rows} rows, {failed} failed")
sys.exit(1 if failed else 0)
