#!/usr/bin/env python3
"""Compares the card of keys wherever it stands: python3 bench/try_card.py [--write]

The card is that of examples/office.toml. With --write it is put into the other places, examples/first.toml and docs/COMMANDS.md. It has to
fill one screen of 24 by 80, and each key and name of docs/COMMANDS.md has to stand in man/mgd-keys.7, and each key of the card in
docs/COMMANDS.md. It ends with status 0 if all is as it should be.
"""
import os, re, sys

TOP = os.path.dirname(os.path.dirname(os.path.abspath(__file__)))
IN_TOML = re.compile(r"(text = '''\n)(KEYS .*?)(''')", re.S)
IN_PAGE = re.compile(r"()((?:^    \S.*\n)(?:^    .*\n)+)()", re.M)
failed = 0


def path_of(name):
    return os.path.join(TOP, *name.split("/"))


def read(name):
    with open(path_of(name), encoding="utf-8") as file:
        return file.read()


def expect(what, is_so, seen=""):
    global failed
    print(("ok    " if is_so else "FAILED ") + what + ("" if is_so else f": {seen}"))
    failed += not is_so


def indented(card):
    return "".join(f"    {line}\n" for line in card.splitlines())


def keys_in(words):
    """The keys that words name, as C-x C-s, M-f, C-SPC."""
    return set(re.findall(r"(?<![\w-])(?:C-x )?(?:[CM]-(?:SPC|DEL|[^\sA-Z.,;:]|[.,;:](?=\s))|(?<=C-x )[^\s,;|`])(?![\w-])", words))


def try_places(card):
    for name, form, wanted in [("examples/first.toml", IN_TOML, card), ("docs/COMMANDS.md", IN_PAGE, indented(card))]:
        text = read(name)
        found = form.search(text)
        if "--write" in sys.argv:
            with open(path_of(name), "w", encoding="utf-8") as file:
                file.write(text[:found.start(2)] + wanted + text[found.end(2):])
        else:
            expect(f"the card of {name} is that of examples/office.toml", found and found[2] == wanted, "python3 bench/try_card.py --write puts it there")


def try_size(card):
    lines = card.splitlines()
    expect("it fills a screen of 24 rows, of which two are the mode line and the echo line", len(lines) <= 22, len(lines))
    expect("and of 80 columns", max(map(len, lines)) <= 79, max(lines, key=len))


def try_keys(card):
    page, manual = read("docs/COMMANDS.md"), read("man/mgd-keys.7")
    plain = re.sub(r"\\&|\\-|\\e", lambda found: {"\\&": "", "\\-": "-", "\\e": "\\"}[found[0]], manual)
    plain = re.sub(r"\s+", " ", re.sub(r"^\.(?:It|Ic|Li|Ql|Cm)\b", " ", plain, flags=re.M))
    absent = sorted(key for key in keys_in(card) if key not in page)
    expect("each key of the card stands in docs/COMMANDS.md", not absent, absent)
    absent = sorted(key for key in keys_in(card) if key not in plain)
    expect("each key of the card stands in man/mgd-keys.7", not absent, absent)
    commands = set(re.findall(r"\b[a-z]+(?:-[a-z]+)+\b", " ".join(line.split("|")[3] for line in page.splitlines() if line.startswith("| ") and line.count("|") == 6)))
    absent = sorted(name for name in commands if name not in plain)
    expect("each command of docs/COMMANDS.md stands in man/mgd-keys.7", commands and not absent, absent)


card = IN_TOML.search(read("examples/office.toml"))[2]
try_places(card)
try_size(card)
try_keys(card)
print(f"{failed} failed")
sys.exit(1 if failed else 0)
