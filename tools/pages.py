#!/usr/bin/env python3
"""Compares the pages with the tree: numbers that were counted, crates and their order, files that they name, and edits; and looks at
the cells of docs/PROOFS.md.

Usage: tools/pages.py [--check]
Each number of NUMBERS stands once in its page, where its text says, and is written there; with --check nothing is written. The status is 1 where
a number isn't right, a crate or a folder of edits is in no page, a page names a file that isn't there, a table has the crates in another
order than crates.txt, a crate doesn't name a library that is listed for it, a crate of code has a file of definitions that has to be
believed, the line that an edit changes doesn't stand once in its file, a cell of a table of docs/PROOFS.md has more than 60 words, or a line of
code, definitions or proofs has more than 400 columns.
"""
import glob
import os
import re
import sys

os.chdir(os.path.dirname(os.path.dirname(os.path.realpath(__file__))))
PAGES = ["README.md", "CONTRIBUTING.md", *sorted(glob.glob("docs/*.md"))]
WORDS = "no one two three four five six seven eight nine ten eleven twelve".split()
wrong = []


def read(file):
    with open(file, encoding="utf-8") as it:
        return it.read()


def lines(file, but=r"#|$"):
    return [line for line in read(file).splitlines() if not re.match(but, line)]


def examples(crate, names="*examples"):
    """How many worked rows a crate has."""
    return sum(len(re.findall(r"(?m)^\s*ensures\b", read(it))) for it in glob.glob(f"crates/{crate}/src/{names}.rt"))


CRATES = {line.split(":")[0].split()[0]: line.split(":")[1].split() for line in lines("crates.txt")}
TESTS = {it: sum(read(file).count("#[test]") for file in glob.glob(f"crates/{it}/src/**/*.rt", recursive=True)) for it in CRATES}
TESTED = sum(count > 0 for count in TESTS.values())
IN_GATE, APART = (sorted(glob.glob(it)) for it in ("crates/*/must-fail/*.edit", "tests/bugs/*/*.edit"))
CASES = len(glob.glob("crates/cases/data/**/*.case", recursive=True))
NUMBERS = [
    ("docs/GATE.md", r"\| crates \| (\d+) \|", len(CRATES)),
    ("docs/GATE.md", r"\| proved tests \| (\d+), in \w+ crates \|", sum(TESTS.values())),
    ("docs/GATE.md", r"\| proved tests \| \d+, in (\w+) crates \|", WORDS[TESTED] if TESTED < len(WORDS) else TESTED),
    ("docs/GATE.md", r"\| cases \| (\d+):", CASES),
    ("docs/GATE.md", r"\| must-fail edits \| (\d+), and \d+ apart", len(IN_GATE)),
    ("docs/GATE.md", r"\| must-fail edits \| \d+, and (\d+) apart", len(APART)),
    ("docs/GATE.md", r"\| (\d+) calls as text \(`os_cases`\) \|", len(lines("crates/os_cases/data/calls", r"#|$|room "))),
    ("docs/PROOFS.md", r"in words, and (\d+) worked lines", examples("meta_model", "grammar_examples") + examples("meta_model", "value_examples")),
    ("docs/PROOFS.md", r"worked through on (\d+) cases", examples("load_model")),
    ("docs/PROOFS.md", r"(\d+) examples show it", examples("command_words")),
    ("crates/cases/stdout", r"(\d+) cases", CASES),
]


def numbers():
    """Looks at each number, and writes those that aren't right."""
    for file, place, number in NUMBERS:
        text = read(file)
        found = list(re.finditer(place, text))
        if len(found) != 1:
            wrong.append(f"{file}: {len(found)} places fit {place}")
        elif found[0][1] != str(number) and "--check" in sys.argv:
            wrong.append(f"{file}: {found[0][0]!r}, and it is {number}: run tools/pages.py")
        elif found[0][1] != str(number):
            with open(file, "w", encoding="utf-8") as out:
                out.write(text[: found[0].start(1)] + str(number) + text[found[0].end(1) :])


def crates():
    """The table of docs/ARCHITECTURE.md has all crates, in the order of crates.txt, with libraries on which they stand."""
    table = re.findall(r"(?m)^\| (`[a-z_, `]+`) \|[^|]*\| ([^|]*) \|$", read("docs/ARCHITECTURE.md"))
    named = [it for row, _ in table for it in re.findall(r"`(\w+)`", row)]
    for at, (one, other) in enumerate(zip(named, CRATES)):
        if one != other:
            wrong.append(f"docs/ARCHITECTURE.md: row {at + 1} of the crates is {one}, and crates.txt has {other} there")
            break
    if len(named) != len(CRATES):
        wrong.append(f"docs/ARCHITECTURE.md has {len(named)} crates, and crates.txt {len(CRATES)}")
    for row, below in table:
        for it in re.findall(r"`(\w+)`", below):
            wrong.extend(f"docs/ARCHITECTURE.md: {crate} doesn't stand on {it}" for crate in re.findall(r"`(\w+)`", row) if it not in CRATES.get(crate, ()))
    in_table = re.findall(r"(?m)^\| \*\*(.*)\*\* \| \| \|\n\| `(\w+)`", read("docs/ARCHITECTURE.md"))
    if in_table != re.findall(r"(?m)^# (.*)\n(\w+)", read("crates.txt").partition("\n\n")[2]):
        wrong.append("docs/ARCHITECTURE.md and crates.txt have other groups of crates")
    for crate, below in CRATES.items():
        own = [it for kind in ("src/**/*.rt", "specs/**/*.antt", "proofs/**/*.antt") for it in glob.glob(f"crates/{crate}/{kind}", recursive=True)]
        text = re.sub(r"//.*|--.*", "", "".join(map(read, own)))
        wrong.extend(f"crates.txt: {crate} doesn't name {it}" for it in below if not re.search(rf"\b{it}\b", text))
    listed = list(CRATES)
    for at, crate in enumerate(listed):
        wrong.extend(f"crates.txt: {crate} stands before {it}, on which it stands" for it in CRATES[crate] if it in listed[at:])


def files():
    """Each file that a page names in backticks is there, by its path or its path below crates/."""
    for page in PAGES:
        for path in re.findall(r"`((?:\.\./)*\.?[A-Za-z_]+/[\w./*-]*)`", read(page)):
            head = path.split("/")[0]
            top = "" if head in ("crates", "docs", "tests", "bench", "bin", "examples", "tools", ".ci") else "crates/" if head in CRATES else None
            if top is not None and "NAME" not in path and not glob.glob(top + path):
                # (what a build makes, folders of a project, and edits by their crate)
                edit = f"{path[len(head) + 1:]}.edit"
                stands = glob.glob(f"crates/{head}/must-fail/{edit}") or glob.glob(f"tests/bugs/{head}/{edit}")
                if not re.search(r"/out/|/build\b", path) and not stands:
                    wrong.append(f"{page} names {path}, which isn't there")


def believed():
    """No crate of code has a file of definitions that has to be believed, but for the exceptions of docs/READING.md."""
    page = read("docs/READING.md")
    crates = re.findall(r"(?m)^\| `(\w+)` \|", page.partition("\n## These crates")[2].partition("\n### ")[0])
    exceptions = page.partition("\n## Exceptions\n")[2].partition("\n## ")[0]
    for file in re.findall(r"(?m)^\| `(crates/\w+/specs/[^`]*)` \|", page):
        if file.split("/")[1] not in crates and f"`{file}`" not in exceptions:
            wrong.append(f"docs/READING.md: {file} has to be believed, stands in a crate of code, and is no exception")
    wrong.extend(f"docs/READING.md: {it} is no crate of crates.txt" for it in crates if it not in CRATES)
    ordered = [it for it in CRATES if it in crates]
    if ordered != crates:
        wrong.append("docs/READING.md has the crates of definitions in another order than crates.txt")


def edits():
    """Each edit has lines that stand once in their file, and docs/PROOFS.md names its folder."""
    page = read("docs/PROOFS.md")
    wrong.extend(f"docs/PROOFS.md doesn't name {it}" for it in sorted({os.path.dirname(edit) for edit in IN_GATE + APART}) if f"`{it}`" not in page)
    for edit in IN_GATE + APART:
        crate = edit.split("/")[-3 if edit.startswith("crates/") else -2]
        text, file = "", ""
        for word, rest in re.findall(r"(?m)^(file|old|new): (.*)$", read(edit)):
            if word == "file":
                file = f"crates/{crate}/{rest}"
                text = read(file) if os.path.exists(file) else ""
            elif word == "old":
                old = rest
                if text.count(old) != 1:
                    wrong.append(f"{edit}: its line stands {text.count(old)} times in {file}")
            else:
                text = text.replace(old, rest)


def cells():
    """No cell of a table of docs/PROOFS.md has more than 60 words."""
    for number, line in enumerate(read("docs/PROOFS.md").splitlines(), 1):
        if line.startswith("|"):
            long = [it for it in line.strip("|").split(" | ") if len(it.split()) > 60]
            wrong.extend(f"docs/PROOFS.md:{number}: a cell of {len(it.split())} words: {it.strip()[:40]}.." for it in long)


def long_lines():
    """No line of code, definitions or proofs has more than 400 columns: what a lemma is given goes in one record there."""
    for file in sorted(it for end in ("rt", "antt") for part in ("src", "specs", "proofs") for it in glob.glob(f"crates/*/{part}/**/*.{end}", recursive=True)):
        wrong.extend(f"{file}:{number}: a line of {len(line)} columns" for number, line in enumerate(read(file).splitlines(), 1) if len(line) > 400)


numbers()
crates()
files()
believed()
edits()
cells()
long_lines()
print(*wrong, sep="\n", end="\n" if wrong else "")
sys.exit(1 if wrong else 0)
