#!/usr/bin/env python3
"""Counts the lines of docs/READING.md, and compares its tables with what the promises stand on.

Usage: tools/reading_lines.py [--check]
The promises stand on what the contracts of ROOTS say: so each definition of `specs/` that they name, each that such a definition names,
and so on, and the fields of each type on the way. A name counts wherever it stands in a clause or in a definition, so this finds rather
too much than too little. Lines are those of the definitions that count, without comments and empty lines; where less than half of a file's
definitions count, their names are written behind `; of it`. With --check nothing is written. The status is 1, and nothing is written, where
a file on the way is in no table, where a table names one that isn't on it, where a file stands before one that it takes something from, and
where one stands neither in a crate of the page's list nor among the exceptions, each of which has its reason there.
"""
import glob
import os
import re
import shutil
import sys

os.chdir(os.path.dirname(os.path.dirname(os.path.realpath(__file__))))
PAGE = "docs/READING.md"
# the four traits, the top call, the numbers of its statuses, and the laws that the page names
ROOTS = [
    *(f"crates/outside_traits/src/{it}.rt" for it in ("layers", "disk", "bench", "sink")),
    "crates/bitbake_top/src/top.rt",
    "crates/bitbake_top/src/asking.rt",
    "crates/meta_model/src/event.rt",
    "crates/bitbake_top/src/laws.rt",
    "crates/target_plan/src/laws.rt",
    "crates/multi_config/src/laws.rt",
]
# the heart: what each of its tables follows
HEART = {
    "exact outputs": [("outside_traits.specs.Passes", "EachNow"), ("run_model.specs.Build", "HasTargets")],
    "where a run may begin, and every crash": [("run_model.specs.Headline", "MayBegin"), ("run_model.specs.Build", "IsCrash")],
}
KIT = ("clap", "sha2")
UNPROVED = ("host_files", "outside_os", "sh_bench", "run_trace", "bitbake_cli")
ROW = re.compile(r"^\| `(crates/[^`]*)` \| (\d+) \| (.*?)(; of it [^|]*)? \|$", re.M)
CRATE = re.compile(r"^\| `(\w+)` \| (\d+) \| (.*?) \|$", re.M)
WORD = re.compile(r"◌?[^\s(){}\[\];,.λ]+(?:\.[^\s(){}\[\];,.λ]+)*")
KEYWORDS = {"abbrev", "unfoldable", "opaque", "pub", "data", "record"}
OTHERS = {"use", "mod", "module", "infix", "infixl", "infixr"}


def read(file):
    with open(file, encoding="utf-8") as it:
        return it.read()


def full(text):
    """How many lines of a text aren't empty."""
    return sum(1 for line in text.split("\n") if line.strip())


def imports(text, start):
    """The names that a text brings in, each with its module and its name there; a module itself has no name there."""
    found = {}
    for line in re.finditer(rf"(?ms)^[ ]*{start}\s+([^\s{{;]+?)\.?(?:\{{([^}}]*)\}}|\s+as\s+(\w+))?;?$", text):
        if line[2] is None:
            found[line[3] or line[1].rpartition(".")[2]] = line[1], None
        else:
            for item in filter(None, (it.strip() for it in line[2].split(","))):
                name, _, other = item.partition(" as ")
                found[(other or name).strip()] = line[1], name.strip()
    return found


def without_modules(text):
    """The text with what stands in modules without a name further left, as if their parameters were each definition's own."""
    lines, inside = [], False
    for line in text.split("\n"):
        if line.startswith("module _ "):
            inside = True
        elif inside and line.startswith("  "):
            lines.append(line[2:])
        else:
            inside = inside and not line.strip()
            lines.append(line)
    return "\n".join(lines)


class Definitions:
    """A file of definitions: what it brings in, and the text of each definition by its name."""

    def __init__(self, file):
        self.file = file
        text = without_modules(re.sub(r"--.*", "", read(file)))
        self.imports = imports(text, r"(?:pub\s+)?use")
        self.texts = {}
        name = None
        for line in text.split("\n"):
            if line and not line[0].isspace() and line[0] not in "()]}":
                words = [it for it in line.split() if it not in KEYWORDS]
                name = words[0] if words and words[0] not in OTHERS else None
            if name:
                self.texts[name] = self.texts.get(name, "") + line + "\n"

    def home(self, name):
        """The definition that has this name, or has it as a field or a case."""
        if name in self.texts:
            return name
        inside = re.compile(rf"(?m)^\s+(?:pub\s+)?{re.escape(name)}\b[^:\n]*:")
        return next((it for it, text in self.texts.items() if inside.search(text)), None)


def modules():
    """All files of definitions by their modules, with those of the kit that are followed."""
    found = {}
    for file in glob.glob("crates/*/specs/**/*.antt", recursive=True):
        _, crate, _, rest = file.split("/", 3)
        found[f"Rattle.{crate}.specs.{rest[:-5].replace('/', '.')}"] = Definitions(file)
    kit = os.path.dirname(os.path.dirname(os.path.realpath(shutil.which("rt") or "/")))
    for crate in KIT:
        top = f"{kit}/rattle/{crate}/specs/"
        for file in glob.glob(f"{top}**/*.antt", recursive=True):
            found[f"Rattle.{crate}.specs.{file[len(top) : -5].replace('/', '.')}"] = Definitions(file)
    return found


def clauses(text):
    """The clauses of a file of code."""
    for begin in re.finditer(r"\b(?:ensures|requires)\b\s*\w*\s*\{|\bghost\s+\w+[^=;{]*(?:=|:)\s*\{", text):
        end, depth = begin.end(), 1
        while depth and end < len(text):
            depth += {"{": 1, "}": -1}.get(text[end], 0)
            end += 1
        yield text[begin.start() : end], text[begin.end() : end - 1]


class Closure:
    """What some names stand on: `names` has the definitions or types of each file, `before` the files of each file's own."""

    def __init__(self, known):
        self.modules = known
        self.names, self.before, self.open = {}, {}, []

    def whole(self):
        """Follows all that was found."""
        while self.open:
            its, name = self.open.pop()
            self.follow(its.texts[name], its.imports, its.file, its)
        return self

    def root(self, file):
        """Follows the clauses of a file of code."""
        text = re.sub(r"//.*", "", read(file))
        for _, inside in clauses(text):
            self.follow(inside, imports(text, r"ghost\s+use"), file)

    def follow(self, text, known, file, own=None):
        """Follows what a text of a file names, by what the file brings in and what it has itself."""
        for word in set(WORD.findall(text)):
            head, _, rest = word.partition(".")
            if head in known:
                self.add(known[head][0], known[head][1] or rest.partition(".")[0], file)
            elif own and head in own.texts:
                self.take(own, head, file)
        for name, (module, its) in known.items():
            if "◌" in name and its and name.replace("◌", "") in text:
                self.add(module, its, file)

    def add(self, module, name, file):
        """Adds what a module has under a name, or a type."""
        declared = re.match(r"Rattle\.(\w+)\.specs\.declared\.((?:[a-z_0-9]+\.)*[a-z_0-9]+)(?:\.(\w+)|$)", module)
        if declared:
            types = f"crates/{declared[1]}/src/{declared[2].replace('.', '/')}.rt"
            if os.path.exists(types):
                self.names.setdefault(types, set()).add(declared[3] or name)
                self.before.setdefault(file, set()).add(types)
            return
        its = self.modules.get(module)
        home = its and its.home(name)
        if home:
            self.take(its, home, file)
        elif its and name in its.imports:
            self.add(its.imports[name][0], its.imports[name][1] or name, file)

    def take(self, its, name, file):
        """Adds a definition of a file."""
        self.before.setdefault(file, set()).add(its.file)
        if name not in self.names.setdefault(its.file, set()):
            self.names[its.file].add(name)
            self.open.append((its, name))

    def ours(self):
        """The files of the repository."""
        return {it for it in self.names if it.startswith("crates/")}

    def texts(self, file):
        return next((it.texts for it in self.modules.values() if it.file == file), {})

    def lines(self, file, but=()):
        """How many lines count in a file: of its definitions, or of its types and what contracts see of them, and of its clauses where it is a root."""
        names = self.names.get(file, set()) - set(but)
        if file.endswith(".antt"):
            return sum(full(self.texts(file)[it]) for it in names)
        text = re.sub(r"//.*", "", read(file))
        found = 0
        for it in names:
            for block in re.finditer(rf"(?ms)^(?:pub(?:\(\w+\))? )?(?:struct|enum) {it}\b.*?(?:^\}}|;)$|^impl[^\n]* Model for {it}\b.*?^\}}", text):
                found += full(block[0])
        if file in ROOTS:
            found += sum(full(whole) for whole, _ in clauses(text))
        return found

    def in_order(self):
        """The files, each behind those that it takes something from."""
        done = []

        def visit(file):
            if file not in done:
                for other in sorted(self.before.get(file, ())):
                    if other != file and other in self.names:
                        visit(other)
                done.append(file)

        for file in sorted(self.ours()):
            visit(file)
        return [it for it in done if it.startswith("crates/")]

    def of_it(self, file):
        """What a table says of the definitions that count, where they are less than half of the file's."""
        has, names = self.texts(file), self.names.get(file, ())
        return f"; of it {', '.join(f'`{it}`' for it in has if it in names)}" if names and 2 * len(names) < len(has) else ""


def heart(known):
    """The tables of the heart: for each file the definitions that one part of it comes to, without those of the parts before."""
    tables, seen = {}, {}
    for title, names in HEART.items():
        closure = Closure(known)
        for module, name in names:
            its = known[f"Rattle.{module}"]
            closure.take(its, its.home(name), PAGE)
        closure.whole()
        rows, total = [], 0
        for file in closure.in_order():
            names = closure.names[file] - seen.get(file, set())
            if names:
                count = closure.lines(file, seen.get(file, ()))
                total += count
                has = list(closure.texts(file)) or sorted(names)
                rows.append(f"| `{file[7:]}` | {count} | {', '.join(f'`{it}`' for it in has if it in names)} |")
                seen.setdefault(file, set()).update(names)
        tables[title] = "\n".join([f"{total} lines:", "", "| File | Lines | Definitions and types |", "|---|---|---|", *rows])
    return tables


def kit(closure):
    """The table of what the promises take from crates of the kit."""
    rows = []
    for crate in KIT:
        files = {it: names for it, names in closure.names.items() if f"/{crate}/specs/" in it and not it.startswith("crates/")}
        named = [f"`{os.path.basename(it)[:-5]}`" for it in sorted(files)]
        rows.append(f"| `{crate}` | {sum(closure.lines(it) for it in files)} | {', '.join(named)} |")
    return "\n".join(["| Crate of the kit | Lines | Files of its `specs/` |", "|---|---|---|", *rows])


def code_lines(crate):
    """How many hundreds of lines of code a crate has, without comments and empty lines."""
    return 100 * round(sum(full(re.sub(r"//.*", "", read(it))) for it in glob.glob(f"crates/{crate}/src/**/*.rt", recursive=True)) / 100)


def between(page, name, text):
    """The page with a text between the marks of this name."""
    begin, end = f"<!-- {name}, made by tools/reading_lines.py -->\n", "\n<!-- until here -->"
    front, _, rest = page.partition(begin)
    return f"{front}{begin}{text}{end}{rest.partition(end)[2]}" if rest else page


def faults(closure, page, crates, places):
    """What is wrong with the page's tables."""
    exceptions = {it[1] for it in ROW.finditer(page.partition("\n## Exceptions\n")[2].partition("\n## ")[0])}
    for file in places:
        if not os.path.exists(file):
            yield f"{PAGE} names {file}, which isn't there"
        elif file not in closure.names and file not in ROOTS:
            yield f"{PAGE} names {file}, which nothing that is to be believed stands on"
        for other in closure.before.get(file, ()):
            # (contracts may stand in one file with types that they don't name)
            if file not in ROOTS and other not in ROOTS and other not in exceptions and other in places and places[other] > places[file]:
                yield f"{PAGE} names {other} behind {file}, which takes something from it"
    for file in sorted({*closure.ours(), *ROOTS} - {*places}):
        yield f"{PAGE} doesn't name {file}, which has to be believed"
    for file in sorted(closure.ours() - {*ROOTS} - exceptions):
        if file.split("/")[1] not in crates:
            yield f"{file} has to be believed, and stands in a crate of code: it belongs into one of {', '.join(crates)}, or among the exceptions with its reason"


def main():
    known = modules()
    closure = Closure(known)
    for file in ROOTS:
        closure.root(file)
    closure.whole()
    page = read(PAGE)
    crates = [it[1] for it in CRATE.finditer(page.partition("\n## These crates")[2].partition("\n### ")[0])]
    places = {}
    for place, row in enumerate(ROW.finditer(page)):
        places.setdefault(row[1], place)
    wrong = list(faults(closure, page, crates, places))
    print(*wrong, sep="\n", end="\n" if wrong else "")
    if wrong:
        return 1
    text = ROW.sub(lambda row: f"| `{row[1]}` | {closure.lines(row[1])} | {row[3]}{closure.of_it(row[1])} |", page)
    sums = {it: sum(closure.lines(file) for file in closure.ours() | set(ROOTS) if file.split("/")[1] == it) for it in crates}
    sums |= {it: code_lines(it) for it in UNPROVED}
    text = CRATE.sub(lambda row: f"| `{row[1]}` | {sums.get(row[1], row[2])} | {row[3]} |", text)
    for title, table in heart(known).items():
        text = between(text, title, table)
    if any(not it.startswith("crates/") for it in closure.names):
        text = between(text, "of the kit", kit(closure))
    if "--check" in sys.argv:
        if text != page:
            print(f"{PAGE} isn't up to date: run tools/reading_lines.py")
        return 1 if text != page else 0
    if text != page:
        with open(PAGE, "w", encoding="utf-8") as out:
            out.write(text)
    return 0


if __name__ == "__main__":
    sys.exit(main())
