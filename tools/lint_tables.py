#!/usr/bin/env python3
"""Makes what is said of BitBake's variables and flags that have no effect here, from one table, so that the page and the program can't differ.

docs/no_effect.tsv makes the last table of "Coming from BitBake" in docs/METADATA.md, between its marks, and the program's own table,
crates/recipe_lint/src/effects.rt. Each line has names with blanks between them, and what to do instead, with a tab between them. A name that
ends with * stands for all that begin so, and one in brackets is a flag's.

With --check nothing is written, and the status is 1 where one of them isn't up to date.
"""
import os
import sys

os.chdir(os.path.dirname(os.path.dirname(os.path.realpath(__file__))))
FROM, TO = "<!-- made by tools/lint_tables.py -->", "<!-- until here -->"
PAGE, PROGRAM = "docs/METADATA.md", "crates/recipe_lint/src/effects.rt"

HEAD = """\
// The variables and flags of BitBake's that have no effect here. Made by tools/lint_tables.py from docs/no_effect.tsv: change that, and run
// this.

/// A name that has no effect.
pub(crate) struct Effect {
    /// The name, its front, or the flag's.
    pub(crate) name: &'static str,

    /// What to do instead.
    pub(crate) instead: &'static str,
}
"""
LISTS = (
    ("VARIABLES", "The variables", lambda it: it[0] != "[" and it[-1] != "*"),
    ("FRONTS", "What variables begin with", lambda it: it[-1] == "*"),
    ("FLAGS", "The flags", lambda it: it[0] == "["),
)


def rows():
    """The rows of the table: names, what to do instead."""
    with open("docs/no_effect.tsv", encoding="utf-8") as lines:
        return [(names.split(), instead) for names, instead in (line.split("\t") for line in lines.read().splitlines())]


def program():
    parts = [HEAD]
    for name, what, is_in in LISTS:
        parts.append(f"\n/// {what}, in byte order.\npub(crate) const {name}: &[Effect] = &[\n")
        for it, instead in sorted((it, instead) for names, instead in rows() for it in names if is_in(it)):
            parts.append(f"    Effect {{\n        name: \"{it.strip('[]*')}\",\n        instead: \"{instead}\",\n    }},\n")
        parts.append("];\n")
    return "".join(parts)


def shown(name):
    if name[0] == "[":
        return f"flag `{name}`"
    return f"`{name[:-1]}`.." if name[-1] == "*" else f"`{name}`"


def page(text):
    before, begin, rest = text.partition(FROM + "\n")
    _, end, after = rest.partition(TO + "\n")
    if not end:
        sys.exit(f"{PAGE} lacks the marks")
    lines = ["| Has no effect | What to do instead |", "|---|---|"]
    lines += [f"| {', '.join(map(shown, names))} | {instead[0].upper()}{instead[1:]} |" for names, instead in rows()]
    return before + begin + "".join(it + "\n" for it in lines) + end + after


def held(file):
    """What a file holds now."""
    if not os.path.exists(file):
        return ""
    with open(file, encoding="utf-8") as it:
        return it.read()


def main():
    made = {PAGE: page(held(PAGE)), PROGRAM: program()}
    old = [file for file, text in made.items() if text != held(file)]
    if "--check" in sys.argv:
        for file in old:
            print(f"{file} isn't what docs/no_effect.tsv says: run tools/lint_tables.py")
        return 1 if old else 0
    for file in old:
        with open(file, "w", encoding="utf-8") as out:
            out.write(made[file])
    return 0


if __name__ == "__main__":
    sys.exit(main())
