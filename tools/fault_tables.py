#!/usr/bin/env python3
"""Makes what is said of faults and of exit statuses, each from one table, so that the pages and the program can't differ.

docs/faults.tsv makes the tables of docs/READING.md and docs/bitbake.1, between their marks, and the program's own table,
crates/bitbake_cli/src/sentences.rt. Each line has a fault's kind, its texts, what is wrong, and what to do, with tabs between them. Where a
fault's text goes into a sentence stands its name in angle brackets; a name that ends with .. stands for all texts from there on. A kind with
`, no file` behind it counts where no file is at fault, and one with `, no text` where the first text is empty; the first line that fits counts.

docs/statuses.tsv makes the tables of docs/READING.md, README.md and docs/bitbake.1. Each line has a status, the line that is printed, what is
wrong, and what to do; words as they stand are in backticks, and names of texts in angle brackets.

With --check nothing is written, and the status is 1 where one of them isn't up to date.
"""
import os
import re
import sys

os.chdir(os.path.dirname(os.path.dirname(os.path.realpath(__file__))))
FROM, TO = "made by tools/fault_tables.py", "until here"
STATUSES = "statuses, made by tools/fault_tables.py"
MARK = re.compile(r"<([^<>]+)>")

PROGRAM_HEAD = """\
// What is said of each kind of fault. Made by tools/fault_tables.py from docs/faults.tsv: change that, and run this.

/// What is said of faults of one kind.
pub struct Sentence {
    /// The kind, as the fault's line has it; with `, no file` behind it for faults without a file alone, and with `, no text`
    /// for those whose first text is empty.
    pub kind: &'static str,

    /// What is wrong. `<1>` stands for the fault's first text, and `<1..>` for all from the first on.
    pub wrong: &'static str,

    /// What to do, with marks as above.
    pub mend: &'static str,
}

/// All kinds. The first that fits a fault counts.
pub const SENTENCES: &[Sentence] = &[
"""


def table():
    """The rows of the table: kind, names of the texts, what is wrong, what to do."""
    rows = []
    with open("docs/faults.tsv", encoding="utf-8") as lines:
        for number, line in enumerate(lines.read().splitlines(), 1):
            kind, texts, wrong, mend = line.split("\t")
            for name in MARK.findall(wrong + mend):
                if name not in texts.split():
                    sys.exit(f"docs/faults.tsv:{number}: {kind} has no text {name}")
            rows.append((kind, texts.split(), wrong, mend))
    return rows


def statuses():
    """The rows of the table of statuses: the status, the line, what is wrong, what to do."""
    with open("docs/statuses.tsv", encoding="utf-8") as lines:
        return [line.split("\t") for line in lines.read().splitlines()]


def without_marks(text):
    return MARK.sub(r"\1", text)


def status_page(rows):
    yield "| Status | Printed | What is wrong | What to do |"
    yield "|---|---|---|---|"
    for row in rows:
        yield f"| {' | '.join(without_marks(it) for it in row)} |"


def status_short(rows):
    yield "| Exit status | Meaning |"
    yield "|---|---|"
    for number, _, wrong, _ in rows:
        yield f"| {number} | {without_marks(wrong)} |"


def status_manual(rows):
    for number, line, wrong, mend in rows:
        yield ".TP"
        yield f"\\fB{number}\\fR"
        yield f"{bold(line)}:"
        yield bold(wrong) + ("." if mend == "–" else f"; {bold(mend)}.")


def bold(text):
    """A text of the manual page, with what stands in backticks in bold, and names of texts in italics."""
    parts = text.split("`")
    for at, part in enumerate(parts):
        back = "B" if at % 2 else "R"
        shown = MARK.sub(lambda found: f"\\fI{found[1]}\\f{back}", part.replace("\\", "\\e").replace("-", "\\-"))
        parts[at] = f"\\fB{shown}\\fR" if at % 2 else shown
    return "".join(parts)


def page(rows):
    yield "| Kind | Texts | What is wrong | What to do |"
    yield "|---|---|---|---|"
    for kind, texts, wrong, mend in rows:
        name, comma, case = kind.partition(", ")
        wrong, mend = (MARK.sub(r"*\1*", it) for it in (wrong, mend))
        yield f"| `{name}`{comma}{case} | {' '.join(f'`{it}`' for it in texts)} | {wrong} | {mend} |"


def troff(text):
    """A text of the manual page, with its marks in italics."""
    plain = text.replace("\\", "\\e").replace("-", "\\-")
    return MARK.sub(lambda found: f"\\fI{found[1]}\\fR", plain)


def manual(rows):
    for kind, texts, wrong, mend in rows:
        name, comma, case = kind.partition(", ")
        yield ".TP"
        yield f"\\fB{name}\\fR" + "".join(f" \\fI{it}\\fR" for it in texts) + (f" ({case})" if comma else "")
        yield f"{troff(wrong)}; {troff(mend)}."


def quoted(text, texts):
    """A text of the program, with its marks as numbers."""

    def number(found):
        return f"<{texts.index(found[1]) + 1}{'..' if found[1].endswith('..') else ''}>"

    return '"' + MARK.sub(number, text).replace("\\", "\\\\").replace('"', '\\"') + '"'


def program(rows):
    parts = [PROGRAM_HEAD]
    for kind, texts, wrong, mend in rows:
        parts.append(f"    Sentence {{\n        kind: {quoted(kind, texts)},\n")
        parts.append(f"        wrong: {quoted(wrong, texts)},\n        mend: {quoted(mend, texts)},\n    }},\n")
    return "".join(parts) + "];\n"


def put(file, text, begin, end, lines):
    """Gives the text of a file with these lines between the marks."""
    before, _, rest = text.partition(begin + "\n")
    _, mark, after = rest.partition(end + "\n")
    if not mark:
        sys.exit(f"{file} lacks the marks")
    return before + begin + "\n" + "".join(it + "\n" for it in lines) + end + "\n" + after


def held(file):
    """What a file holds now."""
    if not os.path.exists(file):
        return ""
    with open(file, encoding="utf-8") as it:
        return it.read()


def main():
    rows, ends = table(), statuses()
    reading, manual_page, readme = "docs/READING.md", "docs/bitbake.1", "README.md"
    made = {file: held(file) for file in (reading, manual_page, readme)}
    for file, mark, lines in (
        (reading, f"<!-- {FROM} -->", page(rows)),
        (manual_page, f'.\\" {FROM}', manual(rows)),
        (reading, f"<!-- {STATUSES} -->", status_page(ends)),
        (manual_page, f'.\\" {STATUSES}', status_manual(ends)),
        (readme, f"<!-- {STATUSES} -->", status_short(ends)),
    ):
        made[file] = put(file, made[file], mark, f'.\\" {TO}' if file == manual_page else f"<!-- {TO} -->", lines)
    made["crates/bitbake_cli/src/sentences.rt"] = program(rows)
    old = [file for file, text in made.items() if text != held(file)]
    if "--check" in sys.argv:
        for file in old:
            print(f"{file} isn't what docs/faults.tsv and docs/statuses.tsv say: run tools/fault_tables.py")
        return 1 if old else 0
    for file in old:
        with open(file, "w", encoding="utf-8") as out:
            out.write(made[file])
    return 0


if __name__ == "__main__":
    sys.exit(main())
