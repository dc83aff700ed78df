#!/usr/bin/env python3
"""Makes the cases of crates/cases/data/own_layer from the chapter 'A layer of your own' of docs/METADATA.md, so that they can't differ.

Each section of the chapter is a case that has the sections before it too. A block is a file's content, by the last path in backticks above it,
or begins with `$ ` and has commands with what each prints: `bitbake WORDS`, `rm PATH`, and `cat build/work/PATH`. A comment `in memory` has
directives for the next run: what scripts do in memory, and what stands below build/work behind it, with which each `cat` has to agree.
With --check nothing is written, and the status is 1 where a case isn't up to date.
"""
import os
import re
import sys

TOP = os.path.dirname(os.path.dirname(os.path.realpath(__file__)))
PAGE, DATA = f"{TOP}/docs/METADATA.md", f"{TOP}/crates/cases/data/own_layer"
BLOCK = re.compile(r"^<!-- in memory\n(?P<memory>.*?)^-->\n|^```\n(?P<block>.*?)^```\n|^### (?P<title>[^\n]*)\n|`(?P<path>[^`\s]+/[^`\s]+)`", re.M | re.S)


def content(text):
    """The lines of a content, as a case has them."""
    return "".join(f"|{line}\n" for line in text.splitlines())


def commands(block):
    """The commands of a block, each with what it prints."""
    for part in re.split(r"^\$ ", block, flags=re.M)[1:]:
        command, _, printed = part.partition("\n")
        yield command, printed


def run_lines(block, memory):
    """The lines of a case for a block of commands."""
    held = re.findall(r"^(?:script|puts|links|exit|work)\b.*\n(?:^[|+].*\n)*", memory, re.M)
    before = [it for it in held if not it.startswith("work ")]
    behind = [it for it in held if it.startswith("work ")]
    made = "".join(before)
    for command, printed in commands(block):
        word, _, rest = command.partition(" ")
        if word == "rm":
            made += f"\nremove {rest}\n"
        elif word == "bitbake":
            made += f"\nrun {rest}\nstatus 0\ntext\n{content(printed)}{''.join(behind)}"
            behind = []
        elif f"work {rest.removeprefix('build/work/')}\n{content(printed)}" not in made:
            sys.exit(f"the chapter doesn't say in memory what is printed: {command}")
    if behind and "work" not in made:
        sys.exit(f"nothing is run in\n{block}")
    return made


def cases():
    """The text of each case, by its name."""
    with open(PAGE, encoding="utf-8") as page:
        chapter = page.read().partition("\n## 13. A layer of your own\n")[2].partition("\n## ")[0]
    made, sofar, path, memory, title = {}, "", None, "", None
    for found in BLOCK.finditer(chapter):
        if found["title"] is not None:
            title = found["title"]
        elif found["path"] is not None:
            path = found["path"]
        elif found["memory"] is not None:
            memory = found["memory"]
        else:
            if found["block"].startswith("$ "):
                sofar += run_lines(found["block"], memory)
                memory = ""
            else:
                sofar += f"\nfile {path}\n{content(found['block'])}"
            made[title] = sofar
    heads = "{} of a layer of one's own, as docs/METADATA.md shows it.\n# Made by tools/chapter.py.\n"
    return {title.lower().replace(" ", "_"): heads.format(title) + text for title, text in made.items()}


def main():
    made = cases()
    if not os.path.isdir(DATA):
        os.mkdir(DATA)
    old = []
    for name, text in made.items():
        file = f"{DATA}/{name}.case"
        held = ""
        if os.path.exists(file):
            with open(file, encoding="utf-8") as it:
                held = it.read()
        if held != text:
            old.append((file, text))
    more = sorted(set(os.listdir(DATA)) - {f"{name}.case" for name in made})
    if "--check" in sys.argv:
        for file in [file for file, _ in old] + more:
            print(f"{file} isn't what docs/METADATA.md shows: run tools/chapter.py")
        return 1 if old or more else 0
    for file, text in old:
        with open(file, "w", encoding="utf-8") as out:
            out.write(text)
    return 0


if __name__ == "__main__":
    sys.exit(main())
