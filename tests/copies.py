#!/usr/bin/env python3
"""Compares each copy of the library and application with the one, examples/library_and_application.

A copy is a case that has the library's recipe, and the worked rows of `load_model` (`specs/LibraryAndApplication.antt`). It has all eight files,
each as it stands there. But in `meta/conf/bitbake.conf` a case may have a line for the number of threads more, and one that exports PN, by which
scripts in memory are told from one another. The status is 1 where a copy differs.
"""
import glob
import os
import re
import sys

os.chdir(os.path.dirname(os.path.dirname(os.path.realpath(__file__))))
ONE, RECIPE, CONF = "examples/library_and_application", "meta/recipes-core/greet/greet_1.2.bb", "meta/conf/bitbake.conf"
ROWS = "crates/load_model/specs/LibraryAndApplication.antt"
MORE = re.compile(r'BB_NUMBER_THREADS = "\d+"|export PN')


def read(file):
    with open(file, encoding="utf-8") as it:
        return it.read()


def of_example():
    """The lines of the files of the example, without what a build left."""
    found = {}
    for at, folders, files in os.walk(ONE):
        folders[:] = [it for it in folders if os.path.join(at, it) != f"{ONE}/build"]
        found.update((os.path.relpath(os.path.join(at, it), ONE), read(os.path.join(at, it)).splitlines()) for it in files)
    return found


def of_case(file):
    """The lines of the files of a case, as they are when they are first written."""
    found, lines = {}, None
    for line in read(file).splitlines():
        if line.startswith("file "):
            lines = found.setdefault(line[5:], []) if line[5:] not in found else None
        elif line.startswith("|"):
            if lines is not None:
                lines.append(line[1:])
        else:
            lines = None
    return found


def of_rows():
    """The lines of the files of the worked rows."""
    text = read(ROWS)
    texts = {}
    for name, body in re.findall(r"(?ms)^(\w+) = text \((.*?)\n    ∷ \[\]\)", text):
        texts[name] = [re.sub(r"\\(.)", r"\1", it) for it in re.findall(r'\(codes "((?:[^"\\]|\\.)*)"\)', body)]
    return {path: texts.get(name, []) for path, name in re.findall(r'\(codes "([^"]*)", (\w+)\)', text)}


def main():
    one, wrong = of_example(), []
    copies = {ROWS: of_rows()}
    for file in sorted(glob.glob("crates/cases/data/**/*.case", recursive=True)):
        files = of_case(file)
        if "libgreet" in "\n".join(files.get(RECIPE, [])):
            files[CONF] = [it for it in files.get(CONF, []) if not MORE.fullmatch(it)]
            copies[file] = files
    for name, files in copies.items():
        wrong += [f"{name}: {path} isn't that of {ONE}" for path, lines in sorted(one.items()) if files.get(path) != lines]
    if len(copies) < 2:
        wrong.append("no case has a copy")
    print(*wrong, sep="\n", end="\n" if wrong else "")
    return 1 if wrong else 0


if __name__ == "__main__":
    sys.exit(main())
