#!/usr/bin/env python3
"""Runs a command whose standard error is a pseudo-terminal, and tells what that showed.

    tests/terminal.py [--both] [--keep FILE] COMMAND..

With --both standard output is the same terminal, else it goes to standard output. The rows that the terminal shows at the end are printed behind
`screen:`, and before them, behind `line:`, the last row that had begun with `[`, with each number of seconds as N. FILE gets all bytes that the terminal
was sent. The status is the command's.
"""
import os
import pty
import re
import subprocess
import sys


def shown(data):
    """What a terminal of one screen without an end shows, and each text that stood in its last row as something was taken away."""
    rows, column, gone = [""], 0, []
    for piece in re.findall(r"\x1b\[\??\d*[a-zA-Z]|[\s\S]", data):
        if piece == "\r":
            column = 0
        elif piece == "\n":
            rows.append("")
            column = 0
        elif piece == "\x1b[K":
            if rows[-1][column:]:
                gone.append(rows[-1])
            rows[-1] = rows[-1][:column]
        elif not piece.startswith("\x1b"):
            rows[-1] = rows[-1][:column].ljust(column) + piece + rows[-1][column + 1 :]
            column += 1
    return rows, gone


def main():
    words = sys.argv[1:]
    both = words[0] == "--both"
    words = words[both:]
    keep = words[1] if words[0] == "--keep" else None
    words = words[2 if keep else 0 :]
    own, other = pty.openpty()
    child = subprocess.Popen(words, stdin=subprocess.DEVNULL, stdout=other if both else None, stderr=other)
    os.close(other)
    data = b""
    try:
        while piece := os.read(own, 65536):
            data += piece
    except OSError:
        pass
    status = child.wait()
    if keep:
        with open(keep, "wb") as file:
            file.write(data)
    rows, gone = shown(data.decode(errors="replace"))
    lines = [row for row in gone if row.startswith("[")]
    print("line: " + (re.sub(r"\d+ s\b", "N s", re.sub(r"\] \d+:\d\d", "] N:N", lines[-1])) if lines else "none"))
    print("screen:")
    for row in rows:
        if row.strip():
            print(row.rstrip())
    sys.exit(status)


main()
