#!/usr/bin/env python3
"""Types what the README shows under 'In ten minutes', and compares what it shows behind each command with what comes.

Usage: tests/readme.py [--program FILE]
The blocks that begin with `$ ` are one session of `sh`, in an empty folder, with `bitbake` on the search path; standard output and standard
error come as a terminal shows them. The last line is 'N passed, M failed'; the status is 0 where M is 0.
"""
import argparse
import os
import re
import shutil
import subprocess
import sys
import tempfile

TOP = os.path.dirname(os.path.dirname(os.path.realpath(__file__)))


def typed(page):
    """The commands of the blocks, each with what is shown behind it."""
    for block in re.findall(r"^```\n(\$ .*?)^```\n", page, re.M | re.S):
        for part in re.split(r"^\$ ", block, flags=re.M)[1:]:
            command, _, shown = part.partition("\n")
            if command.endswith("<<'END'"):
                body, _, shown = shown.partition("END\n")
                command = f"{command}\n{body}END"
            yield command, shown


def main():
    given = argparse.ArgumentParser()
    given.add_argument("--program", default=f"{TOP}/crates/bitbake_cli/out/bitbake_cli")
    given = given.parse_args()
    with open(f"{TOP}/README.md", encoding="utf-8") as page:
        session = list(typed(page.read().partition("\n## In ten minutes\n")[2].partition("\n## ")[0]))
    room = tempfile.mkdtemp()
    passed = failed = 0
    try:
        os.makedirs(f"{room}/bin")
        os.makedirs(f"{room}/empty")
        os.symlink(os.path.realpath(given.program), f"{room}/bin/bitbake")
        script = "".join(f"{{\n{command}\n}} >{room}/{number} 2>&1\n" for number, (command, _) in enumerate(session))
        environment = dict(os.environ, PATH=f"{room}/bin:{os.environ['PATH']}")
        subprocess.run(["sh", "-c", script], cwd=f"{room}/empty", env=environment, stdin=subprocess.DEVNULL, timeout=60, check=False)
        for number, (command, shown) in enumerate(session):
            came = ""
            if os.path.exists(f"{room}/{number}"):
                with open(f"{room}/{number}", encoding="utf-8", errors="backslashreplace") as it:
                    came = it.read()
            if came == shown:
                passed += 1
            else:
                failed += 1
                print(f"FAILED README: behind\n$ {command}\ncame\n{came}and not\n{shown}", end="")
    finally:
        shutil.rmtree(room, ignore_errors=True)
    print(f"{passed} passed, {failed} failed")
    return 1 if failed or not passed else 0


if __name__ == "__main__":
    sys.exit(main())
