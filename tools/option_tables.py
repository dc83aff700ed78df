#!/usr/bin/env python3
"""Makes what is told of the options from the list that the manual page has of them, so that help, completion and page can't differ.

docs/bitbake.1 makes the text of --help, crates/bitbake_cli/src/help.rt, and the options that bin/completion.bash knows. Of each option help has the
first sentence, which ends with its line in the page. The lines of use are those of the page's synopsis.

With --check nothing is written, and the status is 1 where one of them isn't up to date.
"""
import os
import re
import sys

os.chdir(os.path.dirname(os.path.dirname(os.path.realpath(__file__))))

HEAD = """\
// What `--help` prints. Made by tools/option_tables.py from docs/bitbake.1: change that, and run this.

/// The lines of use, and each option with a sentence.
pub const HELP: &str = "\\
"""


def plain(line):
    """A line of the page as it is shown: of a line with a request its words, with what stands between quotes as one of them."""
    if line.startswith("."):
        request, _, line = line.partition(" ")
        words = ["".join(found) for found in re.findall(r'"([^"]*)"|(\S+)', line)]
        line = ("" if len(request) == 3 else " ").join(words)
    return re.sub(r"\\f[BIR]", "", line).replace(r"\-", "-").replace(r"\e", "\\")


def section(name):
    with open("docs/bitbake.1", encoding="utf-8") as file:
        return file.read().split(f".SH {name}\n")[1].split("\n.SH ")[0].splitlines()


def uses():
    """The lines of the synopsis."""
    lines = [""]
    for line in section("SYNOPSIS"):
        if line == ".br":
            lines.append("")
        else:
            lines[-1] = f"{lines[-1]} {plain(line)}".strip()
    return lines


def options():
    """Each option: its names with its value, and its first sentence."""
    lines = section("OPTIONS")
    for at, line in enumerate(lines):
        if line == ".TP":
            names, sentence = plain(lines[at + 1]), plain(lines[at + 2])
            if not sentence.endswith("."):
                sys.exit(f"docs/bitbake.1: the first sentence of {names} doesn't end with its line: {sentence}")
            yield names, sentence


def help_text():
    for at, use in enumerate(uses()):
        yield f"{'usage:' if at == 0 else '      '} {use}"
    yield ""
    rows = list(options())
    width = max(len(names) for names, _ in rows)
    for names, sentence in rows:
        yield f"  {'' if names.startswith('-') and not names.startswith('--') else '    '}{names}".ljust(width + 8) + sentence
    yield ""
    yield "Behind -- each word is a target. The manual page says more: man bitbake, or docs/bitbake.1 of the project."


def program():
    lines = (line.replace("\\", "\\\\").replace('"', '\\"') for line in help_text())
    return HEAD + "".join(f"{line}\\n\\\n" if not line.startswith(" ") else f"\\x20{line[1:]}\\n\\\n" for line in lines) + '";\n'


def completion(text):
    names = [name for both, _ in options() for name in re.findall(r"(?<![^\s])--?[a-z-]+", both)]
    names.sort(key=lambda name: name.startswith("--"))
    new, count = re.subn(r"(?m)^( *found=')-c .*'$", lambda found: f"{found[1]}{' '.join(names)}'", text)
    if count != 1:
        sys.exit("bin/completion.bash has no one line with the options")
    return new


def main():
    stale = False
    with open("bin/completion.bash", encoding="utf-8") as file:
        shell = file.read()
    for path, new in (("crates/bitbake_cli/src/help.rt", program()), ("bin/completion.bash", completion(shell))):
        old = ""
        if os.path.exists(path):
            with open(path, encoding="utf-8") as file:
                old = file.read()
        if old != new:
            stale = True
            if "--check" in sys.argv[1:]:
                print(f"{path} isn't what docs/bitbake.1 says: run tools/option_tables.py")
            else:
                with open(path, "w", encoding="utf-8") as file:
                    file.write(new)
    sys.exit(1 if stale and "--check" in sys.argv[1:] else 0)


if __name__ == "__main__":
    main()
