#!/usr/bin/env python3
"""Runs the case files of crates/cases/data by the real program, over real folders. docs/CASES.md has their form.

Usage: tests/cases.py [--program FILE] [--data FOLDER] [TOPIC[/NAME] ..]
The program is the one that the gate built. A case for devices in memory alone is passed over, and one with a run whose devices are to fail
from that run on; both are counted apart.
Where a run is refused for a fault of the metadata or a limit, standard error has to explain that by the sentence of docs/faults.tsv and
nothing else but what may stand behind it (tests/sentences.py); where it is Ok, nothing stands there but the number of remarks, and what a clearing freed. The cases of tests/sentences.tsv have to show just the sentences that stand there.
The last line is 'N passed, M failed'; the status is 0 where M is 0.
"""
import argparse
import os
import re
import shutil
import subprocess
import sys
import tempfile

from sentences import sentences, without_further

TOP = os.path.dirname(os.path.dirname(os.path.realpath(__file__)))
ESCAPE = re.compile(rb"\\(?:\{(\d+)\*((?:[^}\\]|\\.)*)\}|x([0-9A-Fa-f]{2})|([ntr\\])|)")
PLAIN = {b"n": b"\n", b"t": b"\t", b"r": b"\r", b"\\": b"\\"}
# Directives with content below them, and whether `exec` may stand behind the path.
WITH_CONTENT = {"file": False, "disk": True, "puts": True, "text": False, "work": True}


def work_name(path):
    """The name of what stands at a path below build, where that is below the work folders of a store."""
    if path.startswith(b"work/"):
        return path[5:]
    parts = path.split(b"/", 3)
    return b"mc:%s:%s" % (parts[1], parts[3]) if len(parts) == 4 and parts[0::2] == [b"mc", b"work"] else None


class Wrong(Exception):
    """What is wrong with a case or its run."""


def unescaped(text):
    """The bytes that a text with escapes stands for."""

    def one(found):
        if found[1] is not None:
            return int(found[1]) * unescaped(found[2])
        if found[3] is not None:
            return bytes([int(found[3], 16)])
        if found[4] is None:
            raise Wrong("a backslash begins no escape")
        return PLAIN[found[4]]

    return ESCAPE.sub(one, text)


def directives(data):
    """The directives of a case: line, word, the rest of the line, the bytes of its content (None where there is none)."""
    lines = data.split(b"\n")
    if lines[-1:] != [b""]:
        raise Wrong(f"line {len(lines)}: the last line has no end")
    if not lines[0].strip() or lines[0][:1] in b"|+#":
        raise Wrong("line 1: it doesn't say what the case shows")
    found = []
    for number, line in enumerate(lines[1:-1], 2):
        try:
            if line[:1] in (b"|", b"+"):
                if not found or found[-1][1] not in WITH_CONTENT:
                    raise Wrong("content without a directive")
                more = line[1:] + b"\n" if line[:1] == b"|" else unescaped(line[1:])
                found[-1][3] = (found[-1][3] or b"") + more
            elif line and line[:1] != b"#":
                word, _, rest = line.partition(b" ")
                found.append([number, word.decode(), rest, None])
        except Wrong as wrong:
            raise Wrong(f"line {number}: {wrong}") from None
    return found


class Case:
    """A case as it runs: the project's folder, the step's wishes, and what is to stand below build/work."""

    def __init__(self, folder, program):
        self.folder, self.program, self.runs = folder, program, 0
        self.work, self.wishes, self.fails = {}, None, False
        # (status, output and standard error of the last run; None before the first)
        self.ran = None
        # what standard error had of all runs that were judged
        self.said = b""

    def at(self, *parts):
        return os.path.join(os.fsencode(self.folder), *parts)

    def write(self, path, data, is_exec=False):
        os.makedirs(os.path.dirname(self.at(path)), exist_ok=True)
        if os.path.islink(self.at(path)):
            # (it is replaced, and not what it leads to)
            os.remove(self.at(path))
        with open(self.at(path), "wb") as out:
            out.write(data)
        os.chmod(self.at(path), 0o755 if is_exec else 0o644)

    def link(self, path, target):
        os.makedirs(os.path.dirname(self.at(path)), exist_ok=True)
        if os.path.lexists(self.at(path)):
            os.remove(self.at(path))
        os.symlink(target, self.at(path))

    def run(self, words):
        self.runs += 1
        self.wishes = {"status": None, "text": None, "lines": [], "counts": [], "not": [], "work": None}
        if not self.fails:
            ran = subprocess.run([self.program, *words], cwd=self.folder, stdin=subprocess.DEVNULL, capture_output=True, timeout=60)
            self.ran = ran.returncode, ran.stdout, ran.stderr

    def held(self):
        """What stands below build/work, and behind mc:NAME: below build/mc/NAME/work: bytes and executable bit of files, targets of links."""
        found = self.held_in(self.at(b"build", b"work"), b"")
        stores = self.at(b"build", b"mc")
        for config in os.listdir(stores) if os.path.isdir(stores) else []:
            found.update(self.held_in(os.path.join(stores, config, b"work"), b"mc:%s:" % config))
        return found

    def held_in(self, top, front):
        """The same of one folder, by paths behind this."""
        found = {}
        for at, folders, names in os.walk(top):
            for name in names + [it for it in folders if os.path.islink(os.path.join(at, it))]:
                path = os.path.join(at, name)
                if os.path.islink(path):
                    found[front + os.path.relpath(path, top)] = os.readlink(path)
                else:
                    with open(path, "rb") as it:
                        found[front + os.path.relpath(path, top)] = it.read(), bool(os.stat(path).st_mode & 0o100)
        return found

    def judge(self):
        """Holds the run before, if there is one, to its wishes."""
        wishes, self.wishes = self.wishes, None
        if wishes is None:
            return
        if wishes["status"] is None or wishes["text"] is None and not wishes["lines"] and not wishes["counts"]:
            raise Wrong("the run has no status, or neither a text nor a line")
        if wishes["work"] is not None:
            self.work = wishes["work"]
        fails, self.fails = self.fails, False
        if fails:
            # (what the store holds then isn't known here, so the case ends)
            raise StopIteration
        status, text, said = self.ran
        if status != wishes["status"]:
            raise Wrong(f"the status is {status}, wanted {wishes['status']}; the text is\n{shown(text)}{shown(said)}")
        if wishes["text"] is not None and text != wishes["text"]:
            raise Wrong(f"the text is\n{shown(text)}wanted\n{shown(wishes['text'])}{shown(said)}")
        lines = text.split(b"\n")
        for line in wishes["lines"]:
            if line not in lines:
                raise Wrong(f"the text has no line {line.decode(errors='replace')}; it is\n{shown(text)}{shown(said)}")
        for count, front in wishes["counts"]:
            found = sum(it.startswith(front) for it in lines)
            if found != count:
                raise Wrong(f"{found} lines begin with {front.decode(errors='replace')}, wanted {count}; the text is\n{shown(text)}{shown(said)}")
        for line in wishes["not"]:
            if line in lines:
                raise Wrong(f"the text has a line {line.decode(errors='replace')}; it is\n{shown(text)}")
        self.explained(status, text, said)
        held = self.held()
        if held != self.work:
            raise Wrong(f"below build/work stands\n{listed(held)}wanted\n{listed(self.work)}")

    def explained(self, status, text, said):
        """Holds what standard error says of a run to the status and the text. What real files tell besides stands in no case."""
        said = b"".join(it for it in said.splitlines(True) if not it.startswith((b"bitbake: layers: ", b"bitbake: lint: ", b"bitbake: sandbox: ", b"bitbake: why: ", b"bitbake: clean: ")))
        if re.search(rb"^mc ", text, re.M):
            # (tasks of configurations before that of the fault)
            said = b"".join(it for it in said.splitlines(True) if not re.match(rb"bitbake: (try: |[^ ]+ failed )|\| ", it))
        said = without_further(said.decode(errors="surrogateescape")).encode(errors="surrogateescape")
        self.said += said
        wanted = [it.encode(errors="surrogateescape") for it in sentences(text.decode(errors="surrogateescape"))]
        if status in (3, 10) and said not in wanted or status == 0 and said:
            raise Wrong(f"standard error says\n{shown(said)}wanted\n{''.join(shown(it) for it in wanted)}")

    def obey(self, word, rest, content):
        """One directive."""
        wishes = self.wishes
        if word in ("status", "text", "line", "count", "no", "work", "worklink"):
            if wishes is None:
                raise Wrong(f"{word} before any run")
        elif wishes is not None:
            self.judge()
            wishes = None
        path, is_exec = rest, False
        if word in WITH_CONTENT:
            if WITH_CONTENT[word] and rest.endswith(b" exec"):
                path, is_exec = rest[:-5], True
            content = content or b""
        path = unescaped(path)
        if word == "file":
            self.write(path, content)
        elif word == "remove":
            os.remove(self.at(path))
        elif word == "disk":
            self.write(os.path.join(b"build", path), content, is_exec)
            if work_name(path):
                self.work[work_name(path)] = content, is_exec
        elif word == "disklink":
            name, _, target = rest.partition(b" ")
            path = unescaped(name)
            self.link(os.path.join(b"build", path), unescaped(target))
            if work_name(path):
                self.work[work_name(path)] = unescaped(target)
        elif word in ("script", "puts", "links", "exit", "benches"):
            pass
        elif word in ("fail", "gate", "crash"):
            self.fails = True
        elif word == "run":
            self.run([unescaped(it) for it in rest.split(b" ")] if rest else [])
        elif word == "status":
            wishes["status"] = int(rest)
        elif word == "text":
            wishes["text"] = content
        elif word == "line":
            wishes["lines"].append(path)
        elif word == "count":
            number, _, front = rest.partition(b" ")
            wishes["counts"].append((int(number), unescaped(front)))
        elif word == "no" and rest.startswith(b"line "):
            wishes["not"].append(unescaped(rest[5:]))
        elif word == "work":
            wishes["work"] = wishes["work"] or {}
            if rest != b"nothing":
                wishes["work"][path] = content, is_exec
        elif word == "worklink":
            name, _, target = rest.partition(b" ")
            wishes["work"] = wishes["work"] or {}
            wishes["work"][unescaped(name)] = unescaped(target)
        else:
            raise Wrong(f"no directive: {word} {rest.decode(errors='replace')}")


def shown(data):
    """A text to print, with an end of its last line."""
    text = data if len(data) < 4000 else data[:4000] + b" .. (%d bytes)" % len(data)
    return text.decode(errors="backslashreplace") + ("" if not data or text.endswith(b"\n") else "\n")


def listed(held):
    return "".join(f"{path.decode(errors='replace')}: {what}\n" for path, what in sorted(held.items())) or "nothing\n"


def run_case(file, program, wanted):
    """Runs a case, and gives whether all of it was run; what is wrong is raised with its place. Standard error has to have the wanted
    lines."""
    with open(file, "rb") as it:
        found = directives(it.read())
    if any(word == "memory" for _, word, _, _ in found):
        return False
    folder = tempfile.mkdtemp(prefix="case-")
    case = Case(folder, program)
    number = 1
    try:
        for number, word, rest, content in found:
            case.obey(word, rest, content)
        case.judge()
        if not case.runs:
            raise Wrong("nothing is run")
        for line in wanted:
            if line.encode() not in case.said.split(b"\n"):
                raise Wrong(f"standard error never says\n{line}\nbut\n{shown(case.said)}")
        return True
    except StopIteration:
        return False
    except (Wrong, ValueError, OSError, subprocess.TimeoutExpired) as wrong:
        raise Wrong(f"run {case.runs}, before line {number}: {wrong}") from None
    finally:
        subprocess.run(["chmod", "-R", "u+rwX", folder], check=False)
        shutil.rmtree(folder, ignore_errors=True)


def files_of(data, names):
    """The case files, by their names."""
    found = {}
    for at, _, files in os.walk(data):
        for file in files:
            if file.endswith(".case"):
                path = os.path.join(at, file)
                found[os.path.relpath(path, data)[:-5]] = path
    return {it: found[it] for it in sorted(found) if not names or any(it == name or it.startswith(f"{name}/") for name in names)}


def wanted_lines(found):
    """The lines that tests/sentences.tsv wants on standard error, by the name of the case."""
    wanted = {}
    with open(f"{TOP}/tests/sentences.tsv", encoding="utf-8") as lines:
        for line in lines.read().splitlines():
            _, name, sentence = line.split("\t")
            wanted.setdefault(name, []).append(sentence)
    return {name: wanted.get(name, []) for name in found}


def main():
    given = argparse.ArgumentParser()
    given.add_argument("--program", default=os.environ.get("BITBAKE", f"{TOP}/crates/bitbake_cli/out/bitbake_cli"))
    given.add_argument("--data", default=f"{TOP}/crates/cases/data")
    given.add_argument("names", nargs="*")
    given = given.parse_args()
    passed = skipped = failed = 0
    found = files_of(given.data, given.names)
    wanted = wanted_lines(found)
    for name, file in found.items():
        try:
            if run_case(file, os.path.realpath(given.program), wanted[name]):
                passed += 1
            elif wanted[name]:
                raise Wrong("a case of tests/sentences.tsv is passed over")
            else:
                skipped += 1
        except Wrong as wrong:
            print(f"{name}: {wrong}")
            failed += 1
    if skipped:
        print(f"skipped {skipped} cases, wholly or from a run on whose devices are to fail: they are for devices in memory")
    print(f"{passed} passed, {failed} failed")
    return 1 if failed or not passed else 0


sys.exit(main())
