#!/usr/bin/env python3
"""Asks `bitbake --why` before runs of small random projects, and compares what it says with what the runs then do.

Each round makes a project of some recipes, whose tasks need each other at random, and some of which run in each run or are of the shared state. Then it
edits the project or its `build/` a few times at random: values, scripts with the same and with another output, input files, needs; outputs, stamps and
objects that go or are damaged; edits that are taken back. Behind each edit it asks `--why`, with `-f`, `--no-setscene` and `-c` at random, and runs the same
words. Then:

- `--why` answered 0, and all below `build/` is as it was, times of change included, or there is no `build/` still;
- the run answered 0;
- each task of which `--why` said `run` was started, and each that was started was said to run, or that it may;
- each task that was said to be found was found, and each said to be restored was restored, but for what no task needs any more;
- each task that the run tells is one of those of `--why`;
- of each task that differs, `build/why` names what `--why` named.

A failure is printed with its seed; `--seed N --rounds 1` does that round again, and `--keep` leaves its folder. The last line is 'N passed, M failed', and the
status is 0 where M is 0.
"""
import argparse
import concurrent.futures
import os
import random
import re
import shutil
import subprocess
import sys
import tempfile

TOP = os.path.dirname(os.path.dirname(os.path.realpath(__file__)))
SECONDS = 60

CONF = """\
BBFILES = "${TOPDIR}/recipes/*.bb"
BB_DEFAULT_TASK ?= "build"
BB_NUMBER_THREADS = "%d"
"""


class Task:
    """A task of a recipe: the values that its script writes, its files and what it needs."""

    def __init__(self, rng, recipe, name, below):
        self.recipe = recipe
        self.name = name
        self.value = rng.randrange(4)
        self.note = 0
        self.file = f"{recipe}_{name}.txt" if rng.random() < 0.4 else None
        self.content = rng.randrange(3)
        self.needs = sorted(rng.sample(below, min(len(below), rng.choice([0, 1, 1, 2])))) if below else []
        self.nostamp = rng.random() < 0.08
        self.sstate = rng.random() < 0.3
        self.forgets = rng.random() < 0.3

    def text(self):
        """The lines of its recipe."""
        name = f"do_{self.name}"
        lines = [f'VALUE_{self.name} = "{self.value}"', f"{name}() {{", "    mkdir -p out", f"    : note {self.note}"]
        # Of some tasks no edit of what they are made from changes the output, so that what needs them may be found again.
        lines.append("    echo same > out/own" if self.forgets else f'    echo "${{VALUE_{self.name}}}" > out/own')
        if self.file and not self.forgets:
            lines.append(f'    cat "$FILESDIR/{self.file}" > out/file')
        for recipe, task in self.needs:
            if recipe != self.recipe and not self.forgets:
                lines.append(f'    cat "$DEPSDIR/{recipe}/do_{task}/"*/own > out/{recipe}_{task} || cat "$DEPSDIR/{recipe}/do_{task}/out/own" > out/{recipe}_{task}')
        lines += ["}", f"addtask {self.name}"]
        own = [task for recipe, task in self.needs if recipe == self.recipe]
        if own:
            lines[-1] += " after " + " ".join(f"do_{task}" for task in own)
        others = [f"{recipe}:do_{task}" for recipe, task in self.needs if recipe != self.recipe]
        if others:
            lines.append(f'{name}[depends] = "{" ".join(others)}"')
        if self.file:
            lines.append(f'{name}[file-checksums] = "files/{self.file}:True"')
        if self.nostamp:
            lines.append(f'{name}[nostamp] = "1"')
        if self.sstate:
            lines.append(f'SSTATETASKS += "{name}"')
            lines.append(f'{name}[sstate-inputdirs] = "${{WORKDIR}}/out"')
            lines.append(f'{name}[sstate-outputdirs] = "out"')
        return lines


class Round:
    """One project, its edits and its runs."""

    def __init__(self, given, seed, room):
        self.given = given
        self.random = random.Random(seed)
        self.room = room
        self.build = os.path.join(room, "build")
        self.done = []
        self.made()

    def made(self):
        """The project as it begins."""
        rng = self.random
        self.tasks = {}
        for number in range(rng.randint(2, 5)):
            recipe = f"r{number}"
            for name in ["a", "b", "build"][-rng.randint(1, 3):]:
                below = list(self.tasks)
                self.tasks[(recipe, name)] = Task(rng, recipe, name, below)
                mine = [key for key in below if key[0] == recipe]
                if mine and mine[-1] not in self.tasks[(recipe, name)].needs:
                    self.tasks[(recipe, name)].needs.append(mine[-1])
        self.threads = rng.choice([1, 1, 2, 4])
        self.before = []

    def write(self, path, text):
        path = os.path.join(self.room, path)
        os.makedirs(os.path.dirname(path), exist_ok=True)
        with open(path, "w", encoding="utf-8") as file:
            file.write(text)

    def lay(self):
        """Writes the project."""
        for folder in ("recipes", "files", "conf"):
            shutil.rmtree(os.path.join(self.room, folder), ignore_errors=True)
        self.write("conf/bitbake.conf", CONF % self.threads)
        recipes = {}
        for task in self.tasks.values():
            recipes.setdefault(task.recipe, []).extend(task.text())
            if task.file:
                self.write(f"files/{task.file}", f"{task.content}\n")
        for recipe, lines in recipes.items():
            self.write(f"recipes/{recipe}.bb", "\n".join(lines) + "\n")

    # ---- edits

    def any_task(self):
        return self.random.choice(list(self.tasks.values()))

    def edit_value(self):
        task = self.any_task()
        self.before.append((task, "value", task.value))
        task.value = self.random.randrange(4)

    def edit_note(self):
        """An edit that changes no output."""
        task = self.any_task()
        self.before.append((task, "note", task.note))
        task.note += 1

    def edit_file(self):
        task = self.any_task()
        self.before.append((task, "content", task.content))
        task.content = self.random.randrange(3)

    def edit_needs(self):
        keys = list(self.tasks)
        task = self.any_task()
        below = keys[:keys.index((task.recipe, task.name))]
        if below:
            self.before.append((task, "needs", list(task.needs)))
            one = self.random.choice(below)
            if one in task.needs:
                task.needs.remove(one)
            else:
                task.needs.append(one)

    def edit_kind(self):
        task = self.any_task()
        kind = self.random.choice(["nostamp", "sstate"])
        self.before.append((task, kind, getattr(task, kind)))
        setattr(task, kind, not getattr(task, kind))

    def take_back(self):
        if self.before:
            task, what, value = self.before.pop(self.random.randrange(len(self.before)))
            setattr(task, what, value)

    def paths(self, part):
        found = []
        for folder, folders, files in os.walk(os.path.join(self.build, part)):
            found += [os.path.join(folder, name) for name in folders + files]
        return sorted(found)

    def take_some(self):
        paths = self.paths(self.random.choice(["work", "work", "stamp", "obj", "obj", "rec2", "key"]))
        if paths:
            path = self.random.choice(paths)
            if os.path.isdir(path):
                shutil.rmtree(path)
            else:
                os.unlink(path)

    def damage_some(self):
        paths = [path for path in self.paths(self.random.choice(["work", "work", "stamp", "obj"])) if os.path.isfile(path)]
        if paths:
            with open(self.random.choice(paths), "a", encoding="utf-8") as file:
                file.write("x")

    def take_all(self):
        shutil.rmtree(os.path.join(self.build, self.random.choice(["stamp", "obj", "work", "."])), ignore_errors=True)

    def edit(self):
        kinds = [self.edit_value] * 3 + [self.edit_note] * 4 + [self.edit_file] * 2 + [self.edit_needs, self.edit_kind] + [self.take_back] * 2 + [
            self.take_some] * 3 + [self.damage_some] * 2
        if self.random.random() < 0.05:
            kinds = [self.take_all]
        for _ in range(self.random.choice([0, 1, 1, 2, 3])):
            kind = self.random.choice(kinds)
            self.done.append(kind.__name__)
            kind()

    # ---- runs

    def state(self):
        """All below `build/`, with times of change; None where it isn't there."""
        if not os.path.lexists(self.build):
            return None
        found = {}
        for folder, folders, files in os.walk(self.build):
            for path in [folder] + [os.path.join(folder, name) for name in files]:
                there = os.lstat(path)
                found[path] = (there.st_mode, there.st_size, there.st_mtime_ns, there.st_ctime_ns)
        return found

    def call(self, words):
        done = subprocess.run([self.given.program, *words], cwd=self.room, stdin=subprocess.DEVNULL, stdout=subprocess.PIPE, stderr=subprocess.PIPE,
                              timeout=SECONDS, check=False, text=True)
        return done.returncode, done.stdout, done.stderr

    def words(self):
        targets = self.random.sample(sorted({task.recipe for task in self.tasks.values()}), self.random.choice([1, 1, 2]))
        words = list(targets)
        if self.random.random() < 0.15:
            words = ["-f"] + words
        if self.random.random() < 0.15:
            words = ["--no-setscene"] + words
        if self.random.random() < 0.15:
            one = self.any_task()
            words = [word for word in words if word.startswith("-")] + [f"{one.recipe}:{one.name}"]
        return words

    def step(self):
        """What is wrong behind one edit, or None."""
        self.edit()
        self.lay()
        words = self.words()
        self.done.append(" ".join(words))
        was = self.state()
        status, told, said = self.call(["--why", *words])
        if status != 0:
            return f"--why answers {status}: {told!r} {said!r}"
        if self.state() != was:
            return "--why changed build/"
        status, ran, said = self.call(words)
        if status != 0:
            return f"the run answers {status}: {ran!r} {said!r}"
        return self.compared(told, ran)

    def compared(self, told, ran):
        says = {}
        for line in told.splitlines():
            task, words = line.split(": ", 1)
            if task in says:
                return f"{task} is told twice: {told!r}"
            says[task] = words
        happened = {}
        for line in ran.splitlines():
            word, _, task = line.partition(" ")
            if word in ("started", "found", "restored"):
                happened.setdefault(task, word)
        both = f"\n--why:\n{told}run:\n{ran}"
        for task, what in happened.items():
            if task not in says:
                return f"{task} isn't told{both}"
            words = says[task]
            if what == "started" and not words.startswith(("run: ", "may run: ")):
                return f"{task} ran{both}"
            if what == "restored" and words not in ("restored", "may be restored: if a task that needs it runs") and not words.startswith("may run: needs "):
                return f"{task} was restored{both}"
            if what == "found" and words != "found" and not words.startswith("may run: needs "):
                return f"{task} was found{both}"
        waits = any(words.startswith("may run: ") for words in says.values())
        for task, words in says.items():
            if words.startswith("run: ") and happened.get(task) != "started":
                return f"{task} didn't run{both}"
            if words == "restored" and happened.get(task) != "restored":
                return f"{task} wasn't restored{both}"
            if words == "found" and happened.get(task) != "found" and not waits:
                return f"{task} wasn't found{both}"
        return self.named(says, both)

    def named(self, says, both):
        """Whether build/why names what was named."""
        with open(os.path.join(self.build, "why"), encoding="utf-8") as file:
            why = file.read()
        for task, words in says.items():
            if words.startswith("run: differs in "):
                line = re.search(rf"^{re.escape(task)}: (.*)$", why, re.MULTILINE)
                for name in words[len("run: differs in "):].split(", "):
                    if line is None or name.removeprefix("file ") not in line.group(1):
                        return f"{task}: build/why doesn't name {name}: {why!r}{both}"
        return None

    def play(self):
        for _ in range(self.given.edits):
            wrong = self.step()
            if wrong is not None:
                return wrong
        return None


def one_round(given, seed):
    room = tempfile.mkdtemp(prefix="why-", dir=given.room)
    turn = Round(given, seed, room)
    try:
        wrong = turn.play()
    except Exception as error:  # (a round that breaks is a failure of that round)
        wrong = repr(error)
    if not given.keep:
        shutil.rmtree(room, ignore_errors=True)
    return seed, wrong, turn.done, room


def main():
    reader = argparse.ArgumentParser(description=__doc__.split("\n", maxsplit=1)[0])
    reader.add_argument("program", nargs="?", default=os.path.join(TOP, "crates/bitbake_cli/out/bitbake_cli"))
    reader.add_argument("--rounds", type=int, default=200)
    reader.add_argument("--edits", type=int, default=6)
    reader.add_argument("--seed", type=int, default=0)
    reader.add_argument("--jobs", type=int, default=2)
    reader.add_argument("--keep", action="store_true")
    reader.add_argument("--room", default=None)
    given = reader.parse_args()
    given.program = os.path.abspath(given.program)
    given.room = given.room or tempfile.mkdtemp(prefix="fuzz-why-")
    failed = 0
    with concurrent.futures.ThreadPoolExecutor(given.jobs) as pool:
        for seed, wrong, done, room in pool.map(lambda seed: one_round(given, seed), range(given.seed, given.seed + given.rounds)):
            if wrong is not None:
                failed += 1
                print(f"seed {seed}: {wrong}\nafter {done}{' in ' + room if given.keep else ''}", flush=True)
    if not given.keep:
        shutil.rmtree(given.room, ignore_errors=True)
    print(f"{given.rounds - failed} passed, {failed} failed")
    return 1 if failed else 0


if __name__ == "__main__":
    sys.exit(main())
