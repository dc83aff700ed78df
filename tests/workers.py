#!/usr/bin/env python3
"""Runs projects by the real program with several workers, over real folders: what comes out doesn't hang on how many there are.

Usage: tests/workers.py [--program FILE] [--projects N] [--seed S]
Random projects are built with 1, 3 and 16 threads, edited and built again: equal answers and equal files, and each text is a history that may be.
Then what waiting costs. The last line is 'N passed, M failed'; the status is 0 where M is 0.
"""
import argparse
import os
import random
import re
import shutil
import subprocess
import sys
import tempfile

TOP = os.path.dirname(os.path.dirname(os.path.realpath(__file__)))
EVENT = re.compile(r"(found|restored|started|ended|failed|broke) (\S+)( .*)?")
THREADS = 1, 3, 16


class Wrong(Exception):
    """What is wrong with a run."""


class Project:
    """Recipes of some tasks in a row, over each other: {recipe: (names of tasks, recipes that it depends on, bodies)}."""

    def __init__(self, dice, fails):
        self.recipes = {}
        left = dice.randint(5, 40)
        while left > 0:
            name = f"r{len(self.recipes)}"
            count = min(left, dice.randint(1, 3))
            left -= count
            before = list(self.recipes)
            depends = sorted(dice.sample(before, min(len(before), dice.randint(0, 3))))
            tasks = ["do_compile", "do_install", "do_build"][3 - count:]
            bodies = {task: self.body(dice, name, task, fails) for task in tasks}
            self.recipes[name] = tasks, depends, bodies

    @staticmethod
    def body(dice, name, task, fails):
        lines = [f"sleep 0.0{dice.randint(0, 15):02}"] if dice.random() < 0.5 else []
        lines.append('cat "${DEPSDIR}"/*/*/out out 2>/dev/null | sort -u > more || true')
        lines.append(f"echo {name}.{task} {dice.randint(0, 9)} >> more && mv more out")
        if dice.random() < fails:
            lines.append(f"exit {dice.randint(1, 9)}")
        return lines

    def write(self, folder, threads):
        os.makedirs(os.path.join(folder, "conf"), exist_ok=True)
        os.makedirs(os.path.join(folder, "recipes"), exist_ok=True)
        with open(os.path.join(folder, "conf", "bitbake.conf"), "w") as out:
            out.write(f'BBFILES = "recipes/*.bb"\nBB_DEFAULT_TASK = "build"\nBB_NUMBER_THREADS = "{threads}"\n')
        for name, (tasks, depends, bodies) in self.recipes.items():
            with open(os.path.join(folder, "recipes", f"{name}.bb"), "w") as out:
                out.write(f'DEPENDS = "{" ".join(depends)}"\n')
                for place, task in enumerate(tasks):
                    out.write(f"{task}() {{\n" + "".join(f"    {line}\n" for line in bodies[task]) + "}\n")
                    out.write(f"addtask {task}" + (f" after {tasks[place - 1]}" if place else "") + "\n")
                out.write(f'{tasks[0]}[deptask] = "do_build"\n')

    def needs(self, task):
        """The tasks that one needs directly."""
        name, of = task.split(":")
        tasks, depends, _ = self.recipes[name]
        place = tasks.index(of)
        return [f"{name}:{tasks[place - 1]}"] if place else [f"{it}:do_build" for it in depends]

    def edit(self, dice):
        tasks, _, bodies = self.recipes[dice.choice(sorted(self.recipes))]
        bodies[dice.choice(tasks)].insert(0, f": {dice.randint(0, 9)}; echo {dice.randint(0, 9)} >> out")


def run(program, folder, *words):
    ran = subprocess.run([program, *words], cwd=folder, stdin=subprocess.DEVNULL, capture_output=True, timeout=120)
    return ran.returncode, ran.stdout.decode()


def judge(project, text, threads, goes_on):
    """Holds a text to what a history may be: a task begins when all that it needs is there, at most so many at once, and comes to one end."""
    lines = text.splitlines()
    if not re.fullmatch(rf"plan \d+ tasks, {threads} threads", lines[0]):
        raise Wrong(f"the first line is {lines[0]}")
    there, running, ended, failed, last = set(), set(), set(), [], lines[-1]
    counts = dict.fromkeys(("found", "restored", "started"), 0)
    for line in lines[1:-1]:
        found = EVENT.fullmatch(line)
        if not found:
            raise Wrong(f"no event: {line}")
        word, task = found[1], found[2]
        if word in counts:
            counts[word] += 1
            if task in there or task in running or task in ended:
                raise Wrong(f"once more: {line}")
        if word in ("found", "restored"):
            there.add(task)
        elif word == "started":
            missing = [it for it in project.needs(task) if it not in there]
            if missing:
                raise Wrong(f"{line} before {missing[0]}")
            if failed and not goes_on:
                raise Wrong(f"{line} behind a failure")
            running.add(task)
            if len(running) > threads:
                raise Wrong(f"{line} is one too many")
        else:
            if task not in running:
                raise Wrong(f"not running: {line}")
            running.discard(task)
            ended.add(task)
            if word == "ended":
                there.add(task)
            elif word == "failed":
                failed.append(task)
    if running:
        raise Wrong(f"without an end: {sorted(running)[0]}")
    if failed:
        if not last.startswith("fault 1 failed: ") or set(last[16:].split(", ")) != set(failed):
            raise Wrong(f"the last line is {last}")
    elif last != f"ok {counts['found']} found, {counts['restored']} restored, {counts['started']} started":
        raise Wrong(f"the last line is {last}")


def files(folder):
    """What stands below build/work."""
    held, top = {}, os.path.join(folder, "build", "work")
    for at, _, names in os.walk(top):
        for name in names:
            path = os.path.join(at, name)
            with open(path, "rb") as it:
                held[os.path.relpath(path, top)] = it.read(), os.stat(path).st_mode
    return held


def compare(program, room, project, words, goes_on):
    """Builds a project with each count of threads, and compares."""
    first = None
    for threads in THREADS:
        folder = os.path.join(room, str(threads))
        project.write(folder, threads)
        status, text = run(program, folder, *words)
        try:
            judge(project, text, threads, goes_on)
        except Wrong as wrong:
            raise Wrong(f"with {threads} threads: {wrong}; the text is\n{text}") from None
        # (where a failure ends a run, what others came to before it is left open)
        here = status, files(folder) if goes_on or status == 0 else None
        if first is None:
            first = here
        elif here != first:
            raise Wrong(f"with {threads} threads: status {status} or files are others; the text is\n{text}")


def random_projects(program, count, seed):
    for number in range(count):
        dice = random.Random(f"{seed} {number}")
        project = Project(dice, dice.choice((0, 0, 0.05)))
        goes_on = dice.random() < 0.6
        targets = sorted(dice.sample(sorted(project.recipes), min(len(project.recipes), dice.randint(1, 4))))
        words = (["-k"] if goes_on else []) + targets
        with tempfile.TemporaryDirectory() as room:
            try:
                compare(program, room, project, words, goes_on)
                project.edit(dice)
                compare(program, room, project, words, goes_on)
                yield f"random project {number}", None
            except Wrong as wrong:
                yield f"random project {number} of seed {seed}", str(wrong)


def processor_time(program, folder, *words):
    """The status of a run, and its processor time in seconds, with that of its scripts."""
    child = subprocess.Popen([program, *words], cwd=folder, stdin=subprocess.DEVNULL, stdout=subprocess.DEVNULL, stderr=subprocess.DEVNULL)
    _, status, used = os.wait4(child.pid, 0)
    child.returncode = os.waitstatus_to_exitcode(status)
    return child.returncode, used.ru_utime + used.ru_stime


def recipe(folder, threads, text):
    os.makedirs(os.path.join(folder, "conf"))
    os.makedirs(os.path.join(folder, "recipes"))
    with open(os.path.join(folder, "conf", "bitbake.conf"), "w") as out:
        out.write(f'BBFILES = "recipes/*.bb"\nBB_DEFAULT_TASK = "build"\nBB_NUMBER_THREADS = "{threads}"\n')
    with open(os.path.join(folder, "recipes", "it.bb"), "w") as out:
        out.write(text)


def meets(here, name, count):
    """The lines of a script that waits until so many of its kind are there."""
    return (f"    : > {here}/{name}\n    i=0\n"
            f'    while test "$(ls {here} | wc -l)" -lt {count} && test "$i" -lt 200; do\n        sleep 0.05\n        i=$((i + 1))\n    done\n'
            f'    test "$(ls {here} | wc -l)" -eq {count}\n')


def meeting(program, count):
    """As many scripts run at once as there are threads: each waits until all of them are there."""
    with tempfile.TemporaryDirectory() as room:
        folder, here = os.path.join(room, "it"), os.path.join(room, "here")
        os.makedirs(here)
        recipe(folder, count, "")
        os.remove(os.path.join(folder, "recipes", "it.bb"))
        names = [f"r{n}" for n in range(count)]
        for name in names:
            with open(os.path.join(folder, "recipes", f"{name}.bb"), "w") as out:
                out.write(f"do_build() {{\n{meets(here, name, count)}}}\naddtask build\n")
        status, text = run(program, folder, *names)
        return None if status == 0 else f"status {status}; the text is\n{text}"


def meeting_behind_one(program, count):
    """Workers that had to wait while one task ran alone are there for those behind it: these wait until all of them are there."""
    with tempfile.TemporaryDirectory() as room:
        folder, here = os.path.join(room, "it"), os.path.join(room, "here")
        os.makedirs(here)
        names = [f"t{n}" for n in range(count)]
        text = "do_alone() {\n    sleep 1\n}\naddtask alone\n"
        text += "".join(f"do_{name}() {{\n{meets(here, name, count)}}}\naddtask {name} after do_alone\n" for name in names)
        text += "do_build() {\n    :\n}\naddtask build after " + " ".join(f"do_{name}" for name in names) + "\n"
        recipe(folder, count, text)
        status, text = run(program, folder, "it")
        return None if status == 0 else f"status {status}; the text is\n{text}"


def waiting(program):
    """Who waits costs nothing."""
    with tempfile.TemporaryDirectory() as room:
        recipe(os.path.join(room, "long"), 16, "do_build() {\n    sleep 2\n}\naddtask build\n")
        status, used = processor_time(program, os.path.join(room, "long"), "it")
        yield "16 workers over a task that sleeps", None if status == 0 and used < 0.2 else f"status {status}, {used:.2f} s of processor time"
        chain = "".join(f"do_t{n}() {{\n    echo {n} > out\n}}\naddtask t{n}" + (f" after do_t{n - 1}" if n else "") + "\n" for n in range(200))
        chain += "addtask build after do_t199\ndo_build() {\n    :\n}\n"
        took = {}
        for threads in (1, 16):
            recipe(os.path.join(room, str(threads)), threads, chain)
            status, took[threads] = processor_time(program, os.path.join(room, str(threads)), "it")
            if status != 0:
                yield f"a chain of tasks with {threads} threads", f"status {status}"
                return
        # (bench/workers.sh measures what they cost; who doesn't sleep costs many times as much)
        yield "a chain of tasks with 16 workers", None if took[16] <= 4 * took[1] else f"{took[16]:.2f} s of processor time, and {took[1]:.2f} s with one"


def example(program, name, target, status=0):
    """An example gives the same files with 1, 2 and 16 threads."""
    first = None
    for threads in (1, 2, 16):
        with tempfile.TemporaryDirectory() as room:
            folder = os.path.join(room, "it")
            shutil.copytree(os.path.join(TOP, "examples", name), folder, ignore=shutil.ignore_patterns("build"))
            for at in ("conf", "meta/conf"):
                conf = os.path.join(folder, at, "bitbake.conf")
                if os.path.exists(conf):
                    with open(conf, "a") as out:
                        out.write(f'\nBB_NUMBER_THREADS = "{threads}"\n')
                    break
            ended, text = run(program, folder, target)
            here = files(folder)
            again, found = run(program, folder, target)
            if ended != status or f", {threads} threads" not in text or not here:
                return f"with {threads} threads: status {ended}; the text is\n{text}"
            if again != status or not found.splitlines()[-1].endswith(" 0 started"):
                return f"with {threads} threads, again: status {again}; the text is\n{found}"
            if first is None:
                first = here
            elif here != first:
                return f"with {threads} threads: other files"
    return None


def main():
    given = argparse.ArgumentParser()
    given.add_argument("--program", default=os.environ.get("BITBAKE", f"{TOP}/crates/bitbake_cli/out/bitbake_cli"))
    given.add_argument("--projects", type=int, default=200)
    given.add_argument("--seed", default="1")
    given = given.parse_args()
    program = os.path.realpath(given.program)
    passed = failed = 0

    def tests():
        yield "a library and an application with 1, 2 and 16 threads", example(program, "library_and_application", "app")
        if shutil.which("cc") and shutil.which("ar"):
            yield "tools in C with 1, 2 and 16 threads", example(program, "tools_in_c", "tools")
        else:
            print("skipped tools in C: there is no cc, or no ar")
        for count in (2, 16):
            yield f"{count} workers meet", meeting(program, count)
        yield "four workers meet behind a task that ran alone", meeting_behind_one(program, 4)
        yield from waiting(program)
        yield from random_projects(program, given.projects, given.seed)

    for name, wrong in tests():
        if wrong is None:
            passed += 1
        else:
            print(f"FAILED {name}: {wrong}")
            failed += 1
    print(f"{passed} passed, {failed} failed")
    return 1 if failed or not passed else 0


sys.exit(main())
