#!/usr/bin/env python3
"""Stores that a program of before left, read by the present one: what the one finds, the other has to find. Run by hand, and no part of the gate: it needs a
program of before, which wrote records of the first format.

Usage: tests/old_stores.py OLD NEW [ROUNDS]

Each round has a random project of `fuzz_why.py` (recipes whose tasks need each other, shared state, values, notes that change no output, input files), of which
some tasks fail while a value of theirs is a certain one. OLD builds it, with several edits. Then the project is copied, and edited once more or not at all; in
the one copy OLD runs, in the other NEW. Wanted:

- both answer the same: what is found, restored, started, ended and failed, and the status; of a run with several threads in any order, and its status alone
  where it fails;
- both leave the same files below `build/work`;
- NEW finds all that it built when it is run again, and standard error says nothing then; behind that no file stands at `build/rec`.

In two further copies NEW is killed up to three times, mostly while it moves the store, and run again: it answers as if it hadn't been killed. (Where a
kill came later, what was restored or run before it is found.) Last, OLD and NEW run by turns over one store, with edits between: each run ends with the
status of a build from nothing by the same program, and if that is 0 the tasks that it names have the files of that build.

A failure is printed with its seed; `--seed N` and ROUNDS 1 do that round again, and `--keep` leaves its folder. The last line is 'N passed, M failed', and the
status is 0 where M is 0.
"""
import argparse
import concurrent.futures
import os
import shutil
import signal
import subprocess
import sys
import tempfile
import time

sys.path.insert(0, os.path.dirname(os.path.realpath(__file__)))
import fuzz_why  # noqa: E402  (it stands beside this file)

SECONDS = 60
COUNTS = {}
STRACE = shutil.which("strace")


def count(what, times=1):
    """Counts something for the last lines."""
    COUNTS[what] = COUNTS.get(what, 0) + times


class Failing(fuzz_why.Task):
    """A task that may fail: while its value is 3, if it is one of those."""

    def __init__(self, rng, recipe, name, below):
        super().__init__(rng, recipe, name, below)
        self.nostamp = False
        self.sstate = self.sstate or rng.random() < 0.3
        self.fails = rng.random() < 0.3

    def text(self):
        lines = super().text()
        if self.fails:
            lines.insert(3, f'    test "${{VALUE_{self.name}}}" != 3 || exit 7')
        return lines


class Round(fuzz_why.Round):
    """A project with edits, and stores of two programs."""

    def made(self):
        plain = fuzz_why.Task
        fuzz_why_task(Failing)
        try:
            super().made()
        finally:
            fuzz_why_task(plain)

    def edit_kind(self):
        """Only whether a task is of the shared state: one that runs in each run tells nothing here."""
        task = self.any_task()
        self.before.append((task, "sstate", task.sstate))
        task.sstate = not task.sstate

    def edit(self):
        """Edits of the project, or none."""
        kinds = [self.edit_value] * 3 + [self.edit_note] * 4 + [self.edit_file] * 2 + [self.edit_needs, self.edit_kind] + [self.take_back] * 3
        for _ in range(self.random.choice([0, 1, 1, 2, 3])):
            kind = self.random.choice(kinds)
            self.done.append(kind.__name__)
            kind()

    def damage(self):
        """Sometimes a part of the store goes or is damaged, before it is copied."""
        if self.random.random() < 0.5:
            kind = self.random.choice([self.take_some, self.take_some, self.damage_some, self.take_all, self.take_outputs, self.take_outputs])
            self.done.append(kind.__name__)
            kind()

    def take_outputs(self):
        """What is kept beside records and objects goes, so that what is of the shared state is restored."""
        for part in ("work", "stamp"):
            shutil.rmtree(os.path.join(self.build, part), ignore_errors=True)

    def paths(self, part):
        return super().paths("rec" if part == "rec2" else part)

    def words(self):
        """The words of a run."""
        words = super().words()
        return words + ["-k"] if self.random.random() < 0.3 else words

    def copied(self, name):
        """A copy of the project."""
        to = f"{self.room}-{name}"
        shutil.rmtree(to, ignore_errors=True)
        shutil.copytree(self.room, to, symlinks=True)
        return to

    def play(self):
        old, new = self.given.old, self.given.new
        for _ in range(self.random.randint(1, 4)):
            self.edit()
            self.lay()
            words = self.words()
            self.done.append(" ".join(words))
            status, told, said = run(old, self.room, words)
            if status not in (0, 1):
                return f"OLD answers {status}: {told!r} {said!r}"
        self.damage()
        self.edit()
        self.lay()
        words = self.words()
        self.done.append("both: " + " ".join(words))
        return self.compared_runs(words) or self.killed(words) or self.by_turns(old, new)

    def compared_runs(self, words):
        """What OLD and NEW do over copies of one store."""
        one, other = self.copied("old"), self.copied("new")
        wanted = run(self.given.old, one, words)
        answer = run(self.given.new, other, words)
        wrong = different(wanted, answer, self.threads) or different_files(one, other)
        if wrong:
            return f"{wrong}\nOLD:\n{wanted[1]}{wanted[2]}NEW:\n{answer[1]}{answer[2]}"
        for kind in ("found", "restored", "started"):
            count(kind, sum(line.startswith(kind + " ") for line in answer[1].splitlines()))
        count("runs that fail", answer[0] != 0)
        if moves(self.room):
            count("stores that were moved")
            count("records of the first format", len(os.listdir(os.path.join(self.room, "build/rec"))))
            count("records in the present format", len(os.listdir(os.path.join(other, "build/rec2"))))
        self.wanted = answer
        return self.found_again(other, words, answer)

    def found_again(self, folder, words, answer):
        """A further run by NEW finds all, if the one before did well."""
        status, told, said = run(self.given.new, folder, [word for word in words if word != "-f"])
        if files_below(os.path.join(folder, "build/rec")):
            return f"something stands at build/rec behind a second run: {os.listdir(os.path.join(folder, 'build/rec'))}"
        if answer[0] != 0:
            return None if status == answer[0] else f"a second run answers {status}: {told!r} {said!r}"
        if status != 0 or any(line.startswith(("started ", "restored ")) for line in told.splitlines()):
            return f"a second run by NEW answers {status}: {told!r} {said!r}"
        return f"a second run by NEW says {said!r}" if said else None

    def killed(self, words):
        """NEW is killed, a few times, and then run to its end: it answers as it does over a store that no kill came to."""
        if not moves(self.room):
            return None
        for turn in range(2):
            folder = self.copied(f"killed{turn}")
            finds_only = not any(line.startswith(("started ", "restored ")) for line in self.wanted[1].splitlines())
            for _ in range(self.random.randint(1, 3)):
                killed_in_move(self.given.new, folder, words, self.random)
            answer = run(self.given.new, folder, words)
            in_move = not os.path.exists(os.path.join(folder, "past"))
            wrong = different(self.wanted, answer, self.threads) if in_move or finds_only else None
            wrong = wrong or different_files(f"{self.room}-new", folder, again=True) if answer[0] == 0 and self.wanted[0] == 0 else wrong
            if wrong:
                return f"behind kills: {wrong}\nwanted:\n{self.wanted[1]}{self.wanted[2]}got:\n{answer[1]}{answer[2]}"
            count("stores where a kill came behind the move" if not in_move else "stores whose move was killed and that answer the same")
        return None

    def by_turns(self, old, new):
        """OLD and NEW by turns over one store, with edits between."""
        for program in (old, new, old, new):
            self.edit()
            self.lay()
            words = [word for word in self.words() if word != "-k"]
            name = "OLD" if program == old else "NEW"
            self.done.append(f"{name}: " + " ".join(words))
            answer = run(program, self.room, words)
            fresh = f"{self.room}-fresh"
            shutil.rmtree(fresh, ignore_errors=True)
            shutil.copytree(self.room, fresh, symlinks=True, ignore=lambda folder, names: ["build"] if folder == self.room else [])
            wanted = run(program, fresh, words)
            if answer[0] != wanted[0]:
                return f"by turns {name} answers {answer[0]}, and {wanted[0]} from nothing: {answer[1]!r} {answer[2]!r}"
            count("runs by turns")
            if answer[0] == 0:
                for task in named_tasks(answer[1]):
                    if task_files(self.room, task) != task_files(fresh, task):
                        return f"by turns {name} leaves other files of {task}: {task_files(self.room, task)} for {task_files(fresh, task)}\n{answer[1]}"
        return None


def fuzz_why_task(kind):
    """Makes the projects of `fuzz_why` have tasks of this kind."""
    fuzz_why.Task = kind


def run(program, folder, words):
    """Runs a program: its status, standard output and standard error."""
    done = subprocess.run([program, *words], cwd=folder, stdin=subprocess.DEVNULL, capture_output=True, timeout=SECONDS, check=False, text=True)
    return done.returncode, done.stdout, done.stderr


def moves(folder):
    """Whether the store of a project has records of the first format that are to be moved."""
    return os.path.isdir(os.path.join(folder, "build/rec")) and not os.path.exists(os.path.join(folder, "build/format"))


def killed_in_move(program, folder, words, rng):
    """Starts a program and kills it at a random call of the system that changes something, or, where there is no strace, at a random moment. Where the move had
    ended by then the file `past` is written."""
    if STRACE:
        calls = rng.choice(["fsync,rename,unlink,mkdir", "fsync,rename,unlink,mkdir", "rename", "write,rename"])
        which = rng.randint(1, {"rename": 8, "write,rename": 25}.get(calls, 45))
        strace = [STRACE, "-f", "-qq", "-o", "/dev/null", "-e", f"trace={calls}", "-e", f"inject={calls}:signal=SIGKILL:when={which}"]
        subprocess.run([*strace, program, *words], cwd=folder, stdin=subprocess.DEVNULL, capture_output=True, timeout=SECONDS, check=False)
    else:
        with subprocess.Popen([program, *words], cwd=folder, stdin=subprocess.DEVNULL, stdout=subprocess.DEVNULL, stderr=subprocess.DEVNULL) as process:
            time.sleep(rng.random() * 0.01)
            process.send_signal(signal.SIGKILL)
    if os.path.exists(os.path.join(folder, "build/format")):
        with open(os.path.join(folder, "past"), "w", encoding="utf-8"):
            pass


def different(wanted, answer, threads):
    """How two runs differ in status or lines, or None."""
    if wanted[0] != answer[0]:
        return f"status {answer[0]} for {wanted[0]}"
    lines, others = wanted[1].splitlines(), answer[1].splitlines()
    if threads > 1:
        if wanted[0] != 0:
            return None
        lines, others = sorted(lines), sorted(others)
    return None if lines == others else "standard output differs"


def files_below(folder):
    """The files and links below a folder, with what they hold."""
    found = {}
    for here, folders, files in os.walk(folder):
        for name in folders + files:  # (a folder is no entry, and a link to one is)
            path = os.path.join(here, name)
            inside = os.path.relpath(path, folder)
            if os.path.islink(path):
                found[inside] = ("link", os.readlink(path))
            elif os.path.isfile(path):
                with open(path, "rb") as file:
                    found[inside] = (os.access(path, os.X_OK), file.read())
    return found


def different_files(one, other, again=False):
    """How the work folders of two projects differ, or None."""
    wanted, there = files_below(os.path.join(one, "build/work")), files_below(os.path.join(other, "build/work"))
    if wanted == there:
        return None
    paths = sorted(path for path in set(wanted) | set(there) if wanted.get(path) != there.get(path))
    return f"build/work differs{' behind a kill' if again else ''}: {[(path, wanted.get(path), there.get(path)) for path in paths][:4]}"


def named_tasks(told):
    """The tasks that a run's lines say are there."""
    return [line.split(" ", 1)[1] for line in told.splitlines() if line.startswith(("found ", "restored ", "ended "))]


def task_files(folder, task):
    """The output of a task in its work folder."""
    return files_below(os.path.join(folder, "build/work", *task.split(":")))


def one_round(given, seed):
    """What is wrong in one round, or None."""
    room = os.path.join(given.room, str(seed))
    os.makedirs(room)
    turn = Round(given, seed, room)
    try:
        wrong = turn.play()
    except Exception as error:  # (a round that breaks is a failure of that round)
        wrong = repr(error)
    if not given.keep:
        for name in ("", "-old", "-new", "-killed0", "-killed1", "-fresh"):
            shutil.rmtree(room + name, ignore_errors=True)
    return seed, wrong, turn.done, room


def main():
    reader = argparse.ArgumentParser(description="compares a program of before with the present one over the stores of the former")
    reader.add_argument("old")
    reader.add_argument("new")
    reader.add_argument("rounds", nargs="?", type=int, default=200)
    reader.add_argument("--seed", type=int, default=0)
    reader.add_argument("--jobs", type=int, default=2)
    reader.add_argument("--keep", action="store_true")
    reader.add_argument("--room", default=None)
    given = reader.parse_args()
    given.old, given.new = os.path.abspath(given.old), os.path.abspath(given.new)
    given.program = given.old
    given.room = tempfile.mkdtemp(prefix="old-stores-", dir=given.room)
    failed = 0
    with concurrent.futures.ThreadPoolExecutor(given.jobs) as pool:
        for seed, wrong, done, room in pool.map(lambda seed: one_round(given, seed), range(given.seed, given.seed + given.rounds)):
            if wrong is not None:
                failed += 1
                print(f"seed {seed}: {wrong}\nafter {done}{' in ' + room if given.keep else ''}", flush=True)
    if not given.keep:
        shutil.rmtree(given.room, ignore_errors=True)
    print("; ".join(f"{what}: {times}" for what, times in sorted(COUNTS.items())))
    print(f"{given.rounds - failed} passed, {failed} failed")
    return 1 if failed else 0


if __name__ == "__main__":
    sys.exit(main())
