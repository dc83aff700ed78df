#!/usr/bin/env python3
"""Damages the folder `build/` of small projects at random, and runs the program in them, beside a tree of canaries.

Each round copies a project that was built, damages its `build/` (bytes, links to the canaries and hard links of them, pipes, sockets,
folders for files and files for folders, modes, sizes up to 1 TiB without blocks, parts that are taken away, moved or doubled, names that
aren't UTF-8) and runs the program. Then:

- it ended within the time, and answered 0, or that the disk, a bench or a task's record is at fault (4, 5 or 9);
- the canaries are as they were: names, kinds, bytes, modes, owners and times of change;
- where it answered 0, the work folder of each task that it named as found, restored or ended, the targets among them, has just the
  files and links of a clean build, and so it is after one more run;
- where it didn't, a run behind `rm -rf build` answers 0 with them.

With `--built-by` another program built the projects, so that damaged stores of an older format are moved.

A part of the rounds runs the program as the user `nobody`, where this is run as root. A failure is printed with its seed; `--seed N
--rounds 1` does that round again, and `--keep` leaves its folder. The last line is 'N passed, M failed', and the status is 0 where M is 0.
"""
import argparse
import concurrent.futures
import hashlib
import os
import random
import shutil
import signal
import socket
import stat
import subprocess
import sys
import tempfile

TOP = os.path.dirname(os.path.dirname(os.path.realpath(__file__)))
NOBODY = 65534
SECONDS = 30

# What may be answered: that the metadata, the words, the memory or a task are at fault is no answer to a damaged `build/`.
STATUSES = (0, 4, 5, 9)

RECIPES = {
    "recipes/one.bb": """\
do_build() {
    mkdir -p d
    echo one > one
    echo deep > d/deep
    ln -s one link
    printf '#!/bin/sh\\n' > tool
    chmod +x tool
}
addtask build
""",
    "recipes/two.bb": """\
DEPENDS = "one"
SSTATETASKS = "do_share"
do_share() {
    mkdir -p out
    cat "${DEPSDIR}/one/do_build/one" > out/two
    ln -s two out/again
}
do_share[deptask] = "do_build"
do_share[sstate-inputdirs] = "${WORKDIR}/out"
do_share[sstate-outputdirs] = "shared"
addtask share
do_build() {
    cat shared/two shared/two > both
}
addtask build after do_share
""",
    "recipes/none.bb": """\
do_build() {
    :
}
addtask build
""",
}
TARGETS = ["two", "none"]


def facts(path, times):
    """What stands at a path itself: kind, mode, owner, bytes, and with `times` the time of change too."""
    there = os.lstat(path)
    kind = stat.S_IFMT(there.st_mode)
    told = [kind, stat.S_IMODE(there.st_mode), there.st_uid, there.st_gid]
    if times:
        told.append(there.st_mtime_ns)
    if stat.S_ISREG(there.st_mode):
        with open(path, "rb") as bytes_of:
            told.append(hashlib.sha256(bytes_of.read()).hexdigest())
    elif stat.S_ISLNK(there.st_mode):
        told.append(os.readlink(path))
    return tuple(told)


def snapshot(root):
    """All that stands in a folder and the folder itself."""
    found = {b".": facts(root, True)}
    for folder, folders, files in os.walk(root):
        for name in folders + files:
            path = os.path.join(folder, name)
            found[os.path.relpath(path, root)] = facts(path, True)
    return found


def named(said):
    """The tasks that a run's lines say are there: found, restored or ended."""
    tasks = set()
    for line in said.split(b"\n"):
        words = line.split(b" ")
        if len(words) == 2 and words[0] in (b"found", b"restored", b"ended"):
            tasks.add(tuple(words[1].split(b":")))
    return tasks


def outputs(project, tasks):
    """The files and links of tasks' work folders, with what counts of them: bytes and the owner's right to run, or where a link leads."""
    found = {}
    for task in tasks:
        found.update(output(project, os.path.join(*task)))
    return found


def output(project, task):
    """The same of one task."""
    found = {}
    work = os.path.join(project, b"build", b"work")
    if not os.path.isdir(os.path.join(work, task)) or any(
            os.path.islink(os.path.join(work, *task.split(b"/")[:parts])) for parts in range(3)):
        return {task: ("no folder",)} if os.path.lexists(os.path.join(work, task)) else {}
    for folder, folders, files in os.walk(os.path.join(work, task)):
        for name in folders + files:
            path = os.path.join(folder, name)
            there = os.lstat(path)
            inside = os.path.relpath(path, work)
            if stat.S_ISLNK(there.st_mode):
                found[inside] = ("link", os.readlink(path))
            elif stat.S_ISREG(there.st_mode):
                if there.st_size > 1 << 20:
                    found[inside] = ("large", there.st_size)
                    continue
                with open(path, "rb") as bytes_of:
                    found[inside] = ("file", there.st_mode & stat.S_IXUSR, bytes_of.read())
    return found


def write(path, text):
    """Writes a file, with the folders above it."""
    os.makedirs(os.path.dirname(path), exist_ok=True)
    with open(path, "wb") as file:
        file.write(text)


def lay_canaries(root):
    """A tree that nothing may touch."""
    write(os.path.join(root, b"plain"), b"canary\n")
    write(os.path.join(root, b"empty"), b"")
    write(os.path.join(root, b"closed"), b"closed\n")
    write(os.path.join(root, b"tool"), b"#!/bin/sh\n")
    write(os.path.join(root, b"do_build", b"one"), b"other\n")
    write(os.path.join(root, b"folder", b"inner", b"file"), b"inner\n")
    write(os.path.join(root, b"shut", b"file"), b"shut\n")
    os.symlink(b"plain", os.path.join(root, b"link"))
    os.symlink(b"folder", os.path.join(root, b"linked"))
    os.mkfifo(os.path.join(root, b"pipe"))
    os.chmod(os.path.join(root, b"tool"), 0o755)
    os.chmod(os.path.join(root, b"closed"), 0)
    os.chmod(os.path.join(root, b"shut"), 0o500)


class Round:
    """One round: a project, its canaries, and what is done to its `build/`."""

    def __init__(self, given, seed, room):
        self.given = given
        self.seed = seed
        self.random = random.Random(seed)
        self.room = os.fsencode(room)
        self.project = os.path.join(self.room, b"project")
        self.canaries = os.path.join(self.room, b"canaries")
        self.build = os.path.join(self.project, b"build")
        self.user = NOBODY if given.as_nobody and seed % 4 == 3 else None
        self.done = []

    def paths(self):
        """All paths in `build/`, no link entered."""
        found = []
        for folder, folders, files in os.walk(self.build):
            found += [os.path.join(folder, name) for name in folders + files]
        found.sort()
        return found

    def any_path(self, test):
        """Some path in `build/` for which a test holds, or None."""
        found = [path for path in self.paths() if test(path)]
        return self.random.choice(found) if found else None

    def any_file(self):
        return self.any_path(lambda path: stat.S_ISREG(os.lstat(path).st_mode))

    def any_folder(self):
        folders = [path for path in self.paths() if stat.S_ISDIR(os.lstat(path).st_mode)]
        return self.random.choice(folders + [self.build])

    def a_canary(self):
        return os.path.join(self.canaries, self.random.choice([
            b"plain", b"empty", b"closed", b"tool", b"do_build", b"folder", b"folder/inner/file", b"shut", b"link", b"linked", b"pipe", b"."]))

    def a_name(self):
        """A path for something new: a likely name or litter, in some folder."""
        name = self.random.choice([
            b"x", b"one", b"do_build", b"lock", b"0.lock", b"rec", b"rec2", b"key", b"format", b"tmp", b"old", b"log", b"a b", b"0" * 64, b"n" * 255, b".hidden", b"\xff", b"new\nline"])
        return os.path.join(self.any_folder(), name)

    @staticmethod
    def take_away(path):
        """Takes away what stands at a path."""
        if os.path.islink(path) or not os.path.isdir(path):
            if os.path.lexists(path):
                os.unlink(path)
        else:
            shutil.rmtree(path)

    def a_place(self):
        """A path that is free: what stood at it is taken away, or a new name."""
        path = self.any_path(lambda path: True) if self.random.random() < 0.7 else None
        if path is None:
            path = self.a_name()
        self.take_away(path)
        return path

    def change_bytes(self):
        path = self.any_file()
        if path is None:
            return "no file"
        with open(path, "r+b") as file:
            length = os.fstat(file.fileno()).st_size
            at = self.random.randrange(length + 1) if length < 1 << 20 else 0
            file.seek(at)
            file.write(self.random.choice([b"\0", b"x", b"\xff", b"9" * 20, b"\n", bytes([self.random.randrange(256)])]))
        return path

    def change_size(self):
        path = self.any_file() if self.random.random() < 0.7 else None
        if path is None:
            path = self.a_place()
            write(path, b"")
        size = self.random.choice([0, 1, 64, 66, 16 << 20, (16 << 20) + 1, 1 << 40])
        os.truncate(path, size)
        return b"%s to %d" % (path, size)

    def lay_link(self):
        path = self.a_place()
        to = self.random.choice([self.a_canary(), os.path.relpath(self.a_canary(), os.path.dirname(path)), b"nowhere", os.path.basename(path), b"..", b"\xff"])
        os.symlink(to, path)
        return path + b" -> " + to

    def lay_name(self):
        path = self.a_place()
        to = os.path.join(self.canaries, self.random.choice([b"plain", b"empty", b"closed", b"tool", b"do_build/one"]))
        os.link(to, path)
        return path + b" = " + to

    def lay_own_name(self):
        to = self.any_file()
        path = self.a_place()
        if to is None or not os.path.lexists(to):
            return "no file"
        os.link(to, path)
        return path + b" = " + to

    def lay_kind(self):
        path = self.a_place()
        kind = self.random.randrange(5)
        if kind == 0:
            os.mkfifo(path)
        elif kind == 1:
            here = os.open(os.path.dirname(path), os.O_RDONLY)
            try:
                with socket.socket(socket.AF_UNIX) as one:
                    one.bind("/proc/self/fd/%d/s" % here)
                os.rename(b"s", path, src_dir_fd=here)
            except OSError:
                pass
            finally:
                os.close(here)
        elif kind == 2:
            os.mkdir(path)
        elif kind == 3:
            write(os.path.join(path, b"inner", b"file"), b"inner\n")
        else:
            write(path, b"file\n")
        return b"%s of kind %d" % (path, kind)

    def change_mode(self):
        path = self.any_path(lambda path: not os.path.islink(path))
        if path is None:
            return "nothing"
        mode = self.random.choice([0, 0o200, 0o400, 0o444, 0o555, 0o755, 0o777, 0o4755, 0o1777, 0o311])
        os.chmod(path, mode)
        return b"%s %o" % (path, mode)

    def take_some(self):
        path = self.any_path(lambda path: True)
        if path is not None:
            self.take_away(path)
        return path

    def move_some(self):
        path = self.any_path(lambda path: True)
        to = self.a_name()
        if path is None or os.path.lexists(to) or (to + b"/").startswith(path + b"/"):
            return "nothing"
        os.rename(path, to)
        return path + b" to " + to

    def double_some(self):
        path = self.any_path(lambda path: True)
        to = self.a_name()
        if path is None or os.path.lexists(to) or (to + b"/").startswith(path + b"/"):
            return "nothing"
        if os.path.islink(path) or stat.S_ISREG(os.lstat(path).st_mode):
            if os.lstat(path).st_size > 1 << 20:
                return "too large"
            shutil.copy2(path, to, follow_symlinks=False)
        return path + b" also at " + to

    def lay_depth(self):
        path = self.a_place()
        for _ in range(self.random.choice([3, 40])):
            os.mkdir(path)
            path = os.path.join(path, b"deep")
        return path

    def move_build(self):
        """`build` itself is a link to a folder elsewhere."""
        away = os.path.join(self.room, b"away")
        if os.path.lexists(away) or os.path.islink(self.build) or not os.path.isdir(self.build):
            return "not again"
        os.rename(self.build, away)
        os.symlink(away, self.build)
        return away

    def damage(self):
        kinds = [
            self.change_bytes, self.change_bytes, self.change_size, self.lay_link, self.lay_link, self.lay_name, self.lay_own_name, self.lay_kind,
            self.lay_kind, self.change_mode, self.take_some, self.move_some, self.double_some, self.lay_depth]
        for _ in range(self.random.randint(1, 6)):
            kind = self.random.choice(kinds)
            self.done.append((kind.__name__, kind()))
        if self.random.random() < 0.05:
            self.done.append(("move_build", self.move_build()))

    def run(self):
        """The status of a run, or None where it doesn't end in time."""
        words = [self.given.program, *TARGETS]

        def turn():
            os.setsid()
            if self.user is not None:
                os.setgroups([])
                os.setgid(self.user)
                os.setuid(self.user)

        process = subprocess.Popen(
            words, cwd=self.project, preexec_fn=turn, stdin=subprocess.DEVNULL, stdout=subprocess.PIPE, stderr=subprocess.STDOUT)
        try:
            self.said = process.communicate(timeout=SECONDS)[0]
            return process.returncode
        except subprocess.TimeoutExpired:
            os.killpg(process.pid, signal.SIGKILL)
            process.communicate()
            return None

    def own(self, root):
        """Gives a tree to the user of the round."""
        if self.user is None:
            return
        for folder, folders, files in os.walk(root):
            for name in folders + files:
                os.lchown(os.path.join(folder, name), self.user, self.user)
        os.lchown(root, self.user, self.user)

    def play(self):
        """What is wrong, or None."""
        subprocess.run(["cp", "-a", os.path.join(self.given.room, "project"), self.project], check=True)
        lay_canaries(self.canaries)
        self.own(self.project)
        self.own(self.canaries)
        if self.user is not None:
            os.chmod(self.room, 0o777)
        self.damage()
        if self.user is not None:
            for path in self.paths():
                # (what the damage laid is this user's too, but for the canaries' own names, which are so already)
                os.lchown(path, self.user, self.user)
        before = snapshot(self.canaries)
        wrong = self.first_run(before)
        if wrong is None and snapshot(self.canaries) != before:
            wrong = "the canaries changed later: %r" % (set(snapshot(self.canaries).items()) ^ set(before.items()),)
        return wrong

    def first_run(self, before):
        status = self.run()
        after = snapshot(self.canaries)
        if after != before:
            return "the canaries changed: %r" % (set(after.items()) ^ set(before.items()),)
        if status is None:
            return "the run didn't end"
        if status not in STATUSES:
            return f"the status is {status}: {self.said!r}"
        if status != 0:
            if os.path.islink(self.build):
                os.unlink(self.build)
            else:
                shutil.rmtree(self.build)
        elif self.other():
            return f"wrong files under 0: {self.other()!r}"
        status = self.run()
        if status != 0:
            return f"the next run answers {status}: {self.said!r}"
        if self.other():
            return f"wrong files after the next run: {self.other()!r}"
        return None

    def other(self):
        """What is otherwise than after a clean build, of the tasks that the last run named and the targets."""
        tasks = named(self.said)
        if not tasks >= {(b"two", b"do_build"), (b"none", b"do_build")}:
            return [b"a target isn't named", self.said]
        wanted = {path: kind for path, kind in self.given.wanted.items() if tuple(path.split(b"/")[:2]) in tasks}
        there = outputs(self.project, tasks)
        return [(path, wanted.get(path), there.get(path)) for path in sorted(set(wanted) | set(there)) if wanted.get(path) != there.get(path)]


def play(given, seed):
    room = tempfile.mkdtemp(dir=given.room, prefix="%d." % seed)
    one = Round(given, seed, room)
    try:
        wrong = one.play()
    except Exception as error:  # a round that can't be played is a failure of this script
        wrong = f"{type(error).__name__}: {error}"
    if wrong is not None:
        wrong = f"FAILED seed {seed}{' as nobody' if one.user is not None else ''}: {wrong}\n    after {one.done!r}"
        if given.keep:
            wrong += f"\n    kept in {room}"
            return wrong
    shutil.rmtree(room, ignore_errors=True)
    return wrong


def main():
    words = argparse.ArgumentParser(description="damages build/ at random")
    words.add_argument("--program", default=os.path.join(TOP, "crates/bitbake_cli/out/bitbake_cli"))
    words.add_argument("--built-by", help="the program that builds the projects before they are damaged, if not the same: one of before, whose stores are moved")
    words.add_argument("--rounds", type=int, default=300)
    words.add_argument("--seed", type=int, default=1)
    words.add_argument("--jobs", type=int, default=os.cpu_count() or 1)
    words.add_argument("--keep", action="store_true")
    given = words.parse_args()
    given.as_nobody = os.geteuid() == 0
    given.room = tempfile.mkdtemp()
    os.chmod(given.room, 0o755)
    shutil.copy(os.path.abspath(given.program), os.path.join(given.room, "bitbake"))
    os.chmod(os.path.join(given.room, "bitbake"), 0o755)
    given.program = os.path.join(given.room, "bitbake")
    try:
        project = os.path.join(given.room, "project")
        for path, text in RECIPES.items():
            write(os.path.join(project, path), text.encode())
        done = subprocess.run([os.path.abspath(given.built_by or given.program), *TARGETS], cwd=project, stdin=subprocess.DEVNULL, capture_output=True, check=False)
        if done.returncode != 0:
            sys.exit(f"the clean build answers {done.returncode}: {done.stdout!r} {done.stderr!r}")
        given.wanted = outputs(os.fsencode(project), named(done.stdout))
        with concurrent.futures.ThreadPoolExecutor(given.jobs) as pool:
            answers = list(pool.map(lambda seed: play(given, seed), range(given.seed, given.seed + given.rounds)))
    finally:
        if not given.keep:
            shutil.rmtree(given.room, ignore_errors=True)
    wrong = [answer for answer in answers if answer is not None]
    for answer in wrong:
        print(answer)
    print(f"{len(answers) - len(wrong)} passed, {len(wrong)} failed")
    sys.exit(0 if not wrong else 1)


if __name__ == "__main__":
    main()
