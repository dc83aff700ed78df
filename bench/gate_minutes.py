#!/usr/bin/env python3
"""Runs the gate's proofs and says what each crate costs, in processor minutes.

Usage: bench/gate_minutes.py [--log FILE] [--into FILE] [--anew] [CRATE ..]
  --log FILE     where what `rt ci` prints is written (gate.log in the folder for temporary files)
  --into FILE    puts the table between the two marks of this file, as docs/GATE.md has them, in place of printing it
  --anew         proves everything, also what an earlier run on this machine proved
  CRATE ..       these crates and those below them alone
  --before COMMIT adds a column with the minutes that docs/GATE.md had at that commit
  --join FILE .. runs nothing: makes one table of those that earlier runs over other crates printed, each into a file

The gate prints no times, so this looks ten times a second at the processor time of each process that `rt ci` has started, and
counts it for a crate by the words the process was started with: its proof, its tests, the check that its must-fail edits begin
with, each edit, and the rest (compiling, linking, tests and programs that run, and `rt` itself). Where the kit has no check of
its own before the edits, the first edit is tried from nothing, and counts as that check, as does the closing one. What a process
used in its last tenth of a second is lost for the crate, and stands in the sum alone, which the system counts.
"""
import argparse
import collections
import glob
import os
import re
import resource
import subprocess
import sys
import tempfile
import time

TICK = os.sysconf("SC_CLK_TCK")
MARKS = "<!-- made by bench/gate_minutes.py -->\n", "<!-- until here -->\n"
TITLES = [
    "| Crate | Lines: code/definitions/proofs | Proof | Tests | Seed | Edits | Number of edits | Dearest edit | Minutes | A thousand lines of code |",
    "|---|---|---|---|---|---|---|---|---|---|",
]


def processes(session):
    """The processes of a session: number, start, seconds used, words with the folder in front."""
    for at in glob.glob("/proc/[0-9]*"):
        try:
            fields = open(f"{at}/stat").read().rpartition(")")[2].split()
            if int(fields[3]) != session:
                continue
            words = [os.readlink(f"{at}/cwd"), *open(f"{at}/cmdline", "rb").read().decode(errors="replace").split("\0")]
            yield at, fields[19], (int(fields[11]) + int(fields[12])) / TICK, words
        except (OSError, IndexError, ValueError):
            continue


def kind_of(words):
    """The crate and the kind of work of a process, by the words it was started with."""
    if "--crate-name" not in words:
        return "", "rest"
    crate = words[words.index("--crate-name") + 1]
    kept = words[words.index("--incremental") + 1] if "--incremental" in words else ""
    found = re.search(r"/rt-edits?-[^/]*/(seed|\d+)$", kept)
    if found:
        return crate, "seed" if found[1] == "seed" else f"edit {found[1]}"
    if "/rt-edit-" in words[0]:
        # (which edit it is, the order of the checks says)
        return crate, "edit"
    if "--test" in words:
        return crate, "tests"
    return crate, "proof" if words[2:3] in (["build"], ["check"]) else "rest"


def watch(words, log):
    """Runs the words to their end and gives their status, the seconds by crate and kind, and the sum."""
    used = {}
    with open(log, "w") as out:
        ran = subprocess.Popen(words, stdout=out, stderr=subprocess.STDOUT, stdin=subprocess.DEVNULL, start_new_session=True)
        while ran.poll() is None:
            for number, start, seconds, its in processes(ran.pid):
                # (a process has other words before it becomes what it is for, and none once it ended)
                kind = kind_of(its)
                used[number, start] = seconds, kind if kind[0] else used.get((number, start), (0, kind))[1]
            time.sleep(0.1)
    sums = collections.defaultdict(float)
    for (_, start), (seconds, kind) in used.items():
        sums[numbered(kind, int(start), used)] += seconds
    whole = resource.getrusage(resource.RUSAGE_CHILDREN)
    return ran.returncode, sums, whole.ru_utime + whole.ru_stime


def numbered(kind, start, used):
    """The kind of a check whose place among the crate's checks of edits says which it is: the first is made from nothing, the last of more is the closing one."""
    crate, what = kind
    if what != "edit":
        return kind
    place = sum(1 for (_, other), (_, its) in used.items() if its == kind and int(other) < start)
    return crate, f"edit {place}" if 0 < place < len(edits_of(crate)) else "seed"


def lines_of(crate, *patterns):
    """The number of lines of a crate's files."""
    files = [it for pattern in patterns for it in glob.glob(f"crates/{crate}/{pattern}", recursive=True)]
    return sum(open(it, "rb").read().count(b"\n") for it in files)


def edits_of(crate):
    return sorted(os.path.basename(it)[:-5] for it in glob.glob(f"crates/{crate}/must-fail/*.edit"))


def a_thousand(lines, minutes):
    """The minutes for each thousand lines of code."""
    code = int(lines.split("/")[0])
    return f"{1000 * minutes / code:.1f}" if code else "–"


def table(sums, whole):
    """The table, one row a crate, the dearest first."""
    crates = sorted({crate for crate, _ in sums if crate and os.path.isdir(f"crates/{crate}")})
    of = lambda crate, *kinds: sum(sums.get((crate, kind), 0) for kind in kinds)
    edits = lambda crate: {name: of(crate, f"edit {at}") for at, name in enumerate(edits_of(crate))}
    rows, minutes = [], lambda seconds: f"{seconds / 60:.1f}"
    for crate in crates:
        tried = edits(crate)
        each = of(crate, "proof"), of(crate, "tests"), of(crate, "seed"), sum(tried.values())
        dearest = f"{max(tried.values()):.0f} s" if tried else "–"
        lines = "/".join(str(lines_of(crate, *it)) for it in (["src/**/*.rt"], ["specs/**/*.antt"], ["proofs/**/*.antt"]))
        rows.append((sum(each), f"| `{crate}` | {lines} | {' | '.join(minutes(it) for it in each)} | {len(tried) or '–'} | {dearest} | {minutes(sum(each))} | {a_thousand(lines, sum(each) / 60)} |"))
    yield from TITLES
    yield from (row for _, row in sorted(rows, reverse=True))
    known = sum(cost for cost, _ in rows)
    yield f"| the rest: compiling, linking, running | | | | | | | | {minutes(whole - known)} | |"
    yield f"| **the whole run** | | | | | | | | **{minutes(whole)}** | |"
    slow = sorted(((cost, crate, name) for crate in crates for name, cost in edits(crate).items() if cost > 40), reverse=True)
    yield ""
    yield "Edits over 40 s: " + (", ".join(f"`{crate}/{name}` {cost:.0f} s" for cost, crate, name in slow) or "none") + "."


def joined(files):
    """One table of several: of each crate the most that a run took for its proof, tests, seed and edits, since two runs may have done the
    same; and the sum of what is left. The first lines come before it, one a run."""
    heads, rows, rest, slow = [], {}, 0, {}
    for file in files:
        for line in open(file):
            cells = [it.strip() for it in line.strip().strip("|").split("|")]
            if line.startswith("Commit "):
                heads += [line.rstrip("\n"), ""]
            elif line.startswith("| `"):
                was = rows.get(cells[0], cells)
                most = [f"{max(float(one), float(other)):.1f}" for one, other in zip(was[2:6], cells[2:6])]
                dearest = max(was[7], cells[7], key=lambda it: int(it.split()[0]) if it[0].isdigit() else -1)
                minutes = sum(map(float, most))
                rows[cells[0]] = [*cells[:2], *most, cells[6], dearest, f"{minutes:.1f}", a_thousand(cells[1], minutes)]
            elif line.startswith("| the rest"):
                rest += float(cells[8])
            elif line.startswith("Edits over 40 s: "):
                for name, cost in re.findall(r"(`[^`]*`) (\d+) s", line):
                    slow[name] = min(int(cost), slow.get(name, int(cost)))
    yield from heads
    yield from TITLES
    yield from ("| " + " | ".join(row) + " |" for row in sorted(rows.values(), key=lambda row: -float(row[8])) if float(row[8]))
    yield f"| the rest: compiling, linking, running | | | | | | | | {rest:.1f} | |"
    yield f"| **together** | | | | | | | | **{rest + sum(float(row[8]) for row in rows.values()):.1f}** | |"
    yield ""
    yield "Edits over 40 s: " + (", ".join(f"{name} {cost} s" for name, cost in sorted(slow.items(), key=lambda it: -it[1]) if cost > 40) or "none") + "."


def with_before(lines, commit):
    """The lines of a table, with a column of the minutes that a crate had in the page of an earlier commit."""
    page = subprocess.run(["git", "show", f"{commit}:docs/GATE.md"], stdout=subprocess.PIPE, text=True, check=True).stdout
    page = page.partition(MARKS[0])[2].partition(MARKS[1])[0]
    cells = [[it.strip() for it in line.strip().strip("|").split("|")] for line in page.splitlines() if line.startswith("| ")]
    before = {row[0]: row[8] for row in cells if len(row) > 8}
    for line in lines:
        first = line.strip("|").split("|")[0].strip()
        if line.startswith("|---"):
            yield line + "---|"
        elif line.startswith("| "):
            yield f"{line} {'Before' if first == 'Crate' else before.get(first, '–')} |"
        else:
            yield line


def put(text, file):
    """Puts the text between the marks of a file."""
    before, _, rest = open(file).read().partition(MARKS[0])
    _, mark, after = rest.partition(MARKS[1])
    if not mark:
        sys.exit(f"{file} lacks the marks")
    with open(file, "w") as out:
        out.write(before + MARKS[0] + text + MARKS[1] + after)


def main():
    given = argparse.ArgumentParser()
    given.add_argument("--log", default=os.path.join(tempfile.gettempdir(), "gate.log"))
    given.add_argument("--into")
    given.add_argument("--anew", action="store_true")
    given.add_argument("--before")
    given.add_argument("--join", nargs="+")
    given.add_argument("crates", nargs="*")
    given = given.parse_args()
    if given.join:
        lines = joined(given.join)
        text = "\n".join(with_before(lines, given.before) if given.before else lines) + "\n"
        put(text, given.into) if given.into else print(text, end="")
        return 0
    began = time.time()
    commit = subprocess.run(["git", "rev-parse", "--short", "HEAD"], capture_output=True, text=True).stdout.strip()
    status, sums, whole = watch(["rt", "ci", *["--anew"] * given.anew, *given.crates], given.log)
    last = open(given.log, errors="replace").read().rstrip("\n").rpartition("\n")[2]
    head = f"Commit {commit}, {os.cpu_count()} processors, {(time.time() - began) / 60:.0f} minutes by the clock: `{last}`."
    lines = [head, "", *table(sums, whole)]
    text = "\n".join(with_before(lines, given.before) if given.before else lines) + "\n"
    if given.into:
        put(text, given.into)
    else:
        print(text, end="")
    return status


if __name__ == "__main__":
    sys.exit(main())
