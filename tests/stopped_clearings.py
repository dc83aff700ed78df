"""Writes cases, one for each call of the disk at which a clearing can be stopped and each of four images of a crash then, into the folder clean/ of a folder:

    python3 tests/stopped_clearings.py FOLDER CALLS

CALLS is how many calls a clearing of that store makes: stopped behind fewer it answers for the disk, and behind so many it is done. In each case a run of the same target
starts nothing behind it, and a second clearing leaves what the first would have left. `cases` runs them from FOLDER.
"""

import os
import sys

START = """A clearing that is stopped behind {calls} calls of the disk, image {image}: nothing that was there runs again.

file conf/bitbake.conf
|BB_NUMBER_THREADS = "1"
file recipes/c.bb
|do_gen() {{
|    echo 1 > n.txt
|}}
|do_build() {{
|    cat n.txt > m.txt
|}}
|addtask gen
|addtask build after gen
|SSTATETASKS = "do_gen"

script echo 1 > n.txt
puts n.txt
|1
script cat n.txt > m.txt
puts m.txt
|1
script cat n.txt n.txt > m.txt
puts m.txt
|1
|1

run c
status 0
line ok 0 found, 0 restored, 2 started
work c/do_gen/n.txt
|1
work c/do_build/m.txt
|1
work c/do_build/n.txt
|1

file recipes/c.bb
|do_gen() {{
|    # note
|    echo 1 > n.txt
|}}
|do_build() {{
|    cat n.txt n.txt > m.txt
|}}
|addtask gen
|addtask build after gen
|SSTATETASKS = "do_gen"

run c
status 0
line ok 0 found, 0 restored, 2 started
work c/do_gen/n.txt
|1
work c/do_build/m.txt
|1
|1
work c/do_build/n.txt
|1

crash {calls} {image}
run --clean 0 c
status {status}
text
|{text}

run c
status 0
text
|plan 2 tasks, 1 threads
|found c:do_build
|ok 1 found, 0 restored, 0 started

run --clean 0 c
status 0
line cleaned: 3 kept, {gone} gone

run --clean 0 c
status 0
text
|cleaned: 3 kept, 0 gone

run c
status 0
line ok 1 found, 0 restored, 0 started
"""


def main():
    folder, total = sys.argv[1], int(sys.argv[2])
    os.makedirs(f"{folder}/clean")
    for calls in range(total + 1):
        for image in range(4):
            is_done = calls == total
            text = START.format(
                calls=calls,
                image=image,
                status=0 if is_done else 4,
                text="cleaned: 3 kept, 1 gone" if is_done else "fault 4 disk",
                gone="0",
            )
            if not is_done:
                # (what went by then isn't counted again, so the number is one of two)
                text = text.replace("line cleaned: 3 kept, 0 gone\n", "count 1 cleaned: 3 kept, \n")
            with open(f"{folder}/clean/{calls:03}_{image}.case", "w") as out:
                out.write(text)


main()
