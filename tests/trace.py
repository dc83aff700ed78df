#!/usr/bin/env python3
"""Whether build/trace.json, by the text of its run on standard input, is what it should be: JSON of the trace-event format, with a bar for each task
that was started, on a worker's row, none over another one there, and how each ended; and a point for each that was found or restored.

The status is 0 where it is, else 1, with what is wrong.
"""
import json
import re
import sys


def main():
    with open("build/trace.json", encoding="utf-8") as file:
        events = json.load(file)["traceEvents"]
    text = sys.stdin.read()
    wrong = []
    threads = int(re.match(r"plan \d+ tasks, (\d+) threads", text)[1])
    rows = {event["tid"]: event["args"]["name"] for event in events if event["ph"] == "M"}
    if rows != {0: "bitbake", **{n: f"worker {n}" for n in range(1, threads + 1)}}:
        wrong.append(f"rows {rows}")
    for event in events:
        times = [event[name] for name in ("ts", "dur") if name in event]
        if event["ph"] not in "MXi" or event["pid"] != 1 or event["tid"] not in rows or any(type(time) is not int or time < 0 for time in times):
            wrong.append(f"event {event}")
        if (event["ph"] != "M") != ("ts" in event) or (event["ph"] == "X") != ("dur" in event):
            wrong.append(f"times of {event}")
    main_bars = [event["name"] for event in events if event["ph"] == "X" and event["tid"] == 0 and event.get("cat") != "task"]
    if main_bars[:1] != ["reading and planning"] or main_bars[1:] not in ([], ["opening the store"]):
        wrong.append(f"bars of no worker {main_bars}")
    ends = {}
    for how, task, rest in re.findall(r"^(ended|failed|broke) (\S+)(.*)$", text, re.M):
        ends[task] = {"ended": "ended", "failed": "failed: too large" if rest == " too large" else f"failed with{rest}", "broke": f"broke off:{rest}"}[how]
    told = {event["name"]: event["args"]["end"] for event in events if event["ph"] == "X" and event.get("cat") == "task"}
    if told != ends:
        wrong.append(f"ends {told}, and the text has {ends}")
    points = sorted((event["cat"], event["name"]) for event in events if event["ph"] == "i")
    if points != sorted(re.findall(r"^(found|restored) (\S+)$", text, re.M)):
        wrong.append(f"points {points}")
    for row in rows:
        free = 0
        for event in sorted((it for it in events if it["ph"] == "X" and it["tid"] == row), key=lambda it: it["ts"]):
            if event["ts"] < free:
                wrong.append(f"{event['name']} begins before the one before it has ended")
            free = event["ts"] + event["dur"]
    for line in wrong:
        print(line)
    sys.exit(1 if wrong else 0)


if __name__ == "__main__":
    main()
