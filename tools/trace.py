#!/usr/bin/env python3
"""What a run's trace (build/trace.json) tells, as text: how long the run took, its ten longest tasks, and the critical path, that is the tasks each of
which began behind the last one that it needs. With --svg FILE also a picture that stands alone: a row for each worker, a bar for each task.

Usage: tools/trace.py [--svg FILE] [TRACE]      TRACE is build/trace.json where none is named
"""
import argparse
import json
import sys
from xml.sax.saxutils import escape

WIDTH, HEIGHT, LEFT = 1200, 22, 90
COLOURS = {"ended": "#4c9f70", "main": "#8899aa"}


def seconds(micros):
    return f"{micros / 1e6:.3f} s"


def bars_of(events):
    """The bars: of what no worker does, and of tasks."""
    bars = [event for event in events if event["ph"] == "X"]
    return [bar for bar in bars if bar.get("cat") != "task"], [bar for bar in bars if bar.get("cat") == "task"]


def critical_path(tasks):
    """The tasks up to the one that ended last, each behind the one of those that it needs that ended last."""
    by_name = {bar["name"]: bar for bar in tasks}
    path = []
    bar = max(tasks, key=lambda bar: bar["ts"] + bar["dur"], default=None)
    while bar is not None:
        path.append(bar)
        needed = [by_name[name] for name in bar["args"]["needs"] if name in by_name]
        bar = max(needed, key=lambda it: it["ts"] + it["dur"], default=None)
    return path[::-1]


def text_of(events):
    others, tasks = bars_of(events)
    whole = max((event["ts"] + event.get("dur", 0) for event in events if "ts" in event), default=0)
    lines = [f"{seconds(whole)} in all, {len(tasks)} tasks"]
    lines += [f"  {seconds(bar['dur'])}  {bar['name']}" for bar in others]
    if tasks:
        lines.append("the longest tasks")
        for bar in sorted(tasks, key=lambda bar: (-bar["dur"], bar["name"]))[:10]:
            how = "" if bar["args"]["end"] == "ended" else f" ({bar['args']['end']})"
            lines.append(f"  {seconds(bar['dur'])}  {bar['name']}{how}")
        path = critical_path(tasks)
        lines.append(f"the critical path: {seconds(sum(bar['dur'] for bar in path))}")
        lines += [f"  {seconds(bar['dur'])}  {bar['name']}" for bar in path]
    return "\n".join(lines) + "\n"


def svg_of(events):
    others, tasks = bars_of(events)
    names = {event["tid"]: event["args"]["name"] for event in events if event["ph"] == "M"}
    rows = sorted(names)
    whole = max((bar["ts"] + bar["dur"] for bar in others + tasks), default=0) or 1
    across = (WIDTH - LEFT) / whole
    out = [f'<svg xmlns="http://www.w3.org/2000/svg" width="{WIDTH}" height="{HEIGHT * len(rows) + 30}" font-family="sans-serif" font-size="11">']
    for at, row in enumerate(rows):
        out.append(f'<text x="4" y="{at * HEIGHT + 15}">{escape(names[row])}</text>')
    for bar in others + tasks:
        at = rows.index(bar["tid"])
        end = bar.get("args", {}).get("end", "main")
        left, wide = LEFT + bar["ts"] * across, max(bar["dur"] * across, 0.5)
        title = f"{bar['name']}: {seconds(bar['dur'])}, {end}"
        out.append(f'<g><title>{escape(title)}</title><rect x="{left:.2f}" y="{at * HEIGHT + 2}" width="{wide:.2f}" height="{HEIGHT - 4}" fill="{COLOURS.get(end, "#c0504d")}" stroke="white" stroke-width="0.5"/>')
        if wide > 7 * len(bar["name"]):
            out.append(f'<text x="{left + 3:.2f}" y="{at * HEIGHT + 15}" fill="white">{escape(bar["name"])}</text>')
        out.append("</g>")
    out.append(f'<text x="{LEFT}" y="{HEIGHT * len(rows) + 20}">{seconds(whole)}</text></svg>\n')
    return "\n".join(out)


def main():
    words = argparse.ArgumentParser(description=__doc__, formatter_class=argparse.RawDescriptionHelpFormatter)
    words.add_argument("--svg")
    words.add_argument("trace", nargs="?", default="build/trace.json")
    given = words.parse_args()
    with open(given.trace, encoding="utf-8") as file:
        events = json.load(file)["traceEvents"]
    sys.stdout.write(text_of(events))
    if given.svg:
        with open(given.svg, "w", encoding="utf-8") as file:
            file.write(svg_of(events))


if __name__ == "__main__":
    main()
