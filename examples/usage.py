#!/usr/bin/env python3
"""Draws the use of each user, group and project over the calls of a journal, against its limits.

Usage: examples/usage.py JOURNAL CONFIG > usage.svg

The journal's first calls are replayed, none, one, two and so on, up to POINTS times in all, and the reports are drawn: so
what is drawn is what quotafs says. A panel is a principal's blocks in KiB, or its inodes; the line is its use, and the
dashed lines are its soft and its hard limit, where they are not far above it.
"""
import re
import subprocess
import sys
import tempfile
from concurrent.futures import ThreadPoolExecutor
from pathlib import Path

QUOTAFS = Path(__file__).resolve().parent.parent / "quotafs"
POINTS = 200
WIDTH, HEIGHT, LEFT, TOP, GAP = 330, 70, 10, 46, 34
ROW = re.compile(r"^(user|group|project) +(.*?) +[+-]{2}((?: +\S+){8})$")
# The columns of a report that are drawn: use, soft limit and hard limit, of each sort.
SORTS = {"KiB": (0, 1, 2), "inodes": (4, 5, 6)}
STYLE = """\
text { font: 11px sans-serif; fill: #333 }
.title { font-weight: bold }
.frame { fill: #fafafa; stroke: #ddd }
.use { fill: #3a7bd522; stroke: #3a7bd5; stroke-width: 1.5 }
.soft { fill: none; stroke: #e39c12; stroke-dasharray: 5 3 }
.hard { fill: none; stroke: #c0392b; stroke-dasharray: 5 3 }
"""


def report_after(count, head, entries, config):
    """The report of a replay of so many calls: each principal with its eight numbers, 0 where one is no number."""
    with tempfile.NamedTemporaryFile("w") as journal:
        journal.writelines([head, *entries[:count]])
        journal.flush()
        words = [QUOTAFS, "replay", "--quiet", "--config", config, journal.name]
        told = subprocess.run(words, check=True, capture_output=True, text=True).stdout
    rows = (ROW.match(line).groups() for line in told.splitlines())
    return {(kind, name): [int(it) if it.isdigit() else 0 for it in cells.split()] for kind, name, cells in rows}


def steps(points, values, across, up, closed=False):
    """A line that keeps each value up to the next point."""
    path, at = f"M{across(points[0]):.1f} {up(values[0]):.1f}", points[0]
    for point, value in zip(points[1:], values[1:]):
        path += f"H{across(point):.1f}V{up(value):.1f}"
        at = point
    return path + (f"V{up(0):.1f}H{across(points[0]):.1f}Z" if closed else f"H{across(at):.1f}")


def panel(x, y, title, points, columns):
    """One principal's use of one sort, over the calls."""
    uses, softs, hards = columns
    seen = max(*uses, 1)
    top = max([seen, *(limit for limit in softs + hards if limit <= 4 * seen)]) * 1.1
    across = lambda point: x + WIDTH * point / max(points[-1], 1)
    up = lambda value: y + HEIGHT * (1 - min(value / top, 1))
    limits = [f"{word} {values[-1]}" for word, values in (("soft", softs), ("hard", hards)) if values[-1]]
    yield f'<text class="title" x="{x}" y="{y - 6}">{title}</text>'
    yield f'<text x="{x + WIDTH}" y="{y - 6}" text-anchor="end">{", ".join([f"{uses[-1]}", *limits])}</text>'
    yield f'<rect class="frame" x="{x}" y="{y}" width="{WIDTH}" height="{HEIGHT}"/>'
    yield f'<path class="use" d="{steps(points, uses, across, up, closed=True)}"/>'
    for name, values in (("soft", softs), ("hard", hards)):
        if any(0 < value <= top for value in values):
            yield f'<path class="{name}" d="{steps(points, values, across, up)}"/>'


def escaped(text):
    return text.replace("&", "&amp;").replace("<", "&lt;")


def drawing(entries, points, reports):
    """The panels of those who have a limit or take a block at some point, two for each."""
    kept = [who for who in reports[0] if any(any(report[who][at] for at in (0, 1, 2, 5, 6)) for report in reports)]
    lines = []
    for row, (kind, name) in enumerate(kept):
        for column, (sort, places) in enumerate(SORTS.items()):
            x, y = LEFT + column * (WIDTH + 20), TOP + row * (HEIGHT + GAP)
            columns = [[report[kind, name][at] for report in reports] for at in places]
            lines += panel(x, y, f"{kind} {escaped(name)}, {sort}", points, columns)
    width, height = 2 * LEFT + 2 * WIDTH + 20, TOP + len(kept) * (HEIGHT + GAP)
    yield f'<svg xmlns="http://www.w3.org/2000/svg" width="{width}" height="{height}" viewBox="0 0 {width} {height}">'
    yield f"<style>\n{STYLE}</style>"
    yield f'<rect width="{width}" height="{height}" fill="#fff"/>'
    refused = sum(" => refused EDQUOT " in entry for entry in entries)
    yield f'<text x="{LEFT}" y="18">use over {len(entries)} calls; refused for a quota: {refused}</text>'
    yield from lines
    yield "</svg>"


def main():
    if len(sys.argv) != 3:
        sys.exit("usage: examples/usage.py JOURNAL CONFIG > usage.svg")
    head, *entries = Path(sys.argv[1]).read_text().splitlines(keepends=True)
    count = min(len(entries), POINTS)
    points = sorted({round(at * len(entries) / max(count, 1)) for at in range(count + 1)})
    with ThreadPoolExecutor() as pool:
        reports = list(pool.map(lambda point: report_after(point, head, entries, sys.argv[2]), points))
    print("\n".join(drawing(entries, points, reports)))


if __name__ == "__main__":
    main()
