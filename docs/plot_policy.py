#!/usr/bin/env python3
"""Draws docs/policy.svg: the advice that the program gives on a day of samples.

    ./arachne policy < examples/load.samples | python3 docs/plot_policy.py

The samples come from examples/load.samples, the advice from the input. The thresholds are read off both: an `add`
makes its utilisation the threshold of one core more.
"""

import sys
from pathlib import Path

ROOT = Path(__file__).resolve().parent.parent
UP, HYSTERESIS = 1500, 90

WIDTH, LEFT, RIGHT = 960, 64, 24
UPPER, LOWER, GAP, TOP = 160, 320, 44, 40
COLOURS = {"load": "#3465a4", "utilisation": "#2e7d32", "limit": "#ef6c00", "cores": "#9e9e9e", "add": "#3465a4", "remove": "#c62828"}
DASHES = "4 3"


def read_day():
    """For each sample: its cores, load, utilisation and advice, and the threshold of its cores at that time."""
    lines = (ROOT / "examples" / "load.samples").read_text().splitlines()
    advices = sys.stdin.read().split()
    if len(lines) != len(advices):
        sys.exit(f"{len(lines)} samples, but {len(advices)} words of advice")
    thresholds, day = {}, []
    for line, advice in zip(lines, advices):
        cores, runnable, scans, busy, elapsed = map(int, line.split())
        load = 1000 * runnable // scans if scans else 0
        utilisation = 1000 * busy // elapsed
        day.append((cores, load, utilisation, advice, thresholds.get(cores, 1000 * (cores - 1))))
        if advice == "add":
            thresholds[cores + 1] = utilisation
    return day


class Panel:
    """A strip of the picture with an axis of its own, upwards from 0."""

    def __init__(self, top, height, most, steps):
        self.top = top
        self.height = height
        self.most = most
        self.steps = steps

    def x(self, step):
        return LEFT + step * (WIDTH - LEFT - RIGHT) / self.steps

    def y(self, value):
        return self.top + self.height * (1 - value / self.most)

    def axis(self, title, tick):
        yield f'<text x="{LEFT}" y="{self.top - 10}" class="title">{title}</text>'
        for value in range(0, self.most + 1, tick):
            y = self.y(value)
            yield f'<line x1="{LEFT}" y1="{y:.1f}" x2="{WIDTH - RIGHT}" y2="{y:.1f}" class="grid"/>'
            yield f'<text x="{LEFT - 8}" y="{y + 4:.1f}" class="tick">{value}</text>'
        for hour in range(0, 25, 3):
            x = self.x(hour * self.steps / 24)
            yield f'<text x="{x:.1f}" y="{self.top + self.height + 16}" class="hour">{hour}:00</text>'

    def line(self, values, colour):
        points = " ".join(f"{self.x(step):.1f},{self.y(value):.1f}" for step, value in enumerate(values))
        yield f'<polyline points="{points}" fill="none" stroke="{colour}" stroke-width="1.5"/>'

    def stairs(self, values, colour, dashes=""):
        points = " ".join(f"{self.x(step + end):.1f},{self.y(value):.1f}" for step, value in enumerate(values) for end in (0, 1))
        yield f'<polyline points="{points}" fill="none" stroke="{colour}" stroke-width="1.5" stroke-dasharray="{dashes}"/>'

    def dots(self, points, colour):
        for step, value in points:
            yield f'<circle cx="{self.x(step):.1f}" cy="{self.y(value):.1f}" r="4" fill="{colour}"/>'


def key_width(name):
    return 34 + 7 * len(name)


def legend(y, lines, dots):
    """The keys of lines (name, colour, dashes) and of dots (name, colour), up to the right edge."""
    x = WIDTH - RIGHT - sum(key_width(entry[0]) for entry in lines + dots)
    for name, colour, dashes in lines:
        yield f'<line x1="{x}" y1="{y - 4}" x2="{x + 16}" y2="{y - 4}" stroke="{colour}" stroke-width="1.5" stroke-dasharray="{dashes}"/>'
        yield f'<text x="{x + 20}" y="{y}" class="key">{name}</text>'
        x += key_width(name)
    for name, colour in dots:
        yield f'<circle cx="{x + 10}" cy="{y - 4}" r="4" fill="{colour}"/>'
        yield f'<text x="{x + 20}" y="{y}" class="key">{name}</text>'
        x += key_width(name)


def draw(day):
    steps = len(day)
    cores = [sample[0] for sample in day]
    loads = [sample[1] for sample in day]
    used = [sample[2] for sample in day]
    thresholds = [sample[4] for sample in day]
    limits = [max(0, threshold - HYSTERESIS) for threshold in thresholds]
    marks = {word: [step for step, sample in enumerate(day) if sample[3] == word] for word in ("add", "remove")}

    ceiling = 500 * (max(loads) // 500 + 1)
    upper = Panel(TOP, UPPER, ceiling, steps)
    yield from upper.axis("Load: runnable threads a scan, in thousandths", max(500, 500 * round(ceiling / 2500)))
    yield from upper.line(loads, COLOURS["load"])
    yield from upper.stairs([UP] * steps, COLOURS["limit"], DASHES)
    yield from upper.dots([(step, loads[step]) for step in marks["add"]], COLOURS["add"])
    yield from legend(upper.top - 10, [("load", COLOURS["load"], ""), ("up", COLOURS["limit"], DASHES)], [("add", COLOURS["add"])])

    lower = Panel(TOP + UPPER + GAP, LOWER, 1000 * (max(cores) + 1), steps)
    yield from lower.axis("Utilisation: busy cores, in thousandths", 1000)
    yield from lower.stairs([1000 * number for number in cores], COLOURS["cores"])
    yield from lower.stairs(thresholds, COLOURS["limit"])
    yield from lower.stairs(limits, COLOURS["limit"], DASHES)
    yield from lower.line(used, COLOURS["utilisation"])
    for word in ("add", "remove"):
        yield from lower.dots([(step, used[step]) for step in marks[word]], COLOURS[word])
    lines = [
        ("cores", COLOURS["cores"], ""),
        ("utilisation", COLOURS["utilisation"], ""),
        ("threshold", COLOURS["limit"], ""),
        ("less hysteresis", COLOURS["limit"], DASHES),
    ]
    yield from legend(lower.top - 10, lines, [("add", COLOURS["add"]), ("remove", COLOURS["remove"])])


def main():
    height = TOP + UPPER + LOWER + 2 * GAP
    style = (
        "text{font:12px sans-serif;fill:#333}.title{font-weight:bold}.tick{text-anchor:end}.hour{text-anchor:middle}"
        ".grid{stroke:#e0e0e0}"
    )
    body = "\n".join(draw(read_day()))
    (ROOT / "docs" / "policy.svg").write_text(
        f'<svg xmlns="http://www.w3.org/2000/svg" width="{WIDTH}" height="{height}" viewBox="0 0 {WIDTH} {height}">\n'
        f"<style>{style}</style>\n"
        f'<rect width="{WIDTH}" height="{height}" fill="white"/>\n{body}\n</svg>\n'
    )


if __name__ == "__main__":
    main()
