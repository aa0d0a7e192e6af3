#!/usr/bin/env python3
"""Draws how many cores the server had when, and why, from what it printed.

    example_server CORES INTERVAL < LIST | bench/server/plot.py LIST > server.svg

Above are the requests that came, by the list; then the load (requests that a scan of a core saw), over the limit at which
a core is asked for; below are the cores in use and how many of them were busy (the utilisation). A dot is an advice that
was followed.
"""

import re
import sys

UP = 1.5
# The requests that came are counted in parts of so many milliseconds.
PART = 10
WIDTH, LEFT, RIGHT, TOP, OFFERED, UPPER, LOWER, GAP = 880, 48, 18, 40, 70, 110, 150, 52
LINE = re.compile(r"at (\d+) us: (\d+) cores, (\d+) runnable in (\d+) scans, (\d+) of (\d+) us busy, (\w+)")

STYLE = """
text{font:12px sans-serif;fill:#24292f}.title{font-weight:bold}.page{fill:#fff}.grid{stroke:#d0d7de}.tick{text-anchor:end;fill:#57606a}
.time{text-anchor:middle;fill:#57606a}.line{fill:none;stroke-width:1.5}.load{stroke:#2166ac}.limit{stroke:#d97706;stroke-dasharray:4 3}
.busy{stroke:#1b7837}.held{fill:#d0d7de;stroke:#8c959f}.add{fill:#2166ac}.remove{fill:#b2182b}
@media(prefers-color-scheme:dark){text{fill:#e6edf3}.page{fill:#0d1117}.grid{stroke:#30363d}.tick,.time{fill:#9da7b1}
.load{stroke:#74add1}.busy{stroke:#56d364}.held{fill:#30363d;stroke:#6e7681}.add{fill:#74add1}.remove{fill:#ff7b72}}
""".replace("\n", "")


class Sample:
    def __init__(self, match):
        at, cores, runnable, scans, busy, elapsed = map(int, match.groups()[:6])
        self.end, self.begin = at / 1000, (at - elapsed) / 1000
        self.cores, self.advice = cores, match[7]
        self.load = runnable / scans if scans else 0
        self.busy = busy / elapsed if elapsed else 0


class Panel:
    """A strip of the picture, over the time in milliseconds, with an axis upwards from 0."""

    def __init__(self, top, height, most, length):
        self.top, self.height, self.most, self.length = top, height, most, length

    def x(self, time):
        return round(LEFT + time * (WIDTH - LEFT - RIGHT) / self.length, 1)

    def y(self, value):
        return round(self.top + self.height * (1 - min(value, self.most) / self.most), 1)

    def axis(self, title, key, ticks):
        yield f'<text x="{LEFT}" y="{self.top - 12}"><tspan class="title">{title}</tspan> {key}</text>'
        for value in ticks:
            yield f'<line x1="{LEFT}" y1="{self.y(value)}" x2="{WIDTH - RIGHT}" y2="{self.y(value)}" class="grid"/>'
            yield f'<text x="{LEFT - 7}" y="{self.y(value) + 4}" class="tick">{value}</text>'
        step = 10 ** (len(str(int(self.length))) - 1)
        for time in range(0, int(self.length) + 1, step if self.length < 8 * step else 2 * step):
            yield f'<text x="{self.x(time)}" y="{self.top + self.height + 17}" class="time">{time} ms</text>'

    def path(self, points, name):
        yield f'<polyline class="line {name}" points="{" ".join(f"{self.x(time)},{self.y(value)}" for time, value in points)}"/>'

    def dots(self, samples, value, advice):
        for sample in samples:
            if sample.advice == advice:
                yield f'<circle cx="{self.x(sample.end)}" cy="{self.y(value(sample))}" r="3.5" class="{advice}"/>'


def ticks(most):
    """About four whole numbers from 0 to the first that is not below the most."""
    step = next(step for power in range(9) for step in (10**power, 2 * 10**power, 5 * 10**power) if 4 * step >= most)
    return range(0, step * -(-int(most + 0.999) // step) + 1, step)


def offered(path, length):
    """The points of how many thousand requests a second came."""
    counts = [0] * (int(length / PART) + 1)
    with open(path, encoding="ascii") as lines:
        for line in lines:
            at = int(int(line.split()[0]) / 1e6 / PART)
            if at < len(counts):
                counts[at] += 1
    return [((nth + 0.5) * PART, count / PART) for nth, count in enumerate(counts)][:-1]


def draw(samples, requests):
    length = samples[-1].end
    most = max(sample.cores for sample in samples)
    points = offered(requests, length)
    marks = ticks(max(value for _, value in points))
    first = Panel(TOP, OFFERED, marks[-1], length)
    yield from first.axis("Requests that came:", "thousands a second", marks)
    yield from first.path(points, "busy")
    marks = ticks(max(sample.load for sample in samples))
    upper = Panel(TOP + OFFERED + GAP, UPPER, marks[-1], length)
    yield from upper.axis("Load:", "requests that a scan saw; over the dashed line a core is asked for (blue dots)", marks)
    yield from upper.path([(sample.end, sample.load) for sample in samples], "load")
    yield from upper.path([(0, UP), (length, UP)], "limit")
    yield from upper.dots(samples, lambda sample: sample.load, "add")
    lower = Panel(TOP + OFFERED + UPPER + 2 * GAP, LOWER, most + 0.2, length)
    yield from lower.axis("Cores", "in use (grey), and busy of them (green); a red dot: one was given back", range(most + 1))
    stairs = [(time, sample.cores) for sample in samples for time in (sample.begin, sample.end)]
    points = [(0, 0), *stairs, (length, 0)]
    yield f'<polygon class="held" points="{" ".join(f"{lower.x(time)},{lower.y(value)}" for time, value in points)}"/>'
    yield from lower.path([(sample.end, sample.busy) for sample in samples], "busy")
    for advice in ("add", "remove"):
        yield from lower.dots(samples, lambda sample: sample.busy, advice)


def main():
    samples = [Sample(match) for match in map(LINE.match, sys.stdin) if match]
    if not samples:
        sys.exit("the input has no samples")
    height = TOP + OFFERED + UPPER + LOWER + 2 * GAP + 30
    print(f'<svg xmlns="http://www.w3.org/2000/svg" viewBox="0 0 {WIDTH} {height}" width="{WIDTH}" height="{height}"><style>{STYLE}</style>')
    print(f'<rect class="page" width="{WIDTH}" height="{height}"/>')
    print("\n".join(draw(samples, sys.argv[1])))
    print("</svg>")


main()
