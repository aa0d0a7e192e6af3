#!/usr/bin/env python3
"""Draws what each core of a run did when, from a trace as `bench/run trace` writes it.

    python3 docs/plot_trace.py [--rounds] < trace.json > trace.svg

A core has a lane: its slices are bars of two shades in turn, and where its kernel thread was parked the lane is hatched.
A line through all lanes is an order, and a mark below a lane tells that threads were moved there from a closed core.
With --rounds a band above the lanes has the rounds of a program whose threads come in rounds: a round begins where a core
that had nothing to run for long runs again.
"""

import json
import sys

WIDTH, LEFT, RIGHT = 880, 62, 18
TOP, LANE, GAP, ORDER_ROW, ROUND_ROW = 34, 30, 14, 15, 26
LEAST_BAR = 0.6
# A core that had nothing to run for this part of a run waited for a round to end.
LONG_WAIT = 0.02
# The axis is in milliseconds from this many microseconds on.
MILLISECONDS_FROM = 5000

STYLE = """
text{font:12px sans-serif;fill:#24292f}
.page{fill:#fff}.lane{fill:#eef1f4}.grid{stroke:#d0d7de}.tick{text-anchor:middle;fill:#57606a}.core{text-anchor:end}
.even{fill:#2166ac}.odd{fill:#74add1}.parked{fill:url(#hatch)}.edge{fill:none;stroke:#8c959f;stroke-width:.5}.hatch{stroke:#8c959f}
.released{stroke:#b2182b}.granted{stroke:#1b7837}.order{stroke-width:1.5;stroke-dasharray:4 3}
.releasedword{fill:#b2182b}.grantedword{fill:#1b7837}.move{fill:#d97706}.round{fill:none;stroke:#57606a}.roundword{fill:#57606a}
@media(prefers-color-scheme:dark){text{fill:#e6edf3}
.page{fill:#0d1117}.lane{fill:#1c2229}.grid{stroke:#30363d}.tick,.roundword{fill:#9da7b1}
.even{fill:#4393c3}.odd{fill:#2f5f8f}.hatch{stroke:#6e7681}
.released{stroke:#ff7b72}.granted{stroke:#56d364}.releasedword{fill:#ff7b72}.grantedword{fill:#56d364}.move{fill:#f0a830}}
""".replace("\n", "")

HATCH = (
    '<defs><pattern id="hatch" width="6" height="6" patternUnits="userSpaceOnUse" patternTransform="rotate(45)">'
    '<line x1="0" y1="0" x2="0" y2="6" class="hatch"/></pattern></defs>'
)


class Trace:
    """The events of a run by kind, with times from its first."""

    def __init__(self, events):
        self.title = next(event["args"]["name"] for event in events if event["name"] == "process_name")
        self.cores = sorted(event["tid"] for event in events if event["name"] == "thread_name")
        timed = [event for event in events if "ts" in event]
        self.begin = min(event["ts"] for event in timed)
        self.end = max(event["ts"] + event.get("dur", 0) for event in timed)
        self.spans = [event for event in timed if event["ph"] == "X"]
        self.orders = sorted((event for event in timed if event["name"] in ("granted", "released")), key=lambda event: event["ts"])
        self.moves = [event for event in timed if event["name"] == "threads moved here"]

    def rounds(self):
        """When each round begins: the cores that begin within a wait's length of each other begin the same one."""
        wait, begins = (self.end - self.begin) * LONG_WAIT, []
        for core in self.cores:
            last = self.begin - 2 * wait
            for span in sorted((it for it in self.spans if it["tid"] == core and it["cat"] == "slice"), key=lambda it: it["ts"]):
                if span["ts"] - last > wait:
                    begins.append(span["ts"])
                last = span["ts"] + span["dur"]
        begins.sort()
        return [at for before, at in zip([self.begin - 2 * wait, *begins], begins) if at - before > wait]


class Page:
    """Where times and cores are drawn."""

    def __init__(self, trace, rows, has_rounds):
        self.trace = trace
        self.has_rounds = has_rounds
        self.top = TOP + ORDER_ROW * rows + 6 + (ROUND_ROW if has_rounds else 0)
        self.bottom = self.top + (LANE + GAP) * len(trace.cores)
        self.height = self.bottom + 58

    def x(self, time):
        return LEFT + (time - self.trace.begin) * (WIDTH - LEFT - RIGHT) / (self.trace.end - self.trace.begin)

    def y(self, core):
        return self.top + (LANE + GAP) * self.trace.cores.index(core)


def rows_of(trace):
    """For each order a row for its word, the first in which it does not run into the word before it."""
    rows, ends = [], []
    for order in trace.orders:
        at = (order["ts"] - trace.begin) * (WIDTH - LEFT - RIGHT) / (trace.end - trace.begin)
        row = next((row for row, end in enumerate(ends) if end < at), len(ends))
        ends[row : row + 1] = [at + 7 * len(word_of(order)) + 10]
        rows.append(row)
    return rows


def word_of(order):
    return f"core {order['tid']} {order['name']}"


def spacing(lasts):
    """Between two ticks of the axis: 1, 2 or 5 times a power of ten, so that there are at most ten."""
    unit = 1
    while True:
        for step in (unit, 2 * unit, 5 * unit):
            if lasts / step <= 10:
                return step
        unit *= 10


def axis(page):
    trace = page.trace
    step = spacing(trace.end - trace.begin)
    unit, word = (1000, "milliseconds") if trace.end - trace.begin >= MILLISECONDS_FROM else (1, "microseconds")
    for at in range(0, int(trace.end - trace.begin) + 1, step):
        x = page.x(trace.begin + at)
        yield f'<line x1="{x:.1f}" y1="{page.top - 4}" x2="{x:.1f}" y2="{page.bottom}" class="grid"/>'
        yield f'<text x="{x:.1f}" y="{page.bottom + 15}" class="tick">{at / unit:g}</text>'
    yield f'<text x="{WIDTH - RIGHT}" y="{page.bottom + 31}" style="text-anchor:end" class="tick">{word}</text>'


def rounds(page):
    if not page.has_rounds:
        return
    begins = page.trace.rounds()
    y = page.top - ROUND_ROW
    for nth, (begin, end) in enumerate(zip(begins, [*begins[1:], page.trace.end])):
        x, width = page.x(begin), page.x(end) - page.x(begin)
        yield f'<path d="M{x + 1:.1f} {y + 20}v-4h{width - 2:.1f}v4" class="round"/>'
        yield f'<text x="{x + 4:.1f}" y="{y + 12}" class="roundword">round {nth + 1}</text>'


def lanes(page):
    for core in page.trace.cores:
        y = page.y(core)
        yield f'<text x="{LEFT - 8}" y="{y + LANE / 2 + 4}" class="core">core {core}</text>'
        yield f'<rect x="{LEFT}" y="{y}" width="{WIDTH - LEFT - RIGHT}" height="{LANE}" class="lane"/>'
        slices = 0
        bars = {"even": "", "odd": "", "parked": ""}
        for span in page.trace.spans:
            if span["tid"] != core:
                continue
            kind = "parked"
            if span["cat"] == "slice":
                kind = "odd" if slices % 2 else "even"
                slices += 1
            x = page.x(span["ts"])
            width = max(LEAST_BAR, page.x(span["ts"] + span["dur"]) - x)
            bars[kind] += f"M{x:.1f} {y}h{width:.1f}v{LANE}h-{width:.1f}z"
        for kind, path in bars.items():
            if path:
                yield f'<path d="{path}" class="{kind}"/>'


def marks(page, rows):
    for order, row in zip(page.trace.orders, rows):
        x, y = page.x(order["ts"]), TOP + ORDER_ROW * row
        kind = order["name"]
        yield f'<line x1="{x:.1f}" y1="{y}" x2="{x:.1f}" y2="{page.bottom - GAP}" class="order {kind}"/>'
        place = f'x="{x + 5:.1f}"' if x + 120 < WIDTH else f'x="{x - 5:.1f}" style="text-anchor:end"'
        yield f'<text {place} y="{y + 11}" class="{kind}word">{word_of(order)}</text>'
    for move in page.trace.moves:
        yield triangle(page.x(move["ts"]), page.y(move["tid"]) + LANE + 1)


def triangle(x, y):
    return f'<path d="M{x:.1f} {y}l5 9h-10z" class="move"/>'


def legend(page):
    x, y = LEFT, page.bottom + 46
    idle = "nothing to run: the round's last threads are on other cores" if page.has_rounds else "nothing to run"
    for kind, word in (("even", "a slice"), ("lane", idle), ("parked", "parked"), ("move", "threads moved here")):
        if kind == "move":
            yield triangle(x + 8, y - 9)
        else:
            yield from (f'<rect x="{x}" y="{y - 10}" width="16" height="12" class="{part}"/>' for part in ("lane", kind, "edge"))
        yield f'<text x="{x + 22}" y="{y}">{word}</text>'
        x += 44 + 6.4 * len(word)


def main():
    trace = Trace(json.load(sys.stdin)["traceEvents"])
    rows = rows_of(trace)
    page = Page(trace, max(rows, default=-1) + 1, sys.argv[1:] == ["--rounds"])
    print(f'<svg xmlns="http://www.w3.org/2000/svg" width="{WIDTH}" height="{page.height}" viewBox="0 0 {WIDTH} {page.height}">')
    print(f"<style>{STYLE}</style>{HATCH}")
    print(f'<rect width="{WIDTH}" height="{page.height}" class="page"/>')
    print(f'<text x="{LEFT}" y="20" style="font-weight:bold">What each core of a run did: {trace.title}</text>')
    for part in (*axis(page), *rounds(page), *lanes(page), *marks(page, rows), *legend(page)):
        print(part)
    print("</svg>")


if __name__ == "__main__":
    main()
