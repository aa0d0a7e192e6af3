#!/usr/bin/env python3
"""Writes examples/load.samples: a day of a server, one sample for each five minutes.

The work has a peak in the morning, a dip at noon and a higher peak in the evening, and wavers all the time. The server
follows the advice on each sample, by the rules of docs/policy.md, so the cores of a sample are what the samples before
it led to. The numbers are the same at each run.
"""

import math
import random
from pathlib import Path

STEPS = 24 * 12
ELAPSED = 300_000_000  # five minutes in microseconds
SCANS = 150_000  # of each core in five minutes
UP, HYSTERESIS, MAX = 1500, 90, 16


def demand(hour, noise):
    """How many cores the work would keep busy at this hour."""

    def peak(middle, width, height):
        return height * math.exp(-(((hour - middle) / width) ** 2))

    steady = 0.7 + peak(10.0, 2.2, 3.4) + peak(14.5, 2.5, 2.6) + peak(20.0, 1.8, 5.6)
    return steady * (1 + noise.uniform(-0.02, 0.02))


def day():
    """The samples: cores, runnable, scans, busy, elapsed."""
    noise = random.Random(20)
    cores = 2
    thresholds = {}
    for step in range(STEPS):
        busy_cores = min(demand(24 * step / STEPS, noise), cores - 0.05)
        idle = cores - busy_cores
        waiting = 0.5 / idle * noise.uniform(0.9, 1.1)
        scans = SCANS * cores
        runnable = round(waiting * scans)
        busy = round(busy_cores * ELAPSED)
        yield cores, runnable, scans, busy, ELAPSED

        load = 1000 * runnable // scans
        utilisation = 1000 * busy // ELAPSED
        if load > UP and cores < MAX:
            cores += 1
            thresholds[cores] = utilisation
        elif cores > 1 and utilisation + HYSTERESIS < thresholds.get(cores, 1000 * (cores - 1)):
            cores -= 1


def main():
    lines = [" ".join(str(number) for number in sample) + "\n" for sample in day()]
    Path(__file__).with_name("load.samples").write_text("".join(lines))


if __name__ == "__main__":
    main()
