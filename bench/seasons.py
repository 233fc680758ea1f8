#!/usr/bin/env python3
"""Seasons for totals.sh: lane files one after another, each led by its byte count.

    seasons.py KIND MEGABYTES > SEASON

64 files of the kind, with controls drawn from -2,000 to 2,000 mm, are written in turn until there are so many megabytes or 65,535
files."""
import math
import os
import sys

sys.path.append(os.path.join(os.path.dirname(__file__), "../oracle"))
from curves import Curve, Random, cells_of, pattern  # noqa: E402
from lane_files import file_of, groups  # noqa: E402

# d, the selected axes, the segments of both sets.
KINDS = {
    "one_axis": (1, [0], 1070, 0),
    "three_axes": (3, [0, 1, 2], 394, 0),
    "other_axes": (16, [5], 10, 80),
    "one_segment": (1, [0], 1, 0),
}


def powers(r):
    """The coefficients of a segment with drawn controls: their differences, times C(5,j)."""
    row, found = [4000 * r.unit() - 2000 for _ in range(6)], []
    for j in range(6):
        found.append(math.comb(5, j) * row[0])
        row = [y - x for x, y in zip(row, row[1:])]
    return found


def pieces(r, axes, segments):
    """Breaks and coefficients of a set."""
    breaks = [i / segments for i in range(segments + 1)] if segments else []
    return [cells_of(breaks), cells_of([p for _ in range(segments * axes) for p in powers(r)])]


def main():
    if len(sys.argv) != 3 or sys.argv[1] not in KINDS:
        sys.exit(__doc__)
    d, axes, segments, other_segments = KINDS[sys.argv[1]]
    r, led = Random(1), []
    for _ in range(64):
        slices = pieces(r, len(axes), segments) + pieces(r, d - len(axes), other_segments)
        file = file_of(Curve(d, len(axes), axes, pattern(0.0), pattern(1.0), 0, segments, other_segments, slices))
        led.append(groups(len(file)) + file)
    count = min(65535, int(sys.argv[2]) * 1000000 // len(led[0]))
    for i in range(count):
        sys.stdout.buffer.write(led[i % len(led)])


if __name__ == "__main__":
    main()
