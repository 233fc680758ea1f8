#!/usr/bin/env python3
"""Heights of the library against a second computation, made from document 02, request 9, and the source's `audit` alone:

    heights.py compare LIBRARY [TURNS [SEED]]   TURNS drawn curves, each asked in about seven ways, and lanes that are built
    heights.py store                            prints the cases of heights.txt, with their answers
    heights.py replay LIBRARY LIST              such a list, through the library

LIBRARY is the archive as a shared object:

    ./build.sh pamitoye
    cc -shared -o pamitoye.so -Wl,--whole-archive target/staticlib/libpamitoye.a -Wl,--no-whole-archive

Controls are computed with Python's floats, which round as IEEE doubles do, all else with exact fractions. Every number and every
cell is compared, those that have to stay as they were too; each lent part lies between marked cells, or next to another. Status 1
where there is a difference."""
import collections
import ctypes
import functools
import math
import operator
import os
import struct
import sys
from fractions import Fraction

from curves import (
    CURVE_TYPES, DONE, MALFORMED, MARK, MOST, ODD, POINTER, REAL, SHORT_SLICE, SIZE, SPOILS, TRUTH,
    Counts, Curve, Difference, Lent, Random,
    above_most, cells_of, coefficients, curve_arguments, curve_of, curve_parts, curve_words, function, known_spoils, made, number,
    numbers, pattern, well_formed)

# The numbers that heights add, include/pamitoye.h: the axis is not below d; a control is not finite, or beyond the limit.
BAD_AXIS, TOO_LARGE = 3, 28
STEPS = 256
# Heights of a segment.
ROW = STEPS + 1
LIMIT = 2_000_000
# The denominator of a height, and what the weights of a step add up to.
ONE = 2**40
CHOOSE = [[float(math.comb(n, k)) for k in range(n + 1)] for n in range(6)]
WEIGHTS = [[math.comb(5, k) * j**k * (STEPS - j)**(5 - k) for k in range(6)] for j in range(ROW)]
assert all(sum(row) == ONE for row in WEIGHTS)


# The answer: document 02, request 9; the controls: `audit`; powers: document 01, module 1.

def power(x, n):
    """By squaring from the low bit of n, starting at 1."""
    result = 1.0
    while n:
        if n % 2:
            result *= x
        x *= x
        n //= 2
    return result


def controls_of(a, b, p):
    """The six Bernstein controls of a segment from a to b: `audit` with left a and right b, without the reference line."""
    width = b - a
    u, w = (a - a) / width, (b - a) / width
    powers = []
    for j in range(6):
        value = 0.0
        for k in range(j, 6):
            value += CHOOSE[k][j] * p[k] * power(u, k - j)
        powers.append(value * power(w, j))
    controls = []
    for k in range(6):
        value = 0.0
        for j in range(k + 1):
            value += powers[j] * CHOOSE[k][j] / CHOOSE[5][j]
        controls.append(value)
    return controls


def nearest(numerator, denominator):
    """The whole number nearest to a fraction, halves away from zero."""
    size = (2 * abs(numerator) + denominator) // (2 * denominator)
    return size if numerator >= 0 else -size


def is_half(numerator, denominator):
    return 2 * numerator % denominator == 0 and numerator % denominator != 0


def beyond(x):
    return not math.isfinite(x) or abs(x) > LIMIT


def total(controls, j):
    """The weighted sum of step j."""
    return sum(map(operator.mul, controls, WEIGHTS[j]))


@functools.lru_cache(4096)
def heights_of(controls):
    """The heights of a segment with these whole controls."""
    return [nearest(total(controls, j), ONE) for j in range(ROW)]


@functools.lru_cache(4096)
def halves_of(controls):
    """How many steps of a segment with these whole controls are halves."""
    return sum(is_half(total(controls, j), ONE) for j in range(ROW))


def place_of(c, axis):
    """Which slice has the coefficients of an axis of a well-formed curve, of how many axes they are, and its place among them."""
    selected = c.axes[:c.k]
    others = [a for a in range(c.d) if a not in selected]
    return (1, c.k, selected.index(axis)) if axis in selected else (3, len(others), others.index(axis))


def segments_of(c, axis):
    """Left end, right end and the six coefficients of each segment."""
    i, axes, place = place_of(c, axis)
    b, p = numbers(c.slices[i - 1]), numbers(c.slices[i])
    return [(b[s], b[s + 1], p[6 * (axes * s + place):][:6]) for s in range(len(b) - 1)]


def answer(c, axis, room):
    """The number and, with 0, the whole controls of each segment."""
    if not well_formed(c):
        return MALFORMED, None
    if axis >= c.d:
        return BAD_AXIS, None
    segments = segments_of(c, axis)
    if room < ROW * len(segments):
        return SHORT_SLICE, None
    times = [[control * 100.0 for control in controls_of(*segment)] for segment in segments]
    if any(beyond(x) for row in times for x in row):
        return TOO_LARGE, None
    return DONE, [tuple(nearest(*x.as_integer_ratio()) for x in row) for row in times]


# What is to hold of heights beside: they are near the exact polynomial, which is not taken from the weights here.

def exact(controls, j):
    """The polynomial with these Bernstein controls at j / 256, over 2^40: de Casteljau, each of five steps over 256."""
    while len(controls) > 1:
        controls = [(STEPS - j) * x + j * y for x, y in zip(controls, controls[1:])]
    return controls[0]


def far(controls, steps):
    """The steps whose heights are further than a half from the exact polynomial."""
    heights = heights_of(controls)
    return [j for j in steps if 2 * abs(heights[j] * ONE - exact(controls, j)) > ONE]


# The library.

class Library:
    """The library's heights, asked in memory that is lent with marks; raises Difference unless the answer is as wanted. `place`
    chooses where the lent parts lie."""

    def __init__(self, path):
        library = ctypes.CDLL(os.path.abspath(path))
        self.ask = function(library, "pamitoye_heights", CURVE_TYPES + [SIZE, POINTER, SIZE])
        self.ask_room = function(library, "pamitoye_room", [SIZE, SIZE, SIZE, POINTER])
        self.ask_build = function(library, "pamitoye_build", [
            POINTER, SIZE, SIZE, SIZE, TRUTH, POINTER, SIZE, TRUTH, REAL, POINTER, SIZE, ctypes.c_uint64, POINTER, SIZE, SIZE, SIZE,
            TRUTH] + 6 * [POINTER, SIZE] + 6 * [POINTER])
        self.ask_way_back = function(library, "pamitoye_return_lane", CURVE_TYPES + 4 * [POINTER, SIZE])
        self.ask_values = function(library, "pamitoye_evaluate_all",
                                   CURVE_TYPES + [POINTER, SIZE, SIZE] + 4 * [POINTER, SIZE] + [POINTER])

    def heights(self, c, axis, room, place, wanted):
        """Heights of an axis, to `room` cells."""
        number_wanted, heights = wanted
        lent = Lent(curve_parts(c) + [("heights", (MARK * (room // 2 + 1))[:4 * room], 4 * (place & 1))], place & 8)
        *of_curve, to = lent.addresses
        got = self.ask(*curve_arguments(c, of_curve), axis, to, room)
        if heights is not None:
            lent.to_be(5, struct.pack(f"<{len(heights)}i", *heights))
        lent.compare(got, number_wanted)

    def built(self, d, points, axes, tolerance, spacing, most):
        """The curve that is built of waypoints, or None where they are refused."""
        n = len(points) // d
        room = (SIZE * 6)()
        self.ask_room(d, n, most, room)
        lent = [(REAL * cells)() for cells in room]
        points, listed, none = (REAL * len(points))(*points), (SIZE * d)(*axes), (REAL * 1)()
        counts, ratio, k, selected, start, end = (SIZE * 5)(), (REAL * 1)(), (SIZE * 1)(), (SIZE * 16)(), (REAL * 1)(), (REAL * 1)()
        of_lent = [x for part, cells in zip(lent, room) for x in (part, cells)]
        got = self.ask_build(points, d * n, d, n, False, listed, len(axes), True, tolerance, none, 0, spacing, none, 0, 20, most, True,
                             *of_lent, counts, ratio, k, selected, start, end)
        if got != DONE:
            return None
        c = Curve(d, k[0], list(selected), pattern(start[0]), pattern(end[0]), 1, counts[0], counts[1], [b""] * 4)
        lengths = [c.segments + 1, c.rows()[0] + c.segments, 0, 0]
        if c.other_segments:
            lengths[2:] = [c.other_segments + 1, c.rows()[1] + c.other_segments]
        c.slices = [bytes(part)[:8 * cells] for part, cells in zip(lent[1:5], lengths)]
        return c

    def way_back(self, c):
        """The return lane of a curve, or None."""
        parts = curve_parts(c) + [("lent", bytes(s), 0) for s in c.slices]
        lent = Lent(parts, True)
        of_lent = [x for address, s in zip(lent.addresses[5:], c.slices) for x in (address, len(s) // 8)]
        if self.ask_way_back(*curve_arguments(c, lent.addresses[:5]), *of_lent) != DONE:
            return None
        return c.with_(slices=[bytes(lent.buffer[place:place + len(s)]) for place, s in zip(lent.places[5:], c.slices)])

    def values(self, c, xs):
        """The values of all axes at xs, one after another."""
        lent = Lent(curve_parts(c), True)
        q, none, at, parameters = (REAL * (c.d * len(xs)))(), (REAL * 1)(), (SIZE * 1)(), (REAL * len(xs))(*xs)
        got = self.ask_values(*curve_arguments(c, lent.addresses), parameters, len(xs), 0, q, len(q), *3 * [none, 0], at)
        if got != DONE:
            raise Difference(f"queries of a built curve are refused with {got}")
        return list(q)


# Drawn segments: six coefficients each.

def from_controls(controls):
    """The coefficients of exact Bernstein controls, each rounded once."""
    return [float(math.comb(5, j) * sum((-1)**(j - i) * math.comb(j, i) * Fraction(controls[i]) for i in range(j + 1)))
            for j in range(6)]


def in_hundredths(controls):
    return from_controls([Fraction(c, 100) for c in controls])


def drawn_wholes(r):
    """Whole controls, small or up to the limit, some of them the limit."""
    size = r.pick([2, 40, 3000, LIMIT])
    return [r.pick([-LIMIT, LIMIT]) if r.chance(3) else r.between(-size, size) for _ in range(6)]


def shortened(a, b):
    """Two short vectors of the plane with the whole multiples of a and b and their sums: Lagrange's reduction."""
    while True:
        if a[0]**2 + a[1]**2 > b[0]**2 + b[1]**2:
            a, b = b, a
        n = nearest(a[0] * b[0] + a[1] * b[1], a[0]**2 + a[1]**2)
        if n == 0:
            return a, b
        b = (b[0] - n * a[0], b[1] - n * a[1])


def halfway(r, j, less=0):
    """Whole controls with which step j, 1 to 255, is a half exactly, or in size below one by `less` times the least possible."""
    # Both j and 256 - j are an odd number times 2^e, so that 2^(5e) is in every weight.
    e = (j & -j).bit_length() - 1
    modulus, row = 2**(40 - 5 * e), [weight >> 5 * e for weight in WEIGHTS[j]]
    size = r.pick([60, LIMIT])
    while True:
        controls = [r.between(-size, size) for _ in range(6)]
        # Two with odd weights are chosen last: of all pairs that are due, a small one.
        k, l = r.pick([(0, 5), (1, 4), (0, 4), (1, 5), (4, 5), (0, 1)])
        controls[k] = controls[l] = 0
        inverse = pow(row[l], -1, modulus)
        due = (modulus // 2 - less - sum(map(operator.mul, controls, row))) * inverse % modulus
        a, b = shortened((1, -row[k] * inverse % modulus), (0, modulus))
        if a[0] * b[1] < a[1] * b[0]:
            a, b = b, a
        x, y = nearest(-due * b[0], modulus), nearest(due * a[0], modulus)
        controls[k], controls[l] = -x * a[0] - y * b[0], due - x * a[1] - y * b[1]
        if max(map(abs, controls)) <= LIMIT and total(controls, j) > 0:
            sign = r.pick([-1, 1])
            return [sign * c for c in controls]


def near_hundredth(r):
    """An odd count of half hundredths, or a number next to it, up to the limit."""
    x = (2 * r.between(0, r.pick([2, 200, LIMIT - 1])) + 1) / 200 * r.pick([-1, 1])
    for _ in range(r.pick([0, 0, 1, 2])):
        x = math.nextafter(x, r.pick([-MOST, MOST]))
    return x


def one_power(r, x):
    """Controls that are multiples of one number: all of them, or those from some power on, the last or the first times 1."""
    j = r.pick([0, 0, 0, 5, r.below(6)])
    return [x * CHOOSE[5][j] / r.pick([1, CHOOSE[5][j]]) if i == j else r.pick([0.0, -0.0]) for i in range(6)]


def at_limit(r):
    """Controls at the limit of 20 m, or in some of the last places beside it."""
    away = r.pick([[0], [-1, 0], [-1, 0, 0, 0, 0, 1], [-3, -2, -1], [0, 0, 0, 1]])
    return [20000 + Fraction(r.pick(away), 2**38) for _ in range(6)]


def whole(r):
    return in_hundredths(drawn_wholes(r))


def half_control(r):
    """Controls in eighths of a millimetre, the odd ones 12.5 hundredths and a multiple."""
    size = r.pick([3, 200, 160000])
    return from_controls([Fraction(r.between(-size, size), 8) for _ in range(6)])


def half_height(r):
    """A step that is a half, or next to one."""
    return in_hundredths(halfway(r, r.pick([128, 64, 192, 16 * r.between(1, 15), r.between(1, 255)]), r.pick([0, 0, 1, -1])))


def hundredths(r):
    return one_power(r, near_hundredth(r))


def limit(r):
    sign = r.pick([-1, 1])
    return r.pick([one_power(r, sign * float(at_limit(r)[0])), from_controls([sign * c for c in at_limit(r)])])


def plain(r):
    return [(2 * r.unit() - 1) * 10.0**r.pick([-3, 0, 2, 3]) for _ in range(6)]


def tiny(r):
    """Zeros of both signs, subnormal numbers, and others that are nothing in hundredths."""
    return [number(r.pick([0, 1 << 63, 1, 1 << 63 | 1, r.next() >> r.between(12, 63), pattern(-1e-300)])) for _ in range(6)]


def over(r):
    """One control or one coefficient too large: barely, or by far; or no number."""
    if r.chance(50):
        wholes = [Fraction(r.between(-LIMIT, LIMIT), 100) for _ in range(6)]
        wholes[r.below(6)] = (20000 + r.pick([Fraction(1, 2**20), Fraction(3, 1000), 1, 10**5])) * r.pick([-1, 1])
        return from_controls(wholes)
    p = r.pick([plain, tiny, whole])(r)
    p[r.below(6)] = r.pick([math.nan, -math.nan, math.inf, -math.inf, 1e300, -1e300, 1e308, -1e308, 1.7e308, MOST, 1e5])
    return p


def odd(r):
    """Numbers of lanes with an odd one, or any bits."""
    if r.chance(30):
        return list(numbers(coefficients(r, 6)))
    p = plain(r)
    p[r.below(6)] = number(r.pick(ODD))
    return p


FITTING = {"whole controls": whole, "halves of controls": half_control, "halves of heights": half_height,
           "half hundredths": hundredths, "any controls": plain, "next to nothing": tiny}
SEGMENTS = {**FITTING, "at the limit": limit, "over the limit": over, "odd numbers": odd}


# Drawn curves.

PAIRS = [(d, k) for d in range(1, 17) for k in range(1, d + 1)]


def with_axis(c, axis, segments):
    """The curve with these coefficients of an axis."""
    i, axes, place = place_of(c, axis)
    content = bytearray(c.slices[i])
    for s, p in enumerate(segments):
        at = 48 * (axes * s + place)
        content[at:at + 48] = cells_of(p)
    return c.with_slice(i, bytes(content))


def filled(r, c, axis, kind):
    """The curve with an axis whose segments are all of a kind; one with too large a control among others that fit."""
    count = len(segments_of(c, axis))
    parts = [SEGMENTS[kind](r) for _ in range(count)]
    if kind in ("over the limit", "odd numbers"):
        where = r.pick([0, count - 1, r.below(count)])
        parts = [part if s == where else r.pick(list(FITTING.values()))(r) for s, part in enumerate(parts)]
    return with_axis(c, axis, parts)


def drawn_curve(r, d, k, kind, most):
    """A curve with an axis of so many segments at most, filled with a kind."""
    counts = [r.pick([1, 1, 2, r.between(1, most)]), r.pick([1, 2, r.between(1, 9)])]
    selected = k == d or r.chance(50)
    c = made(r, d, k, *(counts if selected else counts[::-1]))
    axis = r.pick([a for a in range(d) if (a in c.axes[:k]) == selected])
    return filled(r, c, axis, kind), axis


def outside_axis(r, d):
    return r.pick([d, d, d + 1, 16, 17, 255, 1 << 31, 1 << 32, (1 << 63) + d - 1, (1 << 64) - 1])


def rooms(r, needed):
    """How many cells are lent: enough."""
    return needed + r.pick([0, 0, 0, 1, 2, 3, r.below(600)])


def short_rooms(r, needed):
    return r.pick([needed - 1, needed - 1, needed - ROW, needed - needed // ROW, 0, r.below(needed)])


def needed_of(c, axis):
    """How many cells the heights of an axis of a well-formed curve take."""
    return ROW * len(segments_of(c, axis))


# compare

class Comparison:
    """Asks the library and counts."""

    def __init__(self, library, r):
        self.library, self.r, self.counts = library, r, Counts()
        self.differences, self.seen = 0, collections.Counter()

    def ask(self, kind, c, axis, room):
        """One question; the library's heights are those of the second computation, and these near the polynomial."""
        number, controls = answer(c, axis, room)
        heights = None
        if controls is not None:
            heights = [height for row in controls for height in heights_of(row)]
            for row in controls:
                steps = range(ROW) if self.r.chance(10) else [self.r.below(ROW) for _ in range(8)]
                self.seen["heights beside the polynomial"] += len(steps)
                for j in far(row, steps):
                    self.differs(f"step {j} of the controls {row} is further than a half from the polynomial")
            self.count(c, axis, controls)
        self.counts.add("asked", kind, number)
        try:
            self.library.heights(c, axis, room, self.r.below(32), (number, heights))
        except Difference as difference:
            self.differs(f"{kind}: {difference}: " + " ".join(map(str, [*curve_words(c), axis, room])))
        return heights

    def differs(self, what):
        self.differences += 1
        if self.differences <= 5:
            print(what[:3000])

    def count(self, c, axis, controls):
        self.seen["heights"] += ROW * len(controls)
        self.seen["halves of controls"] += sum(is_half(*(v * 100.0).as_integer_ratio()) for segment in segments_of(c, axis)
                                               for v in controls_of(*segment))
        self.seen["halves of heights"] += sum(map(halves_of, controls))
        self.seen["at the limit"] += sum(abs(x) == LIMIT for row in controls for x in row)

    def turn(self, turn):
        r = self.r
        d, k = PAIRS[turn % len(PAIRS)]
        kind = list(SEGMENTS)[turn % len(SEGMENTS)]
        c, axis = drawn_curve(r, d, k, kind, 300 if turn % 100 == 50 else 6)
        needed = needed_of(c, axis)
        self.ask(kind, c, axis, rooms(r, needed))
        self.ask("too few cells", c, axis, short_rooms(r, needed))
        other = r.below(d)
        filled = with_axis(c, other, [r.pick(list(FITTING.values()))(r) for _ in segments_of(c, other)])
        self.ask("another axis that fits", filled, other, rooms(r, needed_of(c, other)))
        self.ask("any axis", c, r.below(d), rooms(r, ROW * max(c.segments, c.other_segments)))
        self.ask("no such axis", c, outside_axis(r, d), r.pick([needed, 0, needed - 1]))
        behind = c.with_(axes=c.axes[:k] + [r.pick([axis, r.next()]) for _ in range(16 - k)], mode=1 - c.mode)
        self.ask("other cells behind the axes", behind, axis, needed)
        name = r.pick(list(SPOILS))
        spoiled = SPOILS[name](r, c)
        self.ask(name, spoiled, r.pick([axis, axis, outside_axis(r, d)]), r.pick([needed, needed, needed - 1, 0]))
        if turn % 10 == 3:
            self.lane()
        if turn % 400 == 100:
            self.halves()
        if turn == 1000:
            self.longest()

    def lane(self):
        """A lane that is built, and driven back: all axes."""
        r = self.r
        d, n = r.between(1, 4), r.between(2, 9)
        size = r.pick([0.01, 1.0, 50.0, 2000.0, 15000.0, 30000.0])
        points = [size * (2 * r.unit() - 1) for _ in range(d * n)]
        axes = r.chosen(d, r.between(1, d))
        c = self.library.built(d, points, axes, size * r.pick([0.5, 0.05, 0.002]), r.pick([1, 2]), 80)
        back = c and self.library.way_back(c)
        for name, lane in (("built", c), ("driven back", back)):
            for axis in range(d if lane else 0):
                needed = needed_of(lane, axis)
                heights = self.ask(name, lane, axis, rooms(r, needed))
                if heights:
                    self.check_values(lane, axis, heights)

    def check_values(self, c, axis, heights):
        """Heights are within a hundredth, and what is lost in rounding, of the curve that queries follow."""
        start, end = number(c.start), number(c.end)
        steps = [(s, j) for s in range(len(heights) // ROW) for j in (0, 37, 128, 200, 256)]
        ends = [segment[:2] for segment in segments_of(c, axis)]
        xs = [start + (end - start) * (ends[s][0] + (ends[s][1] - ends[s][0]) * j / STEPS) for s, j in steps]
        values = self.library.values(c, xs)[axis::c.d]
        for (s, j), value in zip(steps, values):
            self.seen["values"] += 1
            if abs(heights[ROW * s + j] - 100 * value) > 1.001:
                self.differs(f"step {j} of segment {s} is {heights[ROW * s + j]}, and the curve's value {value}")

    def halves(self):
        """Each step a half, and next to one, four times: a weight that is off by 1 shows."""
        r = self.r
        for less in (0, 1):
            parts = [in_hundredths(halfway(r, j, less)) for j in range(1, STEPS) for _ in range(4)]
            c = with_axis(made(r, 1, 1, len(parts), 0), 0, parts)
            self.ask("halves of every step", c, 0, needed_of(c, 0))

    def longest(self):
        """As many segments as there may be, in either set; then one too large a control in the last; then one segment more."""
        r = self.r
        drawn = [FITTING[kind](r) for kind in FITTING for _ in range(20)]
        drawn = [p for p in drawn if not any(beyond(control * 100.0) for control in controls_of(0.0, 1.0, p))]
        for counts, axis in (((20000, 1), 0), ((1, 20000), 1)):
            c = made(r, 2, 1, *counts).with_(axes=[0])
            parts = [r.pick(drawn) for _ in range(20000)]
            c = with_axis(c, axis, parts)
            self.ask("20000 segments", c, axis, ROW * 20000 + 1)
            self.ask("20000 segments", c, axis, ROW * 20000 - 1)
            c = with_axis(c, axis, parts[:-1] + [[0.0, 0.0, 0.0, 0.0, 0.0, 1e5]])
            self.ask("20000 segments", c, axis, ROW * 20000)
        self.ask("20001 segments", above_most(r), 0, ROW * 20001)


def compare(library, turns, seed):
    comparison = Comparison(library, Random(seed))
    for turn in range(turns):
        comparison.turn(turn)
    comparison.counts.table("asked", [DONE, MALFORMED, BAD_AXIS, SHORT_SLICE, TOO_LARGE])
    print(", ".join(f"{what}: {count}" for what, count in comparison.seen.items()))
    print(f"seed {seed}: {turns} curves, {comparison.counts.total('asked')} questions, {comparison.seen['heights']} heights, "
          f"{min(turns, len(PAIRS))} of the 136 pairs of d and k, {comparison.differences} differences")
    return comparison.differences == 0


# store and replay: the lines are described in README.md.

def line(c, axis, room):
    number, controls = answer(c, axis, room)
    asked = ["heights", *curve_words(c), axis, room, "=", number]
    return asked + ([] if controls is None else [",".join(str(height) for row in controls for height in heights_of(row))])


def stored_lines():
    """Each kind of segment, halves at steps of every kind, axes and sets, every refusal and the order of the checks."""
    r = Random(9)
    yield from store_segments(r)
    yield from store_axes(r)
    yield from store_refusals(r)


def single(segment):
    """A curve of one axis and one segment."""
    return Curve(1, 1, [0], 0, pattern(1.0), 0, 1, 0, [cells_of([0, 1]), cells_of([*segment, 1]), b"", b""])


def store_segments(r):
    segments = [SEGMENTS[kind](r) for kind in SEGMENTS for _ in range(4)]
    segments += [in_hundredths(halfway(r, j, less)) for less in (0, 1) for j in (1, 255, 101, 114, 132, 8, 48, 96, 192, 128)]
    segments += [in_hundredths(c) for c in ([1, 0, 0, 0, 0, -1], [3, 2, 1, -1, -2, -3], [1, 0, 0, 0, 0, 15], [-1, 0, 0, 0, 0, -15])]
    # All controls alike: halves of a hundredth and numbers beside them, and 20 m, the limit.
    for x in (0.005, -0.005, math.nextafter(0.005, 0), 0.015, -0.015, 0.025, 0.145, 1.005, -1.005, 12.5, -0.125, 0.375, 19999.995,
              20000.0, -20000.0, math.nextafter(20000, 0), math.nextafter(20000, MOST), -math.nextafter(20000, MOST), 20000.0025):
        segments.append([x] + 5 * [0.0])
    # One power alone; the last one makes the last control alone.
    for x in (math.nan, math.inf, -math.inf, 1e308, -1e300, 5e-324, -0.0, 20000.0, 20000.01, -0.005):
        segments += [[x if i == j else 0.0 for i in range(6)] for j in (0, 2, 5)]
    for segment in segments:
        yield line(single(segment), 0, ROW)


def store_axes(r):
    for d, k in [(1, 1), (2, 1), (3, 2), (5, 2), (16, 1), (16, 8), (16, 15), (16, 16)]:
        c = made(r, d, k, 1, 1)
        others = [a for a in range(d) if a not in c.axes[:k]]
        for axis in sorted({0, d - 1, c.axes[0], c.axes[k - 1], *others[len(others) // 2:][:1]}):
            yield line(with_axis(c, axis, [whole(r)]), axis, ROW)
    for counts in [(1, 3), (3, 1), (2, 2)]:
        c = made(r, 3, 2, *counts).with_(axes=[2, 0])
        for axis in range(3):
            parts = [in_hundredths([r.between(-9, 9) for _ in range(6)]) for _ in segments_of(c, axis)]
            c = with_axis(c, axis, parts)
        for axis in range(3):
            needed = needed_of(c, axis)
            yield from [line(c, axis, room) for room in (needed, needed + 3, needed - 1)]


def store_refusals(r):
    for c in known_spoils(r):
        yield line(c, 0, ROW * 3)
    good, bad = whole(r), [20000.01, 0.0, 0.0, 0.0, 0.0, 0.0]
    c = made(r, 3, 2, 2, 2).with_(axes=[2, 0])
    for axis in range(3):
        c = with_axis(c, axis, [bad, bad])
    # Too large a control in either segment of the axis; those of other axes do not matter.
    for axis in range(3):
        for parts in ([good, good], [good, bad], [bad, good]):
            yield line(with_axis(c, axis, parts), axis, 2 * ROW)
    malformed = c.with_(end=c.start)
    for axis in (0, 1, 3, 4, 16, 1 << 32, (1 << 64) - 1):
        for room in (2 * ROW, 2 * ROW - 1, ROW, 0):
            yield line(c, axis, room)
            yield line(malformed, axis, room)


def replay(library, path):
    with open(path) as text:
        lines = text.read().splitlines()
    counts = collections.Counter()
    for i, content in enumerate(lines, 1):
        asked, told = (part.split() for part in content.split(" = "))
        heights = list(map(int, told[1].split(","))) if len(told) > 1 else None
        try:
            library.heights(curve_of(asked[1:13]), int(asked[13]), int(asked[14]), i % 32, (int(told[0]), heights))
        except Difference as difference:
            sys.exit(f"{path}, line {i}: {difference}")
        counts[int(told[0])] += 1
    print(f"{len(lines)} lines, no difference: " + ", ".join(f"{number}: {count}" for number, count in sorted(counts.items())))


def main():
    command, arguments = (sys.argv[1], sys.argv[2:]) if len(sys.argv) > 1 else ("", [])
    if command == "compare" and 1 <= len(arguments) <= 3:
        turns, seed = list(map(int, arguments[1:])) + [1500, 1][len(arguments) - 1:]
        sys.exit(0 if compare(Library(arguments[0]), turns, seed) else 1)
    elif command == "store" and not arguments:
        for words in stored_lines():
            print(" ".join(map(str, words)))
    elif command == "replay" and len(arguments) == 2:
        replay(Library(arguments[0]), arguments[1])
    else:
        sys.exit(__doc__)


if __name__ == "__main__":
    main()
