#!/usr/bin/env python3
"""distance.py LIST ANSWERS ..: checks answers of kind 90, `certify`, without the Rust and without the port.

For each case of a list, and the line that answers it:
- the answer is computed again from document 01 ("The certified figure") with Python's floats, parameters by chords from
  document 02 (request 3), its sums and differences (request 7) with exact fractions, halved to the case's depth
  (request 8), and must be the same;
- where it is a figure, the distance between curve and line is computed in exact fractions at many parameters, and must
  never be above the figure.
A table tells how far the figure lies above the largest distance found. The exit status is 1 if an answer is wrong.
"""

import math
import struct
import sys
from fractions import Fraction

CERTIFY = 90
# Parameter modes; 0 is even.
LISTED, CHORD = 1, 2
# Where a distance is computed, as parts of an intersection of a segment with a waypoint interval.
INSIDE = [Fraction(*f) for f in [(1, 7), (1, 3), (1, 2), (5, 8), (2, 3), (6, 7)]]
# The same for the intersection with the largest distance so far, and for every one of a small case.
FINE = [Fraction(i, 48) for i in range(1, 48)]
SMALL = 4


# The list: README.md.

def read_list(data):
    """The cases of a list: kind, whole numbers, cells."""
    assert data[:8] == b"REPLAY01", "not a list"
    at, cases = 8, []
    while at < len(data):
        kind, count = data[at], data[at + 1]
        whole = struct.unpack_from(f"<{count}I", data, at + 2)
        at += 2 + 4 * count
        (count,) = struct.unpack_from("<I", data, at)
        cells = struct.unpack_from(f"<{count}d", data, at + 4)
        at += 4 + 8 * count
        cases.append((kind, whole, cells))
    return cases


class Question:
    """A case of kind 90."""

    def __init__(self, whole, cells):
        self.d, self.k, self.segments, self.other_segments, self.n = whole[:5]
        packed = struct.pack("<4I", *whole[5:9])
        self.axes = list(packed[:self.k])
        self.axis, self.mode, self.depth = whole[15] % 256, whole[15] // 256 % 256, whole[15] // 65536
        self.start, self.end = cells[:2]
        at, slices = 2, []
        for count in whole[9:15]:
            slices.append(cells[at:at + count])
            at += count
        assert at == len(cells), "counts do not fit"
        self.breaks, self.coefficients, *slices = slices
        self.other_breaks, self.other_coefficients, self.points, self.parameters = slices


# Refusals.

def finite(numbers):
    return all(math.isfinite(x) for x in numbers)


def falls(numbers):
    """Some number is not above the one before it; the source's test, in which a NaN is neither."""
    return any(y <= x for x, y in zip(numbers, numbers[1:]))


def bits(numbers):
    return [struct.pack("<d", x) for x in numbers]


def set_formed(axes, segments, breaks, coefficients):
    """A set of segments; behind its coefficients lie their widths (document 02, request 12)."""
    rows = 6 * axes * segments
    return (1 <= segments <= 20000 and len(breaks) == segments + 1 and len(coefficients) == rows + segments
            and breaks[0] == 0 and breaks[-1] == 1 and all(x < y for x, y in zip(breaks, breaks[1:]))
            and bits(coefficients[rows:]) == bits(b - a for a, b in zip(breaks, breaks[1:])))


def well_formed(q):
    if not 1 <= q.k <= q.d <= 16:
        return False
    if len(set(q.axes)) < q.k or max(q.axes) >= q.d:
        return False
    if not set_formed(q.k, q.segments, q.breaks, q.coefficients):
        return False
    if q.k == q.d:
        if q.other_segments or q.other_breaks or q.other_coefficients:
            return False
    elif not set_formed(q.d - q.k, q.other_segments, q.other_breaks, q.other_coefficients):
        return False
    return finite([q.start, q.end, q.end - q.start]) and q.end - q.start > 0


def chords(q):
    """Document 02, request 3: parameters start at 0 and grow by the root of the sum of squared differences, rows summed
    lowest first. Every step is rounded once; Python's own `sum` would not do."""
    waypoints = [q.points[i * q.d:(i + 1) * q.d] for i in range(q.n)]
    parameters = [0.0]
    for here, there in zip(waypoints, waypoints[1:]):
        squares = 0.0
        for x, y in zip(here, there):
            squares += (y - x) * (y - x)
        parameters.append(parameters[-1] + math.sqrt(squares))
    return parameters


def given(q):
    """The parameters, listed, by chords or even."""
    if q.mode == LISTED:
        return list(q.parameters)
    if q.mode == CHORD:
        return chords(q)
    return [float(i) / float(q.n - 1) for i in range(q.n)]


def normalised(parameters):
    start = parameters[0]
    length = parameters[-1] - start
    return [(x - start) / length for x in parameters]


def refusal(q):
    """The number of the first check that fails, or 0. Request 8's 23, then "Certifying: 18, 20, 1, 5, 6, 24, 3." """
    if q.depth > 6:
        return 23
    if q.d > 16 or q.n > 20000:
        return 18
    if len(q.points) != q.d * q.n:
        return 20
    if q.d == 0 or q.n < 2 or not finite(q.points):
        return 1
    parameters = given(q)
    if len(parameters) != q.n or not finite(parameters) or falls(parameters):
        return 5
    if not math.isfinite(parameters[-1] - parameters[0]) or falls(normalised(parameters)):
        return 6
    if not well_formed(q):
        return 24
    return 0 if q.axis in q.axes else 3


# Pairs of ends; none is None.

def of(x):
    return (x, x) if math.isfinite(x) else None


def outward(numbers):
    low, high = min(numbers), max(numbers)
    if not finite([low, high]):
        return None
    low, high = math.nextafter(low, -math.inf), math.nextafter(high, math.inf)
    return (low, high) if finite([low, high]) else None


def toward(exact, limit):
    """Request 7: "the largest f64 not above the exact result", for a limit of -inf, or "the smallest not below", for inf;
    "an exact zero is +0"."""
    try:
        number = exact.numerator / exact.denominator
    except OverflowError:
        number = math.inf if exact > 0 else -math.inf
    if number == limit:
        return limit
    past = math.isinf(number) or (Fraction(number) - exact) * (1 if limit < 0 else -1) > 0
    return math.nextafter(number, limit) if past else number


def sums(low, high):
    low, high = toward(low, -math.inf), toward(high, math.inf)
    return (low, high) if finite([low, high]) else None


def add(x, y):
    return x and y and sums(Fraction(x[0]) + Fraction(y[0]), Fraction(x[1]) + Fraction(y[1]))


def subtract(x, y):
    return x and y and sums(Fraction(x[0]) - Fraction(y[1]), Fraction(x[1]) - Fraction(y[0]))


def multiply(x, y):
    return x and y and outward([a * b for a in x for b in y])


def divide(x, y):
    return x and y and (outward([a / b for a in x for b in y]) if y[0] > 0 else None)


def total(terms):
    value = of(0.0)
    for term in terms:
        value = add(value, term)
    return value


def whole(n):
    return of(float(n))


def powers_of(x):
    """x^0 to x^5."""
    powers = [of(1.0)]
    while len(powers) < 6:
        powers.append(multiply(powers[-1], x))
    return powers


# The figure.

def halves(pairs):
    """Request 8: two halves by de Casteljau's midpoints, "add, then divide by 2"."""
    left, right, row = [], [], pairs
    while row:
        left.append(row[0])
        right.append(row[-1])
        row = [divide(add(x, y), whole(2)) for x, y in zip(row, row[1:])]
    return left, right[::-1]


def halved(pairs, depth):
    """The figure of six pairs, or None."""
    if None in pairs:
        return None
    own = max(0.0, *(abs(end) for pair in pairs for end in pair))
    if depth == 0:
        return own
    figures = [halved(half, depth - 1) for half in halves(pairs)]
    return own if None in figures else min(own, max(figures))


class Axis:
    """What is certified: breaks, coefficients, normalised parameters and waypoints of the axis."""

    def __init__(self, q):
        place = q.axes.index(q.axis)
        self.breaks = q.breaks
        self.coefficients = [q.coefficients[6 * (m * q.k + place):][:6] for m in range(q.segments)]
        self.s = normalised(given(q))
        self.y = q.points[q.axis::q.d]

    def pairs(self):
        """Each interval i with each segment m, if they share more than a point, and the ends of what they share."""
        for i, (s0, s1) in enumerate(zip(self.s, self.s[1:])):
            for m, (a, b) in enumerate(zip(self.breaks, self.breaks[1:])):
                left, right = max(a, s0), min(b, s1)
                if left < right:
                    yield i, m, left, right

    def bernstein(self, i, m, left, right):
        a, b, left, right = of(self.breaks[m]), of(self.breaks[m + 1]), of(left), of(right)
        s0, s1, y0, y1 = of(self.s[i]), of(self.s[i + 1]), of(self.y[i]), of(self.y[i + 1])
        p = [of(x) for x in self.coefficients[m]]
        width = subtract(b, a)
        u = powers_of(divide(subtract(left, a), width))
        w = powers_of(divide(subtract(right, left), width))
        power = []
        for j in range(6):
            terms = [multiply(multiply(whole(math.comb(k, j)), p[k]), u[k - j]) for k in range(j, 6)]
            power.append(multiply(total(terms), w[j]))
        rise, length = subtract(y1, y0), subtract(s1, s0)
        power[0] = subtract(power[0], add(y0, multiply(divide(subtract(left, s0), length), rise)))
        power[1] = subtract(power[1], multiply(divide(subtract(right, left), length), rise))
        return [total(divide(multiply(power[j], whole(math.comb(k, j))), whole(math.comb(5, j))) for j in range(k + 1))
                for k in range(6)]

    def figure(self, depth):
        """The figure, or None."""
        figure = 0.0
        for pair in self.pairs():
            own = halved(self.bernstein(*pair), depth)
            if own is None:
                return None
            figure = max(figure, own)
        return figure


def certify(q):
    """The line that answers a question, and its axis if it has a figure."""
    number = refusal(q)
    if number:
        return f"certify refused {number}", None
    axis = Axis(q)
    figure = axis.figure(q.depth)
    if figure is None:
        return "certify none", None
    return f"certify figure {struct.pack('>d', figure).hex().upper()}", axis


# The distance, nothing rounded.

class Exact:
    """The same axis in exact fractions."""

    def __init__(self, axis):
        self.breaks, self.s, self.y = [[Fraction(x) for x in list_] for list_ in (axis.breaks, axis.s, axis.y)]
        self.coefficients = [[Fraction(x) for x in p] for p in axis.coefficients]

    def distance(self, t, i, m):
        """Document 01, demand 3: the distance at t of the segment m from the line i."""
        a, b = self.breaks[m:m + 2]
        u, curve = (t - a) / (b - a), Fraction(0)
        for p in reversed(self.coefficients[m]):
            curve = curve * u + p
        s0, s1 = self.s[i:i + 2]
        y0, y1 = self.y[i:i + 2]
        return abs(curve - (y0 + (t - s0) / (s1 - s0) * (y1 - y0)))

    def at_ends(self):
        """Every break and every parameter, with every segment and every interval that it lies in."""
        for t in sorted(set(self.breaks + self.s)):
            for i in range(len(self.s) - 1):
                if self.s[i] <= t <= self.s[i + 1]:
                    for m in range(len(self.breaks) - 1):
                        if self.breaks[m] <= t <= self.breaks[m + 1]:
                            yield t, i, m

    def inside(self, pair, parts):
        i, m, left, right = pair
        left, right = Fraction(left), Fraction(right)
        for part in parts:
            yield left + part * (right - left), i, m

    def distances(self, axis):
        """How many distances were computed, and the largest of them, over `at_ends` and `inside`."""
        pairs = list(axis.pairs())
        count, largest, where = 0, Fraction(-1), pairs[0]
        for t, i, m in self.at_ends():
            count, largest = count + 1, max(largest, self.distance(t, i, m))
        at = Fraction(-1)
        for pair in pairs:
            for point in self.inside(pair, FINE if len(pairs) <= SMALL else INSIDE):
                x = self.distance(*point)
                count += 1
                if x > at:
                    at, where = x, pair
        largest = max(largest, at)
        for point in self.inside(where, FINE):
            count, largest = count + 1, max(largest, self.distance(*point))
        return count, largest

    def size(self):
        """The largest absolute coefficient or waypoint."""
        return max(abs(x) for list_ in [self.y, *self.coefficients] for x in list_)

    def width(self):
        """The width of the smallest segment or waypoint interval."""
        return min(y - x for list_ in [self.breaks, self.s] for x, y in zip(list_, list_[1:]))


# The table.

# Classes by the largest distance found over the size: the least of it. Next to the smallest numbers a move outward is
# not small, so cases of such a size, or with such a segment or interval, are a class of their own.
TINY = "below 2^-960"
CLASSES = [
    ("at least 1/1000", Fraction(1, 1000)),
    ("at least 2^-30", Fraction(1, 2**30)),
    ("at least 2^-45", Fraction(1, 2**45)),
    ("below 2^-45", Fraction(0)),
]


def class_of(distance, exact):
    size = exact.size()
    if min(size, exact.width()) < Fraction(1, 2**960):
        return TINY
    return next(name for name, least in CLASSES if distance >= least * size)


def quotient(x, y):
    """x / y as a float, for the table."""
    try:
        return float(x / y) if y else math.inf
    except OverflowError:
        return math.inf


def row(name, found):
    ratios = sorted(r for r, _ in found)
    excess = sorted(e for _, e in found)
    middle, ninety = len(found) // 2, len(found) * 9 // 10
    numbers = [ratios[0], ratios[middle], ratios[ninety], ratios[-1], excess[middle], excess[-1]]
    return f"{name:18}{len(found):7}" + "".join(f"{x:11.4g}" for x in numbers)


def check(list_file, answers_file):
    """Checks one list and its answers, prints the table, and returns how many answers are wrong."""
    with open(list_file, "rb") as file:
        cases = read_list(file.read())
    with open(answers_file, encoding="ascii") as file:
        lines = file.read().splitlines()
    assert len(lines) >= len(cases), "fewer answers than cases"
    wrong, points, answers, by_chords = 0, 0, {}, {}
    classes = {name: [] for name in [name for name, _ in CLASSES] + [TINY]}
    for number, ((kind, whole_numbers, cells), line) in enumerate(zip(cases, lines)):
        if kind != CERTIFY:
            continue
        question = Question(whole_numbers, cells)
        wanted, axis = certify(question)
        word = line.split()[1]
        answers[word] = answers.get(word, 0) + 1
        if question.mode == CHORD:
            told = line.removeprefix("certify ") if word == "refused" else word
            by_chords[told] = by_chords.get(told, 0) + 1
        if line != wanted:
            wrong += 1
            print(f"{list_file}, case {number}: {line}, and by the second computation {wanted}", file=sys.stderr)
        if axis is None or word != "figure":
            continue
        figure = Fraction(struct.unpack(">d", bytes.fromhex(line.split()[2]))[0])
        exact = Exact(axis)
        count, largest = exact.distances(axis)
        points += count
        if largest > figure:
            wrong += 1
            excess = quotient(largest - figure, figure)
            print(f"{list_file}, case {number}: a distance is above the figure by {excess} of it", file=sys.stderr)
        found = quotient(figure, largest), quotient(figure - largest, exact.size())
        classes[class_of(largest, exact)].append(found)
    print(f"{list_file}: " + ", ".join(f"{answers[word]} {word}" for word in sorted(answers))
          + f"; {points} distances; {wrong} wrong")
    print(f"by chords: {sum(by_chords.values())} cases; "
          + ", ".join(f"{by_chords[word]} {word}" for word in sorted(by_chords)))
    print("size: the largest absolute coefficient or waypoint; distance: the largest found; the last class: size or a width")
    print(f"{'distance / size':18}{'cases':>7}{'figure / distance':>44}{'(figure-distance)/size':>22}")
    print(f"{'':25}{'least':>11}{'median':>11}{'of 90 %':>11}{'most':>11}{'median':>11}{'most':>11}")
    for name, found in classes.items():
        if found:
            print(row(name, found))
    return wrong


def main():
    files = sys.argv[1:]
    if not files or len(files) % 2:
        sys.exit(__doc__)
    wrong = sum(check(*pair) for pair in zip(files[::2], files[1::2]))
    sys.exit(1 if wrong else 0)


if __name__ == "__main__":
    main()
