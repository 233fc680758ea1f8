"""Curves that are handed to the library and compared, well formed or not: what lane_files.py, heights.py and totals.py share.

Bit patterns and cells, when a curve is well formed, memory that is lent with marks around it, drawn curves, what spoils them, and
how a curve stands in a stored list."""
import collections
import ctypes
import dataclasses
import hashlib
import math
import struct

# Numbers of the answers, include/pamitoye.h.
DONE, SHORT_SLICE, MALFORMED = 0, 19, 24
# The largest number in three groups of seven bits.
LARGEST = 2**21 - 1


# Bit patterns, and cells: bytes of them, low byte first.

def number(pattern):
    return struct.unpack("<d", struct.pack("<Q", pattern))[0]


def pattern(number):
    return struct.unpack("<Q", struct.pack("<d", number))[0]


def cells(patterns):
    return struct.pack(f"<{len(patterns)}Q", *patterns)


def cells_of(numbers):
    return struct.pack(f"<{len(numbers)}d", *numbers)


def numbers(cells):
    return struct.unpack(f"<{len(cells) // 8}d", cells)


def widths(breaks):
    """Each segment's width, the rounded difference of its breaks (request 12)."""
    b = numbers(breaks)
    return cells_of([y - x for x, y in zip(b, b[1:])])


# Curves: document 01, "The request and the curve"; widths: document 02, request 12.

@dataclasses.dataclass
class Curve:
    """start and end are bit patterns; the four slices, breaks and coefficients of both sets, are cells."""
    d: int
    k: int
    axes: list
    start: int
    end: int
    mode: int
    segments: int
    other_segments: int
    slices: list

    def with_(self, **changes):
        return dataclasses.replace(self, **{"axes": list(self.axes), "slices": list(self.slices), **changes})

    def with_slice(self, i, content):
        return self.with_(slices=[content if i == j else old for j, old in enumerate(self.slices)])

    def with_widths(self):
        """The widths of the breaks as they are."""
        curve = self.with_()
        for i, rows in enumerate(curve.rows()):
            curve.slices[2 * i + 1] = self.slices[2 * i + 1][:8 * rows] + widths(self.slices[2 * i])
        return curve

    def rows(self):
        """How many coefficients each set has."""
        return [6 * self.segments * self.k, max(0, 6 * self.other_segments * (self.d - self.k))]


def set_formed(axes, segments, breaks, coefficients):
    rows = 6 * axes * segments
    if not 1 <= segments <= 20000 or len(breaks) != 8 * (segments + 1) or len(coefficients) != 8 * (rows + segments):
        return False
    b = numbers(breaks)
    return b[0] == 0 and b[-1] == 1 and all(x < y for x, y in zip(b, b[1:])) and coefficients[8 * rows:] == widths(breaks)


def well_formed(c):
    if not 1 <= c.k <= c.d <= 16:
        return False
    axes = c.axes[:c.k]
    if len(set(axes)) < c.k or max(axes) >= c.d:
        return False
    if not set_formed(c.k, c.segments, *c.slices[:2]):
        return False
    if c.k == c.d:
        if c.other_segments or c.slices[2] or c.slices[3]:
            return False
    elif not set_formed(c.d - c.k, c.other_segments, *c.slices[2:]):
        return False
    start, end = number(c.start), number(c.end)
    return all(math.isfinite(x) for x in (start, end, end - start)) and end - start > 0


# The library.

MARK = bytes.fromhex("93C5A76E1BF2D84D")
EDGE = 4 * MARK


class Difference(Exception):
    pass


class Lent:
    """Parts of one buffer, with marked cells around each, or next to each other; `shift` is a part's place modulo eight."""

    def __init__(self, parts, apart):
        self.buffer, self.names, self.places = bytearray(EDGE), [], []
        for name, content, shift in parts:
            self.buffer += MARK[:(shift - len(self.buffer)) % 8]
            self.names.append(name)
            self.places.append(len(self.buffer))
            self.buffer += content + (EDGE if apart else b"")
        self.buffer += EDGE
        self.after = bytearray(self.buffer)
        base = ctypes.addressof(ctypes.c_char.from_buffer(self.buffer))
        assert base % 8 == 0, "the buffer is not aligned"
        self.addresses = [base + place for place in self.places]

    def to_be(self, i, content):
        """Part i is to begin with these bytes after the call; all else is to stay."""
        self.after[self.places[i]:self.places[i] + len(content)] = content

    def compare(self, got, wanted):
        if got != wanted:
            raise Difference(f"number {got}, and not {wanted}")
        if self.buffer != self.after:
            at = next(i for i, (x, y) in enumerate(zip(self.buffer, self.after)) if x != y)
            place, part = [found for found in [(0, "the first cells"), *zip(self.places, self.names)] if found[0] <= at][-1]
            raise Difference(f"number {got}, but a cell of {part}, or behind it, is not as it must be, at byte {at - place}")


SLICES = ["breaks", "coefficients", "other_breaks", "other_coefficients"]
SIZE, POINTER, REAL, TRUTH = ctypes.c_size_t, ctypes.c_void_p, ctypes.c_double, ctypes.c_bool
# The types of a curve's arguments, the first ones of every function that takes a curve.
CURVE_TYPES = [SIZE, SIZE, POINTER, REAL, REAL, TRUTH, SIZE, SIZE] + 4 * [POINTER, SIZE]


def function(library, name, types):
    """A function of the library that answers with a number."""
    found = getattr(library, name)
    found.restype, found.argtypes = ctypes.c_uint64, types
    return found


def sixteen(axes):
    return cells((axes + [0] * 16)[:16])


def curve_parts(c):
    """The five parts that are lent for a curve."""
    return [("axes", sixteen(c.axes), 0)] + [(name, content, 0) for name, content in zip(SLICES, c.slices)]


def curve_arguments(c, addresses):
    """A curve's arguments, its parts being lent at these addresses."""
    axes, *slices = addresses
    of_slices = [x for address, content in zip(slices, c.slices) for x in (address, len(content) // 8)]
    return [c.d, c.k, axes, number(c.start), number(c.end), bool(c.mode), c.segments, c.other_segments, *of_slices]


# Drawn cases.

class Random:
    """The generator splitmix64: a seed gives the same numbers with every Python."""

    def __init__(self, seed):
        self.state = seed

    def next(self):
        self.state = (self.state + 0x9E3779B97F4A7C15) % 2**64
        z = (self.state ^ (self.state >> 30)) * 0xBF58476D1CE4E5B9 % 2**64
        z = (z ^ (z >> 27)) * 0x94D049BB133111EB % 2**64
        return z ^ (z >> 31)

    def below(self, n):
        return self.next() % n

    def between(self, low, high):
        return low + self.below(high - low + 1)

    def chance(self, percent):
        return self.below(100) < percent

    def pick(self, items):
        return items[self.below(len(items))]

    def unit(self):
        return (self.next() >> 11) * 2.0**-53

    def bytes(self, count):
        return hashlib.shake_128(cells([self.next()])).digest(count)

    def chosen(self, n, k):
        """k of the numbers below n, in any order."""
        left = list(range(n))
        return [left.pop(self.below(len(left))) for _ in range(k)]


# NaNs, quiet and signalling, of both signs and with other bits; then zeros, infinities, and the ends of the ranges.
NANS = [0x7FF8000000000000, 0xFFF8000000000000, 0x7FF0000000000001, 0xFFF0000000000001, 0x7FF7FFFFFFFFFFFF,
        0xFFF4DEADBEEF0001, 0x7FFFFFFFFFFFFFFF, 0xFFFFFFFFFFFFFFFF, 0xFFF8000000000001, 0x7FF4000000000000]
ODD = NANS + [0, 1 << 63, 0x7FF0000000000000, 0xFFF0000000000000, 1, 1 << 63 | 1, 0x000FFFFFFFFFFFFF, 0x0010000000000000,
              0x7FEFFFFFFFFFFFFF, 0xFFEFFFFFFFFFFFFF, 0x3FF0000000000000, 0x3FEFFFFFFFFFFFFF]
MOST = number(0x7FEFFFFFFFFFFFFF)
# What a count of 64 bits may be.
FAR = [17, 128, 20001, LARGEST, LARGEST + 1, 1 << 32, 1 << 60, (1 << 64) - 1]
# Counts at which a group is added, and the largest.
LONG = [127, 128, 129, 16383, 16384, 20000]


def coefficients(r, count):
    """Any bit patterns, and odd ones among them."""
    drawn = bytearray(r.bytes(8 * count))
    for _ in range(min(count, 60) // 4):
        place = 8 * r.below(count)
        drawn[place:place + 8] = cells([r.pick(ODD)])
    return bytes(drawn)


def rising(r, segments):
    """Breaks from 0 or -0 to 1: even ones, any, next to 0, next to 1, next to each other."""
    inner = segments - 1
    kind = r.below(5)
    if kind == 0:
        b = [i / segments for i in range(1, segments)]
    elif kind == 1:
        b = [number(i) for i in range(1, segments)]
    elif kind == 2:
        b = [1 - i * 2.0**-53 for i in range(inner, 0, -1)]
    else:
        chosen = set()
        while len(chosen) < inner:
            x = r.unit()
            chosen |= {x, math.nextafter(x, 1)} if kind == 3 and len(chosen) + 1 < inner else {x}
            chosen -= {0.0, 1.0}
        b = sorted(chosen)
    return cells_of([-0.0 if r.chance(25) else 0.0, *b, 1.0])


def ends(r):
    """start and end: subnormal, huge, next to each other, any."""
    known = [(0.0, 1.0), (-0.0, 1.0), (-0.0, 5e-324), (5e-324, 1e-323), (-5e-324, 0.0), (-1e-310, 1e-311), (-MOST, 0.0),
             (0.0, MOST), (-0.5 * MOST, 0.5 * MOST), (-1.0, -0.0), (1e300, math.nextafter(1e300, MOST))]
    start, end = r.pick(known)
    if r.chance(50):
        start, end = math.nan, math.nan
        while not (start < end and math.isfinite(end - start)):
            start, end = number(r.next()), number(r.next())
    return pattern(start), pattern(end)


def made(r, d, k, segments, other_segments):
    """A curve of these counts, well formed where they allow it; the cells of axes from k on are any."""
    start, end = ends(r)
    breaks, other_breaks = rising(r, segments), rising(r, other_segments) if k < d else b""
    rest = [r.pick([0, r.below(d or 1), r.next()]) for _ in range(16 - k)]
    slices = [breaks, coefficients(r, 6 * segments * k) + widths(breaks),
              other_breaks, coefficients(r, 6 * other_segments * (d - k)) + widths(other_breaks)]
    return Curve(d, k, r.chosen(d, k) + rest, start, end, r.below(2), segments, other_segments if k < d else 0, slices)


def curve(r, axes=16, most=30):
    """A well-formed curve of at most so many axes and segments."""
    d = r.between(1, axes)
    return made(r, d, r.between(1, d), r.pick([1, 2, r.between(1, most)]), r.pick([1, 2, r.between(1, most)]))


def long_curve(r, turn):
    """One or two axes, and in one set or in both one of the long counts."""
    long = LONG[turn % len(LONG)]
    d = r.between(1, 2)
    return made(r, d, r.between(1, d), *r.pick([(long, 1), (1, long), (long, long)]))


# What makes a curve malformed; now and then it stays well formed.

def other_cell(r, c, i):
    """Slice i with one cell changed."""
    content = bytearray(c.slices[i])
    if content:
        place = 8 * r.below(len(content) // 8)
        old = int.from_bytes(content[place:place + 8], "little")
        content[place:place + 8] = cells([r.pick(ODD + [old ^ 1 << r.below(64)])])
    return c.with_slice(i, bytes(content))


def other_break(r, c):
    """A break changed, or made equal to its neighbour; its widths follow or do not."""
    i = 2 * r.below(2)
    if r.chance(50):
        c = other_cell(r, c, i)
    elif len(c.slices[i]) > 16:
        place = 8 * r.below(len(c.slices[i]) // 8 - 1)
        b = c.slices[i]
        equal = b[:place] + b[place:place + 8] * 2 + b[place + 16:]
        fallen = b[:place] + b[place + 8:place + 16] + b[place:place + 8] + b[place + 16:]
        c = c.with_slice(i, r.pick([equal, fallen]))
    return c.with_widths() if r.chance(60) else c


def other_first(r, c):
    """The first break not 0 or the last not 1, with the widths of these breaks."""
    i = 2 * r.below(2)
    b = c.slices[i]
    if b and r.chance(50):
        b = cells([r.pick([1, 1 << 63 | 1, pattern(2.0**-1022), NANS[0]])]) + b[8:]
    elif b:
        b = b[:-8] + cells([r.pick([pattern(1 - 2.0**-53), pattern(1 + 2.0**-52), pattern(2.0), 0x7FF0000000000000])])
    return c.with_slice(i, b).with_widths()


def other_width(r, c):
    """A width one bit off, the next number, its opposite, 0, or a NaN."""
    i = r.below(2) if c.other_segments else 0
    content = bytearray(c.slices[2 * i + 1])
    place = len(content) - 8 * r.between(1, [c.segments, c.other_segments][i])
    old = int.from_bytes(content[place:place + 8], "little")
    content[place:place + 8] = cells([r.pick(NANS + [old ^ 1 << r.below(64), old + 1, old - 1, old ^ 1 << 63, 1 << 63, 0])])
    return c.with_slice(2 * i + 1, bytes(content))


def other_length(r, c):
    """A slice longer or shorter, by a cell or more."""
    i = r.below(4)
    s = c.slices[i]
    return c.with_slice(i, r.pick([s + MARK, s + 7 * MARK, s[:-8], s[8:], s[:8 * r.below(len(s) // 8 + 1)]]))


def other_axis(r, c):
    axes = list(c.axes)
    axes[r.below(c.k)] = r.pick([axes[0], axes[c.k - 1], c.d, c.d + 1, 1 << 32, (1 << 64) - 1])
    return c.with_(axes=axes)


def other_ends(r, c):
    """start or end not finite, equal, in the wrong order, or too far apart."""
    start, end = number(c.start), number(c.end)
    start, end = r.pick([(r.pick([math.inf, -math.inf, math.nan]), end), (start, r.pick([math.inf, -math.inf, math.nan])),
                         (start, start), (end, start), (-0.0, 0.0), (0.0, -0.0), (-MOST, MOST), (-0.6 * MOST, 0.6 * MOST)])
    return c.with_(start=pattern(start), end=pattern(end))


def above_most(r):
    """One segment more than a set may have, with all its cells."""
    return made(r, 2, 1, *r.pick([(20001, 1), (1, 20001)]))


def needless_others(r, c):
    """A second set where every axis is selected."""
    c = made(r, c.d, c.d, 1, 0)
    more = c.with_(other_segments=r.pick([0, 1]))
    more.slices[2:] = r.pick([[cells_of([0, 1]), cells_of([1])], [cells_of([0, 1]), b""], [b"", cells_of([1])], [b"", b""]])
    return more


def outside(r, c):
    """No axes, none selected, or too many, in slices that fit."""
    return made(r, *r.pick([(0, 0), (c.d, 0), (17, r.between(1, 16)), (r.between(18, 40), c.k)]), c.segments, c.segments)


SPOILS = {
    "another d": lambda r, c: c.with_(d=r.pick([0, c.d - 1, c.d + 1, *FAR])),
    "another k": lambda r, c: c.with_(k=r.pick([0, c.k - 1, c.k + 1, *FAR])),
    "another axis": other_axis,
    "other segments": lambda r, c: c.with_(segments=r.pick([0, c.segments - 1, c.segments + 1, *FAR])),
    "other segments of the others": lambda r, c: c.with_(other_segments=r.pick([0, 1, c.other_segments + 1, *FAR])),
    "another break": other_break,
    "another first or last break": other_first,
    "another width": other_width,
    "another length": other_length,
    "other ends": other_ends,
    "needless others": needless_others,
    "d or k outside": outside,
}


def known_spoils(r):
    """Each condition of being well formed broken once, in both sets, and all else as it should be."""
    c, whole = made(r, 2, 1, 2, 2), made(r, 2, 2, 1, 0)
    yield from [whole.with_(axes=[0, 0]), whole.with_(axes=[0, 2]), c.with_(axes=[2])]
    yield from [made(r, 0, 0, 1, 0), made(r, 2, 0, 1, 1), made(r, 17, 16, 1, 1)]
    for name in ("d", "k", "segments", "other_segments"):
        yield from [c.with_(**{name: getattr(c, name) + more}) for more in (-1, 1)]
    for i in (0, 2):
        first, middle, last = (c.slices[i][j:j + 8] for j in (0, 8, 16))
        yield from [c.with_slice(i, b"".join(b)).with_widths() for b in [
            (first, first, last), (first, last, last), (last, middle, first), (first, cells_of([math.nan]), last),
            (first, cells_of([-1.0]), last), (first, cells_of([2.0]), last), (cells([1]), middle, last),
            (first, middle, cells_of([1 + 2.0**-52])), (first, cells([1]), cells_of([1 - 2.0**-53]))]]
    for i in (1, 3):
        rest, width = c.slices[i][:-8], int.from_bytes(c.slices[i][-8:], "little")
        yield from [c.with_slice(i, rest + cells([w])) for w in (width ^ 1, width ^ 1 << 63, 0, NANS[0], NANS[-1])]
    for i in range(4):
        yield from [c.with_slice(i, c.slices[i] + MARK), c.with_slice(i, c.slices[i][:-8])]
    for start, end in [(math.nan, 1.0), (0.0, math.nan), (-math.inf, 1.0), (0.0, math.inf), (1.0, 1.0), (-0.0, 0.0), (1.0, 0.0),
                       (-MOST, MOST)]:
        yield c.with_(start=pattern(start), end=pattern(end))
    for count, *slices in [(1, b"", b""), (1, cells_of([0, 1]), cells_of([1])), (0, cells_of([0, 1]), b""), (0, b"", cells_of([1]))]:
        yield whole.with_(other_segments=count, slices=whole.slices[:2] + slices)


# Counts of answers.

class Counts:
    """Which kind of case had which number, how often."""

    def __init__(self):
        self.counts = collections.Counter()

    def add(self, name, kind, number):
        self.counts[name, kind, number] += 1

    def total(self, name):
        return sum(n for key, n in self.counts.items() if key[0] == name)

    def table(self, name, asked):
        print(f"{name:32}" + "".join(f"{number:>9}" for number in asked))
        kinds = list(dict.fromkeys(kind for n, kind, _ in self.counts if n == name))
        for kind in sorted(kinds) + ["in all"]:
            row = [sum(n for key, n in self.counts.items()
                       if key[0] == name and key[2] == number and kind in (key[1], "in all")) for number in asked]
            print(f"  {kind:30}" + "".join(f"{n:9}" for n in row))


# Curves in a stored list: the words are described in README.md.

def hexadecimal(content):
    """Cells, each as the 16 digits of its bits."""
    return "".join(f"{p:016X}" for p in struct.unpack(f"<{len(content) // 8}Q", content)) or "-"


def from_hexadecimal(text):
    text = "" if text == "-" else text
    return cells([int(text[i:i + 16], 16) for i in range(0, len(text), 16)])


def curve_words(c):
    axes = ",".join(map(str, (c.axes + [0] * 16)[:16]))
    return [c.d, c.k, axes, f"{c.start:016X}", f"{c.end:016X}", c.mode, c.segments, c.other_segments, *map(hexadecimal, c.slices)]


def curve_of(words):
    d, k, axes, start, end, mode, segments, other_segments = words[:8]
    return Curve(int(d), int(k), list(map(int, axes.split(","))), int(start, 16), int(end, 16), int(mode), int(segments),
                 int(other_segments), list(map(from_hexadecimal, words[8:])))
