#!/usr/bin/env python3
"""Season totals of the program `totals` against a second computation, made from document 02, request 13, with the second reader of
lane files and the second computation of heights:

    totals.py compare PROGRAM [COUNT [SEED]]   COUNT drawn seasons, and some of them once more with their files in another order
    totals.py store                            prints the seasons of totals.txt, with their answers
    totals.py replay PROGRAM LIST              such a list, through the program

PROGRAM is target/bin/totals. It gets each season as a file, through a pipe, or through a pipe in parts. All that it prints is
compared, and it has to end with status 0. Status 1 where there is a difference."""
import collections
import fcntl
import functools
import itertools
import os
import subprocess
import sys
import tempfile
import termios
import time

from curves import DONE, MALFORMED, ODD, SPOILS, Counts, Random, cells, cells_of, known_spoils, made
from heights import (
    FITTING, LIMIT, PAIRS, ROW, SEGMENTS, STEPS, TOO_LARGE,
    answer as answer_to_heights, filled, halfway, heights_of, in_hundredths, single, whole, with_axis)
from lane_files import (
    DAMAGES, DOES_NOT_READ, DoesNotRead, any_bytes, curve_in, file_of, groups, headed, in_groups, read_groups)

MOST_BYTES, MOST_FILES = 60_000, 65_535
# The program reads so many bytes at a time.
BLOCK = 65_536
TURNED_AWAY = [DOES_NOT_READ, MALFORMED, TOO_LARGE]
REFUSED = 30
# Seconds after which the program is ended.
PATIENCE = 120


# The answer: document 02, request 13; the files: request 1; the heights: request 9.

# A lane file's number, 0 if it counts, and what it then adds.
Lane = collections.namedtuple("Lane", "number segments lowest highest sum", defaults=[0, None, None, 0])


@functools.lru_cache(2000)
def lane_of(file):
    try:
        c = curve_in(file)
    except DoesNotRead:
        return Lane(DOES_NOT_READ)
    number, controls = answer_to_heights(c, 0, ROW * max(c.segments, c.other_segments))
    if number != DONE:
        return Lane(number)
    heights = [height for row in controls for height in heights_of(row)[:STEPS]]
    return Lane(DONE, len(controls), min(heights), max(heights), sum(heights))


class Refused(Exception):
    """The run stops. The reason is counted, and not printed."""


def why_bad(season, at):
    """Why a leading count is bad."""
    count = season[at:at + 3]
    if min(count) < 128:
        return "a padded count"
    return "a cut count" if len(count) < 3 else "a fourth group"


def files_in(season):
    """The files of a season, one after another, each led by its count."""
    files, at = [], 0
    while at < len(season):
        if len(files) == MOST_FILES:
            raise Refused("more than 65,535 files")
        try:
            count, begin = read_groups(season, at)
        except DoesNotRead:
            raise Refused(why_bad(season, at)) from None
        if count > MOST_BYTES:
            raise Refused("more than 60,000 bytes")
        at = begin + count
        if at > len(season):
            raise Refused("a short file")
        files.append(season[begin:at])
    return files


def text_of(lanes):
    """The six lines."""
    counted = [lane for lane in lanes if lane.number == DONE]
    lowest = min((lane.lowest for lane in counted), default="none")
    highest = max((lane.highest for lane in counted), default="none")
    lines = [len(counted), sum(lane.segments for lane in counted), lowest, highest, sum(lane.sum for lane in counted),
             len(lanes) - len(counted)]
    return "".join(f"{line}\n" for line in lines)


def answer_to(season):
    """What is printed, the files, and why there are none."""
    try:
        files = files_in(season)
    except Refused as refused:
        return f"refused {REFUSED}\n", None, str(refused)
    return text_of(list(map(lane_of, files))), files, None


# The program.

class Program:
    """The program, started once for each season; each way to hand it over gives what is printed."""

    def __init__(self, path):
        self.path = os.path.abspath(path)

    def from_file(self, season):
        with tempfile.TemporaryFile() as given:
            given.write(season)
            given.seek(0)
            return self.ended(self.started(given), None)

    def from_pipe(self, parts):
        """Each part but the last is handed over when those before it were read."""
        process = self.started(subprocess.PIPE)
        end = time.monotonic() + PATIENCE
        try:
            for part in parts[:-1]:
                os.write(process.stdin.fileno(), part)
                while unread(process.stdin) and process.poll() is None and time.monotonic() < end:
                    time.sleep(0)
        except BrokenPipeError:
            # A run that stops does not read on.
            pass
        return self.ended(process, parts[-1])

    def started(self, given):
        return subprocess.Popen([self.path], stdin=given, stdout=subprocess.PIPE, stderr=subprocess.PIPE)

    def ended(self, process, rest):
        """What it printed, and what went wrong beside."""
        try:
            printed, told = process.communicate(rest, PATIENCE)
        except subprocess.TimeoutExpired:
            process.kill()
            process.communicate()
            return f"nothing in {PATIENCE} seconds"
        status = f"status {process.returncode}" if process.returncode else ""
        return printed.decode("ascii", "replace") + told.decode("ascii", "replace") + status


def unread(pipe):
    """How many bytes of a pipe were not read."""
    return int.from_bytes(fcntl.ioctl(pipe, termios.FIONREAD, bytes(4)), sys.byteorder)


# Drawn lane files.

def led(file):
    return groups(len(file)) + file


def joined(files):
    return b"".join(map(led, files))


def in_set(r, d, k, segments, others, selected):
    """A well-formed curve, with axis 0 selected or not: so many segments in axis 0's set, and in the other one."""
    axes = [axis + 1 for axis in r.chosen(d - 1, k - selected)]
    if selected:
        axes.insert(r.below(k), 0)
    return made(r, d, k, *((segments, others) if selected else (others, segments))).with_(axes=axes)


def lane(r, kind, most=6):
    """Axis 0, of so many segments at most, is of a kind; half of the time all other axes fit."""
    d = r.pick([1, 2, 2, 3, r.between(1, 16)])
    k = r.between(1, d)
    c = in_set(r, d, k, r.pick([1, 1, 2, r.between(1, most)]), r.between(1, 4), k == d or r.chance(50))
    if d <= 3 and r.chance(50):
        for axis in range(1, d):
            c = filled(r, c, axis, r.pick(list(FITTING)))
    return filled(r, c, 0, kind)


def fitting(r):
    return lane(r, r.pick(list(FITTING)))


def of_sign(r, sign):
    """A lane whose heights have one sign, and none is 0."""
    size = r.pick([3, 1000, LIMIT])
    parts = [in_hundredths([sign * r.between(1, size) for _ in range(6)]) for _ in range(r.between(1, 3))]
    return with_axis(in_set(r, 2, 1, len(parts), 1, r.chance(50)), 0, parts)


def not_read(r):
    """A lane with a head that does not read, and nothing else wrong."""
    c = fitting(r)
    return r.pick([
        lambda: file_of(c.with_(mode=r.pick([2, 3, 127, 128]))),
        lambda: file_of(c) + bytes([r.below(256)]),
        lambda: file_of(c)[:-1],
        lambda: file_of(c)[:-8],
        lambda: file_of(made(r, 2, 2, 1, 0).with_(d=1)),
        lambda: bytes([c.d | 128, 0]) + file_of(c)[1:]])()


def not_finite(r):
    """A lane that fits, with an odd number among the coefficients of axis 0 or of another one."""
    c = fitting(r)
    i = r.pick([1, 3]) if c.other_segments else 1
    content = bytearray(c.slices[i])
    place = 8 * r.below(c.rows()[i // 2])
    content[place:place + 8] = cells([r.pick(ODD)])
    return c.with_slice(i, bytes(content))


def all_alike(c):
    """The curve with one number for all coefficients, so that its lane would count if it were well formed."""
    return c.with_(slices=[content if i % 2 == 0 else len(content) // 8 * cells_of([0.01]) for i, content in enumerate(c.slices)])


def malformed(r):
    """A lane that breaks a condition of being well formed, and nothing else, most often; now and then none."""
    while True:
        c = SPOILS[r.pick([*SPOILS, *3 * ["another break"]])](r, fitting(r))
        if in_groups(c):
            return file_of(all_alike(c) if r.chance(50) else c)


DRAWN = [
    lambda r: file_of(lane(r, r.pick(list(SEGMENTS)))),
    lambda r: file_of(fitting(r)),
    lambda r: file_of(lane(r, "at the limit")),
    lambda r: file_of(of_sign(r, r.pick([-1, 1]))),
    lambda r: file_of(lane(r, "over the limit")),
    lambda r: file_of(not_finite(r)),
    lambda r: r.pick(list(DAMAGES.values()))(r, file_of(fitting(r))),
    not_read, malformed, malformed, malformed, headed, any_bytes]


# Files of a certain size.

def size_of(d, k, segments, others):
    """How many bytes the file of a curve has."""
    head = 2 + k + 1 + len(groups(segments)) + len(groups(others))
    cells = 2 + segments + 1 + 6 * k * segments + (others + 1 + 6 * (d - k) * others if others else 0)
    return head + 8 * cells


@functools.lru_cache(None)
def counts_for(size):
    """All d, up to 4, k and counts of segments with a file of so many bytes."""
    found = []
    for d, k in PAIRS[:10]:
        for segments in range(1, size // (8 + 48 * k)):
            others = [0]
            if k < d:
                # The other count has one group or two.
                others = {1 + (size - size_of(d, k, segments, 1) - more) // (8 + 48 * (d - k)) for more in (0, 1)}
            found += [(d, k, segments, n) for n in sorted(others) if n >= (k < d) and size_of(d, k, segments, n) == size]
    return found


def large_counts(r):
    """d, k and counts of segments with a file as near to 60,000 bytes as one of the counts lets it be."""
    d, k = r.pick(PAIRS)
    segments = r.between(1, (MOST_BYTES - size_of(d, k, 1, 1)) // (8 + 48 * k))
    if k == d:
        most = max(n for n in range(1, 1100) if size_of(d, k, n, 0) <= MOST_BYTES)
        return d, k, most, 0
    others = max(n for n in range(1, 1100) if n == 1 or size_of(d, k, segments, n) <= MOST_BYTES)
    return d, k, segments, others


def large(r, d, k, segments, others, fits=True):
    """A curve of these counts; its axis 0 has few different segments, which fit, or one of which does not."""
    selected = k == d or r.chance(50)
    counts = (segments, others) if selected else (others, segments)
    c = in_set(r, d, k, *counts, selected)
    drawn = [in_hundredths([r.between(-3000, 3000) for _ in range(6)]) for _ in range(12)] + [whole(r) for _ in range(3)]
    parts = [r.pick(drawn) for _ in range(counts[0])]
    if not fits:
        parts[r.pick([0, len(parts) - 1, r.below(len(parts))])] = SEGMENTS["over the limit"](r)
    return with_axis(c, 0, parts)


class Pool:
    """Lane files that seasons are drawn from, by their numbers; some are replaced in each turn."""

    def __init__(self, r):
        self.r, self.files, self.large = r, {number: [] for number in [DONE, *TURNED_AWAY]}, []
        self.files[DOES_NOT_READ].append(b"")
        while min(map(len, self.files.values())) < 5:
            self.renew()
        for _ in range(3):
            self.renew_large()

    def renew(self):
        file = self.r.pick(DRAWN)(self.r)
        if len(file) <= MOST_BYTES:
            self.put(self.files[lane_of(file).number], file, 80)

    def renew_large(self):
        exact = self.r.pick(counts_for(MOST_BYTES))
        counts = exact if self.r.chance(40) else large_counts(self.r)
        file = file_of(large(self.r, *counts, self.r.chance(80)))
        file = self.r.pick(list(DAMAGES.values()))(self.r, file) if self.r.chance(20) else file
        if 0 < len(file) <= MOST_BYTES:
            self.put(self.large, file, 8)

    def put(self, files, file, most):
        if len(files) == most:
            files[self.r.below(most)] = file
        else:
            files.append(file)

    def file(self):
        number = DONE if self.r.chance(70) else self.r.pick(TURNED_AWAY)
        return self.r.pick(self.files[number])

    def some(self, most):
        return [self.file() for _ in range(self.r.between(0, most))]


# Drawn seasons: files, and bytes behind them that may be no files.

def any_lanes(r, pool):
    return pool.some(r.pick([1, 2, 4, 9])), b""


def one_lane(r, pool):
    return [pool.file()], b""


def one_sign(r, pool):
    """Heights all above 0, or all below."""
    sign = r.pick([-1, 1])
    return [file_of(of_sign(r, sign)) for _ in range(r.between(1, 3))] + r.pick([[], [b""]]), b""


def none_counted(r, pool):
    numbers = r.pick([TURNED_AWAY, [DOES_NOT_READ], [MALFORMED], [TOO_LARGE]])
    return [r.pick(pool.files[r.pick(numbers)]) for _ in range(r.between(0, 4))], b""


def files_of_no_bytes(r, pool):
    return [b"" if r.chance(70) else pool.file() for _ in range(r.between(1, 9))], b""


def padded_count(r, pool):
    """A count in more groups than it needs."""
    file = pool.file()
    shortest = groups(len(file))
    return pool.some(3), more_groups(shortest, r.between(1, max(1, 3 - len(shortest)))) + file + joined(pool.some(2))


def more_groups(shortest, more):
    """A number with so many groups of 0 behind its own."""
    return shortest[:-1] + bytes([shortest[-1] | 128]) + b"\x80" * (more - 1) + b"\0"


def fourth_group(r, pool):
    """A fourth group, which is 0, or makes the number too large."""
    file = pool.file()
    shortest = groups(len(file))
    count = r.pick([b"\x80\x80\x80\1", b"\xff\xff\xff\x7f", b"\xff\xff\xff\xff", b"\x80\x80\x80\x80\1", b"\x80\x80\x80"])
    return pool.some(3), r.pick([count, more_groups(shortest, 4 - len(shortest))]) + file + joined(pool.some(2))


def cut_count(r, pool):
    """The end of the input within a count."""
    first = bytes([r.between(128, 255)])
    return pool.some(4), r.pick([first, first + bytes([r.between(128, 255)]), b"\x80", b"\x80\x80", b"\xff\xff", groups(MOST_BYTES)[:-1]])


def long_file(r, pool):
    """A count above 60,000: with all bytes, those of a lane too, or without."""
    count = r.pick([60001, 60001, 60001, 60002, 61440, BLOCK - 1, BLOCK, 16384 * 127, 2**21 - 1])
    if count == 60001 and r.chance(30):
        file = file_of(large(r, *r.pick(counts_for(count))))
    else:
        file = r.pick([bytes(count), r.bytes(count), r.bytes(r.below(100))])
    return pool.some(3), groups(count) + file + joined(pool.some(2))


def short_file(r, pool):
    """The input ends within a file, or before it."""
    file = r.pick(pool.large) if r.chance(10) else pool.file()
    count = max(1, len(file))
    return pool.some(4), groups(count) + file[:r.pick([count - 1, count - 1, max(0, count - 8), 0, r.below(count)])]


def changed(r, pool):
    """A byte of a season is changed, taken out, or put in; half of the time it is one of a leading count."""
    files = [pool.file() for _ in range(r.between(1, 5))]
    season = joined(files)
    borders = [0, *itertools.accumulate(len(led(file)) for file in files[:-1])]
    place = r.pick(borders) + r.below(2) if r.chance(50) else r.below(len(season))
    before, byte, after = season[:place], season[place:place + 1] or b"\0", season[place + 1:]
    off = r.pick([(byte[0] + 1) % 256, (byte[0] - 1) % 256, byte[0] ^ 1 << r.below(8), r.below(256)])
    return [], before + r.pick([bytes([off]), bytes([off]), b"", byte + bytes([off]), b"\0" + byte]) + after


def bytes_alone(r, pool):
    return [], r.bytes(r.below(40)) if r.chance(50) else bytes(r.between(0, 130) for _ in range(r.below(9)))


def large_files(r, pool):
    """Files of 60,000 bytes and little fewer, among others."""
    files = pool.some(2) + [r.pick(pool.large)] + pool.some(2)
    if r.chance(40):
        files.insert(r.below(len(files) + 1), r.pick([bytes, r.bytes])(r.pick([MOST_BYTES, MOST_BYTES - 1])))
    return files, b""


def adding_up(r, pool, length):
    """Files that are, led by their counts, so many bytes."""
    files = []
    while length > 2500:
        file = r.pick(pool.large) if length > 2500 + MOST_BYTES and r.chance(50) else pool.file()
        if len(led(file)) < length - 200:
            files.append(file)
            length -= len(led(file))
        elif r.chance(10):
            break
    while length > 0:
        fitting = [n for n in (length - 1, length - 2, length - 3) if 0 <= n <= MOST_BYTES and n + len(groups(n)) == length]
        files.append(bytes(r.pick(fitting)) if fitting else b"")
        length -= len(led(files[-1]))
    return files[::r.pick([1, -1])]


def blocks(r, pool):
    """As many bytes as the program reads at a time, and more or fewer: where a part of the input ends, there is a leading count, the
    end of a file, or the end of the season, with all bytes or not."""
    files, ends, begin = [], [0], 0
    for _ in range(r.pick([1, 1, 1, 2, 3])):
        border = begin + BLOCK - r.pick([0, 1, 1, 2, 3, r.between(-3, 7)])
        files += adding_up(r, pool, border - ends[-1])
        files.append(r.pick([pool.file(), bytes(r.between(0, 300)), r.pick(pool.large)]))
        ends = [0, *itertools.accumulate(len(led(file)) for file in files)]
        # The next part begins where this one ends, or with the file that is not whole.
        begin = r.pick([begin + BLOCK, max(end for end in ends if end <= begin + BLOCK)])
    if r.chance(45):
        return files + pool.some(3), b""
    last = led(files.pop())
    return files, r.pick([b"", b"", r.pick([b"\x80", b"\x80\x80", b"\xff\xff"]), last[:r.below(len(last))],
                          more_groups(groups(r.below(128)), r.between(1, 3)) + last])


def many_files(r, pool, turn):
    """65,535 files, and one more: without bytes, all one lane, or any small ones; then also one fewer, or a byte behind them."""
    small = [file for number in pool.files for file in pool.files[number] if len(file) <= 200]
    lanes = [file for file in small if lane_of(file).number == DONE]
    kinds = [[b""], [r.pick(lanes)], [r.pick(small) for _ in range(6)] + [r.pick(lanes)]][turn // 2 % 3]
    count, rest = MOST_FILES + turn % 2, b""
    if turn >= 6:
        count, rest = MOST_FILES + r.pick([-1, 0, 0, 1, 2]), r.pick([b"", b"", b"", b"\0", b"\x80", b"\1"])
    return (kinds * (count // len(kinds) + 1))[:count], rest


SEASONS = [
    *26 * [any_lanes], *11 * [one_lane], *6 * [one_sign], *5 * [none_counted], *4 * [files_of_no_bytes], *4 * [padded_count],
    *4 * [fourth_group], *4 * [cut_count], *4 * [long_file], *4 * [short_file], *9 * [changed], *3 * [bytes_alone], *4 * [large_files],
    *12 * [blocks]]


# compare

def in_parts(r, season):
    """Up to nine parts, one of them possibly a byte."""
    cuts = sorted(r.pick([r.below(len(season) + 1), min(1, len(season))]) for _ in range(r.between(1, 8)))
    return [season[i:j] for i, j in zip([0, *cuts], [*cuts, len(season)])]


def where_block_ends(files):
    """What lies where the first block of a season ends."""
    at = 0
    for file in files:
        if at + len(led(file)) > BLOCK:
            break
        at += len(led(file))
    if at == BLOCK:
        return "the end of a file"
    return "in a count" if BLOCK - at < len(groups(len(file))) else "in a file"


class Comparison:
    """Runs the program and counts."""

    def __init__(self, program, r):
        self.program, self.r, self.counts = program, r, Counts()
        self.differences, self.seen, self.different = 0, collections.Counter(), set()

    def run(self, what, season, wanted):
        way = self.r.below(10)
        if way < 5:
            printed = self.program.from_file(season)
        else:
            printed = self.program.from_pipe([season] if way < 8 else in_parts(self.r, season))
        if printed != wanted:
            self.differences += 1
            if self.differences <= 5:
                print(f"{what}: printed {printed!r}, and not {wanted!r}; {len(season)} bytes: {season.hex()[:3000]}")

    def season(self, kind, files, rest):
        season = joined(files) + rest
        wanted, found, reason = answer_to(season)
        name = kind.__name__.replace("_", " ")
        self.counts.add("seasons", name, REFUSED if reason else DONE)
        if reason:
            self.seen[reason] += 1
        else:
            self.count(season, found)
        self.run(name, season, wanted)
        if not rest and 2 <= len(files) < 1000 and self.r.chance(50):
            self.seen["another order"] += 1
            self.run(f"{name}, in another order", joined([files[i] for i in self.r.chosen(len(files), len(files))]), wanted)

    def count(self, season, files):
        for file, count in collections.Counter(files).items():
            self.different.add(hash(file))
            self.seen[lane_of(file).number] += count
            self.seen["heights"] += STEPS * lane_of(file).segments * count
        if len(season) >= BLOCK:
            self.seen[where_block_ends(files)] += 1

    def turn(self, turn, pool):
        for _ in range(3):
            pool.renew()
        if turn % 100 == 0:
            pool.renew_large()
        kind = self.r.pick(SEASONS)
        self.season(kind, *kind(self.r, pool))
        if turn % 200 == 199:
            self.season(many_files, *many_files(self.r, pool, turn // 200))


REASONS = ["a padded count", "a fourth group", "a cut count", "more than 60,000 bytes", "more than 65,535 files", "a short file"]
PLACES = ["the end of a file", "in a count", "in a file"]


def compare(program, turns, seed):
    r = Random(seed)
    comparison, pool = Comparison(program, r), Pool(r)
    for turn in range(turns):
        comparison.turn(turn, pool)
    comparison.counts.table("seasons", [DONE, REFUSED])
    seen, seasons = comparison.seen, comparison.counts.total("seasons")
    print("where the first 65,536 bytes end: " + ", ".join(f"{place} {seen[place]}" for place in PLACES))
    away = ", ".join(f"{number}: {seen[number]}" for number in TURNED_AWAY)
    refused = ", ".join(f"{reason} {seen[reason]}" for reason in REASONS)
    print(f"seed {seed}: {seasons} seasons, {seen['another order']} once more in another order; {seen[DONE]} lanes counted, turned away "
          f"{away}; {len(comparison.different)} different files; {seen['heights']} heights; refused: {refused}; "
          f"{comparison.differences} differences")
    return comparison.differences == 0


# store and replay: the lines are described in README.md. A season is its parts: bytes, or a count and bytes that are repeated.

def whole_season(parts):
    return b"".join(part if isinstance(part, bytes) else part[0] * part[1] for part in parts)


def line(parts):
    words = [part.hex() if isinstance(part, bytes) else f"{part[0]}*{part[1].hex()}" for part in parts if part]
    text = answer_to(whole_season(parts))[0]
    return ["season", *(words or "-"), "=", text[:-1].replace("\n", ",")]


def constant(height):
    """A lane of one axis and one segment, everywhere so many hundredths."""
    return file_of(single([height / 100] + 5 * [0.0]))


def stored_seasons():
    """Each kind of lane, both sets, every reason to turn a lane away or to stop, and both limits."""
    r = Random(13)
    yield []
    yield from store_segments(r)
    yield from store_sets(r)
    yield from store_away(r)
    yield from store_orders(r)
    yield from store_counts(r)
    yield from store_limits(r)
    yield from store_blocks(r)


def store_segments(r):
    """One lane of one segment."""
    segments = [SEGMENTS[kind](r) for kind in SEGMENTS for _ in range(3)]
    segments += [in_hundredths(halfway(r, j, less)) for less in (0, 1) for j in (1, 128, 255)]
    # Step 0 is the lowest or the highest, or step 256 would be.
    segments += [in_hundredths(c) for c in ([9, 0, 0, 0, 0, 0], [-9, 0, 0, 0, 0, 0], [0, 0, 0, 0, 0, 90], [0, 0, 0, 0, 0, -90])]
    for x in (0.005, -0.005, 0.015, -12.5, 20000.0, -20000.0, 20000.0025, -20000.0025, float("nan"), float("-inf"), -0.0, 5e-324):
        segments.append([x] + 5 * [0.0])
    for segment in segments:
        yield [led(file_of(single(segment)))]


def store_sets(r):
    """Axis 0 at each place of either set, all axes with other heights; the sets have 1 to 3 segments."""
    for d, axes in [(2, [0]), (2, [1]), (3, [2, 0]), (3, [0, 2]), (3, [1, 2]), (3, [2]), (16, [7, 0, 3]), (4, [3, 2, 1])]:
        for counts in [(1, 3), (3, 2)]:
            c = made(r, d, len(axes), *counts).with_(axes=axes)
            for axis in range(min(d, 4)):
                c = with_axis(c, axis, [in_hundredths([100 * axis + r.between(-40, 40) for _ in range(6)])
                                        for _ in range(counts[axis not in axes])])
            yield [led(file_of(c))]


def store_away(r):
    """Lanes that are turned away, behind one that counts; then all short ones together."""
    first = led(constant(-7))
    fits, bad = whole(r), SEGMENTS["over the limit"](r)
    c = made(r, 2, 1, 3, 3).with_(axes=[0])
    # Too large in one segment; of the other axis it does not matter.
    for place in range(3):
        parts = [bad if i == place else fits for i in range(3)]
        for axis in range(2):
            yield [first, led(file_of(with_axis(with_axis(c, 1 - axis, 3 * [fits]), axis, parts)))]
    files = [b""] + [file_of(all_alike(c)) for c in known_spoils(r) if in_groups(c)]
    files += [damage(r, constant(3)) for damage in DAMAGES.values() for _ in range(2)] + [not_read(r) for _ in range(8)]
    # A file stands there once: widths, which spoil a curve, are not in its file.
    files = [file for file in dict.fromkeys(files) if len(file) < 1000]
    for file in files:
        yield [first, led(file)]
    yield [led(file) for file in files if len(file) < 100]
    yield [led(b""), led(b"")]
    yield [led(b""), first, led(b"")]


def store_orders(r):
    """The same files in several orders; heights of one sign, and of both."""
    for files in ([constant(x) for x in (5, 1200, 31)], [constant(x) for x in (-5, -1200, -31)], [b"", constant(7)], [constant(-7), b""],
                  [constant(0), constant(0)], [constant(-2), b"", constant(2), file_of(of_sign(r, -1))]):
        for order in itertools.islice(itertools.permutations(files), 6):
            yield list(map(led, order))


def store_counts(r):
    """Leading counts that are bad, and files that are short: first, or behind a lane, and before one."""
    file, lane = constant(4), led(constant(-7))
    one, two = groups(len(file)), groups(200)
    bad = [more_groups(one, more) + file for more in (1, 2, 3)] + [more_groups(two, more) + bytes(200) for more in (1, 2)]
    bad += [b"\x80\0", b"\x80\x80\0", b"\x80\x80\x80\0", b"\x80\x80\x80\1", b"\xff\xff\xff\x7f", b"\xff\xff\xff"]
    for content in bad:
        yield from [[content], [lane, content, lane]]
    short = [b"\x80", b"\xff", b"\x80\x80", b"\xff\xff", led(file)[:-1], led(file)[:-8], one, two, led(bytes(200))[:-1], b"\1"]
    for content in short:
        yield from [[content], [lane, content]]


def store_limits(r):
    """60,000 bytes, 65,535 files, and one more."""
    lane = led(constant(-7))
    d, k, segments, others = next(counts for counts in counts_for(MOST_BYTES) if counts[1] < counts[0])
    c = made(r, d, k, 1, 1).with_(axes=list(range(k)))
    for axis in range(d):
        c = with_axis(c, axis, [in_hundredths([10 * axis + i for i in range(6)])])
    breaks = [[i / n for i in range(n + 1)] for n in (segments, others)]
    (rows, other_rows), wide = c.rows(), c.with_(segments=segments, other_segments=others)
    head = file_of(wide.with_(slices=4 * [b""]))
    largest = [groups(MOST_BYTES), head, cells_of(breaks[0]), (segments, c.slices[1][:8 * rows]), cells_of(breaks[1]),
               (others, c.slices[3][:8 * other_rows])]
    assert len(whole_season(largest)) == 3 + MOST_BYTES
    yield largest
    yield [*largest, lane]
    for count in (MOST_BYTES - 1, MOST_BYTES, MOST_BYTES + 1, MOST_BYTES + 2, BLOCK, 2**21 - 1):
        yield [lane, groups(count), (count, b"\0"), lane]
        yield [lane, groups(count)]
    for file in (led(b""), lane, led(constant(LIMIT)), led(constant(-LIMIT)), led(file_of(single([1e9] + 5 * [0.0])))):
        yield [(MOST_FILES, file)]
        yield [(MOST_FILES + 1, file)]
    yield [(MOST_FILES - 1, lane), led(b"")]
    yield [(MOST_FILES - 1, led(b"")), lane]
    for rest in (b"\0", b"\x80", b"\1", lane):
        yield [(MOST_FILES, led(b"")), rest]
        yield [(MOST_FILES - 1, led(b"")), rest]


def store_blocks(r):
    """The end of the first block lies in or beside the leading count of a file, or is the end of the input."""
    junk = [groups(MOST_BYTES), (MOST_BYTES, b"\0")]
    left = BLOCK - len(whole_season(junk))
    files = [led(constant(11)), led(file_of(with_axis(made(r, 1, 1, 2, 0), 0, 2 * [in_hundredths([3, 4, 5, 6, 7, 8])])))]
    # Counts of one, two and three groups.
    for content in ([files[0]], [files[1]], [groups(20000), (20000, b"\0")]):
        for before in (-1, 0, 1, 2, 3, 4):
            yield [*junk, (left - before, b"\0"), *content, files[0]]
    for before in (1, 0, -1):
        for rest in ([], [b"\x80"], [b"\x80\x80"], [b"\x80\0"], [files[0][:-1]]):
            yield [*junk, (left - before, b"\0"), *rest]
    # Two blocks and more, of files that lie across their ends.
    yield [(800, files[0])]
    yield [(1000, files[1])]
    yield [*junk, *junk, files[0], *junk, files[1]]


def replay(program, path):
    with open(path) as text:
        lines = text.read().splitlines()
    counts = collections.Counter()
    for i, content in enumerate(lines, 1):
        asked, told = content.split(" = ")
        parts = [word.rpartition("*") for word in asked.split()[1:] if word != "-"]
        season = b"".join(int(count or 1) * bytes.fromhex(digits) for count, _, digits in parts)
        printed = program.from_file(season) if i % 2 else program.from_pipe([season[:1], season[1:]])
        wanted = told.replace(",", "\n") + "\n"
        if printed != wanted:
            sys.exit(f"{path}, line {i}: printed {printed!r}, and not {wanted!r}")
        counts["refused" if told.startswith("refused") else "totals"] += 1
    print(f"{len(lines)} lines, no difference: " + ", ".join(f"{name} {count}" for name, count in sorted(counts.items())))


def main():
    command, arguments = (sys.argv[1], sys.argv[2:]) if len(sys.argv) > 1 else ("", [])
    if command == "compare" and 1 <= len(arguments) <= 3:
        turns, seed = list(map(int, arguments[1:])) + [1500, 1][len(arguments) - 1:]
        sys.exit(0 if compare(Program(arguments[0]), turns, seed) else 1)
    elif command == "store" and not arguments:
        for parts in stored_seasons():
            print(" ".join(line(parts)))
    elif command == "replay" and len(arguments) == 2:
        replay(Program(arguments[0]), arguments[1])
    else:
        sys.exit(__doc__)


if __name__ == "__main__":
    main()
