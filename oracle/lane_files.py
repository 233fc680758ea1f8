#!/usr/bin/env python3
"""Lane files of the library against a second writer and reader, made from documents 01 and 02 (requests 1 and 12) alone:

    lane_files.py compare LIBRARY [COUNT [SEED]]   COUNT drawn curves and about five files for each
    lane_files.py store                            prints the cases of lane_files.txt, with their answers
    lane_files.py replay LIBRARY LIST              such a list, through the library
    lane_files.py seeds DIRECTORY                  writes inputs for fuzz/lane_file.c to begin with
    lane_files.py files LIBRARY DIRECTORY          inputs of fuzz/lane_file.c, through the library

LIBRARY is the archive as a shared object:

    ./build.sh pamitoye
    cc -shared -o pamitoye.so -Wl,--whole-archive target/staticlib/libpamitoye.a -Wl,--no-whole-archive

Every number, every output and every cell of every slice is compared, those that have to stay as they were too; each lent
part lies between marked cells, or next to another. Status 1 at the first difference."""
import collections
import ctypes
import os
import struct
import sys

from curves import (
    CURVE_TYPES, DONE, LARGEST, MALFORMED, MARK, ODD, POINTER, SHORT_SLICE, SIZE, SLICES, SPOILS,
    Counts, Curve, Difference, Lent, Random,
    above_most, cells, coefficients, curve, curve_arguments, curve_of, curve_parts, curve_words, ends, function, known_spoils,
    long_curve, made, number, rising, sixteen, well_formed)

# The number that lane files add, include/pamitoye.h.
DOES_NOT_READ = 27


# The lane file: document 02, request 1; groups of seven bits: document 01, "The program `lane`".

def groups(n):
    done = bytearray()
    while n >= 128:
        done.append(128 + n % 128)
        n //= 128
    return bytes(done) + bytes([n])


def head_of(c):
    """The whole numbers of a file."""
    return b"".join(map(groups, [c.d, c.k, *c.axes[:c.k], c.mode, c.segments, c.other_segments]))


def file_of(c):
    """The widths stand behind the coefficients, and are left out."""
    rows, other_rows = c.rows()
    breaks, coefficients, other_breaks, other_coefficients = c.slices
    ends = cells([c.start, c.end])
    return head_of(c) + ends + breaks + coefficients[:8 * rows] + other_breaks + other_coefficients[:8 * other_rows]


class DoesNotRead(Exception):
    pass


def read_groups(file, at):
    """A number, and where it ends: at most three groups, and the shortest ones."""
    value = 0
    for i in range(3):
        if at == len(file):
            raise DoesNotRead
        byte = file[at]
        at += 1
        value += byte % 128 << 7 * i
        if byte < 128:
            if byte == 0 and i > 0:
                raise DoesNotRead
            return value, at
    raise DoesNotRead


def curve_in(file):
    """The curve that a file holds, well formed or not."""
    d, at = read_groups(file, 0)
    k, at = read_groups(file, at)
    if k > d:
        raise DoesNotRead
    axes = []
    for _ in range(k):
        axis, at = read_groups(file, at)
        axes.append(axis)
    mode, at = read_groups(file, at)
    if mode > 1:
        raise DoesNotRead
    segments, at = read_groups(file, at)
    other_segments, at = read_groups(file, at)
    c = Curve(d, k, axes, 0, 0, mode, segments, other_segments, [b""] * 4)
    rows = c.rows()
    # A count of 0 has no breaks.
    counts = [n and n + 1 for n in (segments, other_segments)]
    if len(file) - at != 8 * (2 + sum(counts) + sum(rows)):
        raise DoesNotRead
    c.start, c.end = struct.unpack_from("<2Q", file, at)
    at += 16
    for i, count in enumerate([counts[0], rows[0], counts[1], rows[1]]):
        c.slices[i] = file[at:at + 8 * count]
        at += 8 * count
    return c.with_widths()


def lengths_in(file):
    """How many cells the slices of a file's curve have, or None where it does not read."""
    try:
        return [len(s) // 8 for s in curve_in(file).slices]
    except DoesNotRead:
        return None


# Answers: a number, and with 0 the file or the curve.

def answer_to_write(c, room):
    if not well_formed(c):
        return MALFORMED, None
    file = file_of(c)
    return (SHORT_SLICE, None) if room < len(file) else (DONE, file)


def answer_to_read(file, lengths):
    try:
        c = curve_in(file)
    except DoesNotRead:
        return DOES_NOT_READ, None
    if not well_formed(c):
        return MALFORMED, None
    if any(8 * n < len(s) for n, s in zip(lengths, c.slices)):
        return SHORT_SLICE, None
    return DONE, c


# The library.

NUMBERS = ["d", "k", "axes", "start", "end", "clamp", "segments", "other_segments"]


class Library:
    """The library's two functions, asked in memory that is lent with marks; raises Difference unless the answer is as wanted.
    `place` chooses where the lent parts lie, and what the mode holds before it is read."""

    def __init__(self, path):
        library = ctypes.CDLL(os.path.abspath(path))
        self.write_lane = function(library, "pamitoye_write_lane", CURVE_TYPES + [POINTER, SIZE, POINTER])
        self.read_lane = function(library, "pamitoye_read_lane", [POINTER, SIZE] + 8 * [POINTER] + 4 * [POINTER, SIZE])

    def write(self, c, room, place, wanted):
        """Writes a curve to `room` bytes."""
        number_wanted, file = wanted
        parts = curve_parts(c) + [("file", (MARK * (room // 8 + 1))[:room], place % 8), ("count", MARK, 0)]
        lent = Lent(parts, place & 8)
        *of_curve, to, count = lent.addresses
        got = self.write_lane(*curve_arguments(c, of_curve), to, room, count)
        if file is not None:
            lent.to_be(5, file)
            lent.to_be(6, cells([len(file)]))
        lent.compare(got, number_wanted)

    def read(self, file, lengths, place, wanted):
        """Reads a file to slices of so many cells."""
        number_wanted, c = wanted
        before = [MARK, MARK, 16 * MARK, MARK, MARK, bytes([place >> 4 & 1]), MARK, MARK]
        parts = [("file", file, place % 8)] + [(name, content, 0) for name, content in zip(NUMBERS, before)]
        parts += [(name, n * MARK, 0) for name, n in zip(SLICES, lengths)]
        lent = Lent(parts, place & 8)
        source, *addresses = lent.addresses
        of_slices = [x for address, n in zip(addresses[8:], lengths) for x in (address, n)]
        got = self.read_lane(source, len(file), *addresses[:8], *of_slices)
        if c is not None:
            after = [cells([c.d]), cells([c.k]), sixteen(c.axes), cells([c.start]), cells([c.end]), bytes([c.mode]),
                     cells([c.segments]), cells([c.other_segments]), *c.slices]
            for i, content in enumerate(after, 1):
                lent.to_be(i, content)
        lent.compare(got, number_wanted)


# What is done to a file.

def cut(r, file):
    return file[:r.pick([0, 1, len(file) - 1, len(file) - 8, r.below(len(file) + 1)])]


def lengthened(r, file):
    return file + r.pick([b"\0", MARK[:7], MARK, MARK + b"\0", r.bytes(r.between(1, 40))])


def changed(r, file):
    place = r.below(len(file))
    return file[:place] + bytes([r.below(256)]) + file[place + 1:]


def in_head(r, file):
    """A place among the whole numbers, or shortly behind them."""
    return r.below(min(len(file), 3 + file[1] % 128 + 3))


def flipped(r, file):
    place = in_head(r, file)
    return file[:place] + bytes([file[place] ^ 1 << r.below(8)]) + file[place + 1:]


def padded(r, file):
    """An empty group more, or two."""
    place = in_head(r, file)
    return file[:place] + bytes([file[place] | 128]) + r.pick([b"\0", b"\x80\0"]) + file[place + 1:]


def fourth_group(r, file):
    place = in_head(r, file)
    return file[:place] + r.pick([b"\x80\x80\x80\x01", b"\xff\xff\xff\x7f", b"\x81\x80\x80\0", b"\xff\xff\xff"]) + file[place + 1:]


def other_count(r, file):
    """Another number in the place of a byte of the head."""
    place = in_head(r, file)
    return file[:place] + groups(r.pick([0, 1, 2, 16, 17, 127, 128, 16383, 16384, 20001, LARGEST])) + file[place + 1:]


def deleted(r, file):
    place = r.pick([r.below(len(file)), in_head(r, file)])
    return file[:place] + file[place + 1:]


DAMAGES = {"cut": cut, "longer": lengthened, "a byte changed": changed, "a bit of the head": flipped, "a padded group": padded,
           "a fourth group": fourth_group, "another count": other_count, "a byte deleted": deleted}


def any_breaks(r, segments):
    if segments == 0:
        return b""
    return rising(r, segments) if r.chance(70) else coefficients(r, segments + 1)


def headed(r, small=False):
    """A file that reads, with any numbers in its head; or one with a d below k, or counts so large that bytes are missing."""
    d = r.pick([0, 1, 2, 3, 16, 17, 40, LARGEST])
    k = min(d, r.pick([0, 1, 2, 16, 17, 40, 40 if small else 300]))
    segments, others = r.pick([0, 1, 2]), r.pick([0, 1, 2])
    if 6 * others * (d - k) > 300:
        others = 0
    if 6 * segments * k > 300:
        segments = 0
    axes = [r.pick([d, 127, 128, LARGEST]) if r.chance(3) else i for i in range(k)]
    start, end = r.pick([ends(r), (r.pick(ODD), r.pick(ODD))])
    slices = [any_breaks(r, segments), coefficients(r, 6 * segments * k),
              any_breaks(r, others), coefficients(r, 6 * others * (d - k))]
    if others == 0 and k > 0 and r.chance(10):
        d = r.below(k)
    c = Curve(d, k, axes, start, end, r.pick([0, 1, 1, 2, 128, LARGEST]) if r.chance(20) else r.below(2), segments, others, slices)
    if r.chance(20):
        c = c.with_(**{r.pick(["segments", "other_segments"]): r.pick([127, 16384, 20001, LARGEST])})
        return head_of(c) + b"".join([cells([start, end]), *slices])
    return file_of(c)


def in_groups(c):
    """Every whole number fits three groups, so that there are bytes for it."""
    return max(c.d, c.k, c.segments, c.other_segments, *c.axes[:c.k]) <= LARGEST


def any_bytes(r):
    """Bytes that begin like a file, or any."""
    return r.pick([b"", b"\1\1\0\0\1\0", b"\2\1\0\1\1\1", r.bytes(3)]) + r.bytes(r.below(90))


# Lengths of lent parts.

def rooms(r, c):
    """How many bytes are lent for the file of a curve."""
    enough = 41 + sum(len(s) for s in c.slices)
    if answer_to_write(c, enough)[0] == SHORT_SLICE:
        raise Difference(f"{enough} bytes are too short")
    length = len(file_of(c)) if well_formed(c) else r.below(80)
    return r.pick([length, length, length + 1, length + r.below(50), enough, max(0, length - 1), r.below(length + 1), 0])


def lengths(r, file):
    """How many cells are lent for the slices: as many as needed, more, one fewer in one, or an eighth of the file's length."""
    eighth = [len(file) // 8] * 4
    if answer_to_read(file, eighth)[0] == SHORT_SLICE:
        raise Difference("slices of an eighth of the file's length are too short")
    needed = lengths_in(file) or [r.below(9) for _ in range(4)]
    i = r.below(4)
    fewer = [max(0, n - (i == j)) for j, n in enumerate(needed)]
    none = [0 if i == j else n for j, n in enumerate(needed)]
    return r.pick([needed, needed, [n + r.below(6) for n in needed], fewer, fewer, none, eighth])


# compare

def one_bit_off(r, c):
    """A curve that differs in one bit of a number or of a used cell; with a break, which then has other widths."""
    kind = r.below(6)
    if kind == 0:
        return c.with_(mode=1 - c.mode)
    if kind == 1:
        name = r.pick(["start", "end"])
        return c.with_(**{name: getattr(c, name) ^ 1 << r.below(64)})
    if kind == 2:
        axes = list(c.axes)
        axes[r.below(c.k)] ^= 1 << r.below(4)
        return c.with_(axes=axes)
    i = r.below(4) if c.other_segments else r.below(2)
    content = bytearray(c.slices[i])
    if i % 2 == 0:
        # The sign of a first break of 0 changes no width.
        place, bit = (7, 7) if kind == 3 else (r.below(len(content)), r.below(8))
    else:
        place, bit = r.below(8 * c.rows()[i // 2]), r.below(8)
    content[place] ^= 1 << bit
    return c.with_slice(i, bytes(content)).with_widths()


def compare_write(library, counts, r, kind, c):
    room = rooms(r, c)
    wanted = answer_to_write(c, room)
    library.write(c, room, r.below(32), wanted)
    counts.add("written", kind, wanted[0])


def compare_read(library, counts, r, kind, file):
    room = lengths(r, file)
    wanted = answer_to_read(file, room)
    library.read(file, room, r.below(32), wanted)
    counts.add("read", kind, wanted[0])
    if wanted[1] is not None:
        library.write(wanted[1], len(file), r.below(32), (DONE, file))
        counts.add("written", "what was read", DONE)


def compare_change(library, counts, r, c):
    """A curve that is not the same has another file; one with other cells behind its axes has the same."""
    file = file_of(c)
    other = one_bit_off(r, c)
    wanted = answer_to_write(other, len(file) + 8)
    library.write(other, len(file) + 8, r.below(32), wanted)
    counts.add("written", "one bit off", wanted[0])
    if wanted[1] == file:
        raise Difference("two curves have one file")
    same = c.with_(axes=c.axes[:c.k] + [r.next() for _ in range(16 - c.k)])
    library.write(same, len(file), r.below(32), (DONE, file))
    counts.add("written", "other cells behind the axes", DONE)


def drawn_turn(library, counts, r, turn):
    c = long_curve(r, turn // 100) if turn % 100 == 99 else curve(r)
    compare_write(library, counts, r, "well formed", c)
    compare_change(library, counts, r, c)
    name = r.pick(list(SPOILS))
    spoiled = SPOILS[name](r, c)
    compare_write(library, counts, r, name, spoiled)
    if in_groups(spoiled):
        compare_read(library, counts, r, name, file_of(spoiled))
    file = file_of(c)
    compare_read(library, counts, r, "written", file)
    for _ in range(3):
        name = r.pick(list(DAMAGES))
        compare_read(library, counts, r, name, DAMAGES[name](r, file))
    compare_read(library, counts, r, "any head", headed(r))
    if turn % 5 == 0:
        compare_read(library, counts, r, "any bytes", any_bytes(r))
    if turn % 500 == 0:
        compare_write(library, counts, r, "20001 segments", above_most(r))
        compare_read(library, counts, r, "20001 segments", file_of(above_most(r)))
    return c.d, c.k


def compare(library, count, seed):
    r, counts, pairs = Random(seed), Counts(), set()
    for turn in range(count):
        try:
            pairs.add(drawn_turn(library, counts, r, turn))
        except Difference as difference:
            sys.exit(f"seed {seed}, turn {turn}: {difference}")
    counts.table("written", [DONE, MALFORMED, SHORT_SLICE])
    counts.table("read", [DONE, DOES_NOT_READ, MALFORMED, SHORT_SLICE])
    print(f"seed {seed}: {counts.total('written')} writings and {counts.total('read')} readings, {len(pairs)} of the 136 pairs of "
          "d and k, no difference")


# store and replay: the lines are described in README.md.

def write_line(c, room):
    number, file = answer_to_write(c, room)
    return ["write", *curve_words(c), room, "=", number] + ([] if file is None else [file.hex()])


def read_line(file, lengths):
    number, c = answer_to_read(file, lengths)
    asked = ["read", file.hex() or "-", ",".join(map(str, lengths)), "=", number]
    return asked + ([] if c is None else curve_words(c))


def stored_lines():
    """Short cases of every kind that `compare` draws."""
    r = Random(1)

    def small():
        return curve(r, axes=r.pick([2, 2, 3]), most=3)

    lines = []
    for c in [made(r, 16, 16, 1, 0), made(r, 16, 1, 1, 1), made(r, 16, 15, 1, 2), made(r, 1, 1, 128, 0), made(r, 2, 1, 2, 16)]:
        file = file_of(c)
        lines += [write_line(c, len(file)), read_line(file, lengths_in(file))]
    for _ in range(15):
        c = small()
        lines += [write_line(c, rooms(r, c)), read_line(file_of(c), lengths(r, file_of(c)))]
    for c in known_spoils(r):
        lines.append(write_line(c, 41 + sum(map(len, c.slices))))
        lines.append(read_line(file_of(c), [len(file_of(c)) // 8] * 4))
    for spoil in SPOILS.values():
        for _ in range(3):
            c = spoil(r, small())
            lines.append(write_line(c, rooms(r, c)))
    damaged = [damage(r, file_of(small())) for damage in DAMAGES.values() for _ in range(6)]
    c = made(r, 2, 2, 1, 0)
    above = [c.with_(d=1), c.with_(mode=2), c.with_(mode=128), c.with_(axes=[0, LARGEST]), c.with_(axes=[0, LARGEST + 1])]
    for file in damaged + list(map(file_of, above)) + [headed(r, small=True) for _ in range(25)] + [any_bytes(r) for _ in range(5)]:
        lines.append(read_line(file, lengths(r, file)))
    return [" ".join(map(str, line)) for line in lines]


def replay(library, path):
    with open(path) as text:
        lines = text.read().splitlines()
    counts = collections.Counter()
    for i, line in enumerate(lines, 1):
        asked, answer = (part.split() for part in line.split(" = "))
        number, result = int(answer[0]), answer[1:]
        try:
            if asked[0] == "write":
                file = bytes.fromhex(result[0]) if result else None
                library.write(curve_of(asked[1:13]), int(asked[13]), i % 32, (number, file))
            else:
                file = bytes.fromhex("" if asked[1] == "-" else asked[1])
                lent = list(map(int, asked[2].split(",")))
                library.read(file, lent, i % 32, (number, curve_of(result) if result else None))
        except Difference as difference:
            sys.exit(f"{path}, line {i}: {difference}")
        counts[asked[0], number] += 1
    told = ", ".join(f"{name} {number}: {count}" for (name, number), count in sorted(counts.items()))
    print(f"{len(lines)} lines, no difference: {told}")


# seeds and files: an input of fuzz/lane_file.c is five bytes that choose what is lent, then a file.

CHOICES = 5


def input_lengths(choices, file):
    eighth = len(file) // 8
    needed = lengths_in(file) or [eighth] * 4
    return [[n, n, n, n + 1, n + 7, max(0, n - 1), 0, eighth][choice % 8] for choice, n in zip(choices, needed)]


def seeds(directory):
    r = Random(1)
    files = [file_of(curve(r, axes=4, most=4)) for _ in range(60)] + [file_of(curve(r, most=4)) for _ in range(20)]
    files += [file_of(made(r, d, k, 1, 1)) for d in range(1, 17) for k in (1, d)] + [file_of(made(r, 1, 1, 128, 0))]
    files += [damage(r, r.pick(files[:60])) for damage in DAMAGES.values() for _ in range(4)] + [headed(r) for _ in range(40)]
    os.makedirs(directory, exist_ok=True)
    for i, file in enumerate(files):
        with open(os.path.join(directory, f"seed-{i:03}"), "wb") as out:
            out.write(bytes([r.below(8) if r.chance(30) else 0 for _ in range(4)]) + bytes([r.below(256)]) + file)
    print(f"{len(files)} inputs")


def files(library, directory):
    counts = collections.Counter()
    names = sorted(os.listdir(directory))
    for name in names:
        with open(os.path.join(directory, name), "rb") as content:
            content = content.read()
        choices, file = content[:CHOICES], content[CHOICES:]
        if len(choices) < CHOICES:
            continue
        lent = input_lengths(choices, file)
        wanted = answer_to_read(file, lent)
        try:
            library.read(file, lent, choices[4], wanted)
        except Difference as difference:
            sys.exit(f"{name}: {difference}")
        counts[wanted[0]] += 1
    print(f"{len(names)} inputs, {sum(counts.values())} files read, no difference:", dict(sorted(counts.items())))


def main():
    command, arguments = (sys.argv[1], sys.argv[2:]) if len(sys.argv) > 1 else ("", [])
    if command == "compare" and 1 <= len(arguments) <= 3:
        count, seed = list(map(int, arguments[1:])) + [4000, 1][len(arguments) - 1:]
        compare(Library(arguments[0]), count, seed)
    elif command == "store" and not arguments:
        print("\n".join(stored_lines()))
    elif command == "replay" and len(arguments) == 2:
        replay(Library(arguments[0]), arguments[1])
    elif command == "seeds" and len(arguments) == 1:
        seeds(arguments[0])
    elif command == "files" and len(arguments) == 2:
        files(Library(arguments[0]), arguments[1])
    else:
        sys.exit(__doc__)


if __name__ == "__main__":
    main()
