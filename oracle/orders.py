#!/usr/bin/env python3
"""Cutting orders of the library against Python's graphlib: oracle/orders.py LIBRARY [CASES]

LIBRARY is the archive as a shared object:

    ./build.sh pamitoye
    cc -shared -o pamitoye.so -Wl,--whole-archive target/staticlib/libpamitoye.a -Wl,--no-whole-archive

graphlib tells which lanes are ready and whether there is a ring; of the ready lanes the lowest-numbered is taken. Numbers,
orders and all cells are compared, those past the slice too; the counts of the answers are printed. Status 1 at the first
difference."""
import collections
import ctypes
import graphlib
import heapq
import random
import sys

SIZE = ctypes.c_size_t
MARK = 777
FAR = 2**64 - 1


def answer(library, lanes, pairs, cells):
    """The library's number, and the slice after it with two cells more."""
    flat = (SIZE * max(1, 2 * len(pairs)))(*[lane for pair in pairs for lane in pair])
    order = (SIZE * (cells + 2))(*[MARK] * (cells + 2))
    number = library.pamitoye_cutting_order(SIZE(lanes), flat, SIZE(len(pairs)), order, SIZE(cells))
    return number, list(order)


def expected(lanes, pairs, cells):
    untouched = [MARK] * (cells + 2)
    if lanes > 64 or len(pairs) > 1024:
        return 18, untouched
    if any(lane >= lanes for pair in pairs for lane in pair):
        return 31, untouched
    if cells < lanes:
        return 19, untouched
    graph = graphlib.TopologicalSorter({lane: [] for lane in range(lanes)})
    for before, after in pairs:
        graph.add(after, before)
    try:
        graph.prepare()
    except graphlib.CycleError:
        return 32, untouched
    ready, order = [], []
    while graph.is_active():
        for lane in graph.get_ready():
            heapq.heappush(ready, lane)
        lane = heapq.heappop(ready)
        order.append(lane)
        graph.done(lane)
    return 0, order + untouched[lanes:]


def drawn(r):
    """Lanes, pairs and the length of the slice: chains, as many pairs as are taken, any pairs, pairs that an order meets."""
    lanes = r.choice([r.randint(0, 6), 64, r.randint(1, 64)])
    order = r.sample(range(lanes), lanes)

    def met(count):
        return [tuple(order[i] for i in sorted(r.sample(range(lanes), 2))) for _ in range(count)]

    pairs = []
    if lanes >= 2:
        kind = r.random()
        if kind < 0.1:
            pairs = list(zip(order, order[1:])) * r.choice([1, 1, 2, 5])
        elif kind < 0.2:
            pairs = met(r.choice([1024, 1023, r.randint(0, 1024)]))
        elif kind < 0.5:
            pairs = [(r.randrange(lanes), r.randrange(lanes)) for _ in range(r.randint(0, lanes))]
        else:
            pairs = met(r.randint(0, 2 * lanes))
        odd = r.random()
        if odd < 0.05 and pairs:
            pairs.append(r.choice(pairs)[::-1])
        elif odd < 0.08:
            pairs.append((order[0], order[0]))
        elif odd < 0.12:
            pairs.append((order[0], r.choice([lanes, 64, 2**63, FAR])))
        elif odd < 0.14:
            pairs += [pairs[0] if pairs else (0, 1)] * r.choice([1024, 1025])
        r.shuffle(pairs)
    if r.random() < 0.02:
        lanes = r.choice([65, FAR])
    cells = min(lanes, 70) + r.choice([0, 0, 0, 1, 3]) - (lanes > 0 and r.random() < 0.05)
    return lanes, pairs, cells


def main():
    library = ctypes.CDLL(sys.argv[1])
    library.pamitoye_cutting_order.restype = ctypes.c_uint64
    cases = int(sys.argv[2]) if len(sys.argv) > 2 else 100_000
    r, counts = random.Random(14), collections.Counter()
    for _ in range(cases):
        case = drawn(r)
        got, wanted = answer(library, *case), expected(*case)
        if got != wanted:
            sys.exit(f"{case}: {got}, and not {wanted}")
        counts[got[0]] += 1
    print(cases, "cases, all as graphlib has them:", dict(sorted(counts.items())))


if __name__ == "__main__":
    main()
