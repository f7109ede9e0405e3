#!/usr/bin/env python3
"""The small town of docs/WHY.md: every number that the page gives of it is the engine's.

    tests/why.py            fails if a table or a sentence of the page is not what the engine's answers give
    tests/why.py --write    puts the tables anew

A table of the page stands after a line `<!-- table: NAME -->`. The tables and the sentences below are made from calls
of the proved library (`make lib`) on samples/crossing.txt, and have to stand in the page as they are made. What a stop
has listed after some tiles is the engine's list of the town in which only these tiles have sites. The names of theorems
in the page, `crate: name`, have to be in the proofs.
"""
import functools
import itertools
import pathlib
import re
import sys
from fractions import Fraction

ROOT = pathlib.Path(__file__).resolve().parent.parent
sys.dont_write_bytecode = True
sys.path.insert(0, str(ROOT / "tools"))

from towns import text  # noqa: E402
from towns.engine import MAX_REACH, Engine, refusal  # noqa: E402

SHARED = ROOT / "target" / "lib" / "libnearby.so"
if not SHARED.exists():
    sys.exit(f"{SHARED.relative_to(ROOT)} is not there: run make lib")
ENGINE = Engine(SHARED)
far, near, margin, strike = ENGINE.far, ENGINE.near, ENGINE.margin, ENGINE.strike
join, write, level, order = ENGINE.join, ENGINE.write, ENGINE.level, ENGINE.order

PAGE = ROOT / "docs" / "WHY.md"
TILES, FILE = text.make(ENGINE, (ROOT / "samples" / "crossing.txt").read_text())
BOXES = [box for box, _ in TILES]
SITES = [len(sites) for _, sites in TILES]
COUNTS = [sum(cue != 0 for _, _, cue in sites) for _, sites in TILES]  # of sounding sites
ALL = range(len(TILES))
STOPS = [(0, 0), (6, 2)]
K = 2
O = (0, 0, 6, 2)
CORNERS = [(0, 0), (6, 0), (0, 2), (6, 2)]
ANSWER = join(FILE, STOPS, K)
LISTS, MARKS = ANSWER.lists, ANSWER.marks
MARGINS = {(e, b): margin(O, BOXES[e], BOXES[b]) for e in ALL for b in ALL}


def spot(point):
    return f"({point[0]},{point[1]})"


def place(entry):
    """A place of a list: the distance, and where the site is."""
    return f"{entry[0]} at {entry[1] // 40}:{entry[1] % 40}"


def listed(places):
    return "; ".join(map(place, places)) or "none"


def tiles_of(numbers):
    return ", ".join(map(str, numbers)) or "none"


def table(*rows):
    head, *body = [f"| {' | '.join(map(str, row))} |" for row in rows]
    return [head, "|" + "---|" * len(rows[0]), *body]


# ---- the tables


def town():
    rows = [
        [
            t, f"{x0}..{x1}", f"{y0}..{y1}", SITES[t], SITES[t] - COUNTS[t],
            "; ".join(f"{spot(s)} cue {s[2]}" for s in TILES[t][1]) or "none",
        ]
        for t, (x0, y0, x1, y1) in enumerate(BOXES)
    ]  # fmt: skip
    return table(["Tile", "x", "y", "Count", "Muted", "Sites, from slot 0"], *rows)


def near_and_far():
    rows = [[t] + [f"{near(c, BOXES[t])}, {far(c, BOXES[t])}" for c in CORNERS] for t in ALL]
    return table(["Tile"] + [f"from {spot(c)}" for c in CORNERS], *rows)


def on_axis(axis, end, e, b):
    """The largest difference on one axis, o at an end of O: all three boxes without the other axis."""
    flat = lambda box: (box[axis], 0, box[axis + 2], 0)
    return margin((end, 0, end, 0), flat(e), flat(b))


def points(e, b):
    """The three points that the rule of step 2 gives. The engine's margin of these points is that of the boxes."""
    found = []
    for axis in (0, 1):
        low, high = O[axis], O[axis + 2]
        o = high if on_axis(axis, low, e, b) < on_axis(axis, high, e, b) else low
        from_e = e[axis + 2] if o - e[axis] < e[axis + 2] - o else e[axis]
        found.append((o, from_e, min(max(o, b[axis]), b[axis + 2])))
    o, from_e, from_b = zip(*found)
    assert margin(o * 2, from_e * 2, from_b * 2) == margin(O, e, b)
    return o, from_e, from_b


def margin_of_pairs():
    rows = []
    for e, b in [(1, 4), (1, 3), (1, 2), (4, 5), (6, 2)]:
        o, from_e, from_b = points(BOXES[e], BOXES[b])
        gains = [f"{on_axis(a, O[a], BOXES[e], BOXES[b])}, {on_axis(a, O[a + 2], BOXES[e], BOXES[b])}" for a in (0, 1)]
        rows.append([
            f"{e}, {b}", *gains, spot(o), spot(from_e), spot(from_b),
            f"{far(o, from_e * 2)} - {far(o, from_b * 2)}", MARGINS[e, b], "yes" if MARGINS[e, b] < 0 else "no",
        ])  # fmt: skip
    head = ["E, B", "x, at 0 and 6", "y, at 0 and 2", "o", "e", "b", "D(o,e) - D(o,b)", "margin", "E nearer?"]
    return table(head, *rows)


def shown(n):
    return f"**{n}**" if n < 0 else str(n)


def margins():
    rows = [[f"E {e}"] + [shown(MARGINS[e, b]) for b in ALL] for e in ALL]
    return table([""] + [f"B {b}" for b in ALL], *rows)


def nearer_than(b):
    return [e for e in ALL if MARGINS[e, b] < 0]


def marked(numbers, marks, mark):
    return [t for t in numbers if marks[t] == mark]


def struck():
    rows = []
    by_k = {k: strike(FILE, O, k) for k in range(1, 65)}
    for b in ALL:
        tiles = nearer_than(b)
        total = sum(COUNTS[e] for e in tiles)
        assert all((marks[b] == 1) == (k <= total) for k, marks in by_k.items())
        counted = ", ".join(f"{e} ({COUNTS[e]})" for e in tiles) or "none"
        rows.append([b, counted, total, "yes" if MARKS[b] == 1 else "no"])
    return table(["B", "Tiles nearer than B (sounding sites)", "Sum", "Struck for k = 2"], *rows)


def after(taken, stop, k):
    """What is listed once these tiles were taken: the engine's list where only they have sites."""
    return join(write([(box, sites if t in taken else []) for t, (box, sites) in enumerate(TILES)]), [stop], k).lists[0]


def keys(stop, k=K):
    """The keys of the tiles that wait at first, in their order."""
    marks = strike(FILE, O, k)
    return sorted((near(stop, BOXES[t]), t) for t in ALL if COUNTS[t] and marks[t] != 1)


def walk(number, k=K):
    """The steps of a stop: the next key, the listed places ahead of it, what happens, the list afterwards.

    The tiles that are open already are those that the engine opens for the stops before alone. (It strikes from a
    smaller box then, but that changes no opening: `pruning_opens_alike`.)
    """
    stop = STOPS[number]
    opened = marked(ALL, join(FILE, STOPS[:number], k).marks, 2) if number else []
    steps, taken, places = [], [], []
    for key in keys(stop, k):
        ahead = [p for p in places if (p[0], p[1] // 40) < key]
        if len(ahead) == k:
            steps.append((key, len(ahead), "the stop ends", places))
            break
        taken.append(key[1])
        places = after(taken, stop, k)
        steps.append((key, len(ahead), f"tile {key[1]} is {'open already' if key[1] in opened else 'opened'}", places))
    assert places == join(FILE, STOPS, k).lists[number]
    assert set(taken) | set(opened) == set(marked(ALL, join(FILE, STOPS[: number + 1], k).marks, 2))
    return steps


def steps_of(number):
    rows = [[f"({n}, {t})", ahead, happens, listed(places)] for (n, t), ahead, happens, places in walk(number)]
    return table(["Next key", "Listed places ahead of it", "What happens", "List afterwards"], *rows)


def final_marks():
    said = {2: "opened", 1: "struck", 0: "neither"}
    why = lambda t: "" if COUNTS[t] else ", and muted" if SITES[t] else ", and empty"
    rows = [[t, MARKS[t], said[MARKS[t]] + why(t)] for t in ALL]
    assert ANSWER.opened == MARKS.count(2) and ANSWER.struck == MARKS.count(1)
    return table(["Tile", "Mark", "In words"], *rows)


def refilled(tile, slot, site):
    """The town with one site moved, or given another cue."""
    tiles = [(box, list(sites)) for box, sites in TILES]
    tiles[tile][1][slot] = site
    return write(tiles)


# tile, the new site of slot 0, the stop that it is moved for
FILLINGS = [(0, (0, 0, 11), 0), (1, (2, 1, 99), 0), (2, (8, 2, 31), 1)]


def fillings():
    rows = []
    for tile, site, stop in FILLINGS:
        assert MARKS[tile] == 2 and near(STOPS[stop], BOXES[tile]) == near(STOPS[stop], site[:2] * 2)
        lists = join(refilled(tile, 0, site), STOPS, K).lists
        assert lists[stop] != LISTS[stop]
        write_out = lambda places: "; ".join(f"{place(p)} cue {p[2]}" for p in places)
        old = TILES[tile][1][0]
        rows.append([
            tile, f"{spot(old)} cue {old[2]}", f"{spot(site)} cue {site[2]}", stop,
            write_out(LISTS[stop]), write_out(lists[stop]),
        ])  # fmt: skip
    head = ["Tile", "Site of slot 0", "Now", "Stop", "Its list before", "Its list now"]
    return table(head, *rows)


def other_k():
    rows = []
    for k in (1, 2, 3, 4, 5, 9, 10):
        answer = join(FILE, STOPS, k)
        ends = [walk(i, k)[-1] for i in (0, 1)]
        words = [f"at ({key[0]}, {key[1]})" if how == "the stop ends" else "no tile waits" for key, _, how, _ in ends]
        opened_and_struck = [tiles_of(marked(ALL, answer.marks, mark)) for mark in (2, 1)]
        rows.append([k, answer.used, *opened_and_struck, *words])
    return table(["k", "Places used", "Opened", "Struck", "Stop 0 ends", "Stop 1 ends"], *rows)


REACH = 3


def levels():
    rows = []
    for stop, places in enumerate(LISTS):
        for p in places:
            over, under = REACH**2, REACH**2 + p[0]
            rows.append([stop, place(p), f"{over}/{under}", f"{level(REACH, p[0])!r}"])
    return table(["Stop", "Place", "Fraction", "Level"], *rows)


def nearer_among(boxes, o):
    """For each tile those that are nearer than it from O."""
    return [{e for e, box in enumerate(boxes) if margin(o, box, b) < 0} for b in boxes]


def sequence_steps(boxes, o):
    """The steps of a sequence: the tiles left, those of them that are free, and the lowest."""
    nearer, left = nearer_among(boxes, o), set(range(len(boxes)))
    while left:
        free = sorted(b for b in left if not nearer[b] & left)
        yield sorted(left), free, free[0]
        left.remove(free[0])


def order_of(boxes, o):
    """The engine's sequence of a town of empty tiles; it is that of the steps."""
    found = order(write([(box, []) for box in boxes]), o)
    assert found == [taken for *_, taken in sequence_steps(boxes, o)]
    return found


def sequence():
    rows = [[tiles_of(left), tiles_of(free), taken] for left, free, taken in sequence_steps(BOXES, O)]
    assert order(FILE, O) == [row[2] for row in rows]
    return table(["Left", "Free", "Next"], *rows)


TABLES = {
    "town": town,
    "near and far": near_and_far,
    "margins of some pairs": margin_of_pairs,
    "margins": margins,
    "struck": struck,
    "stop 0": lambda: steps_of(0),
    "stop 1": lambda: steps_of(1),
    "marks": final_marks,
    "fillings": fillings,
    "other k": other_k,
    "levels": levels,
    "sequence": sequence,
}


# ---- the sentences


def ask_of(tiles):
    return join(write(tiles), STOPS, K).lists


def numbers_exchanged():
    """Wrong picture 3: tiles 1 and 3 exchange their numbers, and all their sites are at 13 from stop 0."""
    tiles = list(TILES)
    tiles[1], tiles[3] = (BOXES[3], [(-3, -2, 41)]), (BOXES[1], [(3, 2, 21), (3, 2, 22)])
    return ask_of(tiles)[0]


def zero_counted():
    """What a program that counts a margin of 0 does with that town: it has tile 1 struck, and so another list of stop
    0."""
    boxes = [BOXES[0], BOXES[3], BOXES[2], BOXES[1], *BOXES[4:]]
    counts = [COUNTS[0], COUNTS[3], COUNTS[2], COUNTS[1], *COUNTS[4:]]
    not_farther = [e for e in ALL if margin(O, boxes[e], boxes[1]) <= 0]
    assert not_farther == [3] and counts[3] == K and numbers_exchanged()[1][1] // 40 == 1
    return "If 0 counted, tile 1 would be struck, since tile 3 has two sites, and this list would be wrong."


def muted_counted():
    """Wrong picture 4: with the muted site of tile 6 as many sites are nearer than tile 5 as k, and in this town the
    last place is in tile 5."""
    k = sum(SITES[e] for e in nearer_than(5))
    assert k == 6 and sum(COUNTS[e] for e in nearer_than(5)) == 5 and strike(FILE, O, k)[5] == 0
    tiles = list(TILES)
    tiles[3], tiles[5] = (BOXES[3], [(-9, -4, 41)]), (BOXES[5], [(-9, 0, 61)])
    return join(write(tiles), STOPS, k).lists[0][-1]


def both_at(stop, a, b):
    """The distance of two sites that are equally far."""
    assert near(stop, a * 2) == near(stop, b * 2)
    return near(stop, a * 2)


def middle():
    return ((O[0] + O[2]) // 2, (O[1] + O[3]) // 2)


def raised(z):
    """The margin on one axis of the page, with E at this height."""
    return margin((0, 0, 0, 10, 0, 0), (20, 0, z, 30, 0, z), (31, 0, 0, 70, 0, 0))


def of_levels():
    """What step 9 says of levels."""
    most = MAX_REACH**2 + 100 * MAX_REACH**2
    over, d = REACH**2, LISTS[0][0][0]
    for r in (1, 3, MAX_REACH):
        assert [level(r, n * r * r) for n in (0, 1, 100)] == [1, 0.5, 1 / 101] and level(r, 100 * r * r + 1) is None
    assert level(MAX_REACH - 1, 1) == level(MAX_REACH, 1)
    a, b = (Fraction(r * r, r * r + 1) for r in (MAX_REACH - 1, MAX_REACH))
    assert round((b - a) / b * 10**18) == 2
    # the parts that two roundings take away, of the least difference of two fractions
    assert 2 * most / 2**53 < 1 / 40
    assert refusal(level, 0, 2**64 - 1) == refusal(level, MAX_REACH + 1, 2**64 - 1) == (18, 0)
    return [
        f"r × r + D is at most {most:,}. Up to 2⁵³, which is {2**53:,}, every whole number is a float.",
        f"For r = {REACH} and D = {d} the first gives {level(REACH, d)!r}, the second {1 / (1 + d / over)!r}.",
        f"at least by one in {most:,}.",
        f"for D = 1, the reaches {MAX_REACH - 1:,} and {MAX_REACH:,} do.",
        f"r × r has at most {(MAX_REACH**2).bit_length()} digits.",
    ]


def by_near(boxes, o):
    """Wrong picture 8: the tiles by their near from O, and these nears. Of boxes that are small."""
    nears = [min(near(p, box) for p in inside(o)) for box in boxes]
    for b, nearer in enumerate(nearer_among(boxes, o)):
        assert all(nears[e] < nears[b] for e in nearer)
    return sorted(range(len(boxes)), key=lambda t: (nears[t], t)), nears


def in_pairs(boxes, o):
    """Wrong picture 9: sorted, two tiles at a time."""
    nearer = nearer_among(boxes, o)
    first = lambda a, b: -1 if a in nearer[b] else 1 if b in nearer[a] else a - b
    return sorted(range(len(boxes)), key=functools.cmp_to_key(first)), first


def all_free_at_once(boxes, o):
    """Wrong picture 10: those free at the start, then those free after them, and so on."""
    nearer, left, found = nearer_among(boxes, o), set(range(len(boxes))), []
    while left:
        found += (free := sorted(b for b in left if not nearer[b] & left))
        left -= set(free)
    return found


def of_sequences():
    """What step 10 says of sequences."""
    point = (0, 0, 0, 0)
    two = [(2, 0, 9, 0), (1, 0, 9, 0)]
    pair, nears = by_near(two, point)
    assert order_of(two, point) == [0, 1] and pair == [1, 0] and nearer_among(two, point) == [set(), set()]
    assert by_near(BOXES, O)[1][6] == 0 and across_the_edge(6)
    three = [(3, 0, 3, 0), (0, 0, 5, 0), (1, 0, 1, 0)]
    found, first = in_pairs(three, point)
    assert found == [0, 1, 2] and nearer_among(three, point) == [{2}, set(), set()]
    assert first(0, 1) < 0 and first(1, 2) < 0 and first(2, 0) < 0
    assert nearer_among(BOXES, O)[4] == {1} and nearer_among(BOXES, O)[5] >= {4, 6} and 5 in nearer_among(BOXES, O)[7]
    left, free, _ = list(sequence_steps(BOXES, O))[4]
    assert left == [4, 5, 6, 7] and free == [4, 6]
    riverside, file = text.make(ENGINE, (ROOT / "samples" / "riverside.txt").read_text())
    boxes = [box for box, _ in riverside]
    track, stop = nearer_among(boxes, (1200, 3000, 5600, 3200)), nearer_among(boxes, (1200, 3000) * 2)
    assert all(a <= b for a, b in zip(track, stop))
    assert order(file, (1200, 3000, 5600, 3200)) == order_of(boxes, (1200, 3000, 5600, 3200))
    return [
        f"The sequence is {tiles_of(order(FILE, O))}.",
        f"In the town it gives {tiles_of(by_near(BOXES, O)[0])}: tile 6 lies across the edge of O",
        f"Near is {nears[0]} and {nears[1]}, far is {far((0, 0), two[0])} for both.",
        f"The sequence is {tiles_of(order_of(three, point))}.",
        f"In the town it gives {tiles_of(all_free_at_once(BOXES, O))}. But tile 4",
        f"{track.count(set())} of the {len(boxes)} tiles are free at the start. With the first stop alone as O there"
        f" are {stop.count(set())}:",
    ]


def across_the_edge(t):
    """Whether a tile has points inside O and outside of it."""
    points = inside(BOXES[t])
    held = [O[0] <= x <= O[2] and O[1] <= y <= O[3] for x, y in points]
    return any(held) and not all(held)


def sentences():
    """What the page says in words of this town, with the numbers of the engine."""
    near_of = lambda point, t: near(point, BOXES[t])
    far_of = lambda point, t: far(point, BOXES[t])
    every = [(x, y) for x in range(O[0], O[2] + 1) for y in range(O[1], O[3] + 1)]
    largest, least = max(far_of(p, 1) for p in every), min(near_of(p, 4) for p in every)
    compared = sum(MARGINS[a, b] < 0 or MARGINS[b, a] < 0 for a, b in itertools.combinations(ALL, 2))
    pairs = len(ALL) * (len(ALL) - 1) // 2
    corners = ", ".join(f"{far_of(c, 1)} < {near_of(c, 4)}" for c in CORNERS)
    assert strike(FILE, O, 5)[4:6] == bytes([0, 1])
    end_0, end_1 = [walk(i)[-1][0] for i in (0, 1)]
    assert numbers_exchanged()[1][1] == 40 and far((0, 0), (3, 2) * 2) == far((0, 0), (-3, -2) * 2) == 13
    assert margin((0, 0, 10, 0), (20, 0, 30, 0), (30, 0, 70, 0)) == 0 and end_1 == (25, 0)
    assert MARGINS[1, 2] >= 0 and far(middle(), BOXES[1]) < near(middle(), BOXES[2])
    return [
        f"has {len(MARKS)} tiles and {sum(SITES)} sites, {sum(COUNTS)} of them sounding. Stop 0 is at {spot(STOPS[0])},"
        f" stop 1 at {spot(STOPS[1])}",
        f"Then the sixth place of stop 0 is {place(muted_counted())}.",
        f"the closest point is (-3,-2), so near is 9 + 4 = {near_of((0, 0), 3)}. The farthest is (-9,-4),"
        f" so far is 81 + 16 = {far_of((0, 0), 3)}.",
        f"9 - 16 = {on_axis(0, 0, BOXES[1], BOXES[4])}. With o = 6 they are 2 and -4, and"
        f" 16 - 100 = {on_axis(0, 6, BOXES[1], BOXES[4])}.",
        f"With o = 0 it is 4 - 0 = {on_axis(1, 0, BOXES[1], BOXES[4])}, with o = 2 it is"
        f" 1 - 0 = {on_axis(1, 2, BOXES[1], BOXES[4])}.",
        f"The margin is -7 + 4 = {MARGINS[1, 4]}, below 0: tile 1 is nearer than tile 4.",
        f"In the fourth row both ends of O give {on_axis(1, 0, BOXES[4], BOXES[5])} on y",
        f"Far of tile 1 is largest from (6,0), where it is {largest}. Near of tile 4 is least from (0,0), where it is"
        f" {least}. {largest} is not below {least}",
        f"From (6,0) it is {far_of((6, 0), 1)} against {near_of((6, 0), 4)}, from (0,0) it is"
        f" {far_of((0, 0), 1)} against {near_of((0, 0), 4)}. The margin is {MARGINS[1, 4]}.",
        f"But from 0 it is {far((0, 0), (20, 0, 30, 0))} against {near((0, 0), (31, 0, 70, 0))}, from 10 it is"
        f" {far((10, 0), (20, 0, 30, 0))} against {near((10, 0), (31, 0, 70, 0))}, and the margin is"
        f" {margin((0, 0, 10, 0), (20, 0, 30, 0), (31, 0, 70, 0))}.",
        f"In the table of step 1, tile 1 against tile 4: {corners}.",
        f"the margin is -41 + 36 = {raised(6)}: E is still nearer. If E is 7 above, it is 49, the margin is {raised(7)},",
        f"Tile 1 against tile 3: {far_of((0, 0), 1)} < {near_of((0, 0), 3)} does not hold.",
        f"The middle is {spot(middle())}. From there far of tile 1 is {far_of(middle(), 1)} and near of tile 2 is"
        f" {near_of(middle(), 2)}",
        f"from stop 1, near of tile 2 is {near_of((6, 2), 2)} and near of tile 1 is {near_of((6, 2), 1)}.",
        f"The margin is {MARGINS[1, 2]}: not nearer.",
        f"From the middle, 5, it is {far((5, 0), (0, 0) * 2)} against {near((5, 0), (15, 0) * 2)}. But from 10 it is"
        f" {far((10, 0), (0, 0) * 2)} against {near((10, 0), (15, 0) * 2)}, and the margin is"
        f" {margin((0, 0, 10, 0), (0, 0) * 2, (15, 0) * 2)}.",
        f"The margin of tile 1 and tile 3 is {MARGINS[1, 3]}.",
        f"(3,2) and (-3,-2) are both at {near((0, 0), (3, 2) * 2)} from (0,0).",
        f"From 0 it is {far((0, 0), (20, 0, 30, 0))} against {near((0, 0), (30, 0, 70, 0))}, from 10 it is"
        f" {far((10, 0), (20, 0, 30, 0))} against {near((10, 0), (30, 0, 70, 0))}: the margin is"
        f" {margin((0, 0, 10, 0), (20, 0, 30, 0), (30, 0, 70, 0))}.",
        zero_counted(),
        f"The margin of tiles 1 and 2 is {MARGINS[1, 2]}, that of tiles 2 and 1 is {MARGINS[2, 1]}."
        f" Of the {pairs} pairs of tiles in this town, {compared} can be compared and {pairs - compared} cannot.",
        f"stop 0 ends at the key ({end_0[0]}, {end_0[1]}). Tile 4 would have the key ({near_of((0, 0), 4)}, 4),"
        f" tile 5 the key ({near_of((0, 0), 5)}, 5).",
        f"the keys in their order are {', '.join(f'({n}, {t})' for n, t in keys(STOPS[0]))}.",
        f"with near from (6,2): {', '.join(f'({n}, {t})' for n, t in keys(STOPS[1]))}.",
        f"near of tile 1 is {near_of((0, 0), 1)}, so it may have sites at a smaller D than"
        f" {' and '.join(str(p[0]) for p in after([0], (0, 0), K))}.",
        f"the next key is ({end_0[0]}, {end_0[1]}), and the places are {' and '.join(map(place, LISTS[0]))}.",
        f"the sites (-3,2) of tile 0 and (3,2) of tile 1 are both at {both_at((0, 0), (-3, 2), (3, 2))}",
        f"the sites (2,1) of tile 1 and (10,3) of tile 2 are both at {both_at((6, 2), (2, 1), (10, 3))}",
        f"The least D that the site of tile 3 can have from stop 0 is {near_of((0, 0), 3)}, at (-3,-2), and there it"
        f" ranks behind {place(LISTS[0][1])}. From stop 1 its least D is {near_of((6, 2), 3)}.",
        *of_levels(),
        *of_sequences(),
        f"For the site of tile 4 it is {near_of((0, 0), 4)} from stop 0 and {near_of((6, 2), 4)} from stop 1, for that"
        f" of tile 5 it is {near_of((0, 0), 5)} and {near_of((6, 2), 5)}.",
    ]  # fmt: skip


# ---- a second opinion: the words of the page, by trying all points and all sites


def inside(box):
    return list(itertools.product(range(box[0], box[2] + 1), range(box[1], box[3] + 1)))


def squared(p, q):
    return (p[0] - q[0]) ** 2 + (p[1] - q[1]) ** 2


def second_opinion():
    from_o = {(o, t): [squared(o, q) for q in inside(BOXES[t])] for o in inside(O) for t in ALL}
    for (o, t), distances in from_o.items():
        assert (near(o, BOXES[t]), far(o, BOXES[t])) == (min(distances), max(distances))
    for (e, b), held in MARGINS.items():
        assert held == max(max(from_o[o, e]) - min(from_o[o, b]) for o in inside(O))
    left = list(ALL)
    for t in order(FILE, O):
        nearer = lambda e, b: all(max(from_o[o, e]) < min(from_o[o, b]) for o in inside(O))
        assert t == min(b for b in left if not any(nearer(e, b) for e in left))
        left.remove(t)
    for k in range(1, 11):
        for stop, listed_places in zip(STOPS, join(FILE, STOPS, k).lists):
            every = [(squared(stop, s), 40 * t + i, s[2]) for t in ALL for i, s in enumerate(TILES[t][1]) if s[2] != 0]
            assert listed_places == sorted(every)[:k]


# ---- what the page says of tiles that are not opened


def unread():
    """Every filling of a tile that is not opened, and any bytes in its block, leave lists and marks as they are."""
    tried = 0
    shut = [t for t in ALL if MARKS[t] != 2]
    for t in shut:
        assert SITES[t] <= 1
        for x, y in inside(BOXES[t]) if SITES[t] else []:
            assert join(refilled(t, 0, (x, y, 99 if COUNTS[t] else 0)), STOPS, K) == ANSWER
            tried += 1
    for byte in (0, 1, 255):
        file = bytearray(FILE)
        for t in shut:
            file[512 * (t + 1) : 512 * (t + 2)] = bytes([byte]) * 512
        assert join(file, STOPS, K) == ANSWER and refusal(ENGINE.validate, file) != (0, 0)
        tried += 1
    for t in marked(ALL, MARKS, 2):
        file = bytearray(FILE)
        file[512 * (t + 1)] ^= 1
        assert refusal(join, file, STOPS, K) == (2, t + 1)
        tried += 1
    return tried


# ---- the names of theorems


def names(page):
    """`crate: name` of a page: each has to be proved in that crate."""
    found = set(re.findall(r"`([a-z]+): ([a-z0-9_-]+)`", page)) - {("crate", "name")}
    for crate, name in sorted(found):
        proofs = (ROOT / "crates" / crate).glob("proofs/**/*.antt")
        if not any(re.search(rf"^ *(pub )?{re.escape(name)} :", proof.read_text(), re.M) for proof in proofs):
            sys.exit(f"why: docs/WHY.md names {crate}: {name}, which is not in crates/{crate}/proofs")
    return len(found)


def main(arguments):
    page = PAGE.read_text()
    if (ROOT / "samples" / "crossing.town").read_bytes() != FILE:
        sys.exit("why: samples/crossing.town is not the file of samples/crossing.txt")
    for name, make in TABLES.items():
        parts = re.split(rf"(<!-- table: {re.escape(name)} -->\n\n)((?:\|.*\n)*)", page)
        if len(parts) != 4:
            sys.exit(f"why: docs/WHY.md has not just one table '{name}'")
        made = "".join(line + "\n" for line in make())
        if arguments == ["--write"]:
            page = parts[0] + parts[1] + made + parts[3]
        elif parts[2] != made:
            sys.exit(f"why: table '{name}' of docs/WHY.md is not what the engine's answers give:\n{made}")
    if len(re.findall("<!-- table: ", page)) != len(TABLES):
        sys.exit("why: docs/WHY.md has a table that this test does not know")
    if arguments == ["--write"]:
        PAGE.write_text(page)
    second_opinion()
    words = " ".join(page.split())
    said = sentences()
    for sentence in said:
        if sentence not in words:
            sys.exit(f"why: docs/WHY.md does not say: {sentence}")
    print(
        f"why: {len(TABLES)} tables and {len(said)} sentences of docs/WHY.md are the engine's,"
        f" {unread()} changed files do as it says, {names(page)} theorems found"
    )


main(sys.argv[1:])
