#!/usr/bin/env python3
"""Compares every answer of docs/EXERCISES.md with the engine.

The towns are read from the document's own commands (`printf .. > target/class/NAME.txt`), the answers from its tables
and sentences; what they should say is asked of target/lib/libnearby.so, which `make lib` makes. What a mistaken program
would answer comes from a small model of the join with that mistake put in; without a mistake the model has to agree
with the engine. The commands themselves are run by tests/documents.py. What exercise 6 shows of the prover is compared
with what `rt check` says to the same edit in a copy of the crates, which lies outside of the repository and is removed
again. This is done with --gate only, since it takes its time; else that part is left out, with a word. What
CONTRIBUTING.md says of the repository's files is looked at too.

use: exercises.py [--gate] [DOCUMENT]
"""
import re
import shutil
import subprocess
import sys
import tempfile
from fractions import Fraction
from pathlib import Path

ROOT = Path(__file__).resolve().parent.parent
sys.dont_write_bytecode = True
sys.path.insert(0, str(ROOT / "tools"))

from towns.engine import Engine, NoLibrary, Refused, refusal  # noqa: E402
from towns.text import parse  # noqa: E402

LIBRARY = ROOT / "target/lib/libnearby.so"
EDIT = ROOT / "crates/serve/must-fail/ends_at_k_sites.edit"
SLOTS = 40
BLOCK = 512


class Wrong(Exception):
    """An answer that is not the engine's, or a document that cannot be read."""


# ---- the engine


class Asked(Engine):
    """The engine; a town or a box that it does not take is Wrong."""

    def write(self, tiles):
        try:
            return super().write(tiles)
        except Refused as refused:
            raise Wrong(f"a town is refused by the writer with {refused.number}") from None

    def margin(self, o, e, b):
        try:
            return super().margin(o, e, b)
        except ValueError:
            raise Wrong(f"one of {o}, {e}, {b} is no box") from None

    def opened_in_order(self, file, stops, k):
        """The tiles that a run opens, in their order: every tile is damaged, and the run is refused at the first that
        it opens; that one is mended, and so on, until the run answers."""
        first = len(file) // BLOCK - len(self.join(file, stops, k).marks)
        damaged = bytearray(file)
        for at in range(first * BLOCK, len(file), BLOCK):
            damaged[at] ^= 1
        order = []
        while (refused := refusal(self.join, damaged, stops, k)) != (0, 0):
            damaged[refused[1] * BLOCK] ^= 1
            order.append(refused[1] - first)
        return order


# ---- the model of the join, which a mistake can be put into


def around(stops):
    xs, ys = [x for x, _ in stops], [y for _, y in stops]
    return min(xs), min(ys), max(xs), max(ys)


def ahead(place, key):
    return (place[0], place[1] // SLOTS) < key


def sounding(sites):
    return sum(cue != 0 for _, _, cue in sites)


class Model:
    """The join, with the test of nearer, the sites that striking adds up and the test that ends a stop as they should
    be."""

    def __init__(self, engine):
        self.engine = engine

    def nearer(self, o, e, b):
        return self.engine.margin(o, e, b) < 0

    def counted(self, sites):
        return sounding(sites)

    def ends(self, found, k, key):
        return sum(ahead(place, key) for place in found) >= k

    def join(self, town, k, stops):
        """T, the numbers of opened and struck tiles, and the lists."""
        o = around(stops)
        struck = [sum(self.counted(sites) for e, sites in town if self.nearer(o, e, b)) >= k for b, _ in town]
        opened, lists = set(), []
        for stop in stops:
            found = []
            waiting = [(self.engine.near(stop, box), tile) for tile, (box, sites) in enumerate(town)
                       if sounding(sites) and not struck[tile]]
            for key in sorted(waiting):
                if self.ends(found, k, key):
                    break
                tile = key[1]
                opened.add(tile)
                found = sorted(found + [((x - stop[0])**2 + (y - stop[1])**2, tile * SLOTS + slot, cue)
                                        for slot, (x, y, cue) in enumerate(town[tile][1]) if cue != 0])
            lists.append(found[:k])
        return len(town), len(opened), sum(struck), lists


class FarAgainstNear(Model):
    def nearer(self, o, e, b):
        points = [(x, y) for x in range(o[0], o[2] + 1) for y in range(o[1], o[3] + 1)]
        return max(self.engine.far(p, e) for p in points) < min(self.engine.near(p, b) for p in points)


class OnlyTheMiddle(Model):
    def nearer(self, o, e, b):
        middle = ((o[0] + o[2]) // 2, (o[1] + o[3]) // 2)
        return self.engine.far(middle, e) < self.engine.near(middle, b)


class EndsWhenFound(Model):
    def ends(self, found, k, key):
        return len(found) >= k


class ZeroIsNearer(Model):
    def nearer(self, o, e, b):
        return self.engine.margin(o, e, b) <= 0


class MutedCounted(Model):
    def counted(self, sites):
        return len(sites)


# ---- the document


def town_of(lines):
    source, faults = parse("\n".join(lines))
    read = {*source.tile_lines, *sum(source.site_lines, [])} - {fault.line for fault in faults}
    for number, line in enumerate(lines, 1):
        if number not in read:
            raise Wrong(f"neither a tile nor a site: {line}")
    return source.tiles


class Document:
    """A document in sections, each with its own text and tables."""

    def __init__(self, path):
        self.sections, heading, fenced = {}, "", False
        text = path.read_text(encoding="utf-8")
        for line in text.splitlines():
            fenced ^= line.startswith("```")
            if line.startswith("#") and not fenced:
                heading = line.lstrip("# ")
            else:
                self.sections.setdefault(heading, []).append(line)
        printed = re.compile(r"^\$ printf '%s\\n' (.*?)> target/class/(\w+)\.txt$", re.M | re.S)
        self.towns = {name: town_of(re.findall(r"'([^']*)'", lines)) for lines, name in printed.findall(text)}

    def lines(self, heading):
        if heading not in self.sections:
            raise Wrong(f"there is no part `{heading}`")
        return self.sections[heading]

    def town(self, name):
        if name not in self.towns:
            raise Wrong(f"there is no command that makes target/class/{name}.txt")
        return self.towns[name]

    def tables(self, heading):
        """The rows of each table, as lists of cells, without its head."""
        tables, before = [], ""
        for line in self.lines(heading):
            if line.startswith("|"):
                if not before.startswith("|"):
                    tables.append([])
                tables[-1].append([cell.strip() for cell in line.strip("|").split("|")])
            before = line
        return [rows[2:] for rows in tables]

    def says(self, heading, sentence):
        words = " ".join(" ".join(self.lines(heading)).split())
        if sentence not in words:
            raise Wrong(f"`{heading}` does not say: {sentence}")


def same(what, shown, found):
    if shown != found:
        raise Wrong(f"{what}\n  the document: {shown}\n  the engine:   {found}")


def listed(places):
    return "; ".join(" ".join(str(number) for number in place) for place in places)


def yes(test):
    return "yes" if test else "no"


# ---- the exercises


def margins(engine, document):
    heading = "Answer 1"
    by_m, by_y = document.tables(heading)
    o, e = (0, 0, 10, 0), (20, 0, 30, 0)

    def difference(at, b):
        far, near = engine.far((at, 0), e), engine.near((at, 0), b)
        return f"{far} - {near} = {far - near}"

    def row(m):
        box = (m, 0, 70, 0)
        margin = engine.margin(o, e, box)
        return [str(m), difference(0, box), difference(10, box), str(margin), yes(margin < 0)]

    same("the margins of exercise 1", by_m, [row(m) for m in (31, 29, 30)])
    starts = range(-20, 71)
    least = min(m for m in starts if engine.margin(o, e, (m, 0, 70, 0)) < 0)
    document.says(heading, f"The least m for which E is nearer is {least}.")
    ends = [[engine.margin((at, 0, at, 0), e, (m, 0, 70, 0)) for at in (0, 10)] for m in starts]
    gains = [low - high for low, high in ends]
    for m, found in zip(starts, ends):
        line = [900 - m * m + 2 * (m - 30) * at for at in (0, 10)]
        same(f"the formula of exercise 1 for m = {m}", found == line, m >= 10)
        same(f"below 10, m = {m}", found[0] > 800 and found[1] == 400, m < 10)
    document.says(heading, "For m of 10 or more, the difference at a point o is (30 - o)² - (m - o)² = 900 - m² +"
                  " 2 × (m - 30) × o: a straight line in o")
    document.says(heading, "Below 10, the high end gives 400 and the low end more than 800.")
    equal = starts[gains.index(0)]
    same("the ends of O in exercise 1", [gain > 0 for gain in gains], [m < equal for m in starts])
    document.says(heading, f"Below {equal} the low end gives more, above {equal} the high end, and at {equal} both")

    def with_y(high):
        boxes = (0, 0, 10, high), (20, 0, 30, high), (31, 0, 70, high)
        flat = (0, 0, 0, high)
        axes = engine.margin(o, e, (31, 0, 70, 0)), engine.margin(flat, flat, flat)
        return [f"0..{high}", *map(str, axes), str(engine.margin(*boxes)), yes(engine.margin(*boxes) < 0)]

    same("the margins with y of exercise 1", by_y, [with_y(high) for high in (0, 4, 7)])
    document.says(heading, f"{4 * 4} - 0 and {7 * 7} - 0.")


def one_stop(engine, document):
    heading, town, stop, k = "Answer 2", document.town("harbour"), (0, 0), 2
    file = engine.write(town)
    joined = engine.join(file, [stop], k)
    marks = joined.marks
    tiles, steps = document.tables(heading)
    point = (*stop, *stop)

    def tile_row(tile):
        box, sites = town[tile]
        nearer = [e for e, (other, _) in enumerate(town) if engine.margin(point, other, box) < 0]
        return [str(tile), str(engine.near(stop, box)), str(engine.far(stop, box)), str(len(sites)),
                ", ".join(map(str, nearer)) or "none", str(sum(len(town[e][1]) for e in nearer)), yes(marks[tile] == 1)]

    same("the tiles of exercise 2", tiles, [tile_row(tile) for tile in range(len(town))])

    # The list after an opening is what the engine answers for the opened tiles alone, the others being empty.
    queue = sorted((engine.near(stop, box), tile) for tile, (box, sites) in enumerate(town)
                   if sites and marks[tile] != 1)
    document.says(heading, f"The tiles {', '.join(str(tile) for tile in sorted(t for _, t in queue))} wait:")
    opened = engine.opened_in_order(file, [stop], k)
    same("the order of opening in exercise 2", [tile for _, tile in queue][:len(opened)], opened)
    found, rows = [], []
    for at, (near, tile) in enumerate(queue[:len(opened) + 1]):
        count = sum(ahead(place, (near, tile)) for place in found)
        then = "the stop ends"
        if at < len(opened):
            then = f"tile {tile} is opened"
            seen = [(box, sites if number in opened[:at + 1] else []) for number, (box, sites) in enumerate(town)]
            found = engine.join(engine.write(seen), [stop], k).lists[0]
        rows.append([f"{near}, {tile}", str(count), then, listed(found)])
    same("the steps of exercise 2", steps, rows)
    same("the list of exercise 2", found, joined.lists[0])
    document.says(heading, f"Marks: {', '.join(map(str, marks))}.")
    (empty,) = [tile for tile, (_, sites) in enumerate(town) if not sites and marks[tile] == 1]
    document.says(heading, f"Tile {empty} is empty, and struck all the same")
    same("the counts of exercise 2", [marks.count(2), marks.count(1)], [joined.opened, joined.struck])


def changes(engine, document):
    heading, stop, k = "Answer 3", (0, 0), 2
    (rows,) = document.tables(heading)
    harbour, struck = document.town("harbour"), []

    def ask(tile, sites):
        town = [(box, sites if number == tile else held) for number, (box, held) in enumerate(harbour)]
        joined = engine.join(engine.write(town), [stop], k)
        struck.append({number for number, mark in enumerate(joined.marks) if mark == 1})
        return [listed(joined.lists[0]), str(joined.opened), str(joined.struck)]

    # What the exercise says in words: the tile, and its sites after the change.
    asked = [(4, "-4 9 40"), (6, "-2 -6 60; -6 -8 61"), (1, "-4 3 20; -5 3 21"), (2, "3 -4 30"), (2, "0 -3 30"),
             (1, "-4 3 0")]
    found = [[str(number), str(tile), sites, *ask(tile, [tuple(map(int, site.split())) for site in sites.split(";")])]
             for number, (tile, sites) in enumerate(asked, 1)]
    same("the changes of exercise 3", rows, found)
    (new,) = struck[2] - struck[0]
    document.says(heading, f"Tile 1 has two sites now, and it is nearer than tile {new}: tile {new} is struck.")
    document.says(heading, f"Tiles {' and '.join(map(str, sorted(struck[0] - struck[5])))} are no longer struck")
    same("the tiles that tile 6 is nearer than, exercise 3",
         [], [tile for tile, (box, _) in enumerate(harbour) if engine.margin((*stop, *stop), harbour[6][0], box) < 0])

    document.says(heading, f"its far is {engine.far(stop, harbour[6][0])}.")
    document.says(heading, f"the new site is at D = {engine.near(stop, (-5, 3, -5, 3))},")
    document.says(heading, f"(3,-4) is at D = {engine.near(stop, (3, -4, 3, -4))} too")
    document.says(heading, f"(-3,4), at D = {engine.near(stop, harbour[4][0])}, where the site stands already")
    same("the site of tile 4, exercise 3", [(-3, 4, 40)], harbour[4][1])

    usual = ask(4, harbour[4][1])
    low_x, low_y, high_x, high_y = harbour[4][0]
    for x in range(low_x, high_x + 1):
        for y in range(low_y, high_y + 1):
            same(f"the site of tile 4 at ({x},{y}), exercise 3", usual, ask(4, [(x, y, 99)]))
    file = engine.write(harbour)
    same("the damaged byte of exercise 3", 0, file[2600])
    damaged = file[:2600] + b"\1" + file[2601:]
    same("the answer for a damaged tile, exercise 3", listed(engine.join(damaged, [stop], k).lists[0]), usual[0])
    number, block = refusal(engine.validate, damaged)
    same("the full check of exercise 3", 3, number)
    document.says(heading, f"and refuses the file at block {block}:")


def mistakes(engine, document):
    both, first = [(0, 0), (10, 0)], [(0, 0)]
    asked = [("Answer 4.1", 0, "far", FarAgainstNear, 1, both), ("Answer 4.2", 0, "middle", OnlyTheMiddle, 1, both),
             ("Answer 4.3", 0, "found", EndsWhenFound, 1, first), ("Answer 4.3", 1, "harbour", EndsWhenFound, 2, first),
             ("Answer 4.4", 0, "zero", ZeroIsNearer, 1, both), ("Answer 4.4", 1, "exchanged", ZeroIsNearer, 1, both),
             ("Answer 4.5", 0, "counted", MutedCounted, 2, first)]
    for heading, number, name, mistaken, k, stops in asked:
        town = document.town(name)
        joined = engine.join(engine.write(town), stops, k)
        answer = (len(joined.marks), joined.opened, joined.struck, joined.lists)
        same(f"the model without a mistake on {name}", Model(engine).join(town, k, stops), answer)
        wrong = mistaken(engine).join(town, k, stops)
        rows = [[who, *map(str, held[:3]), *map(listed, held[3])]
                for who, held in (("the engine", answer), ("the mistaken program", wrong))]
        tables = document.tables(heading)
        same(f"the table of {name}, {heading}", tables[number] if number < len(tables) else [], rows)
        if wrong == answer:
            raise Wrong(f"{heading}: on {name} the mistake does not show")

    o = around(both)
    (e, _), (b, _) = document.town("far")
    document.says("Answer 4.1", f"It compares {max(engine.far(stop, e) for stop in both)} (from 0 to 30) with "
                  f"{min(engine.near(stop, b) for stop in both)} (from 10 to 31)")
    document.says("Answer 4.1", f"the margin is {engine.margin(o, e, b)}.")
    (e, _), (b, _) = document.town("middle")
    for stop, words in (((5, 0), "From the middle, (5,0),"), ((10, 0), "From the stop at (10,0)")):
        document.says("Answer 4.2", f"{words} tile 0 is at D = {engine.near(stop, e)}"
                      f" and tile 1 at D = {engine.near(stop, b)}")
    (first_box, [held]), (second_box, _) = document.town("found")
    document.says("Answer 4.3", f"near of tile 0 is {engine.near((0, 0), first_box)}, and it is taken first; its one"
                  f" site is at D = {engine.near((0, 0), held[:2] * 2)}. But near of tile 1 is"
                  f" {engine.near((0, 0), second_box)},")


def check(engine, document):
    question = document.tables("5. A check by hand")[0][0]
    numbers = [0, 1, 2, 4, 16, 20, 24]
    block = bytearray(BLOCK)
    for at, byte in zip(numbers, question[1:]):
        block[at] = int(byte)
    file = engine.write(document.town("check"))
    same("the block of exercise 5", bytes(file[BLOCK:BLOCK + 510]), bytes(block[:510]))
    heading = "Answer 5"
    runs, wrong, turned = document.tables(heading)

    def sums(counted):
        a = c = 0
        for byte in counted:
            a = (a + byte) % 255
            c = (c + a) % 255
        return [a, c]

    found, total = [], 0
    starts = [at for at in numbers if at]
    for first, after in zip(starts, starts[1:] + [510]):
        a = sum(block[1:first + 1])
        found.append([f"{first}..{after - 1}", str(a), str(after - first), str(a * (after - first))])
        total += a * (after - first)
    same("the runs of exercise 5", runs, found)
    a, c = sums(block[1:510])
    same("the check of exercise 5", [a, c], list(file[BLOCK + 510:BLOCK + 512]))
    document.says(heading, f"So a is {a}. The last column adds up to {total} = {total // 255} × 255 + {c}: c is {c}.")

    summed = {"bytes 1 to 509": block[1:510], "bytes 0 to 509": block[:510], "bytes 1 to 511": block[1:],
              "bytes 1 to 509 without 2 and 3": block[1:2] + block[4:510]}
    same("the sums of exercise 5", sorted(summed), sorted(row[0] for row in wrong))
    for words, *shown in wrong:
        sum_a, sum_c = sums(summed[words])
        number = engine.block_check(bytes(block[:510]) + bytes([sum_a, sum_c]))
        same(f"{words}, exercise 5", shown, [str(sum_a), str(sum_c), str(number)])

    same("the bytes that turn, exercise 5", [row[0] for row in turned], ["12", "17", "25"])
    for byte, _, number, _ in turned:
        damaged = bytearray(file)
        same(f"byte {byte} of exercise 5", 0, damaged[BLOCK + int(byte)])
        damaged[BLOCK + int(byte)] = 255
        same(f"the block check with byte {byte} turned", 0, engine.block_check(bytes(damaged[BLOCK:2 * BLOCK])))
        same(f"the full check with byte {byte} turned", number, str(refusal(engine.validate, damaged)[0]))
    document.says(heading, f"x is {block[16] + 255 * 256}, outside the box")
    copied = file[:2 * BLOCK] + file[BLOCK:2 * BLOCK] + file[3 * BLOCK:]
    same("the copied block of exercise 5", (5, 2, 0),
         (*refusal(engine.validate, copied), engine.block_check(copied[2 * BLOCK:3 * BLOCK])))

    def late(start):
        """The most bytes of 255 that c takes from there in 16 bits, and c with them and with one more."""
        a = c = start
        for n in range(510):
            if c + a + 255 >= 1 << 16:
                return n, c, c + a + 255
            a, c = a + 255, c + a + 255

    (n, fits, over), (more, fits_0, over_0) = late(254), late(0)
    document.says(heading, f"That is {fits:,} for n = {n} and {over:,} for n = {n + 1}: so {n} bytes fit, whatever they"
                  f" are, and {n + 1} need not. From 0 it is {fits_0:,} for n = {more} and {over_0:,} for"
                  f" n = {more + 1}: one byte more.")
    same("one byte more from 0, exercise 5", n + 1, more)
    same("c by the formula of exercise 5", fits, 254 + 254 * n + 255 * n * (n + 1) // 2)
    for file, words in (("src/lanes.rt", f"const MAX_ADDED: usize = {n};"), ("proofs/ChecksumLaws.antt", "within_room"),
                        ("must-fail/reduced_one_byte_too_late.edit", f"MAX_ADDED: usize = {n + 1};")):
        if words not in (ROOT / "crates/blocks" / file).read_text(encoding="utf-8"):
            raise Wrong(f"exercise 5: `{words}` is not in crates/blocks/{file}")


def levels(engine, document):
    heading, reach = "Answer 7", 3
    [rows] = document.tables(heading)
    square = reach * reach

    def heard(d, value, last=100 * square):
        return "silent" if d > last else repr(value)

    found = []
    for d in (0, 1, 9, 27, 891, 900, 901):
        level, under = engine.level(reach, d), square + d
        exact = level is not None and Fraction(level) == Fraction(square, under)
        found.append([str(d), f"{square}/{under}", "" if level is None else yes(exact),
                      "silent" if level is None else repr(level), heard(d, 1 / (1 + d / square)),
                      heard(d, reach / (reach + d)), heard(d, square / under, 100 * square - 1)])
    same("the levels of exercise 7", rows, found)
    document.says("7. A level by hand", "for D = 0, 1, 9, 27, 891, 900 and 901.")
    same("a reach of 0, exercise 7", (18, 0), refusal(engine.level, 0, 5))
    least = next(r for r in range(1, 1_000_000) if r * r / (r * r + 1) == (r + 1) ** 2 / ((r + 1) ** 2 + 1))
    same("two reaches with the same level, exercise 7", engine.level(least, 1), engine.level(least + 1, 1))
    same("the reaches before them, exercise 7", True, all(
        engine.level(r, 1) < engine.level(r + 1, 1) for r in range(least - 1000, least)))
    document.says(heading, f"for D = 1 the least r is {least:,}.")
    theorems = (ROOT / "crates/level/proofs/Theorems.antt").read_text(encoding="utf-8")
    for name in ("falls_strictly", "rises_with_reach"):
        if f"pub {name} :" not in theorems or f"`{name}`" not in " ".join(document.lines(heading)):
            raise Wrong(f"exercise 7: `{name}` is no theorem of level, or is not named")


def taken_in_turn(nearer, chosen):
    """All tiles, where `chosen` says which of the free ones come next, from those left and those free."""
    left, steps = list(range(len(nearer))), []
    while left:
        free = [b for b in left if not nearer[b] & set(left)]
        taken = chosen(left, free)
        steps.append((list(left), free, taken))
        left = [tile for tile in left if tile not in taken]
    return steps


def rounds(nearer):
    """Through the tiles by number, round after round."""
    found = []
    while len(found) < len(nearer):
        for tile in range(len(nearer)):
            if tile not in found and nearer[tile] <= set(found):
                found.append(tile)
    return found


def sequence(engine, document):
    heading, town, o = "Answer 8", document.town("harbour"), (0, -8, 3, -8)
    boxes = [box for box, _ in town]
    measured, steps, programs = document.tables(heading)
    nearer = [{e for e, box in enumerate(boxes) if engine.margin(o, box, b) < 0} for b in boxes]
    numbers = lambda tiles: ", ".join(map(str, sorted(tiles))) or "none"
    in_turn = lambda tiles: ", ".join(map(str, tiles))
    corners = (o[:2], o[2:])
    same("near and far of exercise 8", measured, [
        [str(t), *(f"{engine.near(c, box)}, {engine.far(c, box)}" for c in corners), numbers(nearer[t])]
        for t, box in enumerate(boxes)])
    due = engine.order(engine.write(town), o)
    lowest = taken_in_turn(nearer, lambda left, free: free[:1])
    same("the steps of exercise 8", steps, [[numbers(left), numbers(free), numbers(taken)]
                                            for left, free, taken in lowest])
    same("the sequence of exercise 8", [tile for *_, taken in lowest for tile in taken], due)
    least = [min(engine.near((x, o[1]), box) for x in range(o[0], o[2] + 1)) for box in boxes]
    found = {"the engine": due, "by near": sorted(range(len(town)), key=lambda t: (least[t], t)),
             "all free ones at once": [tile for *_, taken in taken_in_turn(nearer, lambda left, free: free)
                                       for tile in taken],
             "round after round": rounds(nearer)}
    before = lambda tiles: any(nearer[b] & set(tiles[at + 1:]) for at, b in enumerate(tiles))
    same("the programs of exercise 8", programs, [[name, in_turn(tiles), yes(before(tiles))]
                                                  for name, tiles in found.items()])
    same("three others than the engine's, exercise 8", 4, len(set(map(tuple, found.values()))))
    from_one = {t for t, box in enumerate(boxes) if engine.margin(o[:2] * 2, boxes[6], box) < 0}
    same("from one corner alone, exercise 8", {0, 5}, from_one - {t for t, held in enumerate(nearer) if 6 in held})
    far_6 = engine.far(o[2:], boxes[6])
    document.says(heading, f"{far_6} is not below {engine.near(o[2:], boxes[0])} or {engine.near(o[2:], boxes[5])}.")
    again = engine.order(engine.write([town[tile] for tile in due]), o)
    document.says(heading, f"So the new town's sequence is {in_turn(again)}.")


def errors_stand(lines):
    """The number of errors shown. Each stands in the declaration that it names."""
    errors = [error.groups() for line in lines if (error := re.match(r"(\S+):(\d+):\d+: error: `([^`]+)`", line))]
    for file, line, name in errors:
        text = (ROOT / file).read_text(encoding="utf-8")
        declared = set(re.findall(r"^ *(?:pub |abbrev )*([\w-]+) : ", text, re.M))
        words = [re.sub(r"^ *(pub |abbrev )*", "", above).split(" ")[0] for above in text.splitlines()[:int(line)]]
        same(f"line {line} of {file}", name, [word for word in words if word in declared][-1])
    return len(errors)


def functions_of_goals(lines):
    """The functions at whose source lines the open goals shown stand."""
    found = []
    for line in lines:
        if goal := re.match(r"note: (\S+):(\d+):\d+: it is not proved ", line):
            source = (ROOT / goal[1]).read_text(encoding="utf-8").splitlines()
            at = int(goal[2])
            while source[at - 1].startswith("#["):
                at += 1
            found.append(re.findall(r"\bfn (\w+)", "\n".join(source[:at]))[-1])
    return found


def entries(lines):
    """What the prover says, an entry with the lines that go on in one line."""
    joined = []
    for line in lines:
        if line.startswith("  ") and joined:
            joined[-1] += " " + line
        else:
            joined.append(line)
    return [" ".join(entry.split()) for entry in joined]


def said_by_prover(crate, file, text):
    """The entries that the prover prints for a crate one of whose files has another text."""
    with tempfile.TemporaryDirectory(prefix="nearby-exercise-") as room:
        copy = Path(room) / "crates"
        shutil.copytree(ROOT / "crates", copy, ignore=shutil.ignore_patterns("out", "must-fail"))
        shutil.copy(ROOT / "crates.txt", room)
        (copy / crate / file).write_text(text, encoding="utf-8")
        run = subprocess.run(["rt", "check"], cwd=copy / crate, stdin=subprocess.DEVNULL, stdout=subprocess.PIPE,
                             stderr=subprocess.STDOUT, encoding="utf-8", errors="replace", check=False)
    if run.returncode != 1:
        raise Wrong(f"`rt check` of {crate} with the edit of exercise 6 ends with {run.returncode}:\n{run.stdout}")
    return entries(re.sub(r"(?m)^\./", f"crates/{crate}/", run.stdout).splitlines())


def as_the_prover_says(document, shown, found):
    """Every entry shown is one that the prover printed, in its order; `..` stands for what is cut."""
    rest = iter(found)
    for entry in entries(shown):
        words = ".*".join(re.escape(part.strip()) for part in entry.split(".."))
        whole = re.compile(words + ".*" if ": error: " in entry else words)
        if not any(whole.fullmatch(said) for said in rest):
            raise Wrong(f"exercise 6 shows what the prover does not say, or not in this order:\n  {entry}")
    errors = [error.groups() for said in found if (error := re.match(r"\S+: error: `([^`]+)`: (.*)", said))]
    own = [name for name, why in errors if "was not admitted" not in why]
    document.says("Answer 6", f"{' and '.join(f'`{name}`' for name in own)} fail because of the edit.")
    same("the functions that are not proved, exercise 6",
         [said for said in found if re.match("fn .*: (not proved|no proof)", said)],
         [entry for entry in entries(shown) if re.match("fn .*: (not proved|no proof)", entry)])


def wrong_program(document, gate):
    """The edit is the one of the repository and fits, each error stands in the answer that it names, and the prover
    says what is shown."""
    heading = "6. A wrong program, and what the prover says"
    lines = [line[4:] for line in document.lines(heading) if line.startswith("    ")]
    edit = EDIT.read_text(encoding="utf-8").splitlines()
    same("the edit of exercise 6", lines[:len(edit)], edit)
    file, old, new = (line.partition(": ")[2] for line in edit[1:4])
    source = (ROOT / "crates/serve" / file).read_text(encoding="utf-8")
    same("how often the `old` text occurs, exercise 6", 1, source.count(old))
    same("the number of errors shown, exercise 6", 2, errors_stand(lines))
    shown = lines[[line.startswith("crates/") for line in lines].index(True):]
    if gate:
        as_the_prover_says(document, shown, said_by_prover("serve", file, source.replace(old, new)))
    else:
        print("exercises: what the prover says to the edit of exercise 6 is compared with --gate")


def contributing(path):
    """The files that CONTRIBUTING.md names are there, and the edit that it shows is that of the code, as is the function
    whose goal it shows open."""
    text = path.read_text(encoding="utf-8")
    named = re.findall(r"`((?:crates|tests|docs|include|bench)/[\w./-]+)`", text)
    missing = [name for name in named if not re.search(r"NAME|FILE|\.\.", name) and not (ROOT / name).exists()]
    same("files that CONTRIBUTING.md names and that are not there", missing, [])
    lines = [line[4:] for line in text.splitlines() if line.startswith("    ")]
    edit = (ROOT / "crates/search/must-fail/k_limit.edit").read_text(encoding="utf-8").splitlines()
    if not any(lines[at:at + len(edit)] == edit for at in range(len(lines))):
        raise Wrong("CONTRIBUTING.md does not show the edit k_limit as it is")
    same("the open goals shown, CONTRIBUTING.md", ["valid_k"], functions_of_goals(lines))


def main(words):
    gate = "--gate" in words
    words = [word for word in words if word != "--gate"]
    if len(words) > 1 or words[:1] in (["-h"], ["--help"]):
        print(__doc__.strip())
        return 0 if words[:1] in (["-h"], ["--help"]) else 2
    try:
        document = Document(Path(words[0]) if words else ROOT / "docs/EXERCISES.md")
        engine = Asked(LIBRARY)
        parts = (margins, one_stop, changes, mistakes, check, levels, sequence)
        for part in parts:
            part(engine, document)
        wrong_program(document, gate)
        contributing(ROOT / "CONTRIBUTING.md")
    except NoLibrary:
        print(f"exercises: {LIBRARY} cannot be loaded; `make lib` makes it", file=sys.stderr)
        return 1
    except (Wrong, Refused, OSError) as wrong:
        print(f"exercises: {wrong}", file=sys.stderr)
        return 1
    except ValueError as wrong:
        print(f"exercises: a table has another shape, or a number cannot be read: {wrong}", file=sys.stderr)
        return 1
    print(f"exercises: the answers of {len(parts) + 1} exercises are the engine's, over {len(document.towns)} towns")
    return 0


if __name__ == "__main__":
    sys.exit(main(sys.argv[1:]))
