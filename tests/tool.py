#!/usr/bin/env python3
"""The tool for towns, as a user runs it: texts, files, damaged files and questions, good and bad.

Answers are compared with a full search made here, with the program, and with one call of the engine for each number.
"""
import itertools
import os
import random
import shutil
import struct
import subprocess
import sys
from fractions import Fraction
from pathlib import Path

ROOT = Path(__file__).resolve().parent.parent
sys.dont_write_bytecode = True
sys.path.insert(0, str(ROOT / "tools"))

from towns import page, text, town, words  # noqa: E402
from towns.ask import ask  # noqa: E402
from towns.engine import Engine, Refused  # noqa: E402

WORK = ROOT / "target/tool"
SAMPLE = ROOT / "samples/riverside.town"
STOPS = ["1200,3000", "2600,3100", "4100,3200", "5600,3200"]
# The last line of a refusal with 16.
MAY_BE_OLD = "if you know that the file is from before muted sites were counted: `renew` writes it again"
NOT_OLD = "no file from before muted sites were counted: the directory has some"
NEVER_OLD = "a file with height is never old"
ALWAYS = f"{NEVER_OLD}: muted sites were always counted there"
# A line above another: tile 0 is the viaduct, tiles 1 and 2 lie below it.
VIADUCT = (b"tile 0 0 800 90 9 900\nsite 10 5 850 7\nsite 80 5 850 0\n"
           b"tile 0 0 0 40 9 60\nsite 10 5 50 8\ntile 50 0 -20 90 9 60\nsite 60 5 0 9\nsite 80 5 -20 4\n")
runs = 0


def run(*arguments, given=b"", tool=ROOT / "tools/town", **environment):
    """Status, standard output and standard error of the tool."""
    global runs
    runs += 1
    done = subprocess.run([str(tool), *map(str, arguments)], input=given, capture_output=True, check=False, cwd=ROOT,
                          env={**os.environ, **environment})
    return done.returncode, done.stdout.decode(), done.stderr.decode()


def same(found, due, what):
    if found != due:
        sys.exit(f"tool: {what}:\nfound {found!r}\ndue   {due!r}")


def holds(truth, what):
    if not truth:
        sys.exit(f"tool: {what}")


# ---- drawn towns -----------------------------------------------------------------------------------------------------
def drawn(rng, most=40, axes=2):
    """A town: boxes that may overlap, be points or lines, and be empty or have muted sites; small numbers, so that
    distances are often equal."""
    span = rng.choice([5, 30, 1000, 1_000_000])
    tiles = []
    for _ in range(rng.randint(1, most)):
        ends = [sorted(rng.randint(-span, span) for _ in range(2)) for _ in range(axes)]
        if rng.random() < 0.6:
            ends = [[low, min(high, low + span // 4)] for low, high in ends]
        box = tuple(end[side] for side in (0, 1) for end in ends)
        count, muted = rng.choice([0, 1, 1, 2, 3, rng.randint(0, 40 if axes == 2 else 30)]), rng.choice([0, 0, 0.4, 1])
        sites = [(*(rng.randint(*end) for end in ends),
                  0 if rng.random() < muted else rng.randint(1, 2**32 - 1)) for _ in range(count)]
        tiles.append(town.Tile(box, sites))
    return span, tiles


def spots(rng, span, count, axes):
    """Drawn stops."""
    return [tuple(rng.randint(-span, span) for _ in range(axes)) for _ in range(count)]


def laid_out(tiles):
    """The file of a town, byte for byte, as docs/FORMAT.md has it."""
    axes = len(tiles[0].box) // 2
    entries, kinds = {2: (24, (1, 2)), 3: (17, (3, 4))}[axes]
    total = len(tiles)
    directory = -(-total // entries)
    blocks = []
    for first in range(0, total, entries):
        held = tiles[first:first + entries]
        payload = b"".join(struct.pack(f"<{2 * axes}iHH", *tile.box, len(tile.sites),
                                       sum(site[-1] == 0 for site in tile.sites)) for tile in held)
        blocks.append(struct.pack("<BBHHH8x", 0xD6, kinds[0], first // entries, len(held), total) + payload)
    for t, tile in enumerate(tiles):
        payload = b"".join(struct.pack(f"<{axes}iI", *site) for site in tile.sites)
        blocks.append(struct.pack("<BBHHH8x", 0xD6, kinds[1], directory + t, len(tile.sites), 0) + payload)
    blocks = [block.ljust(512, b"\0") for block in blocks]
    return b"".join(block[:510] + words.sums(block) for block in blocks)


def sounding(tile):
    """The sites of a tile that are not muted, as slot, spot and cue."""
    return [(slot, spot, cue) for slot, (*spot, cue) in enumerate(tile.sites) if cue != 0]


def squared(one, other):
    return sum((a - b) ** 2 for a, b in zip(one, other))


def full_search(tiles, stop, k):
    ranked = sorted(((squared(spot, stop), 40 * t + slot, cue)
                     for t, tile in enumerate(tiles) for slot, spot, cue in sounding(tile)))
    return ranked[:k]


def near(point, box):
    axes = len(point)
    return sum(max(box[axis] - point[axis], 0, point[axis] - box[axis + axes]) ** 2 for axis in range(axes))


def far(point, box):
    axes = len(point)
    return sum(max(abs(box[axis] - point[axis]), abs(point[axis] - box[axis + axes])) ** 2 for axis in range(axes))


def margin(o, e, b):
    """The largest over the corners of O: there it is far of E less near of B."""
    axes = len(o) // 2
    corners = itertools.product(*(o[axis::axes] for axis in range(axes)))
    return max(far(corner, e) - near(corner, b) for corner in corners)


def smallest_box(stops):
    return (*(min(ends) for ends in zip(*stops)), *(max(ends) for ends in zip(*stops)))


def marks(tiles, stops, k):
    """The join once more: the marks, and for which stop each tile was opened."""
    o = smallest_box(stops)
    struck = {b for b, tile in enumerate(tiles)
              if sum(len(sounding(e)) for e in tiles if margin(o, e.box, tile.box) < 0) >= k}
    opened = {}
    for i, stop in enumerate(stops):
        seen = []
        waits = [t for t, tile in enumerate(tiles) if sounding(tile) and t not in struck]
        for key in sorted((near(stop, tiles[t].box), t) for t in waits):
            if sum((dist, site // 40) < key for dist, site, _ in seen) >= k:
                break
            opened.setdefault(key[1], i)
            seen += [(squared(spot, stop), 40 * key[1] + slot, cue) for slot, spot, cue in sounding(tiles[key[1]])]
    return struck, opened


def sequence(tiles, o):
    """The sequence for streaming: of the tiles left, those that no tile left is nearer than; of these the lowest
    number."""
    nearer = [{e for e, tile in enumerate(tiles) if margin(o, tile.box, b.box) < 0} for b in tiles]
    left, found = set(range(len(tiles))), []
    while left:
        found.append(min(b for b in left if not nearer[b] & left))
        left.remove(found[-1])
    return found


# ---- make and show ---------------------------------------------------------------------------------------------------
def texts():
    target = WORK / "made.town"
    same(run("make", "samples/riverside.txt", target), (0, f"{target}: 24 tiles, 45 sites, 12800 bytes\n", ""), "make")
    same(target.read_bytes(), SAMPLE.read_bytes(), "make makes the sample")
    status, shown, _ = run("show", SAMPLE)
    same((status, shown.splitlines()[:3]), (0, ["# 24 tiles, 45 sites", "tile 0 0 999 999  # tile 0",
                                                "site 74 840 51  # site 0, slot 0"]), "show")
    same(run("make", "-", target, given=shown.encode())[0], 0, "make of what show prints")
    same(target.read_bytes(), SAMPLE.read_bytes(), "show and make give the file again")
    # A line may end in CR LF, and the last one may have no end.
    for given in (shown.replace("\n", "\r\n"), shown.rstrip("\n")):
        target.unlink()
        same(run("make", "-", target, given=given.encode())[0], 0, "make of lines with other ends")
        same(target.read_bytes(), SAMPLE.read_bytes(), "lines with other ends give the same file")
    # Zeros in front, signs, tabs, and anything in a comment.
    zeros = b"0" * 5000
    odd = b"\t tile -" + zeros + b" +0\t \t1 " + zeros + b"1\t#\0\r\f\xff\xef\xbb\xbf# tile\r\n"
    odd += b"#\r\n \t\r\nsite 1 -0 +07 #"
    same(run("make", "-", target, given=odd)[0], 0, "make of an odd text")
    same(run("show", target), (0, "# 1 tile, 1 site\ntile 0 0 1 1  # tile 0\nsite 1 0 7  # site 0, slot 0\n", ""),
         "an odd text as it is meant")
    muted = b"tile 0 0 1 1\nsite 1 0 +00\nsite 1 1 7\ntile 0 0 1 1\ntile 0 0 1 1\nsite 0 0 0\nsite 0 0 0\n"
    same(run("make", "-", target, given=muted), (0, f"{target}: 3 tiles, 4 sites (3 muted), 2048 bytes\n", ""),
         "make of muted sites")
    same(run("show", target),
         (0, "# 3 tiles, 4 sites (3 muted)\ntile 0 0 1 1  # tile 0\nsite 1 0 0  # site 0, slot 0, muted\n"
             "site 1 1 7  # site 1, slot 1\ntile 0 0 1 1  # tile 1, empty\ntile 0 0 1 1  # tile 2, muted\n"
             "site 0 0 0  # site 80, slot 0, muted\nsite 0 0 0  # site 81, slot 1, muted\n", ""), "show of muted sites")
    same(run("check", target),
         (0, f"{target}: good: 3 tiles, 4 sites (3 muted), 4 blocks, 1 of them of the directory\n", ""),
         "check of muted sites")


def texts_with_height():
    target = WORK / "viaduct.town"
    same(run("make", "-", target, given=VIADUCT),
         (0, f"{target}: 3 tiles, 5 sites (1 muted), with height, 2048 bytes\n", ""), "make with height")
    tiles = [town.Tile((0, 0, 800, 90, 9, 900), [(10, 5, 850, 7), (80, 5, 850, 0)]),
             town.Tile((0, 0, 0, 40, 9, 60), [(10, 5, 50, 8)]),
             town.Tile((50, 0, -20, 90, 9, 60), [(60, 5, 0, 9), (80, 5, -20, 4)])]
    same(target.read_bytes(), laid_out(tiles), "the file of a town with height")
    shown = ("# 3 tiles, 5 sites (1 muted), with height\ntile 0 0 800 90 9 900  # tile 0\n"
             "site 10 5 850 7  # site 0, slot 0\nsite 80 5 850 0  # site 1, slot 1, muted\n"
             "tile 0 0 0 40 9 60  # tile 1\nsite 10 5 50 8  # site 40, slot 0\n"
             "tile 50 0 -20 90 9 60  # tile 2\nsite 60 5 0 9  # site 80, slot 0\nsite 80 5 -20 4  # site 81, slot 1\n")
    same(run("show", target), (0, shown, ""), "show with height")
    same(run("check", target), (0, f"{target}: good: 3 tiles, 5 sites (1 muted), with height, 4 blocks, "
                                   "1 of them of the directory\n", ""), "check with height")
    again = WORK / "again.town"
    for given in (shown, shown.replace("\n", "\r\n"), shown.rstrip("\n")):
        same(run("make", "-", again, given=given.encode())[0], 0, "make of what show prints, with height")
        same(again.read_bytes(), target.read_bytes(), "show and make give the file with height again")
        again.unlink()
    # 18 tiles need two blocks of the directory there.
    same(run("make", "-", again, given=b"tile 0 0 0 1 1 1\n" * 18),
         (0, f"{again}: 18 tiles, 0 sites, with height, 10240 bytes\n", ""), "18 tiles with height")
    same(run("check", again), (0, f"{again}: good: 18 tiles, 0 sites, with height, 20 blocks, "
                                  "2 of them of the directory\n", ""), "check of 18 tiles with height")


def checked(engine, content):
    """What nearby_validate gives: number, block, tiles and axes."""
    r = engine.calls.nearby_validate(*engine.file(content))
    return r.number, r.block, r.tiles, r.axes


def round_trips(engine, rng, axes):
    for _ in range(200):
        _, tiles = drawn(rng, axes=axes)
        file = engine.write(tiles)
        same(file, laid_out(tiles), "the file of a drawn town")
        same(checked(engine, file), (0, 0, len(tiles), axes), "the full check of a drawn town")
        same(town.read(file), tiles, "what is read is what was written")
        same([town.entry(file, t) for t in range(len(tiles))],
             [(tile.box, len(tile.sites), len(tile.sites) - len(sounding(tile))) for tile in tiles], "the directory")
        same(text.make(engine, text.show(tiles)), (tiles, file), "a drawn town as text and back")
    site = (1000000, -1000000, 1000000)[:axes] + (2**32 - 1,)
    limits = [town.Tile((-1000000,) * axes + (1000000,) * axes, [site] * (40 if axes == 2 else 30))] * 960
    same(text.make(engine, text.show(limits)), (limits, engine.write(limits)), "the largest town as text and back")
    same(len(engine.write(limits)), 512000 if axes == 2 else 520704, "the largest file")
    target = WORK / "limits.town"
    same(run("make", "/dev/stdin", target, given=text.show(limits).encode())[0], 0, "make of a long text from a pipe")
    same(target.read_bytes(), engine.write(limits), "a long text from a pipe is read to its end")
    same(run("check", "/dev/stdin", given=target.read_bytes())[0], 0, "a long file from a pipe is read to its end")


def old(content):
    """The file as it was made before muted sites were counted: the directory has 0 for all."""
    file = bytearray(content)
    for tile in range(town.two_bytes(file, 6)):
        town.put_muted(file, tile, 0)
    for block in range(town.layout(file).directory_blocks(town.two_bytes(file, 6))):
        file = bytearray(resummed(bytes(file), block))
    return bytes(file)


def muted_lines(tiles):
    """What `renew` prints of the sites that it counts as muted: at most 20 tiles."""
    slots = [(t, [str(slot) for slot, held in enumerate(tile.sites) if held[2] == 0]) for t, tile in enumerate(tiles)]
    lines = [f"  muted: tile {t}, slot{'s' if muted[1:] else ''} {', '.join(muted)}\n" for t, muted in slots if muted]
    return lines if len(lines) <= 20 else lines[:20] + [f"  {len(lines) - 20} more tiles like these\n"]


def renewed(engine, rng):
    source, target = WORK / "old.town", WORK / "renewed.town"
    muted = 0
    large = [town.Tile((0, 0, 9, 9), [(t % 9, t % 7, t % 2), (1, 1, t % 3)]) for t in range(60)]
    for tiles in [drawn(rng)[1] for _ in range(40)] + [large]:
        file = engine.write(tiles)
        said = f"{target}: {town.size(tiles)}, {len(file)} bytes\n"
        source.write_bytes(old(file))
        muted += old(file) != file
        same(run("renew", source, target), (0, said + "".join(muted_lines(tiles)), ""), "renew of an old file")
        same(target.read_bytes(), file, "an old file is renewed to that of its town")
        source.write_bytes(file)
        same(run("renew", source, target), (0, said, ""), "renew of a file that is good as it is")
        same(target.read_bytes(), file, "a good file stays")
    holds(muted > 10, "drawn towns with muted sites to renew")
    # A cue of 255 that turned to 0 is not seen by the check: the town looks old. `check` says so, and `renew` names it.
    tiles = [town.Tile((0, 0, 9, 9), [(1, 1, 9), (2, 2, 255)])]
    source.write_bytes(put(engine.write(tiles), 512 + 28 + 8, bytes(1)))
    holds(run("check", source)[2].endswith(f"\n  {MAY_BE_OLD}\n"), "check of a file that may be old")
    same(run("renew", source, target),
         (0, f"{target}: 1 tile, 2 sites (1 muted), 1024 bytes\n  muted: tile 0, slot 1\n", ""), "renew names the site")
    # What else is wrong with an old file is refused, and so is a file that is no old one.
    tiles = [town.Tile((0, 0, 9, 9), [(1, 1, 0), (2, 2, 5)])] * 3
    file = engine.write(tiles)
    stray = put(old(file), 512 * 3 + 16, struct.pack("<i", 10), 3)
    fewer = put(file, 512 * 2 + 16 + 8, small(7), 2)
    for what, content, head in (("a site outside its box", stray, "refused 10 (stray), block 3, tile 2"),
                                ("another version of a tile", fewer, "refused 16 (muted), block 2, tile 1"),
                                ("a damaged tile", put(old(file), 1636, b"\1"), "refused 3 (check), block 3, tile 2"),
                                ("a damaged directory", put(old(file), 100, b"\1"), "refused 3 (check), block 0")):
        source.write_bytes(content)
        target.unlink(missing_ok=True)
        status, said, wrong = run("renew", source, target)
        holds(status == 1 and not said and wrong.startswith(f"{source}: {head}"), f"renew of {what}: {wrong}")
        holds(not target.exists(), f"renew of {what} writes nothing")
        same(wrong.endswith(f"\n  {NOT_OLD}\n"), content == fewer, f"renew of {what} says that it is no old file")
    # A file with height is never old: a good one is written as it is, and any other is refused.
    for tiles in [drawn(rng, axes=3)[1] for _ in range(10)]:
        file = engine.write(tiles)
        source.write_bytes(file)
        same(run("renew", source, target),
             (0, f"{target}: {town.size(tiles)}, {len(file)} bytes\n  written as it was: {NEVER_OLD}\n", ""),
             "renew of a good file with height")
        same(target.read_bytes(), file, "a good file with height stays")
    file = laid_out([town.Tile((0, 0, 0, 9, 9, 9), [(1, 1, 1, 0), (2, 2, 2, 5)])] * 3)
    for content, due in ((old(file), 0), (put(file, 512 * 1 + 16 + 12, small(7), 1), 1)):
        source.write_bytes(content)
        target.unlink(missing_ok=True)
        there = "1 site with cue 0, slot 0" if due == 0 else "0 sites with cue 0"
        same(run("renew", source, target),
             (1, "", f"{source}: refused 16 (muted), block 1, tile 0\n  due: {town.several(due, 'site')} with cue 0, "
                     f"the directory's muted number of this tile\n  there: {there}\n  {ALWAYS}\n"),
             "renew of a file with height and other muted sites")
        holds(not target.exists(), "renew of a refused file with height writes nothing")


def faulty(engine):
    """Texts that are no towns: every fault with line, tile and slot, and no file is written."""
    cases = [
        (b"", ["no tile; a town has 1 to 960"]),
        (b"# nothing\n\n", ["no tile; a town has 1 to 960"]),
        (b"site 1 1 1\ntile 0 0 1 1\n", ["line 1: a site before the first tile"]),
        (b"tile 0 0 1 1\nsight 1 1 1\n", ["line 2: `sight` is neither `tile` nor `site`"]),
        (b"tile 0 0 1\n", ["line 1: tile 0: `tile` takes 4 numbers, LOW_X LOW_Y HIGH_X HIGH_Y; here are 3"]),
        (b"tile 0 0 1 1\nsite 1 1\n", ["line 2: tile 0 slot 0: `site` takes 3 numbers, X Y CUE; here are 2"]),
        (b"tile 0 0 1 1 # one\nsite 1 1 0x1\n", ["line 2: tile 0 slot 0: CUE is `0x1`, not a whole number"]),
        (b"tile 5 0 4 1\n", ["line 1: tile 0: low x 5 is above high x 4"]),
        (b"tile 0 0 1 1\ntile 0 7 9 6\nsite 1 1 1\n", ["line 2: tile 1: low y 7 is above high y 6"]),
        (b"tile 0 0 1000001 1\n", ["line 1: tile 0: high x is 1000001, beyond the limits, -1000000 to 1000000"]),
        (b"tile 0 -4294967296 1 1\n", ["line 1: tile 0: low y is -4294967296, beyond the limits, -1000000 to 1000000"]),
        (b"tile 0 0 4 9\nsite 1 1 1\n\nsite 5 9 1\n",
         ["line 4: tile 0 slot 1: the site at (5, 9) is outside its box, x 0..4, y 0..9"]),
        (b"tile 0 0 4 9\nsite 1 1000001 1\n",
         ["line 2: tile 0 slot 0: y is 1000001, beyond the limits, -1000000 to 1000000"]),
        (b"tile 0 0 4 9\nsite 1 1 4294967296\nsite 1 1 -1\n",
         ["line 2: tile 0 slot 0: the cue is 4294967296, not a number from 0 to 4294967295",
          "line 3: tile 0 slot 1: the cue is -1, not a number from 0 to 4294967295"]),
        (b"tile 0 0 1 1\ntile 0 0 1 1\n" + b"site 1 1 1\n" * 42,
         ["line 43: tile 1 slot 40: more than 40 sites in the tile"]),
        (b"tile 0 0 1 1\n" * 961, ["line 961: tile 960: more than 960 tiles"]),
        (b"tile 0 0\nsite 1 1 1\ntile 0 0 1 1\nsite 2 1 1\n",
         ["line 1: tile 0: `tile` takes 4 numbers, LOW_X LOW_Y HIGH_X HIGH_Y; here are 2",
          "line 4: tile 1 slot 0: the site at (2, 1) is outside its box, x 0..1, y 0..1"]),
        (b"tile 0 0 1 1 # \xe2\x80\xa8 one line\r\nsite 5 1 1\r\n",
         ["line 2: tile 0 slot 0: the site at (5, 1) is outside its box, x 0..1, y 0..1"]),
        (b"tile \xff 0 1 1\n", ["line 1: tile 0: LOW_X is `\ufffd`, not a whole number"]),
        # What the grammar of docs/FORMAT.md does not have: a cue with a minus, other spaces, a CR that ends no line, a
        # byte order mark.
        (b"tile 0 0 1 1\nsite 1 1 -0\n", ["line 2: tile 0 slot 0: the cue is -0, not a number from 0 to 4294967295"]),
        (b"tile 0 0 1 1\ntile\f0 0 1 1\n", ["line 2: `tile\\x0c0` is neither `tile` nor `site`"]),
        (b"tile 0 0 1\v 1\n", ["line 1: tile 0: HIGH_X is `1\\x0b`, not a whole number"]),
        (b"tile 0 0 1 1\nsite 1 1\xc2\xa01\n",
         ["line 2: tile 0 slot 0: `site` takes 3 numbers, X Y CUE; here are 2"]),
        (b"tile 0 0 1 1\rsite 1 1 1\n",
         ["line 1: tile 0: `tile` takes 4 numbers, LOW_X LOW_Y HIGH_X HIGH_Y; here are 7"]),
        (b"tile 0 0 1 1\r\r\n", ["line 1: tile 0: HIGH_Y is `1\\r`, not a whole number"]),
        (b"tile 0 0 1 1\r", ["line 1: tile 0: HIGH_Y is `1\\r`, not a whole number"]),
        (b"tile 0 0 1 1\0\n", ["line 1: tile 0: HIGH_Y is `1\\x00`, not a whole number"]),
        (b"\xef\xbb\xbf# a town\ntile 0 0 1 1\n", ["line 1: `\\ufeff` is neither `tile` nor `site`"]),
        # Numbers of any length are in it.
        (b"tile 0 0 1 1" + b"0" * 5000 + b"\n", ["line 1: tile 0: HIGH_Y has 5001 digits, beyond the limits"]),
        (b"tile 0 0 1 1\nsite 1 1 1" + b"0" * 30 + b"\n",
         ["line 2: tile 0 slot 0: CUE has 31 digits, beyond the limits"]),
        (b"tile 0 0 1 -1" + b"0" * 29 + b"\n",
         [f"line 1: tile 0: high y is -1{'0' * 29}, beyond the limits, -1000000 to 1000000",
          f"line 1: tile 0: low y 0 is above high y -1{'0' * 29}"]),
        (b"tile 0 0 1 1\n" + b"#" * 2**24, ["a text has at most 16777216 bytes"]),
        # With height.
        (b"tile 0 0 0 1 1 1\nsite 1 1 1\n",
         ["line 2: tile 0 slot 0: `site` takes 4 numbers, X Y Z CUE; here are 3, but the tile of line 1 has height"]),
        (b"\ntile 0 0 0 1 1 1\nsite 1 1 1 1\ntile 0 0 1 1\nsite 1 1 1 1\nsite 1 1\n",
         ["line 4: tile 1: `tile` takes 6 numbers, LOW_X LOW_Y LOW_Z HIGH_X HIGH_Y HIGH_Z; here are 4, but the tile "
          "of line 2 has height",
          "line 6: tile 1 slot 1: `site` takes 4 numbers, X Y Z CUE; here are 2"]),
        (b"tile 0 0 1 1\nsite 1 1 1 1\ntile 0 0 0 1 1 1\n",
         ["line 2: tile 0 slot 0: `site` takes 3 numbers, X Y CUE; here are 4, but the tile of line 1 has no height",
          "line 3: tile 1: `tile` takes 4 numbers, LOW_X LOW_Y HIGH_X HIGH_Y; here are 6, but the tile of line 1 has "
          "no height"]),
        (b"tile 0 0 0 1 1\n",
         ["line 1: tile 0: `tile` takes 4 numbers, LOW_X LOW_Y HIGH_X HIGH_Y, or 6, LOW_X LOW_Y LOW_Z HIGH_X HIGH_Y "
          "HIGH_Z; here are 5"]),
        (b"tile 0 0 0 1 1\nsite 1 1 1 1\ntile 0 0 0 1 1 1\n",
         ["line 1: tile 0: `tile` takes 6 numbers, LOW_X LOW_Y LOW_Z HIGH_X HIGH_Y HIGH_Z; here are 5"]),
        (b"site 1 1 1 1\ntile 0 0 0 1 1 1\n", ["line 1: a site before the first tile"]),
        (b"tile 0 0 5 1 1 4\n", ["line 1: tile 0: low z 5 is above high z 4"]),
        (b"tile 0 0 -1000001 1 1 4\nsite 0 0 1000001 1\n",
         ["line 1: tile 0: low z is -1000001, beyond the limits, -1000000 to 1000000",
          "line 2: tile 0 slot 0: z is 1000001, beyond the limits, -1000000 to 1000000"]),
        (b"tile 0 0 0 4 9 9\nsite 1 1 1 1\nsite 4 9 10 1\n",
         ["line 3: tile 0 slot 1: the site at (4, 9, 10) is outside its box, x 0..4, y 0..9, z 0..9"]),
        (b"tile 0 0 0 1 1 1\nsite 1 1 z 1\nsite 1 1 1 -1\n",
         ["line 2: tile 0 slot 0: Z is `z`, not a whole number",
          "line 3: tile 0 slot 1: the cue is -1, not a number from 0 to 4294967295"]),
        (b"tile 0 0 0 1 1 1\n" + b"site 1 1 1 1\n" * 31, ["line 32: tile 0 slot 30: more than 30 sites in the tile"]),
        (b"tile 0 0 0 1 1 1\n" * 961, ["line 961: tile 960: more than 960 tiles"]),
    ]
    target = WORK / "none.town"
    for given, due in cases:
        found = run("make", "-", target, given=given)
        same(found, (1, "", "".join(f"standard input: {line}\n" for line in due)), f"make of {given[:60]!r}")
    holds(not target.exists(), "a text with a fault makes no file")
    _, _, said = run("make", "-", target, given=b"sight\n" * 30)
    same(said.splitlines()[19:],
         ["standard input: line 20: `sight` is neither `tile` nor `site`", "11 more like these"], "many faults")
    # What the engine refuses has a fault in words, and what it takes has none.
    rng = random.Random(7)
    for axes in (2, 3) * 400:
        lines = []
        for _ in range(rng.randint(0, 4)):
            lows = [rng.choice([-3, -3, 0, 0, 0, 3, -1000001, 1000000, 1000001]) for _ in range(axes)]
            highs = [rng.choice([2, 5, 1000001]), *(rng.choice([2, 5]) for _ in range(axes - 1))]
            lines.append("tile " + " ".join(map(str, lows + highs)))
            lines += ["site " + " ".join(str(rng.randint(-2, 6)) for _ in range(axes)) + " 1"
                      for _ in range(rng.choice([0, 1, 1, 31, 41]))]
        source, unread = text.parse("\n".join(lines))
        same(unread, [], "all lines can be read")
        try:
            engine.write(source.tiles)
            refused = False
        except Refused:
            refused = True
        same(bool(list(text._town_faults(source))), refused, "a text has a fault exactly when the engine refuses it")


# ---- check -----------------------------------------------------------------------------------------------------------
def resummed(content, block):
    """The file with the block's check put right again."""
    at = 512 * block
    return content[:at + 510] + words.sums(content[at:at + 512]) + content[at + 512:]


def put(content, at, given, *blocks):
    content = content[:at] + given + content[at + len(given):]
    for block in blocks:
        content = resummed(content, block)
    return content


def small(number):
    return struct.pack("<H", number)


def lengths(engine):
    """Files that are too long or cut, in words: 520,704 bytes before all else, 512,000 after the kind of block 0."""
    there = "there: the file has"
    plan = engine.write([town.Tile((0, 0, 9, 9), [])] * 960)
    high = engine.write([town.Tile((0, 0, 0, 9, 9, 9), [])] * 960)
    same((len(plan), len(high)), (512000, 520704), "the longest files")
    of_plan, of_high = ("due: a multiple of 512 bytes, from 512 to " + most for most in ("512000", "520704"))
    yield "too long", plan + bytes(512), ["refused 1 (length)", of_plan, f"{there} 512512 bytes"]
    yield "as long as one with height", plan + bytes(8704), ["refused 1 (length)", of_plan, f"{there} 520704 bytes"]
    yield "longer than one with height", plan + bytes(9216), ["refused 1 (length)", of_plan, f"{there} 521216 bytes"]
    yield "with height too long", high + bytes(512), ["refused 1 (length)", of_high, f"{there} 521216 bytes"]
    yield "with height cut", high[:-512], [
        "refused 6 (tiles), block 0, of the directory", "due: T 959, as the file has 1016 blocks",
        "there: bytes 6-7, the number of tiles T, say 960, which take 1017 blocks, 57 of them of the directory"]
    yield "with height cut in a block", high[:-1], [
        "refused 1 (length)", of_high, f"{there} 520703 bytes, 1016 blocks and 511 bytes"]
    yield "zeros, too long for a plan town", bytes(512512), [
        "refused 2 (sync), block 0, of the directory", "due: byte 0 is D6", "there: byte 0 is 00"]
    yield "zeros, too long", bytes(521216), [
        "refused 1 (length)", f"{of_plan}, with height to 520704", f"{there} 521216 bytes"]
    # The kind of block 0 comes before its length, its position after it.
    yield "too long, another kind", put(plan + bytes(512), 1, b"\2", 0), [
        "refused 4 (kind), block 0, of the directory", f"due: byte 1, the kind, is {EITHER}", "there: byte 1 is 2"]
    yield "too long, another position", put(plan + bytes(512), 2, small(1), 0), [
        "refused 1 (length)", of_plan, f"{there} 512512 bytes"]


EITHER = "1, a block of the directory, or 3, one with height"


def damaged_with_height(engine):
    """The refusals of a file with height that are not as in a plan town: (what, file, lines)."""
    tiles = [town.Tile((0, 0, 0, 9, 9, 9), [(t % 10, s, 9 - s, 7) for s in range(t % 4)]) for t in range(60)]
    file = engine.write(tiles)  # 4 directory blocks; tile 0 is block 4
    plan = engine.write([town.Tile((0, 0, 9, 9), [])] * 60)
    directory, tile = "3, a block of the directory with height", "4, a tile with height"
    for what, held, block, kind, name, due in (
            ("a tile first", file, 0, 4, "of the directory", EITHER),
            ("plan in the directory", file, 3, 1, "of the directory", directory),
            ("a tile in the directory", file, 1, 4, "of the directory", directory),
            ("a plan tile", file, 7, 2, "tile 3", tile), ("the directory for a tile", file, 4, 3, "tile 0", tile),
            ("height in the directory of a plan", plan, 2, 3, "of the directory", "1, a block of the directory"),
            ("a tile with height in a plan", plan, 3, 4, "tile 0", "2, a tile")):
        yield what, put(held, 512 * block + 1, bytes((kind,)), block), [
            f"refused 4 (kind), block {block}, {name}", f"due: byte 1, the kind, is {due}", f"there: byte 1 is {kind}"]
    # Block 0 settles the axes: with the other kind the same file has other blocks.
    says = "there: bytes 6-7, the number of tiles T, say"
    yield "a plan town with the kind of the other", put(plan, 1, b"\3", 0), [
        "refused 6 (tiles), block 0, of the directory", "due: T 59, as the file has 63 blocks",
        f"{says} 60, which take 64 blocks, 4 of them of the directory"]
    yield "a town with height with the kind of the other", put(file, 1, b"\1", 0), [
        "refused 6 (tiles), block 0, of the directory", "due: T 61, as the file has 64 blocks",
        f"{says} 60, which take 63 blocks, 3 of them of the directory"]
    yield "no T", engine.write(tiles[:17]) + bytes(512), [
        "refused 6 (tiles), block 0, of the directory", "due: a T that takes 19 blocks (there is none)",
        f"{says} 17, which take 18 blocks, 1 of them of the directory"]
    yield "entries", put(file, 512 + 4, small(24), 1), [
        "refused 7 (entries), block 1, of the directory",
        "due: bytes 4-5, the number of entries, say 17, the entries of this block when T is 60",
        "there: bytes 4-5 say 24"]
    yield "entries of the last block", put(file, 512 * 3 + 4, small(17), 3), [
        "refused 7 (entries), block 3, of the directory",
        "due: bytes 4-5, the number of entries, say 9, the entries of this block when T is 60",
        "there: bytes 4-5 say 17"]
    yield "entries of a tile", put(file, 512 * 7 + 4, small(2), 7), [
        "refused 7 (entries), block 7, tile 3",
        "due: bytes 4-5, the number of entries, say 3, the directory's count of this tile", "there: bytes 4-5 say 2"]
    yield "padding past entries", put(file, 512 + 16 + 28 * 17, b"\1", 1), [
        "refused 8 (padding), block 1, of the directory", "due: byte 492 is 00: past the last entry",
        "there: byte 492 is 01"]
    yield "padding past sites", put(file, 512 * 7 + 16 + 16 * 3, b"\1", 7), [
        "refused 8 (padding), block 7, tile 3", "due: byte 64 is 00: past the last site", "there: byte 64 is 01"]
    entry = 512 + 16 + 28 * 2  # of tile 19
    box = "refused 9 (box), block 1, of the directory"
    for what, at, number, name in (("low", 8, -1000001, "low z"), ("high", 20, 1000001, "high z"),
                                   ("high x", 12, 1000001, "high x")):
        yield f"{what} beyond the limits", put(file, entry + at, struct.pack("<i", number), 1), [
            box, "due: coordinates from -1000000 to 1000000", f"there: {name} of tile 19 is {number}"]
    yield "low above high", put(file, entry + 8, struct.pack("<i", 10), 1), [
        box, "due: no low end above its high end", "there: tile 19 has low z 10 and high z 9"]
    yield "too many sites", put(file, entry + 24, small(31), 1), [
        box, "due: at most 30 sites in a tile", "there: the count of tile 19 is 31"]
    yield "too many muted sites", put(file, entry + 26, small(4), 1), [
        box, "due: no more muted sites in a tile than sites", "there: the muted number of tile 19 is 4, its count 3"]
    yield "stray", put(file, 512 * 7 + 16 + 16 * 2 + 8, struct.pack("<i", 10), 7), [
        "refused 10 (stray), block 7, tile 3", "due: all sites inside the box of their tile",
        "there: slot 2 of tile 3: the site at (3, 2, 10) is outside its box, x 0..9, y 0..9, z 0..9"]
    yield "muted by hand", put(file, 512 * 7 + 16 + 16 * 2 + 12, bytes(4), 7), [
        "refused 16 (muted), block 7, tile 3", "due: 0 sites with cue 0, the directory's muted number of this tile",
        "there: 1 site with cue 0, slot 2", ALWAYS]
    yield "none muted", put(file, entry + 26, small(2), 1), [
        "refused 16 (muted), block 23, tile 19",
        "due: 2 sites with cue 0, the directory's muted number of this tile", "there: 0 sites with cue 0", ALWAYS]


def damaged(engine):
    """Every refusal of a file, in words: (what, file, lines)."""
    good = SAMPLE.read_bytes()
    tiles = [town.Tile((0, 0, 9, 9), [(t % 10, s, 7) for s in range(t % 4)]) for t in range(60)]
    large = engine.write(tiles)  # 3 directory blocks; tile 0 is block 3
    check = good[510:512]
    wrong_check = bytes((check[0] ^ 1, check[1]))
    length = "due: a multiple of 512 bytes, from 512 to 512000"
    yield "no bytes", b"", ["refused 1 (length)", length, "there: the file has 0 bytes"]
    yield "cut", good[:-1], ["refused 1 (length)", length, "there: the file has 12799 bytes, 24 blocks and 511 bytes"]
    yield "sync", put(good, 0, b"\0"), [
        "refused 2 (sync), block 0, of the directory", "due: byte 0 is D6", "there: byte 0 is 00"]
    yield "sync of a tile", put(good, 512 * 8, b"\x6d"), ["refused 2 (sync), block 8, tile 7", "due: byte 0 is D6",
                                                        "there: byte 0 is 6D"]
    yield "check", put(good, 510, wrong_check), [
        "refused 3 (check), block 0, of the directory",
        f"due: check bytes {check[0]:02X} {check[1]:02X} at 510 and 511, the sums over bytes 1 to 509",
        f"there: check bytes {wrong_check[0]:02X} {wrong_check[1]:02X}"]
    yield "kind", put(good, 1, b"\2", 0), [
        "refused 4 (kind), block 0, of the directory", f"due: byte 1, the kind, is {EITHER}", "there: byte 1 is 2"]
    yield "kind of a tile", put(large, 512 * 3 + 1, b"\1", 3), [
        "refused 4 (kind), block 3, tile 0", "due: byte 1, the kind, is 2, a tile", "there: byte 1 is 1"]
    yield "position", put(large, 512 * 5 + 2, small(6), 5), [
        "refused 5 (position), block 5, tile 2", "due: bytes 2-3, the block's position, say 5",
        "there: bytes 2-3 say 6"]
    says = "there: bytes 6-7, the number of tiles T, say"
    yield "T 0", put(good, 6, small(0), 0), [
        "refused 6 (tiles), block 0, of the directory", "due: T from 1 to 960", f"{says} 0"]
    yield "T 961", put(good, 6, small(961), 0), [
        "refused 6 (tiles), block 0, of the directory", "due: T from 1 to 960", f"{says} 961"]
    yield "T 25", put(good, 6, small(25), 0), [
        "refused 6 (tiles), block 0, of the directory", "due: T 24, as the file has 25 blocks",
        f"{says} 25, which take 27 blocks, 2 of them of the directory"]
    yield "no T", good + bytes(512), [
        "refused 6 (tiles), block 0, of the directory", "due: a T that takes 26 blocks (there is none)",
        f"{says} 24, which take 25 blocks, 1 of them of the directory"]
    yield "T unlike block 0", put(large, 512 + 6, small(59), 1), [
        "refused 6 (tiles), block 1, of the directory", "due: the T of block 0, 60", f"{says} 59"]
    yield "entries", put(large, 512 * 2 + 4, small(11), 2), [
        "refused 7 (entries), block 2, of the directory",
        "due: bytes 4-5, the number of entries, say 12, the entries of this block when T is 60",
        "there: bytes 4-5 say 11"]
    yield "entries of a tile", put(large, 512 * 6 + 4, small(4), 6), [
        "refused 7 (entries), block 6, tile 3",
        "due: bytes 4-5, the number of entries, say 3, the directory's count of this tile", "there: bytes 4-5 say 4"]
    yield "padding", put(good, 8, b"\3\4", 0), [
        "refused 8 (padding), block 0, of the directory", "due: byte 8 is 00: between the head and the payload",
        "there: byte 8 is 03, and 1 more"]
    yield "padding past entries", put(large, 1024 + 16 + 20 * 12, b"\x80", 2), [
        "refused 8 (padding), block 2, of the directory", "due: byte 256 is 00: past the last entry",
        "there: byte 256 is 80"]
    yield "padding past sites", put(large, 512 * 6 + 52, b"\1", 6), [
        "refused 8 (padding), block 6, tile 3", "due: byte 52 is 00: past the last site", "there: byte 52 is 01"]
    yield "padding of T", put(large, 512 * 6 + 6, b"\1", 6), [
        "refused 8 (padding), block 6, tile 3", "due: byte 6 is 00: zero in a tile, where a directory block has T",
        "there: byte 6 is 01"]
    yield "padding before the check", put(large, 512 * 6 + 509, b"\1", 6), [
        "refused 8 (padding), block 6, tile 3", "due: byte 509 is 00: between the payload and the check",
        "there: byte 509 is 01"]
    entry = 512 + 16 + 20 * 2  # of tile 26
    yield "beyond the limits", put(large, entry + 8, struct.pack("<i", 1000001), 1), [
        "refused 9 (box), block 1, of the directory", "due: coordinates from -1000000 to 1000000",
        "there: high x of tile 26 is 1000001"]
    yield "low above high", put(large, entry + 4, struct.pack("<i", 10), 1), [
        "refused 9 (box), block 1, of the directory", "due: no low end above its high end",
        "there: tile 26 has low y 10 and high y 9"]
    yield "too many sites", put(large, entry + 16, small(41), 1), [
        "refused 9 (box), block 1, of the directory", "due: at most 40 sites in a tile",
        "there: the count of tile 26 is 41"]
    yield "too many muted sites", put(large, entry + 18, small(3), 1), [
        "refused 9 (box), block 1, of the directory", "due: no more muted sites in a tile than sites",
        "there: the muted number of tile 26 is 3, its count 2"]
    yield "stray", put(large, 512 * 6 + 16 + 12 * 2, struct.pack("<i", -1), 6), [
        "refused 10 (stray), block 6, tile 3", "due: all sites inside the box of their tile",
        "there: slot 2 of tile 3: the site at (-1, 2) is outside its box, x 0..9, y 0..9"]
    # The cue of slot 0 in tile 26, which is block 29, and its muted number.
    muted = put(large, 512 * 29 + 16 + 8, bytes(4), 29)
    head = "refused 16 (muted), block 29, tile 26"
    yield "muted by hand", muted, [head, "due: 0 sites with cue 0, the directory's muted number of this tile",
                                   "there: 1 site with cue 0, slot 0", MAY_BE_OLD]
    yield "two muted by hand", put(put(muted, 512 * 29 + 28 + 8, bytes(4), 29), entry + 18, small(1), 1), [
        head, "due: 1 site with cue 0, the directory's muted number of this tile",
        "there: 2 sites with cue 0, slots 0, 1", NOT_OLD]
    yield "none muted", put(large, entry + 18, small(2), 1), [
        head, "due: 2 sites with cue 0, the directory's muted number of this tile", "there: 0 sites with cue 0",
        NOT_OLD]


def checks(engine):
    same(run("check", SAMPLE),
         (0, f"{SAMPLE}: good: 24 tiles, 45 sites, 25 blocks, 1 of them of the directory\n", ""), "check")
    name, seen = WORK / "damaged.town", set()
    for what, content, (head, *rest) in itertools.chain(damaged(engine), lengths(engine), damaged_with_height(engine)):
        name.write_bytes(content)
        due = "\n".join([f"{name}: {head}"] + [f"  {line}" for line in rest]) + "\n"
        same(run("check", name), (1, "", due), f"check of a file: {what}")
        same(run("show", name), (1, "", due), f"show of a file: {what}")
        same(run("draw", name, 1, "0,0", WORK / "none.html"), (1, "", due), f"draw of a file: {what}")
        seen.add(int(head.split()[1]))
    same(seen, {*range(1, 11), 16}, "every refusal of a file")
    holds(not (WORK / "none.html").exists(), "a refused file has no page")


def drawn_damage(engine, rng):
    """Whatever stands in a file, a refusal can be said in words, and putting the check right is what was due."""
    files = [engine.write(drawn(rng, axes=axes)[1]) for axes in (2, 3) for _ in range(20)]
    tally = {}
    for _ in range(12000):
        content = bytearray(rng.choice(files))
        for _ in range(rng.randint(1, 2)):
            block = rng.randrange(len(content) // 512) if rng.random() < 0.6 else 0
            at = 512 * block + rng.choice([0, 1, 2, 4, 6, rng.randrange(8, 60), rng.randrange(512)])
            content[at] = rng.choice([0, 1, 3, 255, rng.randrange(256)])
            if rng.random() < 0.9:
                content = bytearray(resummed(bytes(content), block))
        content = bytes(content)
        try:
            engine.validate(content)
        except Refused as refused:
            said = words.refusal(content, refused)
            same(checked(engine, content), (refused.number, refused.block, 0, 0), "a refusal has no tiles and no axes")
            seen = refused.number, town.layout(content).axes
            tally[seen] = tally.get(seen, 0) + 1
            holds(not any(line.endswith(": ?") for line in said), f"words for refusal {refused.number}")
            if refused.number == 3:
                held = resummed(content, refused.block)[512 * refused.block:512 * refused.block + 512]
                same(engine.block_check(held), 0, "with the check that was due the block passes")
    holds(all(tally.get((number, axes)) for number in (*range(2, 11), 16) for axes in (2, 3)),
          f"drawn damage meets every refusal of a block: {tally}")


# ---- ask -------------------------------------------------------------------------------------------------------------
def questions(engine, rng, axes):
    for _ in range(400):
        span, tiles = drawn(rng, most=rng.choice([3, 12, 40]), axes=axes)
        file = engine.write(tiles)
        stops = spots(rng, span, rng.choice([1, 1, 2, 5, 9]), axes)
        k = rng.choice([1, 2, 3, 8, 64, rng.randint(1, 64)])
        answer = ask(engine, file, stops, k)
        same(answer.joined.lists, [full_search(tiles, stop, k) for stop in stops],
             "the lists are those of a full search")
        struck, opened = marks(tiles, stops, k)
        same(answer.opened_for, opened, "the tiles opened, and the stop of each")
        same({t for t, mark in enumerate(answer.joined.marks) if mark == 1}, struck, "the tiles struck")
        for box in (rng.choice(tiles).box for _ in range(5)):
            same((engine.near(stops[0], box), engine.far(stops[0], box)),
                 (near(stops[0], box), far(stops[0], box)), "near and far")


def asked():
    """What `ask` prints, beside the program."""
    status, said, wrong = run("ask", SAMPLE, 3, *STOPS)
    same((status, wrong), (0, ""), "ask")
    program = (ROOT / "samples/riverside.answer").read_text().splitlines()
    lines = said.splitlines()
    same(lines[:9], ["k 3, stops 4, O x 1200..5600, y 3000..3200", "tiles 24: opened 12, struck 2, neither 10",
                     "opened for stop 0: 19, 13, 18, 12", "opened for stop 1: 20, 14",
                     "opened for stop 2: 22, 21, 16, 15", "opened for stop 3: 23, 17", "struck: 0, 5",
                     "neither: 1, 2 (empty), 3, 4, 6 (empty), 7, 8, 9 (empty), 10 (empty), 11 (empty)",
                     "stop 0 at 1200,3000:"], "ask")
    same(program[0], "tiles 24 opened 12 struck 2", "the program's counts")
    found = []
    for line in lines[8:]:
        if line.startswith("stop"):
            found.append(f"stop {len(found)}:")
        else:
            parts = line.replace(",", "").split()
            found[-1] += f" {parts[1]} {parts[3]} {parts[9]};"
            same(int(parts[3]), 40 * int(parts[5]) + int(parts[7].rstrip(")")), "tile and slot of a site")
    same([line.rstrip(";") for line in found], program[1:], "ask beside the program")
    empty = WORK / "empty.town"
    same(run("make", "-", empty, given=b"tile 0 0 1 1\n"), (0, f"{empty}: 1 tile, 0 sites, 1024 bytes\n", ""),
         "an empty tile")
    same(run("draw", empty, 2, "5,5", WORK / "empty.html"),
         (0, f"{WORK}/empty.html: 1 tile, 1 stop, k from 1 to 2\n", ""), "draw of a town without sites")
    same(run("ask", empty, 2, "-5,7"),
         (0, "k 2, stops 1, O x -5..-5, y 7..7\ntiles 1: opened 0, struck 0, neither 1\n"
             "opened for stop 0: none\nstruck: none\nneither: 0 (empty)\nstop 0 at -5,7: no sounding site\n", ""),
         "ask of a town without sites")
    muted = WORK / "muted.town"
    lines = b"tile 0 0 2 0\nsite 0 0 0\nsite 2 0 5\ntile 4 0 6 0\nsite 5 0 0\ntile 10 0 10 0\nsite 10 0 7\n"
    lines += b"tile 20 0 20 0\nsite 20 0 9\ntile 30 0 30 0\ntile 40 0 40 0\nsite 40 0 0\n"
    same(run("make", "-", muted, given=lines)[0], 0, "a town with muted sites")
    same(run("ask", muted, 2, "0,0"),
         (0, "k 2, stops 1, O x 0..0, y 0..0\ntiles 6: opened 2, struck 3, neither 1\nopened for stop 0: 0, 2\n"
             "struck: 3, 4 (empty), 5 (muted)\nneither: 1 (muted)\nstop 0 at 0,0:\n"
             "  D 4, site 1 (tile 0 slot 1), cue 5\n  D 100, site 80 (tile 2 slot 0), cue 7\n", ""),
         "ask of a town with muted sites")
    same(run("draw", muted, 1, "0,0", WORK / "muted.html"),
         (0, f"{WORK}/muted.html: 6 tiles, 1 stop, k from 1 to 3\n", ""), "draw of a town with muted sites")
    same(run("make", "-", muted, given=b"tile 0 0 1 1\nsite 1 1 0\n")[0], 0, "a town with a muted site only")
    same(run("ask", muted, 1, "0,0"),
         (0, "k 1, stops 1, O x 0..0, y 0..0\ntiles 1: opened 0, struck 0, neither 1\nopened for stop 0: none\n"
             "struck: none\nneither: 0 (muted)\nstop 0 at 0,0: no sounding site\n", ""),
         "ask of a town with a muted site only")


def asked_with_height():
    viaduct = WORK / "viaduct.town"
    same(run("make", "-", viaduct, given=VIADUCT)[0], 0, "a town with height")
    same(run("ask", viaduct, 2, "12,5,850", "70,5,+0"),
         (0, "k 2, stops 2, O x 12..70, y 5..5, z 0..850\ntiles 3: opened 3, struck 0, neither 0\n"
             "opened for stop 0: 0, 1, 2\nopened for stop 1: none\nstruck: none\nneither: none\n"
             "stop 0 at 12,5,850:\n  D 4, site 0 (tile 0 slot 0), cue 7\n  D 640004, site 40 (tile 1 slot 0), cue 8\n"
             "stop 1 at 70,5,0:\n  D 100, site 80 (tile 2 slot 0), cue 9\n  D 500, site 81 (tile 2 slot 1), cue 4\n",
          ""), "ask with height")
    # Below the viaduct its site takes no place: in the plan it is the nearest.
    same(run("ask", viaduct, 1, "10,5,0")[1].splitlines()[-1], "  D 2500, site 40 (tile 1 slot 0), cue 8",
         "a stop below the viaduct")
    same(run("draw", viaduct, 2, "12,5,850", "70,5,0", WORK / "viaduct.html"),
         (0, f"{WORK}/viaduct.html: 3 tiles, 2 stops, k from 1 to 4\n", ""), "draw with height")
    # Stops with another number of axes: k and the number of stops come before, their coordinates after.
    none = WORK / "none.html"
    in_high = ("refused 17 (axes)\n  due: stops X,Y,Z, as the town has height\n  there: stop 0 is at {}\n"
               "  give each stop its z, or ask a town without height\n")
    in_plan = ("refused 17 (axes)\n  due: stops X,Y, as the town has no height\n  there: stop 0 is at {}\n"
               "  leave out the z of each stop, or ask a town with height\n")
    bad_k = "refused 11 (k)\n  due: k from 1 to 64\n  there: k is 65\n"
    many = "refused 12 (stops)\n  due: 1 to 256 stops\n  there: there are 257\n"
    coordinates = "refused 13 (spot)\n  due: coordinates from -1000000 to 1000000\n  there: stop "
    for file, question, due in [
        (viaduct, [2, "12,5"], in_high.format("12,5")), (viaduct, [2, "12,5", "1,1"], in_high.format("12,5")),
        (viaduct, [2, "1000001,5"], in_high.format("1000001,5")), (viaduct, [65, "12,5"], bad_k),
        (viaduct, [2, *["1,1"] * 257], many), (viaduct, [2, *["1,1,1"] * 257], many), (viaduct, [65, "1,1,1"], bad_k),
        (SAMPLE, [3, "1200,3000,0"], in_plan.format("1200,3000,0")),
        (SAMPLE, [3, "1,1,-9999999999"], in_plan.format("1,1,-9999999999")), (SAMPLE, [65, "1,1,1"], bad_k),
        (SAMPLE, [3, *["1,1,1"] * 257], many),
        (viaduct, [2, "0,0,0", "0,0,1000001"], f"{coordinates}1 is at 0,0,1000001\n"),
        (viaduct, [2, "0,0,-9999999999"], f"{coordinates}0 is at 0,0,-9999999999\n"),
    ]:
        same(run("ask", file, *question), (1, "", due), f"ask {file.name} {question[:3]}")
        same(run("draw", file, *question, none), (1, "", due), f"draw {file.name} {question[:3]}")
    holds(not none.exists(), "a refused question has no page")
    same(run("ask", viaduct, 2), (1, "", many.replace("257", "0")), "ask with height without a stop")
    # A refused directory comes before the axes, a tile after them; a tile that is not opened may hold anything.
    torn = WORK / "torn.town"
    torn.write_bytes(put(viaduct.read_bytes(), 100, b"\1"))
    holds(run("ask", torn, 2, "1,1")[2].startswith(f"{torn}: refused 3 (check), block 0, of the directory\n"),
          "a damaged directory with height")
    torn.write_bytes(put(viaduct.read_bytes(), 512 * 3, b"\0"))
    same(run("ask", torn, 2, "1,1"), (1, "", in_high.format("1,1")), "the axes of a damaged file with height")
    same(run("ask", torn, 1, "10,5,40")[0], 0, "a damaged tile with height that is not opened")
    same(run("ask", torn, 1, "60,5,0"), (1, "", f"{torn}: refused 2 (sync), block 3, tile 2\n  due: byte 0 is D6\n"
                                                "  there: byte 0 is 00\n"), "one that is opened")


def leveled(engine, rng, axes):
    """What `levels` prints: the lists of a full search, each place with its quotient."""
    held, silent = WORK / "levels.town", 0
    for _ in range(25):
        span, tiles = drawn(rng, most=12, axes=axes)
        held.write_bytes(engine.write(tiles))
        stops = spots(rng, span, rng.choice([1, 2, 5]), axes)
        k, reach = rng.choice([1, 3, 64]), rng.choice([1, 2, max(1, span // 30), span, 1_000_000])
        lines = [f"reach {reach}, k {k}, stops {len(stops)}"]
        for i, stop in enumerate(stops):
            places = full_search(tiles, stop, k)
            lines.append(f"stop {i} at {','.join(map(str, stop))}:" + ("" if places else " no sounding site"))
            for dist, _, cue in places:
                heard = dist <= 100 * reach * reach
                level = Fraction(reach * reach, reach * reach + dist)
                lines.append(f"  cue {cue}, D {dist}: " + (f"level {float(level):.4f}" if heard else "silent"))
                silent += not heard
        same(run("levels", held, reach, k, *(",".join(map(str, stop)) for stop in stops)),
             (0, "\n".join(lines) + "\n", ""), "levels")
    holds(silent > 0, "a silent place was drawn")


def refused_levels():
    for reach in (0, -1, 1_000_001, 10**20):
        due = f"refused 18 (reach)\n  due: a reach from 1 to 1000000\n  there: the reach is {reach}\n"
        # before the file, k and the stops are looked at
        for arguments in ([3, "0,0"], [65, "0,0"], [3], [3, "0,0,0"], [3, "0,9999999"]):
            same(run("levels", SAMPLE, reach, *arguments), (1, "", due), f"a reach of {reach}")
    same(run("levels", SAMPLE, 9, 65, "0,0"), (1, "", "refused 11 (k)\n  due: k from 1 to 64\n  there: k is 65\n"),
         "levels with a bad k")
    same(run("levels", SAMPLE, 9, 3), (1, "", "refused 12 (stops)\n  due: 1 to 256 stops\n  there: there are 0\n"),
         "levels without a stop")
    same(run("levels", WORK / "none.town", 9, 3, "0,0")[0], 1, "levels of no file")


def ordered(engine, rng, axes):
    """The sequence for streaming, of the engine and as `order` prints it."""
    held, moved = WORK / "order.town", 0
    for i in range(300):
        span, tiles = drawn(rng, most=rng.choice([3, 12, 40]), axes=axes)
        file = engine.write(tiles)
        stops = spots(rng, rng.choice([1, span]), rng.choice([1, 2, 5]), axes)
        due = sequence(tiles, smallest_box(stops))
        same(engine.order(file, smallest_box(stops)), due, "the sequence")
        moved += due != sorted(due)
        if i % 12:
            continue
        # The block of a tile may hold anything.
        held.write_bytes(file[:-512] + bytes(512))
        same(run("order", held, *(",".join(map(str, stop)) for stop in stops)),
             (0, f"O {town.box_words(smallest_box(stops))}\ntiles {len(tiles)}: {', '.join(map(str, due))}\n", ""),
             "order")
    holds(moved > 50, "sequences that are not those of the numbers were drawn")


def refused_orders():
    """Directory, axes, O: in this order. A low end is never above its high end, as O is found from the stops."""
    viaduct, bad = WORK / "viaduct.town", WORK / "bad.town"
    beyond = "refused 9 (box)\n  due: coordinates from -1000000 to 1000000\n  there: stop {} is at {}\n"
    in_high = ("refused 17 (axes)\n  due: stops X,Y,Z, as the town has height\n  there: stop 0 is at {}\n"
               "  give each stop its z, or ask a town without height\n")
    in_plan = ("refused 17 (axes)\n  due: stops X,Y, as the town has no height\n  there: stop 0 is at {}\n"
               "  leave out the z of each stop, or ask a town with height\n")
    same(run("make", "-", viaduct, given=VIADUCT)[0], 0, "a town with height")
    for file, stops, due in [
        (SAMPLE, ["0,0", "0,1000001"], beyond.format(1, "0,1000001")),
        (SAMPLE, ["-9999999999,0"], beyond.format(0, "-9999999999,0")),
        (viaduct, ["0,0,0", "1,1,-1000001"], beyond.format(1, "1,1,-1000001")),
        (viaduct, ["0,0"], in_high.format("0,0")), (viaduct, ["0,1000001"], in_high.format("0,1000001")),
        (SAMPLE, ["0,0,0"], in_plan.format("0,0,0")), (SAMPLE, ["0,0,1000001"], in_plan.format("0,0,1000001")),
    ]:
        same(run("order", file, *stops), (1, "", due), f"order {file.name} {stops}")
    # A bad box of the directory comes first, and is told from a bad O.
    bad.write_bytes(put(SAMPLE.read_bytes(), 16, struct.pack("<i", 1_000_001), 0))
    for stops in (["0,0"], ["0,1000001"], ["0,0,0"]):
        same(run("order", bad, *stops),
             (1, "", f"{bad}: refused 9 (box), block 0, of the directory\n  due: coordinates from -1000000 to 1000000\n"
                     "  there: low x of tile 0 is 1000001\n"), f"a bad directory, {stops}")
    bad.write_bytes(SAMPLE.read_bytes()[:-1])
    holds(run("order", bad, "0,0")[2].startswith(f"{bad}: refused 1 (length)\n"), "order of a file cut short")


def refused_questions():
    coordinates = "  due: coordinates from -1000000 to 1000000\n"
    for arguments, due in [
        ([65, "0,0"], "refused 11 (k)\n  due: k from 1 to 64\n  there: k is 65\n"),
        ([0, "0,0"], "refused 11 (k)\n  due: k from 1 to 64\n  there: k is 0\n"),
        ([-1, "0,0"], "refused 11 (k)\n  due: k from 1 to 64\n  there: k is -1\n"),
        ([10**20, "0,0"], "refused 11 (k)\n  due: k from 1 to 64\n  there: k is 100000000000000000000\n"),
        ([3, *["0,0"] * 257], "refused 12 (stops)\n  due: 1 to 256 stops\n  there: there are 257\n"),
        ([3, "0,0", "0,1000001"], f"refused 13 (spot)\n{coordinates}  there: stop 1 is at 0,1000001\n"),
        ([3, "-9999999999,0"], f"refused 13 (spot)\n{coordinates}  there: stop 0 is at -9999999999,0\n"),
    ]:
        same(run("ask", SAMPLE, *arguments), (1, "", due), f"ask {arguments[:3]}")
        same(run("draw", SAMPLE, *arguments, WORK / "none.html"), (1, "", due), f"draw {arguments[:3]}")
    same(run("ask", SAMPLE, 3), (1, "", "refused 12 (stops)\n  due: 1 to 256 stops\n  there: there are 0\n"),
         "ask without a stop")
    # A tile that is not opened may hold anything; one that is opened may not.
    torn = WORK / "torn.town"
    torn.write_bytes(put(SAMPLE.read_bytes(), 512 * 21, b"\0"))
    same(run("ask", torn, 3, "1200,3000")[0], 0, "a damaged tile that is not opened")
    same(run("ask", torn, 3, "2600,3100"), (1, "", f"{torn}: refused 2 (sync), block 21, tile 20\n  due: byte 0 is D6\n"
                                                   f"  there: byte 0 is 00\n"), "a damaged tile that is opened")
    torn.write_bytes(put(SAMPLE.read_bytes(), 512 * 21 + 16 + 8, bytes(4), 21))
    same(run("ask", torn, 3, "1200,3000")[0], 0, "a tile with another number of muted sites that is not opened")
    same(run("ask", torn, 3, "2600,3100"),
         (1, "", f"{torn}: refused 16 (muted), block 21, tile 20\n"
                 "  due: 0 sites with cue 0, the directory's muted number of this tile\n"
                 f"  there: 1 site with cue 0, slot 0\n  {MAY_BE_OLD}\n"), "one that is opened")


def usage():
    same(run("--help")[0], 0, "help")
    holds(run("--help")[1].startswith("town: the tool for towns\n"), "the help's first line")
    for name in ("make", "show", "check", "ask", "levels", "order", "draw", "renew"):
        status, said, _ = run(name, "--help")
        holds(status == 0 and said.startswith(f"town {name} "), f"help of {name}")
        holds(max(map(len, said.splitlines())) <= 132, f"help of {name} is not wide")
        same(run(name)[0], 2, f"{name} without arguments")
    for arguments in ([], ["sing"], ["show", SAMPLE, "more"], ["make", "a"], ["ask", SAMPLE],
                      ["ask", SAMPLE, "x", "1,1"], ["ask", SAMPLE, "3", "1"], ["ask", SAMPLE, "3", "1,2,3,4"],
                      ["ask", SAMPLE, "3", "1,2,"], ["ask", SAMPLE, "3", "1,1", "1,2,3"],
                      ["ask", SAMPLE, "3", "1,2,3", "1,1"], ["draw", SAMPLE, "3", "1,1", "2,2,2", "page"],
                      ["draw", SAMPLE, "3", "1,1,1", "2,2,2"], ["ask", SAMPLE, "3", "1.5,2"],
                      ["draw", SAMPLE, "3", "page"], ["levels", SAMPLE, "3"], ["levels", SAMPLE, "x", "3", "1,1"],
                      ["levels", SAMPLE, "", "3", "1,1"], ["levels", SAMPLE, "1.5", "3", "1,1"],
                      ["levels", SAMPLE, "9", "1,1", "1,1"], ["levels", SAMPLE, "9", "3", "1"],
                      ["order", SAMPLE], ["order", SAMPLE, "1"], ["order", SAMPLE, "1,1", "1,1,1"],
                      ["draw", SAMPLE, "3", "1;1", "page"], ["draw", SAMPLE, "3", "1,1", "2,-2"]):
        status, said, wrong = run(*arguments)
        holds(status == 2 and not said and wrong.startswith("town: "), f"usage: {arguments}: {status} {wrong}")
    none = WORK / "no-such"
    for name in (["show", none], ["check", none], ["ask", none, 1, "0,0"], ["make", none, none],
                 ["renew", none, none], ["order", none, "0,0"], ["draw", none, 1, "0,0", none]):
        same(run(*name), (1, "", f"{none}: No such file or directory\n"), f"{name[0]} of a missing file")
    same(run("check", WORK), (1, "", f"{WORK}: Is a directory\n"), "check of a folder")
    same(run("make", "samples/riverside.txt", none / "x")[0], 1, "make into a missing folder")
    same(run("draw", SAMPLE, 1, "0,0", none / "x")[0], 1, "draw into a missing folder")


def places():
    """The library is found where it is said to be; without it there is a plain message."""
    holds("make lib" in run("check", SAMPLE, tool=copied(None))[2], "no library: `make lib` is named")
    for where in ("target/lib", "lib"):
        same(run("check", SAMPLE, tool=copied(where))[0], 0, f"the library in {where}")
    same(run("check", SAMPLE, NEARBY_LIB=str(SAMPLE))[0], 1, "a library that is none")
    same(run("check", SAMPLE, tool=copied(None), NEARBY_LIB=str(ROOT / "target/lib/libnearby.so"))[0], 0, "NEARBY_LIB")
    # As installed: PREFIX/lib/nearby/town with its modules, a link to it in PREFIX/bin, the library in PREFIX/lib.
    prefix = WORK / "prefix"
    shutil.rmtree(prefix, ignore_errors=True)
    shutil.copytree(ROOT / "tools", prefix / "lib/nearby", ignore=shutil.ignore_patterns("__pycache__"))
    shutil.copy(ROOT / "target/lib/libnearby.so", prefix / "lib")
    (prefix / "bin").mkdir()
    (prefix / "bin/town").symlink_to("../lib/nearby/town")
    same(run("draw", SAMPLE, 3, *STOPS, WORK / "installed.html", tool=prefix / "bin/town")[0], 0, "the installed tool")


def copied(library):
    """The tool in a tree of its own, with the library at a place or nowhere."""
    tree = WORK / "tree"
    shutil.rmtree(tree, ignore_errors=True)
    shutil.copytree(ROOT / "tools", tree / "tools", ignore=shutil.ignore_patterns("__pycache__"))
    if library:
        (tree / library).mkdir(parents=True)
        shutil.copy(ROOT / "target/lib/libnearby.so", tree / library)
    return tree / "tools/town"


# ---- the data of pages -----------------------------------------------------------------------------------------------
def list_after(data, i, m, k):
    """A list as the page decodes it."""
    opened = set(data["queues"][i][0:2 * m:2])
    held = data["places"][i]
    return [(held[at + 1], held[at]) for at in range(0, len(held), 2) if held[at] // 40 in opened][:k]


def three_points(data, tiles, e, b):
    """The points o, e, b of a margin as the page decodes them, by axis."""
    axes = len(data["o"]) // 2
    letters = data["points"][e][3 * axes * b:3 * axes * (b + 1)]
    for axis, (of_o, of_e, of_b) in enumerate(letters[at:at + 3] for at in range(0, 3 * axes, 3)):
        ends = [{"l": box[axis], "h": box[axis + axes]} for box in (data["o"], tiles[e].box, tiles[b].box)]
        at = ends[0][of_o]
        yield at, ends[1][of_e], at if of_b == "o" else ends[2][of_b]


def points_due(o, e, b, axis):
    """The points on one axis by the rule: the first of the ends in their order that has the most."""
    axes = len(o) // 2

    def of(at):
        farthest = max((e[axis], e[axis + axes]), key=lambda end: (at - end) ** 2)
        closest = sorted((b[axis], at, b[axis + axes]))[1]
        return at, farthest, closest
    return max((of(o[axis]), of(o[axis + axes])), key=lambda p: (p[0] - p[1]) ** 2 - (p[0] - p[2]) ** 2)


def pages(engine, rng, axes):
    """The numbers of a page, beside a full search, the join made once more, and the margin by corners."""
    for _ in range(60):
        span, tiles = drawn(rng, most=rng.choice([3, 12, 30]), axes=axes)
        stops = spots(rng, span, rng.choice([1, 2, 4]), axes)
        asked_k = rng.choice([1, 3, 64])
        data = page.data(engine, "drawn", engine.write(tiles), tiles, stops, asked_k)
        o = smallest_box(stops)
        same(data["o"], o, "O")
        same([note for note in data["notes"] if "has height" in note], [page.SEEN_FROM_ABOVE] * (axes - 2),
             "the note of a page with height")
        corners = [corner[::-1] for corner in itertools.product(*(o[axis::axes] for axis in reversed(range(axes))))]
        same([(held["far"], held["near"]) for held in data["corners"]],
             [([far(corner, tile.box) for tile in tiles], [near(corner, tile.box) for tile in tiles])
              for corner in corners], "far and near of the corners of O")
        most = sum(len(sounding(tile)) for tile in tiles)
        holds(data["kmax"] <= min(64, max(asked_k, most)), "the largest k of a page")
        for k in {1, 2, asked_k, rng.randint(1, data["kmax"])}:
            if k > data["kmax"]:
                continue
            struck, opened = marks(tiles, stops, k)
            same(data["marks"][k - 1],
                 "".join("2" if t in opened else "1" if t in struck else "0" for t in range(len(tiles))),
                 "the marks of a page")
            for i, stop in enumerate(stops):
                order = sorted((near(stop, tile.box), t) for t, tile in enumerate(tiles) if sounding(tile))
                held = data["queues"][i]
                same(list(zip(held[1::2], held[::2])), order[:len(held) // 2], "the queue of a page")
                end = data["walks"][i][k - 1]
                waits = [key for key in order[end:] if key[1] not in struck]
                holds(not waits or waits[0][1] in held[::2], "the next key is in the queue of the page")
                for m in range(1, end + 1):
                    taken = {t for _, t in order[:m]}
                    so_far = [tile if t in taken else town.Tile(tile.box, []) for t, tile in enumerate(tiles)]
                    last = full_search(so_far, stop, k)
                    same(list_after(data, i, m, k), [place[:2] for place in last], "the list after an opening")
                    ahead = [place for place in last if m < len(order) and (place[0], place[1] // 40) < order[m]]
                    same(m == end,
                         len(ahead) >= k or m == len(order) or not [key for key in order[m:] if key[1] not in struck],
                         "a stop ends when k sites are ahead of the next key or no tile waits")
        for e in range(len(tiles)):
            for b in range(len(tiles)):
                same(data["margins"][e][b], margin(o, tiles[e].box, tiles[b].box), "the margin of a page")
                same(list(three_points(data, tiles, e, b)),
                     [points_due(o, tiles[e].box, tiles[b].box, axis) for axis in range(axes)],
                     "the three points of a margin")
        for b, tile in enumerate(tiles):
            nearer = sum(len(sounding(e)) for e in tiles if margin(o, e.box, tile.box) < 0)
            same(data["nearer"][b], min(64, nearer), "the sounding sites of nearer tiles")


def large_pages(engine, rng):
    """Large towns and many stops: the page stays under 2 MB, and says what it leaves out."""
    tiles = []
    for t in range(960):
        x, y = 1000 * (t % 40), 1000 * (t // 40)
        tiles.append(town.Tile((x, y, x + 999, y + 999), [(x + rng.randrange(1000), y + rng.randrange(1000), 7)
                                                          for _ in range(rng.randint(0, 40))]))
    stops = [(rng.randrange(40000), 12000 + rng.randrange(1000)) for _ in range(40)]
    made, _ = page.html(engine, "large", engine.write(tiles), tiles, stops, 5)
    holds(len(made) < 2_000_000, f"the page of a large town has {len(made)} bytes")
    holds("The margin is here for E among 31 tiles" in made, "the page says which margins it has")
    above = [town.Tile((*tile.box[:2], 0, *tile.box[2:], 900), [(x, y, rng.randrange(900), cue) for x, y, cue in
                                                               tile.sites[:30]]) for tile in tiles]
    made, _ = page.html(engine, "large", engine.write(above), above, [(x, y, x % 900) for x, y in stops], 5)
    holds(len(made) < 2_000_000, f"the page of a large town with height has {len(made)} bytes")
    sparse = [town.Tile((10 * t, 0, 10 * t + 9, 9), [(10 * t, 5, t + 1)]) for t in range(120)]
    stops = [(rng.randrange(1200), 0) for _ in range(200)]
    made, _ = page.html(engine, "sparse", engine.write(sparse), sparse, stops, 2)
    holds("The slider ends at k = " in made, "the page says where the slider ends")
    made, _ = page.html(engine, "sparse", engine.write(sparse), sparse, stops, 64)
    holds("The list after each turn is here for stops 0 to " in made, "the page says for which stops it has the steps")


def main():
    shutil.rmtree(WORK, ignore_errors=True)
    WORK.mkdir(parents=True)
    engine = Engine()
    texts()
    texts_with_height()
    round_trips(engine, random.Random(1), 2)
    round_trips(engine, random.Random(8), 3)
    renewed(engine, random.Random(6))
    faulty(engine)
    checks(engine)
    drawn_damage(engine, random.Random(2))
    questions(engine, random.Random(3), 2)
    questions(engine, random.Random(9), 3)
    asked()
    asked_with_height()
    leveled(engine, random.Random(11), 2)
    leveled(engine, random.Random(12), 3)
    refused_levels()
    ordered(engine, random.Random(13), 2)
    ordered(engine, random.Random(14), 3)
    refused_orders()
    refused_questions()
    usage()
    places()
    pages(engine, random.Random(4), 2)
    pages(engine, random.Random(10), 3)
    large_pages(engine, random.Random(5))
    print(f"tool: {runs} runs of tools/town, drawn towns, damage, old files, questions and pages compared")


main()
