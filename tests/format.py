#!/usr/bin/env python3
"""docs/FORMAT.md and examples/reader.c against the sample towns and the engine (target/lib/libnearby.so).

From the document are taken its grammar, maps, tables, dumps, sums, orders of tests and pieces of C; each is compared
with the bytes of samples/riverside.town and samples/viaduct.town, with what the engine answers, or with
examples/reader.c. The reader is built with every warning an error, and run on good and on damaged files of both
families: its number and block have to be those of nearby_validate, and the text that it prints has to give the same
file by nearby_write or nearby_write3. examples/town.c, and the tool for plan towns, have to take a drawn line of text
exactly when it is one of the grammar and of a town. Failures are printed; the status is 1 if there is one.

use: format.py
"""
import itertools
import random
import re
import struct
import subprocess
import sys
from ctypes import POINTER, Structure, c_int32, c_int64, c_size_t, c_uint8, c_uint32, c_uint64
from pathlib import Path
from typing import NamedTuple

ROOT = Path(__file__).resolve().parent.parent
sys.dont_write_bytecode = True
sys.path.insert(0, str(ROOT / "tools"))

import towns.text  # noqa: E402
from towns.engine import Engine, lent  # noqa: E402

BLOCK, BAD_BOX = 512, 9_000_000_000_000_000_000
failures, done = [], {"facts": 0, "files": 0}


def expect(what, got, due):
    done["facts"] += 1
    if got != due:
        failures.append(f"{what}: {got!r}, due is {due!r}")


class Family(NamedTuple):
    """What differs between plan towns and towns with height."""
    axes: int
    directory: int
    tile: int
    entry: int
    entries: int
    site: int
    sites: int
    bytes: int

    def directory_blocks(self, tiles):
        return -(-tiles // self.entries)

    def entry_at(self, t):
        """Where the entry of a tile is in the file; its count is 8 bytes an axis behind."""
        return BLOCK * (t // self.entries) + 16 + self.entry * (t % self.entries)

    def name(self):
        return "a plan town" if self.axes == 2 else "a town with height"


PLAN, HEIGHT = Family(2, 1, 2, 20, 24, 12, 40, 512_000), Family(3, 3, 4, 28, 17, 16, 30, 520_704)
FAMILIES = PLAN, HEIGHT


def other(family):
    return HEIGHT if family is PLAN else PLAN


# The engine

class Validated(Structure):
    _fields_ = [(name, c_uint32) for name in ("number", "block", "tiles", "axes")]


class Streamed(Structure):
    _fields_ = [(name, c_uint32) for name in ("number", "block", "tiles")]


class Calls(Engine):
    """The engine, and its calls with slices of any length, for two axes or three by what they are given; what `joined`,
    `prune` and `stream_order` lend is in `lent` afterwards."""

    def __init__(self, path):
        super().__init__(path)
        lib, data, whole, many = self.calls, POINTER(c_uint8), POINTER(c_int32), POINTER(c_uint32)
        lib.nearby_validate.restype = Validated
        lib.nearby_margin3.argtypes, lib.nearby_margin3.restype = [c_int32] * 18, c_int64
        lists = [POINTER(c_uint64), c_size_t, many, c_size_t, many, c_size_t, data, c_size_t]
        lib.nearby_join3.argtypes = [data, c_size_t] + [whole, c_size_t] * 3 + [c_uint32] + lists
        lib.nearby_join3.restype = lib.nearby_join.restype
        lib.nearby_prune3.argtypes = [data, c_size_t] + [c_int32] * 6 + [c_uint32, data, c_size_t]
        lib.nearby_prune3.restype = lib.nearby_prune.restype
        for call, ends in (lib.nearby_stream_order, 4), (lib.nearby_stream_order3, 6):
            call.argtypes, call.restype = [data, c_size_t] + [c_int32] * ends + [many, c_size_t], Streamed
        lib.nearby_write3.argtypes = [whole, c_size_t, many, c_size_t] + [whole, c_size_t] * 3 + [
            many, c_size_t, data, c_size_t]
        lib.nearby_write3.restype = lib.nearby_write.restype

    def checked(self, file):
        answer = self.calls.nearby_validate(*self.file(file))
        if answer.number:
            expect("tiles and axes of a refused file", (answer.tiles, answer.axes), (0, 0))
        return answer.number, answer.block

    def axes(self, file):
        return self.calls.nearby_validate(*self.file(file)).axes

    def written(self, boxes, counts, *columns, room=HEIGHT.bytes):
        """The columns are x, y, with height z, and the cues."""
        write = {3: self.calls.nearby_write, 4: self.calls.nearby_write3}[len(columns)]
        kinds = c_int32, c_uint32, *[c_int32] * (len(columns) - 1), c_uint32
        slices = [lent(kind, column) for kind, column in zip(kinds, (boxes, counts, *columns))]
        out = (c_uint8 * max(1, room))()
        answer = write(*itertools.chain(*slices), out, room)
        return answer.number, answer.block, bytes(out)[:answer.length]

    def joined(self, file, columns, k, rooms):
        """The columns are x, y and, with height, z of the stops."""
        join = {2: self.calls.nearby_join, 3: self.calls.nearby_join3}[len(columns)]
        self.lent = [lent(kind, [77] * room) for kind, room in zip((c_uint64, c_uint32, c_uint32, c_uint8), rooms)]
        self.answer = join(*self.file(file), *itertools.chain(*(lent(c_int32, column) for column in columns)), k,
                           *itertools.chain(*self.lent))
        return self.answer.number, self.answer.block

    def asked(self, file, stops, k):
        """The places used, the marks and the lists of a question that is answered."""
        n = len(stops) * k
        expect("a question is answered", self.joined(file, list(zip(*stops)), k, [n, n, n, 960]), (0, 0))
        used, (dist, site, cue, marks) = self.answer.used, [list(part) for part, _ in self.lent]
        lists = [list(zip(dist, site, cue))[i * k:i * k + used] for i in range(len(stops))]
        return used, marks[:self.answer.tiles], lists

    def prune(self, file, box, k, room):
        prune = {4: self.calls.nearby_prune, 6: self.calls.nearby_prune3}[len(box)]
        self.lent = [lent(c_uint8, [77] * room)]
        answer = prune(*self.file(file), *box, k, *self.lent[0])
        return answer.number, answer.block

    def stream_order(self, file, box, room):
        order = {4: self.calls.nearby_stream_order, 6: self.calls.nearby_stream_order3}[len(box)]
        self.lent = [lent(c_uint32, [77] * room)]
        answer = order(*self.file(file), *box, *self.lent[0])
        if answer.number:
            expect("tiles of a refused stream order", answer.tiles, 0)
        return answer.number, answer.block

    def slices_hold(self, value):
        return all(set(part[:length]) <= {value} for part, length in self.lent)


# Files

def sums(data, modulus=255):
    a = c = 0
    for byte in data:
        a = (a + byte) % modulus
        c = (c + a) % modulus
    return a, c


def mended(file, position):
    """The file with the check of a block computed anew."""
    file, at = bytearray(file), BLOCK * position
    file[at + 510:at + 512] = sums(file[at + 1:at + 510])
    return bytes(file)


def put(file, at, data):
    return file[:at] + bytes(data) + file[at + len(data):]


def block_of(file, position):
    return file[BLOCK * position:BLOCK * position + BLOCK]


def family_of(file):
    return HEIGHT if file[1:2] == b"\3" else PLAN


def file_of(engine, text):
    """The file of a plan town's text, by the tool; none if it is not the text of a plan town."""
    try:
        return towns.text.make(engine, text)[1]
    except towns.text.Faulty:
        return b""


def file_with_height(engine, text):
    """The file of the text of a town with height; the lines are good ones without comments."""
    boxes, counts, sites = [], [], []
    for word, *numbers in map(str.split, text.splitlines()):
        if word == "tile":
            boxes += map(int, numbers)
            counts.append(0)
        else:
            sites.append([int(number) for number in numbers])
            counts[-1] += 1
    return engine.written(boxes, counts, *([site[i] for site in sites] for i in range(4)))[2]


def town(family, tiles, sites=2):
    """Lists of a town with this many tiles, and as many sites in each."""
    more = [-7] * (family.axes - 2), [7] * (family.axes - 2)
    boxes = [number for t in range(tiles) for number in (10 * t, -5, *more[0], 10 * t + 9, 5, *more[1])]
    x = [10 * t + slot % 10 for t in range(tiles) for slot in range(sites)]
    return boxes, [sites] * tiles, x, *[[-1] * len(x)] * (family.axes - 1), list(range(1, len(x) + 1))


# The document

class Document:
    def __init__(self, path):
        self.parts, self.fences, self.whole = {}, [], path.read_text()
        part, fence = "", None
        for line in self.whole.splitlines():
            if fence is not None and line == "```":
                fence = None
            elif fence is not None:
                fence[1].append(line)
            elif line.startswith("```"):
                fence = (line[3:], [])
                self.fences.append((part, *fence))
            elif re.match(r"##+ ", line):
                part = line.lstrip("# ")
            else:
                self.parts.setdefault(part, []).append(line)

    def running(self):
        """All that is not in a fence, in one line, without commas in numbers."""
        text = " ".join(itertools.chain(*self.parts.values()))
        return re.sub(r"(?<=\d),(?=\d{3})", "", text)

    def tables(self, head):
        """The rows of the tables whose first row has these first cells."""
        found, rows = [], None
        for line in itertools.chain(*(lines + [""] for lines in self.parts.values())):
            cells = [cell.strip() for cell in line.strip("|").split("|")] if line.startswith("|") else None
            if cells is None:
                rows = None
            elif rows is None and cells[:len(head)] == head:
                found.append(rows := [])
            elif rows is None:
                rows = []
            elif not set(line) <= set("|-"):
                rows.append(cells)
        if not found:
            failures.append(f"docs/FORMAT.md: no table {head}")
        return found

    def table(self, *head):
        return (self.tables(list(head)) + [[]])[0]

    def steps(self, title):
        """The numbered list of a part: refusals by number, and its other steps by their first words."""
        steps = []
        for line in self.parts.get(title, []):
            step = re.match(r"\d+\. (?:\*\*(\d+) (\w+)\*\*|(\w+(?: \w+)?))", line)
            if step:
                steps.append(int(step[1]) if step[1] else step[3])
                if step[1]:
                    expect(f"{title}: name of {step[1]}", step[2], NAMES.get(int(step[1])))
        return steps


def number(text):
    return int(text.replace(",", ""))


def count_of(expression, n, axes=0):
    """The value of a formula such as `16 + 20 × n`, or of one of the grammar, such as `494 - (8 A + 4) n`."""
    if not re.fullmatch(r"[\dnA ()×+-]+", expression):
        raise ValueError(expression)
    expression = re.sub(r"(?<=[\d)]) (?=[nA])", " * ", expression)
    return eval(expression.replace("×", "*"), {"n": n, "A": axes})


def dumped(lines):
    """The bytes that od printed with -A d -t x1."""
    data, repeat = b"", False
    for line in lines:
        if line == "*":
            repeat = True
        elif re.fullmatch(r"\d{7}( [0-9a-f]{2})*", line):
            at = int(line[:7])
            while repeat and len(data) < at:
                data += data[-16:]
            repeat = False
            expect("a dump's line number", len(data), at)
            data += bytes.fromhex(line[7:])
    return data


def header_names():
    text = (ROOT / "include/nearby.h").read_text()
    return {int(value): name.lower() for name, value in re.findall(r"NEARBY_(\w+) = (\d+),? +/\* ", text)
            if 1 <= int(value) <= 18}


# What the document says of numbers, sizes and sums

def check_arithmetic(document):
    """Every equation between numbers, in running text and in tables."""
    text = re.sub(r"(?<=\d),(?=\d{3})", "", document.whole)
    in_hex = r"`((?:[0-9a-f]{2} ){3}[0-9a-f]{2})` is (?:[\d ×+-]* = )?(-?\d+)"
    for hexa, value in re.findall(in_hex, document.running()):
        expect(f"{hexa} as a number", int(value), int.from_bytes(bytes.fromhex(hexa), "little", signed=True))
    expect("the bytes of the check", set(re.findall(r"\bbyte\S* (?:of |from )?1 to (\d+)", text, re.I)), {"509"})
    equations = re.findall(r"(?<![\w.])(\d+(?: [×+-] \d+)+) = (-?\d+)\b", text)
    for left, right in equations:
        expect(f"{left} = {right}", eval(left.replace("×", "*")), int(right))
    for left, right in re.findall(r"(\d+) mod 255 (?:=|is) (\d+)", text):
        expect(f"{left} mod 255", int(right), int(left) % 255)
    expect("there are equations", len(equations) > 15, True)
    # a slip of the pen in running text or in the grammar: no other large numbers stand there
    said = " ".join(line for lines in document.parts.values() for line in lines if not line.startswith("|"))
    said += " ".join(line for part, _, lines in document.fences for line in lines if part.startswith("2."))
    large = {int(text.replace(",", "")) for text in re.findall(r"\d[\d,]{2,}(?<!,)", said)}
    expect("large numbers in running text", large, {
        100, 254, 255, 256, 314, 355, 480, 494, 495, 509, 510, 511, 512, 960, 1071, 129_795, 154_102, 1_000_000,
        33_097_725, 2 ** 32 - 10, 2 ** 32, BAD_BOX, PLAN.bytes, HEIGHT.bytes,
        999, 2800, 3200, 300, 3000, 120, 184})  # in the last line those of two dumps with height


def check_families(document, samples):
    """The table of what differs, and the sizes that follow from the number of axes."""
    due = {"axes, A": "axes", "kind of a directory block": "directory", "kind of a tile block": "tile",
           "bytes of an entry, 8 × A + 4": "entry", "entries that fit a directory block, E": "entries",
           "bytes of a site, 4 × A + 4": "site", "sites that fit a tile block": "sites"}
    rows = document.table("", "Plan town", "Town with height")
    expect("what differs", rows, [[what, *(str(getattr(family, name)) for family in FAMILIES)]
                                  for what, name in due.items()])
    for family, sample in zip(FAMILIES, samples):
        axes = family.axes
        expect(f"sizes of {family.name()}", family[3:7], (8 * axes + 4, 480 // (8 * axes + 4), 4 * axes + 4,
                                                         480 // (4 * axes + 4)))
        expect(f"kinds of {family.name()}", {sample[at + 1] for at in range(0, len(sample), BLOCK)},
               {family.directory, family.tile})


def check_words(document):
    """Sentences with numbers that differ between the families, or that settle which it is; the numbers here are those
    that the other checks hold against the engine."""
    (plan, height), said = FAMILIES, re.sub(r" +", " ", document.running())
    for words in (
            # part 1 and 2
            f"up to {plan.sites} sites, with height up to {height.sites},",
            f"{plan.entries} tiles to a block, with height {height.entries}.",
            "Tiles are numbered from 0. The sites of a tile are numbered by **slot**, from 0.",
            "Entries and sites have 480 bytes of a block, bytes 16 to 495",
            f"Byte 1 of the file, the kind of block 0, is {plan.directory} in a plan town and {height.directory} in a "
            "town with height. Block 0 settles it for the whole file: every later block has a kind of the same family.",
            f"that a file over {plan.bytes} bytes is no plan town",
            f"The site number uses 40 in both families: with height no site has a slot over {height.sites - 1}.",
            f"A is {plan.axes} and E is {plan.entries} in a plan town; A is {height.axes} and E is {height.entries} in "
            "a town with height. `1 | 3` is 1 in a plan town, 3 in a town with height, and `2 | 4` likewise.",
            # parts 3 to 6
            f"An entry has {height.entry} bytes; here it takes two rows.",
            "The sample with height has 12 tiles, so n and T are 12.",
            "Block 4 of the sample with height is tile 3, since d is 1.",
            "A block of the other family is refused with 4, in the directory and in a tile,",
            "It is refused there: with 4 if another kind is due at that place, else with 5.",
            "Block 2 of `samples/riverside.town`, a plan town, is tile 1, since d is 1.",
            f"The kind of block 0 is {height.directory}.", "a site outside the box of its tile (10);",
            # part 7
            "for a town with height it prints `refused 17 block 0`, if no earlier test refuses.",
            f"**4 kind**: byte 1. In block 0 it is {plan.directory} or {height.directory}, which settles the family; "
            "in a later block it is that of block 0.",
            f"**1 length**: in block 0 only. If its kind is {plan.directory}, the file has at most {plan.bytes} bytes.",
            "**5 position**: bytes 2-3 are p.",
            "**6 tiles**: T in bytes 6-7 is 1 to 960, is that of block 0, and T/E rounded up, plus T, is N.",
            "**7 entries**: bytes 4-5 are the smaller of E and T - E p.", "Of step 6 the last condition is enough",
            f"**4 kind**: byte 1 is {plan.tile}; with height {height.tile}.",
            f"**1 length**: the file has 512 to {height.bytes} bytes, a multiple of 512.",
            "A refusal by steps 1 to 7 leaves the output slices as they were.",
            "**9 box**: the box O of the call, at block 0.", "and never refuses with 17.",
            "- For every refusal by the writer: 0,",
            "- For 9, when the box O of the strike call or of the stream order is bad: 0.",
            "If a later block is refused, block 0 was good, so byte 1 says the family,",
            "**17 speaks of the call and the file together.**", "- For 18: 0.",
            "**11 to 14, 18, and 9 for O, speak of the call.**",
            # part 8
            f"the {plan.site} or {height.site} bytes of the site, and the check.",
            "give all its boxes and sites z 0 and make the file with `nearby_write3`.",
            f"A tile with more than {height.sites} sites has to be cut first. With the same tiles, stops with z 0 get",
            f"A tile takes up to {plan.sites} sites, with height {height.sites}, and a town up to 960 tiles."):
        expect(f"the document says: {words}", words in said, True)
    header = (ROOT / "include/nearby.h").read_text()
    named = set(re.findall(r"\bnearby_\w+", document.whole))
    expect("calls that the header does not have", named - set(re.findall(r"\bnearby_\w+(?=\()", header)), set())
    notes = {row[0]: row[4] for row in document.table("What", "Least", "Most in a plan town", "Most with height")}
    expect("notes of the sizes", [notes[name].partition(",")[0] for name in ("bytes of a file", "cue", "site number")],
           ["512 × (d + T)", "any number of 32 bits; 0: muted", "tile × 40 + slot"])
    for title, lines in document.parts.items():
        steps = [int(step[1]) for step in (re.match(r"(\d+)\. ", line) for line in lines) if step]
        expect(f"numbers of the steps: {title}", steps, list(range(1, len(steps) + 1)))


def check_limits(document, engine, family):
    def number_of(*lists, room=family.bytes):
        return engine.written(*lists, room=room)[0]

    def one(low, high, sites=0, cue=0):
        return {number_of([*at(low), *at(high)], [sites], *([number] * sites for number in at(low)), [cue] * sites)
                for at in (lambda end, axis=axis: [end if axis == i else 0 for i in range(family.axes)]
                           for axis in range(family.axes))}

    rows = document.table("What", "Least", "Most in a plan town", "Most with height")
    limits = {row[0]: (number(row[1]), number(row[family.axes])) for row in rows}
    least, most = limits["tiles, T"]
    expect("T within and beyond its limits",
           [number_of(*town(family, tiles, 0)) for tiles in (least - 1, least, most, most + 1)], [6, 0, 0, 6])
    low, high = limits["coordinate"]
    expect("coordinates", [one(low, low), one(high, high), one(low - 1, low), one(high, high + 1)],
           [{0}, {0}, {9}, {9}])
    fewest, sites = limits["sites of a tile"]
    expect("an empty tile", fewest, 0)
    expect("sites of a tile", [one(0, 0, fewest), one(0, 0, sites), one(0, 0, sites + 1)], [{0}, {0}, {9}])
    expect("muted sites of a tile", limits["muted sites of a tile"], (0, sites))
    expect("cues", [one(0, 0, 1, cue) for cue in limits["cue"]], [{0}, {0}])
    expect("cues of 32 bits", limits["cue"], (0, 2 ** 32 - 1))
    expect("d", limits["directory blocks, d"], (family.directory_blocks(least), family.directory_blocks(most)))
    blocks = least + family.directory_blocks(least), most + family.directory_blocks(most)
    expect("blocks", limits["blocks of a file"], blocks)
    expect("bytes", limits["bytes of a file"], tuple(BLOCK * n for n in blocks))
    lengths = tuple(len(engine.written(*town(family, tiles, 0))[2]) for tiles in (least, most))
    expect("bytes of files", lengths, limits["bytes of a file"])
    expect("the longest file", lengths[1], family.bytes)
    expect("entries", limits["entries of a directory block"], (1, 480 // family.entry))
    expect("sites", limits["sites of a town"], (0, most * sites))
    expect("site numbers", limits["site number"], (0, (most - 1) * 40 + sites - 1))
    # the last site of the largest town, in an answer
    large = engine.written(*town(family, most, sites))[2]
    last = engine.asked(large, [(10 * most - 1, *[-1] * (family.axes - 1))], 64)[2][0]
    expect("the number of the last site", max(site for _, site, _ in last), limits["site number"][1])


def check_worked_block(document, engine, sample):
    """The dump of block 2, its fields and its sums."""
    dumps = {}
    for part, tag, lines in document.fences:
        if any("| od " in line for line in lines):
            dumps.setdefault(part, []).append(dumped(lines))
    height = (ROOT / "samples/viaduct.town").read_bytes()
    expect("the dump of a directory block with height", dumps["Directory block of a town with height"], [height[:44]])
    expect("the dump of a tile with height", dumps["Tile block of a town with height"], [block_of(height, 4)[:64]])
    said, ends = document.running(), struct.unpack_from("<6i", height, 16)
    box = " by ".join(f"{ends[axis]} to {ends[3 + axis]}" for axis in range(3))
    expect("the box of entry 0 with height", f"block 0 up to entry 0, whose box is {box}:" in said, True)
    expect("n and T with height", f"so n and T are {height[4]}." in said and height[4] == height[6], True)
    x, y, z, cue = struct.unpack_from("<3iI", height, BLOCK * 4 + 16)
    expect("slot 0 with height", f"Slot 0 is at ({x}, {y}, {z}) and has cue {cue}:" in said, True)
    [block] = dumps["Worked through with a pencil"]
    expect("the dump of block 2", block, block_of(sample, 2))
    expect("its check to the engine", engine.block_check(block), 0)

    at = 0
    for bytes_, hexa, field, read in document.table("Bytes", "Hex", "Field"):
        first, last = map(int, (bytes_.split("-") * 2)[:2])
        expect(f"field {field}: first byte", first, at)
        at = last + 1
        there = block[first:at]
        expect(f"field {field}", bytes(len(there)) if hexa.endswith("..") else bytes.fromhex(hexa), there)
        value = int(re.search(r"\d+", read.split("=")[-1])[0])
        expect(f"field {field} as a number", value, int.from_bytes(there, "little"))
    expect("the fields' end", at, BLOCK)

    at = 1
    for bytes_, value, a, c, _ in document.table("Bytes", "Value", "a", "c"):
        if bytes_ == "before":
            expect("sums before", (a, c), ("0", "0"))
        elif bytes_ == "stored":
            expect("stored sums", (int(a), int(c)), tuple(block[510:]))
        else:
            first, last = map(int, (bytes_.split("-") * 2)[:2])
            expect("next bytes of the sums", first, at)
            at = last + 1
            expect(f"value of bytes {bytes_}", set(block[first:at]), {int(value)})
            expect(f"sums after byte {last}", (int(a), int(c)), sums(block[1:at]))
    expect("the sums' last byte", at, 510)
    for changed in (510, 511):
        for value in range(256):
            due = 0 if value == block[changed] else 3
            expect("a stored sum to the engine", engine.block_check(put(block, changed, [value])), due)

    *rows, total = document.table("Byte i", "Value", "510 - i")
    rows = [tuple(map(int, row)) for row in rows]
    expect("bytes that are not zero", [row[:2] for row in rows], [(i, block[i]) for i in range(1, 510) if block[i]])
    expect("times", [row[2:] for row in rows], [(510 - i, value * (510 - i)) for i, value, _, _ in rows])
    expect("totals", total, ["sum", str(sum(row[1] for row in rows)), "", str(sum(row[3] for row in rows))])

    before_a = sum(sum(block[1:i]) for i in range(1, 510)) % 255
    mistakes = {
        "byte 0 is summed too": sums(block[:510]),
        "bytes 510 and 511 are summed too": sums(block[1:]),
        "bytes 510 and 511 are summed too, as zeros": sums(block[1:510] + bytes(2)),
        "bytes 2 and 3 are left out": sums(block[1:2] + block[4:510]),
        "bytes 2 and 3 are summed as zeros": sums(block[1:2] + bytes(2) + block[4:510]),
        "only the payload, bytes 16 to 495, is summed": sums(block[16:496]),
        "c is added to before a": (sums(block[1:510])[0], before_a),
        "the remainder is that of 256": sums(block[1:510], 256),
    }
    said = {row[0]: (int(row[1]), int(row[2])) for row in document.table("Mistake", "a", "c")}
    expect("mistakes", said, mistakes)
    worst = [255] * 509
    expect("sums without remainders", [sum(worst), sum(itertools.accumulate(worst))],
           [number(text) for text in re.search(r"a is at most ([\d,]+) and c at most ([\d,]*\d)",
                                               " ".join(document.parts["The two sums"])).groups()])

    example = next(lines for part, tag, lines in document.fences if lines[0].startswith("# y is 0"))
    for line, numbered in enumerate(re.findall(r"site (\d+) × 40 \+ (\d+)", "\n".join(example))):
        expect("numbering in the text", numbered, (str(line), "0"))
    command = next(line for _, _, lines in document.fences for line in lines if "above.txt" in line)
    above = "\n".join(re.findall(r"'((?:tile|site) [^']*)'", command))
    expect("the dumps of the texts' towns", dumps["5. The text of a town"],
           [file_of(engine, "\n".join(example))[:BLOCK], file_with_height(engine, above)[:72]])


def check_what_is_seen(engine, reader, sample, family):
    """Part 4, 'What it sees and what not'."""
    for position in (0, 2):
        block = block_of(sample, position)
        for at in range(BLOCK):
            for value in {block[at] ^ 1, block[at] ^ 0x80, 255 - block[at], 0, 255} - {block[at]}:
                unseen = 1 <= at <= 509 and {value, block[at]} == {0, 255}
                due = 2 if at == 0 else 0 if unseen else 3
                expect(f"byte {at} as {value}", engine.block_check(put(block, at, [value])), due)
        for at in range(1, 509):
            pair = block[at:at + 2]
            due = 0 if pair[0] % 255 == pair[1] % 255 else 3
            expect(f"bytes {at} and {at + 1} swapped", engine.block_check(put(block, at, pair[::-1])), due)
        for at in range(1, 255):
            apart = put(put(block, at, block[at + 255:at + 256]), at + 255, block[at:at + 1])
            expect(f"bytes {at} and {at + 255} swapped", engine.block_check(apart), 0)
    # one of the blocks with height has a muted site
    due = 0 if family is PLAN else 4
    expect("cues of the sample that turn from 0 or to 0", unseen_by_the_check(engine, reader, sample), due)
    # a cue that turns from 0, and one that turns to 0
    cues = (0, 255, 0xFF00, 0xFF000000, 0xFFFF, 1, 0)
    muted = engine.written([0] * family.axes + [255] * family.axes, [len(cues)], *[[0] * len(cues)] * family.axes,
                           cues)[2]
    expect("cues that turn from 0 and to 0", unseen_by_the_check(engine, reader, muted), 4 + 1 + 1 + 1 + 4)
    # a block that is moved: 4 where another kind is due, else 5
    two = engine.written(*town(family, 30))[2]
    for file, one, place, due in ((sample, 0, 2, 4), (sample, 2, 0, 4), (sample, 2, 3, 5), (two, 0, 1, 5),
                                  (two, 1, 2, 4)):
        expect("a moved block", engine.checked(put(file, BLOCK * place, block_of(file, one))), (due, place))
    zero = put(bytes(BLOCK), 0, [0xD6])
    expect("zeros", [engine.block_check(put(zero, at, [255])) for at in (1, 509, 510, 511)], [0, 0, 3, 3])


def unseen_by_the_check(engine, reader, file):
    """Each byte that turns from 0 to 255 or back: which test sees it, if any. The file has one directory block."""
    tiles, family = file[6], family_of(file)
    axes, size = family.axes, family.site
    boxes = [struct.unpack_from(f"<{2 * axes}i", file, family.entry_at(t)) for t in range(tiles)]
    sites = {t: [struct.unpack_from(f"<{axes}i", file, BLOCK * (t + 1) + 16 + size * slot)
                 for slot in range(file[family.entry_at(t) + 8 * axes])] for t in range(tiles)}
    unseen = {"cue": 0, "coordinate": 0, "muted": 0}

    def inside(box, point):
        return all(box[axis] <= point[axis] <= box[axes + axis] for axis in range(axes))

    def due_in_tile(t, at):
        if 16 <= at < 16 + size * len(sites[t]):
            slot, place = divmod(at - 16, size)
            if place >= 4 * axes:
                cue = BLOCK * (t + 1) + 16 + size * slot + 4 * axes
                changes = any(file[cue:cue + 4]) != any(damaged[cue:cue + 4])
                unseen["muted" if changes else "cue"] += 1
                return (16, t + 1) if changes else (0, 0)
            fits = inside(boxes[t], struct.unpack_from(f"<{axes}i", damaged, BLOCK * (t + 1) + 16 + size * slot))
            unseen["coordinate"] += fits
            return (0, 0) if fits else (10, t + 1)
        return {2: 5, 3: 5, 4: 7, 5: 7}.get(at, 8), t + 1

    def due_in_directory(at):
        if 16 <= at < 16 + family.entry * tiles:
            t, place = divmod(at - 16, family.entry)
            if place >= 8 * axes:
                return 9, 0
            box = struct.unpack_from(f"<{2 * axes}i", damaged, family.entry_at(t))
            if not all(-1_000_000 <= box[axis] <= box[axes + axis] <= 1_000_000 for axis in range(axes)):
                return 9, 0
            fits = all(inside(box, site) for site in sites[t])
            unseen["coordinate"] += fits
            return (0, 0) if fits else (10, t + 1)
        return {2: 5, 3: 5, 4: 7, 5: 7, 6: 6, 7: 6}.get(at, 8), 0

    for position in {0, 1, 2, 4, 20, 24} & set(range(tiles + 1)):
        for at in range(1, 510):
            byte = file[BLOCK * position + at]
            if byte in (0, 255):
                damaged = put(file, BLOCK * position + at, [255 - byte])
                due = due_in_tile(position - 1, at) if position else due_in_directory(at)
                expect(f"byte {at} of block {position} as {255 - byte}", engine.checked(damaged), due)
                if due[0] == 16:
                    reader.compare(damaged)
    expect("bytes of cues and coordinates that no test sees", unseen["cue"] > 0 < unseen["coordinate"], True)
    return unseen["muted"]


# What the document says of blocks

def check_grammar(document, tables, family):
    """The grammar's fields are those of the byte tables: names, offsets, lengths and fixed values."""
    grammar = next(lines for part, _, lines in document.fences if part == "2. The file as a grammar")
    sizes, structs, name = {"u8": 1, "u16": 2, "u32": 4, "i32": 4}, {}, None
    for line in grammar:
        said, _, comment = line.partition("//")
        if said.rstrip().endswith("{"):
            name = said.split()[0]
            structs[name], size = [], re.search(r"([\dA +]*\d) bytes", comment)
            sizes[name] = count_of(size[1], 0, family.axes) if size else None
        elif said.strip() not in ("", "}"):
            kind, names, times, value = re.fullmatch(
                r"(\w+)\s*((?:\w+(?:, )?)*)\s*(?:\[(.*?)\])?\s*(?:= (.*))?", said.strip()).groups()
            if times == "A":  # one for each axis
                names, times = ", ".join(f"{names.strip()}_{axis}" for axis in "xyz"[:family.axes]), "1"
            for field in names.split(", "):
                structs[name].append((kind, field.strip() or kind, times or "1", value))
    words = {"tiles": "T", "zero": "zeros", "entry": "n entries", "site": "n sites"}
    words.update((f"at_{axis}", axis) for axis in "xyz")
    for name, table in zip(("directory_block", "entry", "tile_block", "site"), tables):
        expect(f"fields of {name}", [words.get(field, field.replace("_", " ")) for _, field, _, _ in structs[name]],
               [row[2] for row in table])
        for n in range(family.entries + 1):
            at = 0
            for (kind, field, times, value), row in zip(structs[name], table):
                length = sizes[kind] * count_of(times, n, family.axes)
                expect(f"{field} of {name}", (at, length), (count_of(row[0], n), count_of(row[1], n)))
                at += length
            expect(f"bytes of {name}", at, sizes[name])
        fixed = [(field, value) for _, field, _, value in structs[name] if value and value not in "npT"]
        kinds = {"kind": "1 | 3" if name == "directory_block" else "2 | 4", "sync": "0xD6"}
        expect(f"fixed values of {name}", fixed, [(field, kinds.get(field, "0")) for field, _ in fixed])
    expect("fixed fields", [field for _, field, _, value in structs["tile_block"] if value],
           ["sync", "kind", "position", "entries", "zero", "zero"])
    expect("d in the grammar", "\n".join(grammar).count("d = (T + E - 1) / E, the whole part of it"), 1)
    expect("n in the grammar", "\n".join(grammar).count("n is the smaller of E and T - E p"), 1)
    bounds = [line.partition("// ")[2] for line in grammar if "// sites of the tile" in line]
    expect("counts in the grammar", bounds, [f"sites of the tile, 0 to {PLAN.sites}; with height 0 to {HEIGHT.sites}"])
    entry_at = (rf"(\d+ × \(t / {family.entries}\) \+ \d+ \+ \d+ × \(t % {family.entries}\))( \+ \d+)? "
                r"of the file")
    expect("formulas for the place of an entry", len(re.findall(entry_at, document.running())), 2)
    for formula, more in re.findall(entry_at, document.running()):
        due = [family.entry_at(t) + (8 * family.axes if more else 0) for t in range(960)]
        code = (formula + more).replace("×", "*").replace("/", "//")
        expect("where an entry stands", [eval(code, {"t": t}) for t in range(960)], due)
    places = re.findall(r"which is byte (\d+) \+ (\d+) × (?:i|slot) of the block", document.running())
    expect("where entries and sites stand in a block", places, [("16", str(size)) for each in FAMILIES
                                                                 for size in (each.entry, each.site)])


def check_maps(document, tables, family):
    """The pictures of part 3: five columns are a byte; the fields below the numbers are those of the byte tables."""
    for part, whole, item in ("Directory block", tables[0], tables[1]), ("Tile block", tables[2], tables[3]):
        part = f"{part} of {family.name()}"
        lines = next(lines for title, tag, lines in document.fences if title == part)
        size, shown, bytes_ = count_of(item[-1][0], 0) + count_of(item[-1][1], 0), [], set()
        for numbers, border, cells in zip(lines, lines[1:], lines[2:]):
            if not border.startswith("+") or not numbers.startswith(" "):
                continue
            start, ends = int(numbers.split()[0]), [at for at, sign in enumerate(border) if sign == "+"]
            for label in re.finditer(r"\d+", numbers):
                due = start + label.start() // 5 if label.start() % 5 == 1 else start + ends[-1] // 5 - 1
                expect(f"{part}: a number of the map", int(label[0]), due)
            table, base = (whole, 0) if start == 0 else (item, 16 + (start - 16) // size * size)
            names = dict((base + count_of(row[0], 0), row) for row in table)
            for left, right in zip(ends, ends[1:]):
                offset, length, name, due, _ = names[start + left // 5]
                text = cells[left + 1:right].strip()
                expect(f"{part}: length of {name}", right - left, 5 * count_of(length, 0))
                fixed = {"sync": "D6", "kind": f"0{due}", "zeros": " ".join(["00"] * count_of(length, 0))}
                expect(f"{part}: cell of {name}", text, fixed.get(name, name))
                bytes_ |= set(range(start + left // 5, start + right // 5))
            shown += [(base, int(at)) for at in re.findall(r"\| (?:entry|slot) (\d+)$", cells)] or [start]
        expect(f"{part}: rows", sorted(set(shown), key=str), sorted([0, (16, 0), (16 + size, 1)], key=str))
        expect(f"{part}: bytes", bytes_, set(range(16 + 2 * size)))
        rest = re.search(r"from byte 16 \+ (\d+) n to byte (\d+); with (\d+) .* bytes (\d+) to (\d+)", "".join(lines))
        most = 480 // size
        expect(f"{part}: zeros", tuple(map(int, rest.groups())), (size, 509, most, 16 + size * most, 509))
        check = next((above, cells) for above, cells in zip(lines, lines[2:]) if "| a " in cells)
        expect(f"{part}: check", (check[0].split(), check[1].split()), (["510", "511"], ["|", "a", "|", "c", "|"]))


def check_byte_tables(document, engine, reader, sample, text, family):
    """The tables of part 3: no byte is left out, the sample reads as its text, and each field is refused as said."""
    tables = document.tables(["Offset", "Length", "Name", "What is due", "Else refused with"])
    expect("byte tables", len(tables), 8)
    tables = tables[:4] if family is PLAN else tables[4:]
    directory, entry, tile, site = tables
    for table, size, most in ((directory, BLOCK, family.entries), (entry, family.entry, 0),
                              (tile, BLOCK, family.sites), (site, family.site, 0)):
        for n in range(most + 1):
            at = 0
            for offset, length, name, *_ in table:
                expect(f"offset of {name}", count_of(offset, n), at)
                at += count_of(length, n)
            expect("the size of a table's whole", at, size)
    # numbers of what is due
    due = {row[2]: row[3] for table in (directory, entry, tile, site) for row in table}
    axes = "xyz"[:family.axes]
    said = {"T": "1 to 960, as in block 0, and d + T the blocks of the file",
            "count": f"sites of the tile: 0 to {family.sites}", "muted": "sites of the tile with cue 0: 0 to count"}
    said.update((f"low {axis}", f"from -1,000,000 to high {axis}") for axis in axes)
    said.update((f"high {axis}", f"from low {axis} to 1,000,000") for axis in axes)
    said.update((axis, f"from low {axis} to high {axis} of the tile's box") for axis in axes)
    said["cue"] = "any number; 0 in as many sites of the tile as `muted` of its entry says"
    expect("what is due", {name: due.get(name) for name in said}, said)
    zeros = [row[3].partition(";")[0] for table in (directory, tile) for row in table if row[2] == "zeros"]
    expect("zeros due", zeros, ["0"] * 4)
    expect("entries due", [next(row[3] for row in table if row[2] == "entries") for table in (directory, tile)], [
        f"n, the smaller of {family.entries} and T - {family.entries} × position",
        "n, the count in the tile's directory entry"])
    expect("kinds due", [next(row[3] for row in table if row[2] == "kind") for table in (directory, tile)],
           [str(family.directory), str(family.tile)])

    def field(table, name, data, start=0, signed=False):
        offset, length = next((row[0], row[1]) for row in table if row[2] == name)
        at = start + count_of(offset, 0)
        return int.from_bytes(data[at:at + count_of(length, 0)], "little", signed=signed)

    tiles, lines = field(directory, "T", sample), []
    for t in range(tiles):
        start = family.entry_at(t)
        box = [field(entry, f"{end} {axis}", sample, start, True) for end in ("low", "high") for axis in axes]
        lines.append(" ".join(["tile", *map(str, box)]))
        block, cues = block_of(sample, family.directory_blocks(tiles) + t), []
        expect("entries", field(tile, "entries", block), field(entry, "count", sample, start))
        for slot in range(field(entry, "count", sample, start)):
            point = [field(site, name, block, 16 + family.site * slot, name != "cue") for name in (*axes, "cue")]
            lines.append(" ".join(["site", *map(str, point)]))
            cues.append(point[-1])
        expect("muted", field(entry, "muted", sample, start), cues.count(0))
    whole = [line.partition("#")[0].strip() for line in text.splitlines()]
    expect("the sample read by the tables", lines, [line for line in whole if line])

    check_grammar(document, tables, family)
    check_maps(document, tables, family)
    # the last byte of each field set to 7f: so that coordinates and counts are beyond all limits; a cue set to 0
    places = ((directory, 0, 0, sample[4]), (entry, 0, 16 + family.entry * 3, 0), (tile, 2, 0, sample[BLOCK * 2 + 4]),
              (site, 2, 16, 0))
    for table, position, start, n in places:
        for offset, length, name, _, refusal in table:
            if refusal == "":
                continue
            last = count_of(offset, n) + count_of(length, n) - 1
            file = put(sample, BLOCK * position + start + last, [0x7F])
            if name == "cue":
                expect("another cue", engine.checked(mended(file, position)), (0, 0))
                file = put(sample, BLOCK * position + start + last - 3, bytes(4))
            file = file if name in ("a", "c") else mended(file, position)
            due = int(refusal.split()[0]), position
            expect(f"{name} as 7f", engine.checked(file), due)
            reader.compare(file)
            expect(f"name of {refusal}", refusal.split()[1:], [NAMES.get(due[0])])


def fault_in_directory(file, number, position):
    """A file with a fault; 1 is over 512,000 bytes."""
    at, family = BLOCK * position, family_of(file)
    if number == 1:
        return file + bytes(PLAN.bytes + BLOCK - len(file))
    head = {2: (0, [0]), 4: (1, [family.tile]), 5: (2, [position + 1]), 6: (6, [29]), 7: (4, [7]), 8: (15, [1])}
    offset, data = (16 + 4 * family.axes + 4, struct.pack("<i", -6)) if number == 9 else head[number]
    return put(file, at + offset, data)


def fault_in_tile(file, number, position):
    at, family = BLOCK * position, family_of(file)
    head = {2: (0, [0]), 4: (1, [family.directory]), 5: (2, [position - 1]), 7: (4, [1]), 8: (6, [30]),
            16: (16 + 4 * family.axes, bytes(4))}
    # slot 1 leaves the box by its last axis
    offset, data = (16 + family.site + 4 * family.axes - 4, struct.pack("<i", 8)) if number == 10 else head[number]
    return put(file, at + offset, data)


def with_faults(file, make, numbers, position):
    """A block with these faults; the check is right but for fault 3."""
    for one in numbers:
        file = file if one == 3 else make(file, one, position)
    file = mended(file, position)
    return put(file, BLOCK * position + 511, [file[BLOCK * position + 511] ^ 1]) if 3 in numbers else file


def check_orders_in_blocks(document, engine, reader, family):
    file = engine.written(*town(family, 30))[2]
    d = family.directory_blocks(30)
    for title, make, positions, due in [
            ("Order of tests: a directory block", fault_in_directory, range(d), [2, 3, 4, 1, 5, 6, 7, 8, 9]),
            ("Order of tests: the opening of a tile", fault_in_tile, (d, d + 24, d + 29), [2, 3, 4, 5, 7, 8, 10, 16])]:
        steps = document.steps(title)
        expect(title, steps, due)
        for position in positions:
            for first, second in itertools.combinations_with_replacement(steps, 2):
                if 1 in (first, second) and (family is HEIGHT or position):
                    continue  # only in block 0 of a plan town
                bad = with_faults(file, make, {first, second}, position)
                expect(f"{title}: {first} and {second}", engine.checked(bad), (first, position))
                reader.compare(bad)
        # exactly the bytes that the step of the zeros names are due to be zero
        position, step = positions[-1], next(line for line in document.parts[title] if "**8 padding**" in line)
        plan, _, height = step.partition("with height")
        step = plan if family is PLAN else height
        entries, first = file[BLOCK * position + 4], BLOCK * position
        bytes_ = {at for low, high in re.findall(r"bytes (\d+)-(\d+)", step) for at in range(int(low), int(high) + 1)}
        head, size, last = map(int, re.search(r"bytes (\d+) \+ (\d+) n to (\d+)", step).groups())
        bytes_ |= set(range(head + size * entries, last + 1))
        refused = {at for at in range(BLOCK)
                   if engine.checked(mended(put(file, first + at, [file[first + at] ^ 1]), position))[0] == 8}
        expect(f"{title}: zeros", refused, bytes_)
        # the last fault of a block before the first of the next
        bad = with_faults(file, make, {steps[-1]}, positions[0])
        bad = with_faults(bad, make, {2}, positions[0] + 1)
        expect(f"{title}: two blocks", engine.checked(bad), (steps[-1], positions[0]))
        reader.compare(bad)


def check_both_families(document, engine, reader):
    """Blocks of both families in one file, and lengths beyond the limits."""
    files = {family: engine.written(*town(family, 30))[2] for family in FAMILIES}
    for family, file in files.items():
        expect(f"axes of {family.name()}", engine.axes(file), family.axes)
        for position in range(1, 32):
            for kind in range(6):
                own = family.directory if position < 2 else family.tile
                bad = mended(put(file, BLOCK * position + 1, [kind]), position)
                due = (0, 0) if kind == own else (4, position)
                expect(f"kind {kind} in block {position}", engine.checked(bad), due)
                reader.compare(bad)
            bad = put(file, BLOCK * position, block_of(files[other(family)], position))
            expect("a block of the other family", engine.checked(bad), (4, position))
            reader.compare(bad)
        for kind in range(256):  # in block 0 both families' kinds pass; here the tests behind it see the other one
            number = engine.checked(mended(put(file, 1, [kind]), 0))[0]
            expect(f"kind {kind} in block 0", number == 4, kind not in (PLAN.directory, HEIGHT.directory))
            reader.compare(mended(put(file, 1, [kind]), 0))
    for family in FAMILIES:
        file = engine.written(*town(family, 960, 1))[2]
        for length in range(PLAN.bytes - BLOCK, HEIGHT.bytes + 3 * BLOCK, BLOCK):
            bad = (file + bytes(HEIGHT.bytes))[:length]
            due = 0 if length == family.bytes else 1 if length > family.bytes else 6
            expect(f"{length} bytes of {family.name()}", engine.checked(bad), (due, 0))
            # a block 0 that is refused by an earlier test: only a length over all limits comes before it
            torn, strange, moved = put(bad, 0, [0]), mended(put(bad, 1, [9]), 0), mended(put(bad, 2, [9]), 0)
            expect("sync and length", engine.checked(torn), (1 if length > HEIGHT.bytes else 2, 0))
            expect("kind and length", engine.checked(strange), (1 if length > HEIGHT.bytes else 4, 0))
            expect("length and position", engine.checked(moved), (1 if length > family.bytes else 5, 0))
            for each in bad, torn, strange, moved:
                reader.compare(each)
        for bad in file + b"\0", file[:-1]:
            expect("no multiple of 512", engine.checked(bad), (1, 0))
            reader.compare(bad)
    expect("a byte after all", engine.checked(put(engine.written(*town(PLAN, 960))[2], 0, [0]) + b"\0"), (1, 0))
    # part 8: a plan town that gets height keeps its lists and marks
    rng = random.Random(9)
    for tiles in 1, 20, 60:
        boxes, counts, x, y, cues = muted_town(rng, PLAN, tiles, HEIGHT.sites)
        boxes_3 = [number for at in range(0, 4 * tiles, 2) for number in (*boxes[at:at + 2], 0)]
        plan = engine.written(boxes, counts, x, y, cues)[2]
        height = engine.written(boxes_3, counts, x, y, [0] * len(x), cues)[2]
        expect("both files are good", [engine.checked(plan), engine.checked(height)], [(0, 0), (0, 0)])
        for k in 1, 3, 64:
            stops = [(rng.randint(-5, 10 * tiles + 5), rng.randint(-9, 9)) for _ in range(rng.choice([1, 2, 9]))]
            expect("a plan town with height", engine.asked(height, [(*stop, 0) for stop in stops], k),
                   engine.asked(plan, stops, k))


def muted_town(rng, family, tiles, most):
    """Lists of a town that has tiles with sounding sites, with muted ones, with both and with none."""
    x, cues, counts, more = [], [], [], family.axes - 2
    for t in range(tiles):
        counts.append(rng.choice([0, 1, 2, 5, most]))
        rate = rng.choice([0, 0.5, 1])
        x += [10 * t + rng.randrange(10) for _ in range(counts[-1])]
        cues += [0 if rng.random() < rate else 1 << rng.randrange(32) for _ in range(counts[-1])]
    boxes = [number for t in range(tiles) for number in (10 * t, -5, *[-7] * more, 10 * t + 9, 5, *[7] * more)]
    return boxes, counts, x, *([rng.randint(-5, 5) for _ in x] for _ in range(family.axes - 1)), cues


def check_muted(engine, reader, family):
    """Muted numbers: as the writer makes them, over the count (9), and other than the tile's (16)."""
    rng, seen = random.Random(8), {9: 0, 16: 0}
    for _ in range(12):
        boxes, counts, *points, cues = lists = muted_town(rng, family, rng.choice([1, 7, 30]), family.sites)
        file, d = engine.written(*lists)[2], family.directory_blocks(len(counts))
        firsts = [0, *itertools.accumulate(counts)]
        muted = [cues[first:last].count(0) for first, last in zip(firsts, firsts[1:])]
        places = [family.entry_at(t) + 8 * family.axes + 2 for t in range(len(counts))]
        expect("muted numbers", [int.from_bytes(file[at:at + 2], "little") for at in places], muted)
        expect("a town with muted sites", engine.checked(file), (0, 0))
        reader.compare(file)
        for t in rng.sample(range(len(counts)), min(4, len(counts))):
            block = t // family.entries
            for number in {0, 1, muted[t] - 1, muted[t], muted[t] + 1, counts[t], counts[t] + 1, 41, 256, 65535} - {-1}:
                bad = mended(put(file, places[t], struct.pack("<H", number)), block)
                due = (9, block) if number > counts[t] else (16, d + t) if number != muted[t] else (0, 0)
                expect(f"muted number {number} of {muted[t]} muted and {counts[t]} sites", engine.checked(bad), due)
                reader.compare(bad)
                if due[0]:
                    seen[due[0]] += 1
                # the zeros before the muted number; a site outside of its box before the count of cues
                worse = mended(put(bad, BLOCK * block + 15, [1]), block)
                expect("8 before a muted number", engine.checked(worse), (8, block))
                if counts[t] and number <= counts[t]:
                    worse = mended(put(bad, BLOCK * (d + t) + 16 + 4, struct.pack("<i", 6)), d + t)
                    expect("10 before 16", engine.checked(worse), (10, d + t))
        check_muted_tiles(engine, file, counts, muted, cues, family)
        for site in rng.sample(range(len(cues)), min(3, len(cues))):
            t = next(t for t in range(len(counts)) if firsts[t + 1] > site)
            check_muting(engine, lists, site, t, site - firsts[t], family)
    expect("muted numbers over the count, and unlike the tile", min(seen.values()) > 20, True)


def check_muted_tiles(engine, file, counts, muted, cues, family):
    """No question opens a tile without a sounding site; the full check does. No list has a muted site."""
    d, sounding = family.directory_blocks(len(counts)), sum(counts) - sum(muted)
    silent = [t for t in range(len(counts)) if counts[t] == muted[t]]
    torn = file
    for t in silent:
        torn = put(torn, BLOCK * (d + t), [0])
    used, marks, lists = engine.asked(torn, [(0, 0, 0)[:family.axes], (150, 3, -2)[:family.axes]], 64)
    expect("no question opens a tile without a sounding site", [marks[t] == 2 for t in silent], [False] * len(silent))
    expect("the full check does", engine.checked(torn), (2, d + silent[0]) if silent else (0, 0))
    expect("places used", used, min(64, sounding))
    for places in lists:
        due = [cues[sum(counts[:site // 40]) + site % 40] for _, site, _ in places]
        expect("cues of a list, by tile and slot", [cue for _, _, cue in places], due)
        expect("a list has sounding sites only", 0 in due, False)


def check_muting(engine, town, site, t, slot, family):
    """Part 8: the bytes that change when a site is muted."""
    boxes, counts, *points, cues = town
    of_tile = BLOCK * (family.directory_blocks(len(counts)) + t)
    of_directory, muted = BLOCK * (t // family.entries), family.entry_at(t) + 8 * family.axes + 2
    cue = of_tile + 16 + family.site * slot + 4 * family.axes
    files = [engine.written(boxes, counts, *points, cues[:site] + [value] + cues[site + 1:])[2] for value in (12, 0)]
    changed = {at for at, (one, other) in enumerate(zip(*files)) if one != other}
    due = {cue, muted, *(start + at for start in (of_tile, of_directory) for at in (510, 511))}
    expect("what muting changes", changed <= due and {cue, muted} <= changed, True)
    expect("muted, one more", files[1][muted], files[0][muted] + 1)


# What the document says of calls

def first_of(title, steps, faults, call):
    """Every fault by itself and every two of them: the one whose step comes first decides."""
    expect(title, steps, [name for name, _, _ in faults])
    for one, other in itertools.combinations_with_replacement(range(len(faults)), 2):
        name, due, change = faults[one]
        expect(f"{title}: {name} before {faults[other][0]}", call(**{**faults[other][2], **change}), due)


def check_orders_of_calls(document, engine, family):
    axes = family.axes
    files = {each: engine.written(*town(each, 30))[2] for each in FAMILIES}
    file, bad_tiles = files[family], {}
    for each, number in itertools.product(FAMILIES, (0, 10, 16)):
        bad_tiles[each, number] = files[each]
        for tile in range(30 if number else 0):
            bad_tiles[each, number] = with_faults(bad_tiles[each, number], fault_in_tile, {number}, 2 + tile)

    def damaged(directory, tile, length, swap=0):
        """A file of the family, or of the other; both have two directory blocks."""
        made = bad_tiles[other(family) if swap else family, tile]
        made = with_faults(made, fault_in_directory, {9}, 1) if directory else made
        return made + b"\0" if length else made

    def join(length=0, directory=0, tile=0, k=3, stops=2, cut=None, swap=0, spot=None, short=0):
        columns = [[500 * i for i in range(stops)] for _ in range(axes)]
        if spot is not None and stops:
            columns[spot][0] = 1_000_001
        if cut is not None:
            columns[cut] = columns[cut][:-1]
        n = stops * k
        answer = engine.joined(damaged(directory, tile, length, swap), columns, k,
                               [n, n, n - short, 30] if n else [9] * 4)
        if answer[0] and not engine.slices_hold(0 if answer in ((10, 2), (16, 2)) else 77):
            failures.append(f"the join, refused with {answer}: its slices are not as said")
        return answer

    for cut, spot in itertools.product(range(axes), repeat=2):
        first_of("join", document.steps("Order of tests: the join, `nearby_join` and `nearby_join3`"), [
            (1, (1, 0), {"length": 1}), ("The directory", (9, 1), {"directory": 1}), (11, (11, 0), {"k": 65}),
            (12, (12, 0), {"cut": cut}), (17, (17, 0), {"swap": 1}), (13, (13, 0), {"spot": spot}),
            (14, (14, 0), {"short": 1}), ("Openings", (10, 2), {"tile": 10})], join)
    expect("the last test of an opening", [join(tile=16), engine.checked(bad_tiles[family, 16])], [(16, 2), (16, 2)])
    for stops in 0, 257:
        expect("stops of the join", [join(stops=stops), join(stops=stops, swap=1)], [(12, 0)] * 2)
    expect("stops of the join", [join(stops=stops)[0] for stops in (1, 256)], [0, 0])
    expect("k of the join", [join(k=k)[0] for k in (0, 1, 64, 65)], [11, 0, 0, 11])

    def prune(length=0, directory=0, k=3, swap=0, box=(0, 0) * axes, room=30):
        answer = engine.prune(damaged(directory, 10, length, swap), box, k, room)
        if answer[0] and not engine.slices_hold(77):
            failures.append(f"the strike call, refused with {answer}: its marks are not as they were")
        return answer

    for axis in range(axes):
        bad = (0, 0) * axis + (1, 0) + (0, 0) * (axes - axis - 1)
        first_of("strike", document.steps("Order of tests: the strike call, `nearby_prune` and `nearby_prune3`"), [
            (1, (1, 0), {"length": 1}), ("The directory", (9, 1), {"directory": 1}), (11, (11, 0), {"k": 0}),
            (17, (17, 0), {"swap": 1}), (9, (9, 0), {"box": bad}), (14, (14, 0), {"room": 29})], prune)
    expect("the strike call opens no tile", prune(), (0, 0))

    def stream_order(length=0, directory=0, swap=0, box=(0, 0) * axes, room=30):
        answer = engine.stream_order(damaged(directory, 10, length, swap), box, room)
        if answer[0] and not engine.slices_hold(77):
            failures.append(f"the stream order, refused with {answer}: its slice is not as it was")
        return answer

    title = "Order of tests: the stream order, `nearby_stream_order` and `nearby_stream_order3`"
    for axis, ends in itertools.product(range(axes), ((1, 0), (-1_000_001, 0), (0, 1_000_001))):
        bad = (0, 0) * axis + ends + (0, 0) * (axes - axis - 1)
        first_of("stream order", document.steps(title), [
            (1, (1, 0), {"length": 1}), ("The directory", (9, 1), {"directory": 1}), (17, (17, 0), {"swap": 1}),
            (9, (9, 0), {"box": bad}), (14, (14, 0), {"room": 29})], stream_order)
    expect("the stream order opens no tile", stream_order(room=32), (0, 0))
    # the tiles of the town are in a row, each behind the one before it
    expect("a sequence from before the row", list(engine.lent[0][0][:32]), [*range(30), 77, 77])
    expect("the stream order opens no tile", stream_order(box=(1000, 1000) + (0, 0) * (axes - 1)), (0, 0))
    expect("a sequence from behind the row", list(engine.lent[0][0][:30]), [*range(29, -1, -1)])

    first_of("full check", document.steps("Order of tests: the full check, `nearby_validate`"), [
        (1, (1, 0), {"length": 1}), ("The directory", (9, 1), {"directory": 1}),
        ("The opening", (10, 2), {"tile": 10})],
        lambda length=0, directory=0, tile=0: engine.checked(damaged(directory, tile, length)))

    def write(tiles=30, numbers=0, box=0, cut=None, stray=None, short=0):
        boxes, counts, *columns = town(family, tiles)
        boxes[1] = 6 if box else boxes[1]
        if stray is not None:
            columns[stray] = columns[stray][:-1] + [1000]
        if cut is not None:
            columns[cut] = columns[cut][:-1]
        room = BLOCK * (tiles + family.directory_blocks(tiles)) - short
        return engine.written(boxes[:len(boxes) - numbers], counts, *columns, room=room)[:2]

    for cut, stray in itertools.product(range(axes + 1), range(axes)):
        first_of("writer", document.steps("Order of tests: the writer, `nearby_write` and `nearby_write3`"), [
            (6, (6, 0), {"tiles": 961}), (15, (15, 0), {"numbers": 1}), (9, (9, 0), {"box": 1}),
            (15, (15, 0), {"cut": cut}), (10, (10, 0), {"stray": stray}), (14, (14, 0), {"short": 1})], write)
    expect("boxes of the other family", write(numbers=60) if family is HEIGHT else (15, 0), (15, 0))
    [said] = [line for line in document.parts["Order of tests: the writer, `nearby_write` and `nearby_write3`"]
              if "box numbers" in line]
    expect("box numbers", re.findall(r"\d+", said.partition("**:")[2]), [str(2 * each.axes) for each in FAMILIES])

    first_of("block check", document.steps("Order of tests: the block check, `nearby_block_check`"), [
        (1, 1, {"cut": 1}), (2, 2, {"sync": 1}), (3, 3, {"check": 1})],
        lambda cut=0, sync=0, check=0: engine.block_check(
            put(put(file, 0, [0]) if sync else file, 511, [255] if check else [])[:BLOCK - cut]))
    level = engine.calls.nearby_level
    first_of("level", document.steps("Order of tests: the level, `nearby_level`"), [(18, 18, {"reach": 0})],
             lambda reach=1, dist=2 ** 64 - 1: level(reach, dist).number)
    expect("the reach of a level", [level(reach, dist).number for dist in (0, 2 ** 64 - 1)
                                    for reach in (0, 1, 1_000_000, 1_000_001, 2 ** 32 - 1)], [18, 0, 0, 18, 18] * 2)
    expect("silence is no refusal", [level(1, dist).silent for dist in (100, 101, 2 ** 64 - 1)], [0, 1, 1])
    good, margin = (0, 1) * axes, {2: engine.calls.nearby_margin, 3: engine.calls.nearby_margin3}[axes]
    for axis, ends in itertools.product(range(axes), ((1, 0), (-1_000_001, 0), (0, 1_000_001))):
        bad = good[:2 * axis] + ends + good[2 * axis + 2:]
        for boxes in itertools.permutations([good, good, bad]):
            expect("a margin of a bad box", margin(*itertools.chain(*boxes)), BAD_BOX)
    expect("the bad box's number", "is 9,000,000,000,000,000,000" in document.whole.replace("\n", " "), True)
    # the order of a box's numbers: each axis is x 0..10, 20..30 and 31..70 of one of the paper's cases, the others 0..0
    for axis in range(axes):
        boxes = [(0, 0) * axis + ends + (0, 0) * (axes - axis - 1) for ends in ((0, 10), (20, 30), (31, 70))]
        expect("a margin", margin(*itertools.chain(*boxes)), -41)


def check_refusals(document):
    numbers = [int(row[0]) for row in document.table("No.", "Name", "Refused when")]
    expect("numbers of the refusals", numbers, list(range(1, 19)))
    expect("numbers of the refusals in words", "a number from 1 to 17 and the position" in document.running(), True)
    causes = [int(row[0].split()[0]) for row in document.table("No.", "Usual cause", "What to look at")]
    expect("numbers of the causes", causes, [1, 2, 3, 4, 5, 6, 7, 7, 8, 9, 10, 16])
    header = (ROOT / "include/nearby.h").read_text()
    constants = dict(re.findall(r"NEARBY_(\w+) = (\d+)", header))
    block, tiles, sites, sites_3, stops, k, file, file_3, reach = (int(constants[name]) for name in (
        "BLOCK_SIZE", "MAX_TILES", "MAX_SITES", "MAX_SITES_3", "MAX_STOPS", "MAX_K", "MAX_FILE", "MAX_FILE_3",
        "MAX_REACH"))
    expect("sites and files in the header", (sites, sites_3, file, file_3),
           (PLAN.sites, HEIGHT.sites, PLAN.bytes, HEIGHT.bytes))
    numbers = {1: [0, block, file_3, file, block, 2 * block, 6], 3: [510, 511, 1, 509], 4: [1, 1, 2, 3, 4],
               6: [0, tiles, 0], 9: [sites, sites_3, 1], 11: [0, k, 1, k], 12: [stops, 1, stops],
               13: [-1_000_000, 1_000_000], 15: [4, 6], 17: [], 18: [0, reach, 1, reach]}
    for row in document.table("No.", "Name", "Refused when"):
        expect(f"name of {row[0]}", row[1], NAMES.get(int(row[0])))
        said = [number(text) for text in re.findall(r"-?\b\d[\d,]*\b", " ".join(row[2:]))]
        expect(f"numbers in row {row[0]}", said, numbers.get(int(row[0]), said))
    calls = re.findall(r"^(?:uint32_t|int64_t|struct \w+) (nearby_\w+)\(", header, re.M)
    rows = document.table("Plan town", "With height", "Name here")
    expect("the calls of the table", {cell.strip("`") for row in rows for cell in row[:2]}, set(calls))
    expect("calls with height", [row[1] for row in rows[:5]], [row[0][:-1] + "3`" for row in rows[:5]])
    expect("how many calls", (len(calls), "Nine of the thirteen calls give" in document.running()), (13, True))
    named = " ".join(document.parts["Which block is named"])
    expect("numbers with block 0", "- For 1, for 11 to 15, and for 17: 0." in named, True)
    # the header's way from a length to d
    formulas = re.findall(r"\(file_len / 512 \+ (\d+)\) / (\d+)", header.replace("\n * ", " "))
    expect("d in the header", formulas, [(str(each.entries), str(each.entries + 1)) for each in FAMILIES])


def check_block_12(document, engine, reader):
    for first, length, blocks, d, tiles, kind, due in document.table("Byte 1", "Bytes of the file", "N", "d", "T"):
        tiles, entries, family = number(tiles), None, PLAN if first == "1" else HEIGHT
        file = engine.written(*town(family, tiles, 3))[2]
        expect("block 12: byte 1, length, N, d", [number(text) for text in (first, length, blocks, d)],
               [file[1], len(file), len(file) // BLOCK, family.directory_blocks(tiles)])
        due_kind = family.tile if kind.startswith("tile") else family.directory
        expect("block 12: what it is", file[12 * BLOCK + 1], due_kind)
        expect("block 12: the last of the directory", kind.startswith("the last"), number(d) == 13)
        if kind.startswith("tile"):
            expect("block 12: the tile", kind, f"tile {12 - number(d)}")
            expect("block 12: the entry", f"in entry {12 - number(d)} of block 0" in due, True)
            at = int(re.search(r"at byte (\d+) of the file", due)[1])
            expect("block 12: the byte of the count", at, family.entry_at(12 - number(d)) + 8 * family.axes)
            entries = int.from_bytes(file[at:at + 2], "little")
        else:
            entries = int(due.split("=")[-1])
        expect("block 12: entries", entries, file[12 * BLOCK + 4])
        for number_ in range(41):
            bad = mended(put(file, 12 * BLOCK + 4, [number_]), 12)
            expect(f"block 12 with {number_} entries", engine.checked(bad), (0, 0) if number_ == entries else (7, 12))
        reader.compare(bad)
    for words in ("d is N/25 rounded up in a plan town, where 24 tiles take 25 blocks, and N/18 rounded up with "
                  "height, where 17 tiles take 18 blocks",
                  "one block more than a multiple of 25, or with height of 18"):
        expect(f"the document says: {words}", words in document.running(), True)
    for family in FAMILIES:
        lengths = {tiles + family.directory_blocks(tiles): tiles for tiles in range(1, 961)}
        for blocks in range(1, family.bytes // BLOCK + 1):
            d = -(-blocks // (family.entries + 1))
            due = None if blocks % (family.entries + 1) == 1 else blocks - d
            expect(f"{blocks} blocks of {family.name()}", lengths.get(blocks), due)


# The text of a town

# The grammar of part 5, once more: what a line may be, in a plan town and with height.
SPACE, NUMBER = rb"[ \t]+", rb"[-+]?[0-9]+"
LINES = {axes: re.compile(rb"[ \t]*(?:tile" + (SPACE + NUMBER) * (2 * axes) + rb"|site" + (SPACE + NUMBER) * axes
                          + SPACE + rb"\+?[0-9]+)?[ \t]*(?:#.*)?", re.S) for axes in (2, 3)}
PIECES = [b"tile", b"site", b" ", b" ", b" ", b"\t", b"0", b"1", b"-0", b"+1", b"-", b"+", b"00", b"0" * 60, b"x", b"#",
          b"\f", b"\v", b"\r", b"\0", b"\xff", b"\xc2\xa0", b"\xef\xbb\xbf", b"\xd9\xa1"]


def drawn_line(rng, axes):
    """A line of the grammar, mostly with a piece put in, taken out or exchanged."""
    axes = axes if rng.random() < 0.9 else 5 - axes
    tile, site = [b"tile"] + [b"0"] * axes + [b"1"] * axes, [b"site", b"1"] + [b"0"] * (axes - 1) + [b"7"]
    words = tile if rng.random() < 0.5 else site
    pieces = [b""] + list(itertools.chain(*((word, b" ") for word in words)))
    for _ in range(rng.choice([0, 1, 1, 2, 3])):
        at = rng.randrange(len(pieces))
        pieces[at:at + rng.choice([0, 1])] = [rng.choice(PIECES)] if rng.random() < 0.9 else []
        pieces = pieces or [b""]
    return b"".join(pieces)


def good_line(line, axes):
    """Whether a line is one of the grammar, and one of a town if the tile above it has the box 0 to 1 on each axis."""
    if not LINES[axes].fullmatch(line):
        return False
    word, *given = line.partition(b"#")[0].split() or [b""]
    n = [int(part) for part in given]
    if word == b"site":
        return all(0 <= end <= 1 for end in n[:axes]) and n[axes] < 2 ** 32
    return all(-10 ** 6 <= low <= high <= 10 ** 6 for low, high in zip(n[:axes], n[axes:]))


def check_text(document, engine):
    """The tool and examples/town.c take the lines of the grammar and no others, and make the same file of them."""
    program = ROOT / "target/examples/town-of-format"
    flags = ["-std=c11", "-O2", "-Wall", "-Wextra", "-Werror", "-I", ROOT / "include"]
    sources = ROOT / "examples/town.c", ROOT / "target/lib/libnearby.a"
    subprocess.run(["gcc", *flags, *sources, "-o", program], check=True)
    grammar = [line for part, _, lines in document.fences if part.startswith("5.") for line in lines]
    for rule in (r'tile    = "tile" low-x low-y [ low-z ] high-x high-y [ high-z ]', r'site    = "site" x y [ z ] cue',
                 'low-x, low-y, low-z, high-x, high-y, high-z, x, y, z = [ "-" | "+" ] digit { digit }',
                 'cue                                                  = [ "+" ] digit { digit }'):
        expect(f"the grammar has {rule}", sum(line.startswith(rule) for line in grammar), 1)
    for words in ("a `tile` line has 4 numbers and a `site` line 3.", "every line has them: 6 numbers and 4.",
                  "The first `tile` line settles which it is."):
        expect(f"the document says: {words}", words in document.running(), True)
    for axes in 2, 3:
        check_lines(engine, program, axes)


def check_lines(engine, program, axes):
    """Drawn lines, below a first tile that settles the axes."""
    rng, taken = random.Random(6), 0
    box = b" ".join([b"tile"] + [b"0"] * axes + [b"1"] * axes)
    for _ in range(1500):
        end = rng.choice([b"\n", b"\r\n"])
        text = box + end + drawn_line(rng, axes) + rng.choice([b"", end])
        *ended, last = text.split(b"\n")
        lines = [line.removesuffix(b"\r") for line in ended] + [last]
        due = all(good_line(line, axes) for line in lines)
        ran = subprocess.run([program], input=text, capture_output=True)
        expect(f"examples/town.c takes {text!r}", ran.returncode == 0, due)
        if axes == 2:
            file = file_of(engine, text.decode("utf-8", "replace"))
            expect(f"the tool takes {text!r}", bool(file), due)
        else:
            bare = [line.partition(b"#")[0].strip() for line in lines]
            file = file_with_height(engine, b"\n".join(line for line in bare if line).decode()) if due else b""
        expect(f"the same file of {text!r}", ran.stdout == file, True)
        taken += due
    expect("some lines are taken, some are not", 300 < taken < 1200, True)


# The reader

class Reader:
    """examples/reader.c, built, and compared with the full check."""

    def __init__(self, engine):
        self.engine, self.program = engine, ROOT / "target/examples/reader"
        self.program.parent.mkdir(parents=True, exist_ok=True)
        flags = ["-std=c11", "-O2", "-Wall", "-Wextra", "-Werror"]
        subprocess.run(["gcc", *flags, ROOT / "examples/reader.c", "-o", self.program], check=True)

    def compare(self, file):
        done["files"] += 1
        ran = subprocess.run([self.program], input=file, capture_output=True)
        number, block = self.engine.checked(file)
        said = f"refused {number} block {block}\n".encode()
        expect("the reader's status and refusal", (ran.returncode, ran.stderr), (1, said) if number else (0, b""))
        if number:
            expect("what the reader prints of a refused file", ran.stdout, b"")
        else:
            made = file_with_height if family_of(file) is HEIGHT else file_of
            expect("tiles in the reader's text", ran.stdout.count(b"tile"), self.engine.validate(file))
            expect("the file of the reader's text", made(self.engine, ran.stdout.decode()) == file, True)


def check_reader(document, engine, reader, samples):
    source = (ROOT / "examples/reader.c").read_text()
    pieces = ["\n".join(lines) for _, tag, lines in document.fences if tag == "c"]
    expect("pieces of C in the document", [piece in source for piece in pieces], [True] * len(pieces))
    expect("there are pieces of C", len(pieces) > 1, True)

    constants = dict(re.findall(r"(\w+) = (\w+)", " ".join(pieces[0].splitlines())))
    names = "HEAD", "CHECK", "LIMIT", "MAX_PLAN", "MAX_FILE"
    expect("the enums of the reader", [constants.get(name) for name in names],
           ["16", "510", "1000000", str(PLAN.bytes), str(HEIGHT.bytes)])
    fields = re.search(r"uint32_t (.*);", pieces[1])[1].split(", ")
    sizes = [list(map(int, numbers.split(", "))) for numbers in re.findall(r"= \{([\d, ]+)\}", pieces[1])]
    expect("the families of the reader", [dict(zip(fields, numbers)) for numbers in sizes],
           [{name: getattr(family, name) for name in fields} for family in FAMILIES])

    for family, sample in zip(FAMILIES, samples):
        check_reader_on(engine, reader, sample, family)
    reader.compare((ROOT / "samples/crossing.town").read_bytes())


def check_reader_on(engine, reader, sample, family):
    """Good files of a family, and damaged ones."""
    large = engine.written(*town(family, 960, family.sites))[2]
    far, more = 1_000_000, family.axes - 2
    mixed = engine.written(
        [-far] * family.axes + [far] * family.axes + [-7] * (2 * family.axes) + [0] * (2 * family.axes), [2, 1, 0],
        [-far, -1, -7], [far, -256, -7], *[[-65536, 255, -7]] * more, [2 ** 32 - 1, 0, 255])[2]
    small = [engine.written(*town(family, tiles, sites))[2] for tiles, sites in (
        (1, 0), (family.entries, 2), (family.entries + 1, 2), (2 * family.entries, 1), (2 * family.entries + 1, 30))]
    for good in sample, large, mixed, *small:
        expect("a good file", engine.checked(good)[0], 0)
        reader.compare(good)

    length, last = len(sample), len(sample) // BLOCK - 1
    damaged = [sample[:end] for end in (0, 1, 511, 512, 513, 1024, length - 512, length - 1)]
    damaged += [sample + b"\0", sample + bytes(BLOCK), sample * 2]
    damaged += [large + bytes(1), large + bytes(BLOCK), large + bytes(BLOCK * 30), large[:-BLOCK], large[BLOCK:]]
    for position in 0, 2:  # each byte changed, with the check mended; of some also with the check as it was
        for at in range(BLOCK * position, BLOCK * position + BLOCK):
            bad = put(sample, at, [sample[at] ^ 0xFF if at % 2 else (sample[at] + 1) % 256])
            damaged += [mended(bad, position)] if at % 8 else [mended(bad, position), bad]
    # blocks that change places; then they say so
    for one, place in (0, 1), (1, 2), (2, last), (3, 7), (last - 1, last):
        moved = put(put(sample, BLOCK * one, block_of(sample, place)), BLOCK * place, block_of(sample, one))
        says = put(put(moved, BLOCK * one + 2, [one]), BLOCK * place + 2, [place])
        damaged += [moved, mended(mended(says, one), place), put(sample, BLOCK * one, block_of(sample, place))]
    two = engine.written(*town(family, 30))[2]
    # another T, in one directory block or in both
    for tiles in 0, 1, 11, 12, 13, 16, 17, 18, 23, 24, 25, 29, 31, 34, 35, 48, 49, 960, 961, 24 + 256, 65535:
        changed = put(two, 6, struct.pack("<H", tiles))
        damaged += [mended(put(sample, 6, struct.pack("<H", tiles)), 0), mended(changed, 0)]
        damaged += [mended(put(two, BLOCK + 6, struct.pack("<H", tiles)), 1)]
        damaged += [mended(mended(put(changed, BLOCK + 6, struct.pack("<H", tiles)), 0), 1)]
    for bad in damaged:
        reader.compare(bad)


def main():
    library = ROOT / "target/lib/libnearby.so"
    if not library.exists():
        sys.exit("format: no target/lib/libnearby.so: `make lib` makes it")
    engine, document = Calls(library), Document(ROOT / "docs/FORMAT.md")
    reader, names = Reader(engine), ("riverside", "viaduct")
    samples = [(ROOT / f"samples/{name}.town").read_bytes() for name in names]
    check_arithmetic(document)
    check_families(document, samples)
    check_words(document)
    check_worked_block(document, engine, samples[0])
    check_refusals(document)
    for family, sample, name in zip(FAMILIES, samples, names):
        check_limits(document, engine, family)
        check_what_is_seen(engine, reader, sample, family)
        check_byte_tables(document, engine, reader, sample, (ROOT / f"samples/{name}.txt").read_text(), family)
        check_orders_in_blocks(document, engine, reader, family)
        check_muted(engine, reader, family)
        check_orders_of_calls(document, engine, family)
    check_both_families(document, engine, reader)
    check_block_12(document, engine, reader)
    check_reader(document, engine, reader, samples)
    check_text(document, engine)
    for failure in failures[:20]:
        print("format:", failure)
    if failures:
        sys.exit(f"format: {len(failures)} failures")
    print(f"format: {done['facts']} facts of docs/FORMAT.md hold; examples/reader.c agrees with the engine "
          f"on {done['files']} files")


NAMES = header_names()
if __name__ == "__main__":
    main()
