"""Refusals in words: which block, what was due there, what stood there.

The engine says the number and the block; the bytes say the rest.
"""
from .engine import BLOCK_SIZE, LIMIT, MAX_K, MAX_REACH, MAX_STOPS, MAX_TILES, NAMES
from .text import outside
from .town import (HEIGHT, PAYLOAD, PLAN, block, end_names, ends, entry, is_muted, layout, muted_slots, none_muted,
                   several, sites, stop_words, two_bytes)

PAYLOAD_END = 496
CHECK = 510
NEVER_OLD = "a file with height is never old"


def sums(held):
    """The two bytes due at 510 and 511: sums over bytes 1 to 509, modulo 255."""
    a = c = 0
    for byte in held[1:CHECK]:
        a = (a + byte) % 255
        c = (c + a) % 255
    return bytes((a, c))


def _hex(held):
    return " ".join(f"{byte:02X}" for byte in held)


class Blocks:
    """A file that was refused, and what can be said of its blocks."""

    def __init__(self, content):
        self.content = content
        self.layout = layout(content)
        self.count = len(content) // BLOCK_SIZE
        self.tiles = two_bytes(content, 6)
        self.directory = self.layout.directory_blocks(self.tiles)

    def is_directory(self, position):
        """Block 0 is always of the directory; the others by what block 0 says of T."""
        return position == 0 or position < self.directory

    def name(self, position):
        if self.is_directory(position):
            return "of the directory"
        return f"tile {position - self.directory}"

    def entries_due(self, position):
        if not self.is_directory(position):
            return entry(self.content, position - self.directory).count
        return min(self.layout.entries, self.tiles - self.layout.entries * position)

    def zeros(self, position):
        """The bytes due to be zero, each with what it is."""
        held = block(self.content, position)
        entries = two_bytes(held, 4)
        if self.is_directory(position):
            first, what = PAYLOAD + self.layout.entry_size * entries, "past the last entry"
        else:
            yield from ((at, "zero in a tile, where a directory block has T") for at in (6, 7))
            first, what = PAYLOAD + self.layout.site_size * entries, "past the last site"
        yield from ((at, "between the head and the payload") for at in range(8, PAYLOAD))
        yield from ((at, what) for at in range(first, PAYLOAD_END))
        yield from ((at, "between the payload and the check") for at in range(PAYLOAD_END, CHECK))


def _length(content):
    there = f"the file has {len(content)} bytes"
    if len(content) % BLOCK_SIZE:
        there += f", {several(len(content) // BLOCK_SIZE, 'block')} and {several(len(content) % BLOCK_SIZE, 'byte')}"
    due = f"a multiple of {BLOCK_SIZE} bytes, from {BLOCK_SIZE} to {layout(content).longest}"
    if len(content) > PLAN.longest and content[1] not in (PLAN.directory, HEIGHT.directory):
        due += f", with height to {HEIGHT.longest}"
    return due, there


def _sync(file, position):
    return "byte 0 is D6", f"byte 0 is {_hex(block(file.content, position)[:1])}"


def _check(file, position):
    held = block(file.content, position)
    return (f"check bytes {_hex(sums(held))} at 510 and 511, the sums over bytes 1 to 509",
            f"check bytes {_hex(held[CHECK:])}")


def _kind(file, position):
    if file.layout == PLAN:
        due = "1, a block of the directory" if file.is_directory(position) else "2, a tile"
        due += ", or 3, one with height" if position == 0 else ""
    else:
        due = "3, a block of the directory with height" if file.is_directory(position) else "4, a tile with height"
    return f"byte 1, the kind, is {due}", f"byte 1 is {block(file.content, position)[1]}"


def _position(file, position):
    return (f"bytes 2-3, the block's position, say {position}",
            f"bytes 2-3 say {two_bytes(block(file.content, position), 2)}")


def _tiles(file, position):
    says = two_bytes(block(file.content, position), 6)
    there = f"bytes 6-7, the number of tiles T, say {says}"
    if position > 0:
        return f"the T of block 0, {file.tiles}", there
    if not 1 <= says <= MAX_TILES:
        return f"T from 1 to {MAX_TILES}", there
    directory_blocks = file.layout.directory_blocks
    room = [t for t in range(1, MAX_TILES + 1) if t + directory_blocks(t) == file.count]
    due = (f"T {room[0]}, as the file has {file.count} blocks" if room
           else f"a T that takes {file.count} blocks (there is none)")
    return due, (f"{there}, which take {says + directory_blocks(says)} blocks, "
                 f"{directory_blocks(says)} of them of the directory")


def _entries(file, position):
    due = file.entries_due(position)
    why = "the directory's count of this tile"
    if file.is_directory(position):
        why = f"the entries of this block when T is {file.tiles}"
    return (f"bytes 4-5, the number of entries, say {due}, {why}",
            f"bytes 4-5 say {two_bytes(block(file.content, position), 4)}")


def _padding(file, position):
    held = block(file.content, position)
    wrong = [(at, what) for at, what in file.zeros(position) if held[at]]
    if not wrong:
        return None
    at, what = wrong[0]
    more = f", and {len(wrong) - 1} more" if len(wrong) > 1 else ""
    return f"byte {at} is 00: {what}", f"byte {at} is {_hex(held[at:at + 1])}{more}"


def _box(file, position):
    first = file.layout.entries * position
    for tile in range(first, first + file.entries_due(position)):
        box, count, muted = entry(file.content, tile)
        for name, value in zip(end_names(box), box):
            if not -LIMIT <= value <= LIMIT:
                return f"coordinates from {-LIMIT} to {LIMIT}", f"{name} of tile {tile} is {value}"
        for axis, low, high in ends(box):
            if low > high:
                return "no low end above its high end", f"tile {tile} has low {axis} {low} and high {axis} {high}"
        if count > file.layout.most:
            return f"at most {file.layout.most} sites in a tile", f"the count of tile {tile} is {count}"
        if muted > count:
            return ("no more muted sites in a tile than sites",
                    f"the muted number of tile {tile} is {muted}, its count {count}")
    return None


def _stray(file, position):
    tile = position - file.directory
    box, count, _ = entry(file.content, tile)
    for slot, (*spot, _) in enumerate(sites(file.content, position, count)):
        for words in outside(box, spot):
            return "all sites inside the box of their tile", f"slot {slot} of tile {tile}: {words}"
    return None


def _muted(file, position):
    due = entry(file.content, position - file.directory)
    held = sites(file.content, position, due.count)
    muted = sum(map(is_muted, held))
    if file.layout == HEIGHT:
        old = f"{NEVER_OLD}: muted sites were always counted there"
    elif none_muted(file.content):
        old = "if you know that the file is from before muted sites were counted: `renew` writes it again"
    else:
        old = "no file from before muted sites were counted: the directory has some"
    return (f"{several(due.muted, 'site')} with cue 0, the directory's muted number of this tile",
            f"{several(muted, 'site')} with cue 0" + (f", {muted_slots(held)}" if muted else ""), old)


OF_BLOCKS = {2: _sync, 3: _check, 4: _kind, 5: _position, 6: _tiles, 7: _entries, 8: _padding, 9: _box, 10: _stray,
             16: _muted}


def of_file(content, refused):
    """Whether a refusal speaks of the file, and not of the question: 9 does not where it is O that is refused, with a
    directory that has no such fault."""
    if refused.number == 9:
        return _box(Blocks(content), refused.block) is not None
    return refused.number == 1 or refused.number in OF_BLOCKS


def _axes(content, stops):
    """Of stops with another number of axes than the town."""
    there = f"stop 0 is at {stop_words(stops[0])}"
    if layout(content) == HEIGHT:
        return "stops X,Y,Z, as the town has height", there, "give each stop its z, or ask a town without height"
    return "stops X,Y, as the town has no height", there, "leave out the z of each stop, or ask a town with height"


def _of_question(content, number, stops, k, reach):
    if number == 18:
        return f"a reach from 1 to {MAX_REACH}", f"the reach is {reach}"
    if number == 11:
        return f"k from 1 to {MAX_K}", f"k is {k}"
    if number == 12:
        return f"1 to {MAX_STOPS} stops", f"there are {len(stops)}"
    if number in (9, 13):
        for i, stop in enumerate(stops):
            if not all(-LIMIT <= end <= LIMIT for end in stop):
                return f"coordinates from {-LIMIT} to {LIMIT}", f"stop {i} is at {stop_words(stop)}"
    if number == 17:
        return _axes(content, stops)
    return None


def refusal(content, refused, stops=(), k=0, reach=0):
    """A refusal as lines: number, name and block; what was due; what stood there; of 16 and 17, what may help."""
    number, position = refused.number, refused.block
    head = f"refused {number} ({NAMES[number]})"
    if number == 1:
        said = _length(content)
    elif of_file(content, refused):
        file = Blocks(content)
        head += f", block {position}, {file.name(position)}"
        said = OF_BLOCKS[number](file, position)
    else:
        said = _of_question(content, number, stops, k, reach)
    due, there, *more = said or ("?", "?")
    return [head, f"  due: {due}", f"  there: {there}", *(f"  {line}" for line in more)]
