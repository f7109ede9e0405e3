"""What a file holds: the numbers at their places. Nothing here tests a file; that is the engine's part."""
import struct
from typing import NamedTuple

from .engine import BLOCK_SIZE, MAX_FILE, MAX_FILE_3, MAX_SITES, MAX_SITES_3

PAYLOAD = 16  # the byte at which entries and sites begin
AXES = "xyz"


class Layout(NamedTuple):
    """How the blocks of a town are laid out, by its number of axes."""
    axes: int
    directory: int  # the kind of a directory block
    tile: int  # the kind of a tile's block
    entries: int  # of a directory block
    most: int  # sites of a tile
    longest: int  # file, in bytes

    @property
    def entry_size(self):
        return 8 * self.axes + 4

    @property
    def site_size(self):
        return 4 * self.axes + 4

    def directory_blocks(self, tiles):
        """d: how many blocks the directory of so many tiles has."""
        return -(-tiles // self.entries)


PLAN = Layout(2, 1, 2, 24, MAX_SITES, MAX_FILE)
HEIGHT = Layout(3, 3, 4, 17, MAX_SITES_3, MAX_FILE_3)


def layout(content):
    """The layout of a file: the kind of block 0 settles it. A file that says neither is taken for that of a plan
    town."""
    return HEIGHT if content[1:2] == bytes((HEIGHT.directory,)) else PLAN


def ends(box):
    """Of a box the axes, each with its low and its high end."""
    axes = len(box) // 2
    return [(AXES[axis], box[axis], box[axis + axes]) for axis in range(axes)]


def box_words(box):
    return ", ".join(f"{axis} {low}..{high}" for axis, low, high in ends(box))


def end_names(box):
    """The names of the numbers of a box, in their order."""
    axes = AXES[:len(box) // 2]
    return [f"low {axis}" for axis in axes] + [f"high {axis}" for axis in axes]


def stop_words(stop):
    return ",".join(map(str, stop))


class Tile(NamedTuple):
    """A tile: its box (low x, low y, high x, high y) and its sites (x, y, cue) by slot; with height (low x, low y,
    low z, high x, high y, high z) and (x, y, z, cue)."""
    box: tuple
    sites: list

    @property
    def sounding(self):
        """How many of its sites are not muted."""
        return len(self.sites) - sum(map(is_muted, self.sites))


class Entry(NamedTuple):
    """The directory's entry of a tile: its box, how many sites it has, and how many of them are muted."""
    box: tuple
    count: int
    muted: int

    @property
    def sounding(self):
        return self.count - self.muted


def is_muted(held):
    """Whether a site is muted, its cue 0: then it takes no place in a list."""
    return held[-1] == 0


def muted_slots(sites):
    """The slots of the muted sites of a tile, in words."""
    slots = [str(slot) for slot, held in enumerate(sites) if is_muted(held)]
    return f"{'slot' if len(slots) == 1 else 'slots'} {', '.join(slots)}" if slots else "no slot"


def block(content, position):
    return content[BLOCK_SIZE * position:BLOCK_SIZE * (position + 1)]


def two_bytes(held, at):
    return int.from_bytes(held[at:at + 2], "little")


def _entry_at(held, tile):
    return BLOCK_SIZE * (tile // held.entries) + PAYLOAD + held.entry_size * (tile % held.entries)


def entry(content, tile):
    """The directory's entry of a tile."""
    held = layout(content)
    *box, count, muted = struct.unpack_from(f"<{2 * held.axes}iHH", content, _entry_at(held, tile))
    return Entry(tuple(box), count, muted)


def put_muted(file, tile, number):
    """Puts another muted number into the directory's entry of a tile; the check stays as it is."""
    held = layout(file)
    struct.pack_into("<H", file, _entry_at(held, tile) + held.entry_size - 2, number)


def none_muted(content):
    """Whether the directory has no muted site."""
    return not any(entry(content, tile).muted for tile in range(two_bytes(content, 6)))


def sites(content, position, count):
    """The first sites of a tile's block: x, y and cue, with height x, y, z and cue."""
    held = layout(content)
    return [struct.unpack_from(f"<{held.axes}iI", content, BLOCK_SIZE * position + PAYLOAD + held.site_size * slot)
            for slot in range(count)]


def read(content):
    """The tiles of a file that passed the full check."""
    total = two_bytes(content, 6)
    first = layout(content).directory_blocks(total)
    tiles = []
    for t in range(total):
        box, count, _ = entry(content, t)
        tiles.append(Tile(box, sites(content, first + t, count)))
    return tiles


def number(tile, slot):
    """The number of a site in lists."""
    return tile * MAX_SITES + slot


def several(count, word):
    return f"{count} {word}" if count == 1 else f"{count} {word}s"


def size(tiles):
    """How large a town is, in words."""
    held = [site for tile in tiles for site in tile.sites]
    muted = sum(map(is_muted, held))
    return (f"{several(len(tiles), 'tile')}, {several(len(held), 'site')}" + (f" ({muted} muted)" if muted else "")
            + (", with height" if has_height(tiles) else ""))


def has_height(tiles):
    """Whether the tiles are those of a town with height."""
    return bool(tiles) and len(tiles[0].box) == 2 * HEIGHT.axes


def around(stops):
    """O: the smallest box around the stops."""
    axes = list(zip(*stops))
    return (*map(min, axes), *map(max, axes))
