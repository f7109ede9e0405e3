"""The calls of include/nearby.h, for Python. Every answer of the tool comes from these, and what tests and figures
ask."""
import ctypes
import os
from ctypes import POINTER, Structure, c_double, c_int32, c_int64, c_size_t, c_uint8, c_uint32, c_uint64
from pathlib import Path
from typing import NamedTuple

BLOCK_SIZE = 512
MAX_TILES = 960
MAX_SITES = 40  # in a tile; a site's number has it for all towns
MAX_SITES_3 = 30  # in a tile of a town with height
MAX_STOPS = 256
MAX_K = 64
MAX_REACH = 1_000_000
MAX_FILE = 512_000
MAX_FILE_3 = 520_704  # of a town with height
LIMIT = 1_000_000
BAD_BOX = 9_000_000_000_000_000_000

NAMES = {
    1: "length", 2: "sync", 3: "check", 4: "kind", 5: "position", 6: "tiles", 7: "entries", 8: "padding", 9: "box",
    10: "stray", 11: "k", 12: "stops", 13: "spot", 14: "short", 15: "supply", 16: "muted", 17: "axes",
    18: "reach",
}


class NoLibrary(Exception):
    """The shared library is missing or cannot be loaded."""


class Refused(Exception):
    """A call gave a refusal: its number, and the block's position in the file."""

    def __init__(self, number, block):
        super().__init__(f"refused {number} ({NAMES.get(number, '?')}) block {block}")
        self.number = number
        self.block = block


class Joined(NamedTuple):
    """An answer of the join. lists has, for each stop, its used places: (squared distance, site, cue)."""
    used: int
    opened: int
    struck: int
    marks: bytes
    lists: list


class _Joined(Structure):
    _fields_ = [(name, c_uint32) for name in ("number", "block", "used", "tiles", "opened", "pruned")]


class _Pruned(Structure):
    _fields_ = [(name, c_uint32) for name in ("number", "block", "tiles", "pruned")]


class _Streamed(Structure):
    _fields_ = [(name, c_uint32) for name in ("number", "block", "tiles")]


class _Validated(Structure):
    _fields_ = [(name, c_uint32) for name in ("number", "block", "tiles", "axes")]


class _Written(Structure):
    _fields_ = [("number", c_uint32), ("block", c_uint32), ("length", c_size_t)]


class _Leveled(Structure):
    _fields_ = [("number", c_uint32), ("silent", c_uint32), ("level", c_double)]


def library():
    """Where the library is: NEARBY_LIB, or beside tools/ in a checkout, or beside the tool in an installed tree."""
    if os.environ.get("NEARBY_LIB"):
        return Path(os.environ["NEARBY_LIB"])
    above = Path(__file__).resolve().parent.parent.parent
    places = [above / "target/lib/libnearby.so", above / "lib/libnearby.so", above / "libnearby.so"]
    for place in places:
        if place.exists():
            return place
    raise NoLibrary("there is no libnearby.so: `make lib` makes it, or NEARBY_LIB names it; looked for\n"
                    + "\n".join(f"  {place}" for place in places))


def lent(kind, of):
    """A slice as the header wants it, never NULL, not even for 0 elements; and its length."""
    return (kind * max(1, len(of)))(*of), len(of)


def refusal(call, *given):
    """The number and the block that a call is refused with; 0 and 0 if it is not."""
    try:
        call(*given)
    except Refused as refused:
        return refused.number, refused.block
    return 0, 0


def by_axis(box):
    """The ends of a box as the calls take them: low x, high x, low y, high y, and so on."""
    axes = len(box) // 2
    return [end for axis in range(axes) for end in (box[axis], box[axis + axes])]


class Engine:
    """The loaded library, that of a path or else the one that `library` finds. `calls` has the header's calls as they
    are. A box or a stop says by its length whether the call for two axes is meant or the one for three."""

    def __init__(self, path=None):
        path = path or library()
        try:
            self.calls = ctypes.CDLL(str(path))
            self._declare()
        except (OSError, AttributeError) as error:
            raise NoLibrary(f"{path} cannot be loaded: {error}") from None

    def _declare(self):
        data, whole = POINTER(c_uint8), POINTER(c_int32)
        many = POINTER(c_uint32)
        room = [POINTER(c_uint64), c_size_t, many, c_size_t, many, c_size_t, data, c_size_t]
        lib = self.calls
        lib.nearby_block_check.argtypes = [data, c_size_t]
        lib.nearby_block_check.restype = c_uint32
        lib.nearby_validate.argtypes = [data, c_size_t]
        lib.nearby_validate.restype = _Validated
        lib.nearby_level.argtypes = [c_uint32, c_uint64]
        lib.nearby_level.restype = _Leveled
        # The calls for two axes and those for three, by the number of axes.
        self._margin = {2: lib.nearby_margin, 3: lib.nearby_margin3}
        self._join = {2: lib.nearby_join, 3: lib.nearby_join3}
        self._prune = {2: lib.nearby_prune, 3: lib.nearby_prune3}
        self._order = {2: lib.nearby_stream_order, 3: lib.nearby_stream_order3}
        self._write = {2: lib.nearby_write, 3: lib.nearby_write3}
        for axes in (2, 3):
            self._margin[axes].argtypes = [c_int32] * 6 * axes
            self._margin[axes].restype = c_int64
            self._join[axes].argtypes = [data, c_size_t, *[whole, c_size_t] * axes, c_uint32, *room]
            self._join[axes].restype = _Joined
            self._prune[axes].argtypes = [data, c_size_t, *[c_int32] * 2 * axes, c_uint32, data, c_size_t]
            self._prune[axes].restype = _Pruned
            self._order[axes].argtypes = [data, c_size_t, *[c_int32] * 2 * axes, many, c_size_t]
            self._order[axes].restype = _Streamed
            self._write[axes].argtypes = [whole, c_size_t, many, c_size_t, *[whole, c_size_t] * axes, many, c_size_t,
                                          data, c_size_t]
            self._write[axes].restype = _Written

    @staticmethod
    def file(content):
        """Bytes as a slice that can be given to many calls."""
        return (c_uint8 * max(1, len(content))).from_buffer_copy(content or b"\0"), len(content)

    def block_check(self, block):
        """0, or the refusal's number."""
        data, length = self.file(block)
        return self.calls.nearby_block_check(data, length)

    def margin(self, o, e, b):
        """The margin of boxes O, E and B, each with its lows and then its highs as in a directory."""
        value = self._margin[len(o) // 2](*by_axis(o), *by_axis(e), *by_axis(b))
        if value == BAD_BOX:
            raise ValueError("a bad box")
        return value

    def near(self, point, box):
        """The least D(p,q) over the points q of the box. With O = E = p, D(o,e) is 0 and the margin is 0 - near."""
        p = point + point
        return -self.margin(p, p, box)

    def far(self, point, box):
        """The largest D(p,q) over the points q of the box. With O = B = p, D(o,b) is 0 and the margin is far - 0."""
        p = point + point
        return self.margin(p, box, p)

    def join(self, content, stops, k):
        """nearby_join, or nearby_join3 for stops with z, of bytes or of a slice made by `file`. Raises Refused."""
        data, length = content if isinstance(content, tuple) else self.file(content)
        n, room = len(stops), max(1, len(stops) * min(k, MAX_K))
        axes = len(stops[0]) if stops else 2
        spots = [part for axis in range(axes) for part in lent(c_int32, [stop[axis] for stop in stops])]
        dist, site, cue = (c_uint64 * room)(), (c_uint32 * room)(), (c_uint32 * room)()
        marks = (c_uint8 * MAX_TILES)()
        r = self._join[axes](data, length, *spots, k, dist, room, site, room, cue, room, marks, MAX_TILES)
        if r.number:
            raise Refused(r.number, r.block)
        lists = [list(zip(dist[i * k:i * k + r.used], site[i * k:i * k + r.used], cue[i * k:i * k + r.used]))
                 for i in range(n)]
        return Joined(r.used, r.opened, r.pruned, bytes(marks)[:r.tiles], lists)

    def strike(self, content, box, k):
        """nearby_prune, or nearby_prune3 for a box with z: the marks, 1 for each struck tile. Raises Refused."""
        data, length = content if isinstance(content, tuple) else self.file(content)
        marks = (c_uint8 * MAX_TILES)()
        r = self._prune[len(box) // 2](data, length, *by_axis(box), k, marks, MAX_TILES)
        if r.number:
            raise Refused(r.number, r.block)
        return bytes(marks)[:r.tiles]

    def order(self, content, box):
        """nearby_stream_order, or nearby_stream_order3 for a box with z: the tiles in their sequence. Raises
        Refused."""
        data, length = content if isinstance(content, tuple) else self.file(content)
        tiles = (c_uint32 * MAX_TILES)()
        r = self._order[len(box) // 2](data, length, *by_axis(box), tiles, MAX_TILES)
        if r.number:
            raise Refused(r.number, r.block)
        return tiles[:r.tiles]

    def validate(self, content):
        """The full check: T. Raises Refused."""
        data, length = content if isinstance(content, tuple) else self.file(content)
        r = self.calls.nearby_validate(data, length)
        if r.number:
            raise Refused(r.number, r.block)
        return r.tiles

    def level(self, reach, dist):
        """How loud a place at a squared distance is, for a reach: its level, None if silent. Raises Refused."""
        r = self.calls.nearby_level(reach, dist)
        if r.number:
            raise Refused(r.number, 0)
        return None if r.silent else r.level

    def write(self, tiles):
        """The file of a town, given as a list of (box, sites) with sites (x, y, cue), or with boxes of six numbers and
        sites (x, y, z, cue). Raises Refused."""
        axes = len(tiles[0][0]) // 2 if tiles else 2
        sites = [site for _, held in tiles for site in held]
        boxes = lent(c_int32, [end for box, _ in tiles for end in box])
        counts = lent(c_uint32, [len(held) for _, held in tiles])
        lists = [part for i, kind in enumerate([c_int32] * axes + [c_uint32])
                 for part in lent(kind, [site[i] for site in sites])]
        out = (c_uint8 * MAX_FILE_3)()
        r = self._write[axes](*boxes, *counts, *lists, out, MAX_FILE_3)
        if r.number:
            raise Refused(r.number, r.block)
        return bytes(out)[:r.length]
