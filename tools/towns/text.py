"""A town as text, and back.

A line is `tile LOW_X LOW_Y HIGH_X HIGH_Y`, or `site X Y CUE` for a site of the tile above it, in centimetres; what
follows a # is left out. In a town with height they are `tile LOW_X LOW_Y LOW_Z HIGH_X HIGH_Y HIGH_Z` and
`site X Y Z CUE`; the first tile settles which, for all lines. Tiles are numbered from 0 in their order, and the sites
of a tile from slot 0. docs/FORMAT.md, part 5, has the grammar; a line that does not follow it is a fault.
"""
import re
from typing import NamedTuple, Optional

from .engine import LIMIT, MAX_TILES, Refused
from .town import AXES, HEIGHT, PLAN, Layout, Tile, box_words, end_names, ends, is_muted, number, size

# The numbers of a line by its word, in a plan town and in one with height.
FORMS = {PLAN: {"tile": ("LOW_X", "LOW_Y", "HIGH_X", "HIGH_Y"), "site": ("X", "Y", "CUE")},
         HEIGHT: {"tile": ("LOW_X", "LOW_Y", "LOW_Z", "HIGH_X", "HIGH_Y", "HIGH_Z"), "site": ("X", "Y", "Z", "CUE")}}
MAX_CUE = 2**32 - 1
WHOLE = re.compile(r"[+-]?[0-9]+")
SPACES = re.compile(r"[ \t]+")
MOST_DIGITS = 30  # without zeros in front; a number of more is not computed


class Fault(NamedTuple):
    """Something wrong in a text: where, and what in words. Line 0 stands for the text as a whole."""
    line: int
    tile: Optional[int]
    slot: Optional[int]
    words: str

    def __str__(self):
        at = [f"line {self.line}: "] if self.line else []
        if self.tile is not None:
            at.append(f"tile {self.tile}: " if self.slot is None else f"tile {self.tile} slot {self.slot}: ")
        return "".join(at) + self.words


class Faulty(Exception):
    """A text that is no town; the faults in the order of the lines."""

    def __init__(self, faults):
        super().__init__("; ".join(map(str, faults)))
        self.faults = faults


class Source(NamedTuple):
    """A text's tiles, the line of each tile and of each site, and the layout of their town."""
    tiles: list
    tile_lines: list
    site_lines: list
    layout: Layout


def _shown(part):
    """A part of a line for a message: cut, and with characters that cannot be seen as escapes."""
    return "".join(c if c.isprintable() else c.encode("unicode_escape").decode() for c in part[:40])


def _whole(part):
    """The value of a number. (`int` takes no more than 4300 digits, and counts zeros in front.)"""
    value = int(part.lstrip("+-0") or "0")
    return -value if part[0] == "-" else value


def _settled(lines):
    """The layout of a text, and the line that settles it: the first tile with as many numbers as one of them takes."""
    for line, word, given in lines:
        for layout, form in FORMS.items():
            if word == "tile" and len(given) == len(form[word]):
                return layout, line
    return PLAN, None


def _miscounted(layout, settled, word, given):
    """What is said of a line with too many or too few numbers."""
    names, other = FORMS[layout][word], FORMS[PLAN if layout == HEIGHT else HEIGHT][word]
    here = f"here are {len(given)}"
    if settled and len(given) == len(other):
        here += f", but the tile of line {settled} has {'no ' if layout == PLAN else ''}height"
    due = f"{len(names)} numbers, {' '.join(names)}"
    if not settled and len(names) < len(given) < len(other):
        due += f", or {len(other)}, {' '.join(other)}"
    return f"`{word}` takes {due}; {here}"


def _numbers(layout, settled, word, given):
    """The numbers after `tile` or `site`, or what is wrong with them."""
    names = FORMS[layout][word]
    if len(given) != len(names):
        return None, _miscounted(layout, settled, word, given)
    for name, part in zip(names, given):
        if not WHOLE.fullmatch(part):
            return None, f"{name} is `{_shown(part)}`, not a whole number"
        if (digits := len(part.lstrip("+-0"))) > MOST_DIGITS:
            return None, f"{name} has {digits} digits, beyond the limits"
        if name == "CUE" and part[0] == "-":
            return None, f"the cue is {part[:40]}, not a number from 0 to {MAX_CUE}"
    return [_whole(part) for part in given], None


def parse(text):
    """The source, and the faults of lines that cannot be read at all."""
    *ended, last = text.split("\n")
    lines = []
    for line, content in enumerate([whole.removesuffix("\r") for whole in ended] + [last], 1):
        word, *given = SPACES.split(content.split("#")[0].strip(" \t"))
        if word:
            lines.append((line, word, given))
    layout, settled = _settled(lines)
    source, faults = Source([], [], [], layout), []
    for line, word, given in lines:
        here = len(source.tiles) - 1 if word == "site" and source.tiles else None
        if word not in FORMS[layout]:
            faults.append(Fault(line, None, None, f"`{_shown(word)}` is neither `tile` nor `site`"))
            continue
        numbers, wrong = _numbers(layout, settled, word, given)
        if word == "tile":
            # A tile that cannot be read still counts, so that the numbers of those after it are right.
            source.tiles.append(Tile(tuple(numbers) if numbers else None, []))
            source.tile_lines.append(line)
            source.site_lines.append([])
            here = len(source.tiles) - 1
            slot = None
        elif here is None:
            faults.append(Fault(line, None, None, "a site before the first tile"))
            continue
        else:
            slot = len(source.tiles[here].sites)
            source.tiles[here].sites.append(tuple(numbers) if numbers else None)
            source.site_lines[here].append(line)
        if wrong:
            faults.append(Fault(line, here, slot, wrong))
    return source, faults


def _beyond(name, value):
    return None if -LIMIT <= value <= LIMIT else f"{name} is {value}, beyond the limits, {-LIMIT} to {LIMIT}"


def _box_faults(box):
    for name, value in zip(end_names(box), box):
        if _beyond(name, value):
            yield _beyond(name, value)
    for axis, low, high in ends(box):
        if low > high:
            yield f"low {axis} {low} is above high {axis} {high}"


def _site_faults(box, site):
    *spot, cue = site
    wrong = [words for words in map(_beyond, AXES, spot) if words]
    yield from wrong
    if not 0 <= cue <= MAX_CUE:
        yield f"the cue is {cue}, not a number from 0 to {MAX_CUE}"
    if box and not wrong:
        yield from outside(box, spot)


def outside(box, spot):
    """That a site is outside its box, in words, if it is."""
    if not all(low <= end <= high for end, (_, low, high) in zip(spot, ends(box))):
        yield f"the site at ({', '.join(map(str, spot))}) is outside its box, {box_words(box)}"


def _town_faults(source):
    """What no town may have, in words: the engine refuses the same without saying where."""
    if not source.tiles:
        yield Fault(0, None, None, f"no tile; a town has 1 to {MAX_TILES}")
    if len(source.tiles) > MAX_TILES:
        yield Fault(source.tile_lines[MAX_TILES], MAX_TILES, None, f"more than {MAX_TILES} tiles")
    for t, tile in enumerate(source.tiles):
        wrong = list(_box_faults(tile.box)) if tile.box else []
        yield from (Fault(source.tile_lines[t], t, None, words) for words in wrong)
        most = source.layout.most
        if len(tile.sites) > most:
            yield Fault(source.site_lines[t][most], t, most, f"more than {most} sites in the tile")
        box = None if wrong else tile.box
        for slot, site in enumerate(tile.sites):
            if site:
                yield from (Fault(source.site_lines[t][slot], t, slot, words) for words in _site_faults(box, site))


def _passable(source):
    """Whether all numbers fit the 32 bits in which the engine takes them."""
    whole = [end for tile in source.tiles for end in tile.box]
    whole += [end for tile in source.tiles for site in tile.sites for end in site[:-1]]
    cues = [site[-1] for tile in source.tiles for site in tile.sites]
    return all(-2**31 <= n < 2**31 for n in whole) and all(0 <= cue <= MAX_CUE for cue in cues)


def make(engine, text):
    """The tiles of a text and the file that nearby_write makes of them. Raises Faulty."""
    source, faults = parse(text)
    refused = None
    if not faults and _passable(source):
        try:
            return source.tiles, engine.write(source.tiles)
        except Refused as caught:
            refused = caught
    faults = sorted(faults + list(_town_faults(source)), key=lambda fault: fault.line or float("inf"))
    raise Faulty(faults or [Fault(0, None, None, str(refused))])


def show(tiles):
    """The text of a town; behind # the numbers of tiles and sites, and what is empty or muted."""
    lines = [f"# {size(tiles)}"]
    for t, tile in enumerate(tiles):
        what = "" if tile.sounding else ", muted" if tile.sites else ", empty"
        lines.append(f"tile {' '.join(map(str, tile.box))}  # tile {t}{what}")
        for slot, site in enumerate(tile.sites):
            lines.append(f"site {' '.join(map(str, site))}  # site {number(t, slot)}, slot {slot}"
                         + (", muted" if is_muted(site) else ""))
    return "\n".join(lines) + "\n"
