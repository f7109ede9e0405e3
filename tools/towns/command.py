"""The commands and their arguments. Status 0: done; 1: refused or wrong; 2: a command that cannot be understood."""
import os
import re
import sys

from . import ask, page, text, town, words
from .engine import BLOCK_SIZE, MAX_FILE_3, Engine, NoLibrary, Refused

USAGE = """\
town: the tool for towns

  town make TEXT FILE              makes the file of a town from text
  town show FILE                   prints a file as that text
  town check FILE                  the full check; says of a refusal what was due and what stood there
  town ask FILE K X,Y ..           the K nearest sounding sites of each stop, and what became of each tile
  town levels FILE REACH K X,Y ..  how loud these sites are, for a reach
  town order FILE X,Y ..           all tiles, in the sequence to fetch them from the box around the stops
  town draw FILE K X,Y .. PAGE     question and answer as one page of HTML, to look at in a browser
  town renew OLD FILE              writes again a file from before muted sites were counted

town COMMAND --help says more of a command. Coordinates are whole centimetres from -1000000 to 1000000.
In a town with height a stop is X,Y,Z.
A site with cue 0 is muted: it takes no place in a list. All others are sounding.
Exit status: 0 done, 1 refused or wrong, 2 a command that cannot be understood.
"""

HELP = {
    "make": """\
town make TEXT FILE

Makes the file of a town from text; TEXT may be - for standard input. A line of the text is

  tile LOW_X LOW_Y HIGH_X HIGH_Y   a tile and its box
  site X Y CUE                     a site of the tile above it

or, in a town with height,

  tile LOW_X LOW_Y LOW_Z HIGH_X HIGH_Y HIGH_Z
  site X Y Z CUE

in whole centimetres; what follows a # is left out. The first tile settles whether the town has height, for all lines.
Tiles are numbered from 0 in their order, the sites of a tile from slot 0.
A town has 1 to 960 tiles, a tile at most 40 sites (30 with height), all inside its box, ends included.
A cue is a number from 0 to 4294967295.
A site with cue 0 is muted: it keeps its slot, but takes no place in a list. All others are sounding.
What is wrong is said with line, tile and slot; then no file is written.
""",
    "show": """\
town show FILE

Prints a file as the text that `town make` takes, with the numbers of tiles and sites in comments, \
and which sites are muted.
The file must pass the full check.
""",
    "check": """\
town check FILE

The full check: the directory, then every tile in order. A refusal is printed with its number, name and block, \
what was due
and what stood there.
""",
    "ask": """\
town ask FILE K X,Y ..

Prints for each stop X,Y its K nearest sounding sites, those whose cue is not 0, nearest first: \
D (the squared distance),
the site (tile x 40 + slot) and its cue.
Before them: O, the smallest box around the stops; the tiles opened for each stop, in this order; \
the tiles struck; and those
neither opened nor struck. K is 1 to 64; there are 1 to 256 stops. \
An opened tile is named at the first stop that needs it.
In a town with height a stop is X,Y,Z.
""",
    "levels": """\
town levels FILE REACH K X,Y ..

Prints for each stop X,Y the cues of its K nearest sounding sites, nearest first, with D (the squared distance) and how
loud each is for a reach of REACH centimetres, 1 to 1000000: the level, REACH x REACH / (REACH x REACH + D), to four
places, or silent where D is above 100 x REACH x REACH.
In a town with height a stop is X,Y,Z.
""",
    "order": """\
town order FILE X,Y ..

Prints O, the smallest box around the stops, and all tiles in their sequence for streaming: each tile comes after every
tile that is nearer than it from O; of those free to come next, the one with the lowest number comes first.
Two stops at opposite corners give any box O. Only the directory of the file is looked at.
In a town with height a stop is X,Y,Z.
""",
    "draw": """\
town draw FILE K X,Y .. PAGE

Writes a page of HTML for a town and its stops, which opens in any browser and needs no network. \
It shows the boxes by mark
(opened, struck, neither), the sites, the stops and O; for a stop its queue by key, the list after each turn, and why it
ended; a slider for k, which begins at K; and for two tiles E and B the margin and its three points. \
The numbers are those of
the engine, asked when the page is written; of O and the three points, docs/TOOL.md says more. \
The file must pass the full
check.
In a town with height a stop is X,Y,Z. The map is the plan, seen from above; z is written beside x and y.
""",
    "renew": """\
town renew OLD FILE

Writes a file again that was made before muted sites were counted: its directory has 0 for all tiles, \
and a tile with a cue 0
is refused with 16. All else of it must pass the full check. FILE is that of the same town, with its muted sites; \
they are printed.
A damaged file, or one of two versions, may look the same: renew only a file that you know to be old.
A file with height is never old: a good one is written as it is.
""",
}


SHOWN = 20  # faults of a text, tiles with muted sites
MAX_TEXT = 2**24  # bytes of a text; the largest town takes some 2 million
NUMBER = "[+-]?[0-9]{1,30}"
STOP = f"{NUMBER},{NUMBER}(,{NUMBER})?"


class Usage(Exception):
    """Arguments that cannot be understood."""


class Wrong(Exception):
    """Something that is said in lines on standard error."""

    def __init__(self, *lines):
        super().__init__("\n".join(lines))


def _content(name, most=MAX_FILE_3 + 1):
    """What a file holds; of a device or a pipe, which may have no end, at most so many bytes."""
    try:
        with open(name, "rb") as file:
            return file.read() if os.path.isfile(name) else file.read(most)
    except OSError as error:
        raise Wrong(f"{name}: {error.strerror}") from None


def _save(name, content):
    try:
        with open(name, "wb") as file:
            file.write(content)
    except OSError as error:
        raise Wrong(f"{name}: {error.strerror}") from None


def _refused(name, content, refused, stops=(), k=0, reach=0):
    head, *rest = words.refusal(content, refused, stops, k, reach)
    return Wrong(f"{name}: {head}" if words.of_file(content, refused) else head, *rest)


def _stop(part):
    if not re.fullmatch(STOP, part):
        raise Usage(f"a stop is X,Y, two whole numbers, or X,Y,Z with height, not `{part}`")
    return tuple(map(int, part.split(",")))


def _stops(arguments):
    read = [_stop(stop) for stop in arguments]
    for stop in read:
        if len(stop) != len(read[0]):
            one, other = town.stop_words(read[0]), town.stop_words(stop)
            raise Usage(f"the stops are all X,Y or all X,Y,Z, not `{one}` and `{other}`")
    return read


def _question(arguments):
    k, *stops = arguments
    if not re.fullmatch(NUMBER, k):
        raise Usage(f"K is a whole number, not `{k}`")
    return int(k), _stops(stops)


def make(arguments):
    source, target = arguments
    given = "standard input" if source == "-" else source
    content = sys.stdin.buffer.read(MAX_TEXT + 1) if source == "-" else _content(source, MAX_TEXT + 1)
    if len(content) > MAX_TEXT:
        raise Wrong(f"{given}: a text has at most {MAX_TEXT} bytes")
    try:
        tiles, file = text.make(Engine(), content.decode("utf-8", "replace"))
    except text.Faulty as faulty:
        lines = [f"{given}: {fault}" for fault in faulty.faults]
        more = [f"{len(lines) - SHOWN} more like these"] if len(lines) > SHOWN else []
        raise Wrong(*lines[:SHOWN], *more) from None
    _save(target, file)
    print(f"{target}: {town.size(tiles)}, {len(file)} bytes")


def _good(engine, name):
    """The content of a file that passes the full check."""
    content = _content(name)
    try:
        engine.validate(content)
    except Refused as refused:
        raise _refused(name, content, refused) from None
    return content


def show(arguments):
    sys.stdout.write(text.show(town.read(_good(Engine(), *arguments))))


def check(arguments):
    content = _good(Engine(), *arguments)
    tiles = town.read(content)
    blocks = town.layout(content).directory_blocks(len(tiles))
    print(f"{arguments[0]}: good: {town.size(tiles)}, {blocks + len(tiles)} blocks, {blocks} of them of the directory")


def _counted(content):
    """A file with the muted numbers of its tiles in the directory."""
    file = bytearray(content)
    for number, tile in enumerate(town.read(content)):
        town.put_muted(file, number, len(tile.sites) - tile.sounding)
    for position in range(town.layout(file).directory_blocks(town.two_bytes(file, 6))):
        at = BLOCK_SIZE * position
        file[at + 510:at + 512] = words.sums(file[at:at + 512])
    return bytes(file)


def renew(arguments):
    name, target = arguments
    engine, content = Engine(), _content(name)
    muted = []
    try:
        engine.validate(content)
    except Refused as refused:
        # An old file. 16 comes after the directory was accepted, so that its tiles can be read.
        if refused.number != 16 or town.layout(content) == town.HEIGHT or not town.none_muted(content):
            raise _refused(name, content, refused) from None
        muted = [f"  muted: tile {number}, {town.muted_slots(tile.sites)}"
                 for number, tile in enumerate(town.read(content)) if tile.sounding < len(tile.sites)]
        content = _counted(content)
    try:
        engine.validate(content)
    except Refused as refused:
        raise _refused(name, content, refused) from None
    tiles = town.read(content)
    _save(target, engine.write(tiles))
    more = [f"  {town.several(len(muted) - SHOWN, 'more tile')} like these"] if len(muted) > SHOWN else []
    if town.has_height(tiles):
        more = [f"  written as it was: {words.NEVER_OLD}"]
    print("\n".join([f"{target}: {town.size(tiles)}, {len(content)} bytes", *muted[:SHOWN], *more]))


def ask_(arguments):
    name, *question = arguments
    k, stops = _question(question)
    content = _content(name)
    try:
        print("\n".join(ask.report(Engine(), content, stops, k)))
    except Refused as refused:
        raise _refused(name, content, refused, stops, k) from None


def levels(arguments):
    name, reach, *question = arguments
    if not re.fullmatch(NUMBER, reach):
        raise Usage(f"REACH is a whole number, not `{reach}`")
    (k, stops), content = _question(question), _content(name)
    try:
        print("\n".join(ask.levels(Engine(), content, int(reach), stops, k)))
    except Refused as refused:
        raise _refused(name, content, refused, stops, k, int(reach)) from None


def order(arguments):
    name, *stops = arguments
    stops, content = _stops(stops), _content(name)
    try:
        print("\n".join(ask.order(Engine(), content, stops)))
    except Refused as refused:
        raise _refused(name, content, refused, stops) from None


def draw(arguments):
    name, *question, target = arguments
    k, stops = _question(question)
    if re.fullmatch(STOP, target):
        raise Usage(f"the last argument is the page to write, and `{target}` is a stop")
    engine = Engine()
    content = _good(engine, name)
    try:
        ask.ask(engine, content, stops, k)  # refuses what cannot be asked
        tiles = town.read(content)
        held, most = page.html(engine, os.path.basename(name), content, tiles, stops, k)
    except Refused as refused:
        raise _refused(name, content, refused, stops, k) from None
    except page.Disagrees as disagrees:
        raise Wrong(str(disagrees)) from None
    _save(target, held.encode())
    print(f"{target}: {town.several(len(tiles), 'tile')}, {town.several(len(stops), 'stop')}, k from 1 to {most}")


# For each command: what does it, and the least and the largest number of its arguments.
COMMANDS = {"make": (make, 2, 2), "show": (show, 1, 1), "check": (check, 1, 1), "ask": (ask_, 2, None),
            "levels": (levels, 3, None), "order": (order, 2, None), "draw": (draw, 4, None), "renew": (renew, 2, 2)}


def _run(arguments):
    if not arguments:
        raise Usage("which command? make, show, check, ask, levels, order, draw or renew")
    name, *rest = arguments
    if name in ("--help", "-h", "help"):
        sys.stdout.write(USAGE)
        return
    if name not in COMMANDS:
        raise Usage(f"there is no command `{name}`; there are make, show, check, ask, levels, order, draw and renew")
    if rest and rest[0] in ("--help", "-h"):
        sys.stdout.write(HELP[name])
        return
    action, least, most = COMMANDS[name]
    if len(rest) < least or most is not None and len(rest) > most:
        raise Usage(f"usage: {HELP[name].splitlines()[0]}")
    action(rest)


def main(arguments):
    try:
        _run(arguments)
        sys.stdout.flush()
        return 0
    except Usage as usage:
        print(f"town: {usage}", file=sys.stderr)
        return 2
    except (Wrong, NoLibrary) as wrong:
        print(wrong, file=sys.stderr)
        return 1
    except BrokenPipeError:
        # Whoever read the output has enough of it.
        os.dup2(os.open(os.devnull, os.O_WRONLY), sys.stdout.fileno())
        return 1
