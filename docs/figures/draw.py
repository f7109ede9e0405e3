#!/usr/bin/env python3
"""Draws the figures of docs/WHY.md from the engine's own answers.

    docs/figures/draw.py            writes the figures
    docs/figures/draw.py --check    fails if a figure is not what it would write

Every number in a figure comes from a call of the proved library (`make lib`): margins of boxes, and joins and sequences
of towns that the library's writer made.
"""
import pathlib
import re
import sys

HERE = pathlib.Path(__file__).resolve().parent
ROOT = HERE.parent.parent
sys.dont_write_bytecode = True
sys.path.insert(0, str(ROOT / "tools"))

from towns.engine import Engine  # noqa: E402
from towns.text import make  # noqa: E402

SHARED = ROOT / "target" / "lib" / "libnearby.so"
if not SHARED.exists():
    sys.exit(f"{SHARED.relative_to(ROOT)} is not there: run make lib")
engine = Engine(SHARED)
WIDTH = 640

# Colours that can be told apart in grey, too.
INK, SOFT, O_COLOUR, E_COLOUR, B_COLOUR = "#1b1b1b", "#777777", "#1f4e79", "#1b6e2a", "#cc6677"
# A tile by its mark, as on the page of `tools/town draw`: opened dark, struck hatched, neither white.
WORD = {2: "opened", 1: "struck", 0: "neither"}
OPENED = re.search(r"--open: (#\w+);", (ROOT / "tools/towns/page.css").read_text())[1]
FILL = {2: OPENED, 1: "url(#hatch)", 0: "#ffffff"}
HATCH = (
    '<pattern id="hatch" patternUnits="userSpaceOnUse" width="7" height="7"><rect width="7" height="7" fill="#eceeef"/>'
    '<path d="M-1 8L8 -1M-1 1L1 -1M6 8L8 6" stroke="#7d878d" stroke-width="1.2"/></pattern>'
)


def margin(o, e, b):
    """The margin of three stretches of the x axis."""
    return engine.margin(*[(low, 0, high, 0) for low, high in (o, e, b)])


# ---- drawing


def text(x, y, words, colour=INK, size=14, anchor="middle", over=False):
    """Words; with a white edge where they stand over a line."""
    words = words.replace("&", "&amp;").replace("<", "&lt;")
    edge = ' stroke="#ffffff" stroke-width="3" paint-order="stroke"' if over else ""
    return f'<text x="{x:g}" y="{y:g}" fill="{colour}" font-size="{size}" text-anchor="{anchor}"{edge}>{words}</text>'


def line(x1, y1, x2, y2, colour=INK, width=1, dashes=""):
    dashed = f' stroke-dasharray="{dashes}"' if dashes else ""
    return f'<line x1="{x1:g}" y1="{y1:g}" x2="{x2:g}" y2="{y2:g}" stroke="{colour}" stroke-width="{width}"{dashed}/>'


def rectangle(x, y, w, h, colour, fill):
    return f'<rect x="{x:g}" y="{y:g}" width="{w:g}" height="{h:g}" stroke="{colour}" stroke-width="2" fill="{fill}"/>'


def dot(x, y, colour, radius=4):
    return f'<circle cx="{x:g}" cy="{y:g}" r="{radius}" fill="{colour}"/>'


def site(x, y, listed):
    """A site: filled if a list has it, else hollow."""
    colour, fill = (E_COLOUR, E_COLOUR) if listed else (B_COLOUR, "white")
    return f'<circle cx="{x:g}" cy="{y:g}" r="4" stroke="{colour}" stroke-width="2" fill="{fill}"/>'


def muted_site(x, y):
    """A muted site: a cross."""
    return "\n".join(line(x - 4, y - turn, x + 4, y + turn, SOFT, 2) for turn in (4, -4))


def square(x, y, colour):
    return f'<rect x="{x - 5:g}" y="{y - 5:g}" width="10" height="10" fill="{colour}"/>'


def ring(x, y, radius, dashes):
    dashed = f' stroke-dasharray="{dashes}"' if dashes else ""
    return f'<circle cx="{x:g}" cy="{y:g}" r="{radius:g}" stroke="{INK}" stroke-width="1.5"{dashed} fill="none"/>'


def svg(height, parts):
    body = "\n".join(parts)
    return (
        f'<svg xmlns="http://www.w3.org/2000/svg" viewBox="0 0 {WIDTH} {height}" width="{WIDTH}" height="{height}"'
        f' font-family="sans-serif">\n<rect width="{WIDTH}" height="{height}" fill="white"/>\n{body}\n</svg>\n'
    )


def stretches(o, e, b, top):
    """Three boxes on one axis, one above the other, over one scale."""
    low = min(o[0], e[0], b[0])
    high = max(o[1], e[1], b[1])
    at = lambda n: 70 + (WIDTH - 110) * (n - low) / (high - low)
    parts = []
    for row, (name, (start, end), colour) in enumerate(zip("OEB", (o, e, b), (O_COLOUR, E_COLOUR, B_COLOUR))):
        y = top + 28 * row
        parts.append(text(30, y + 5, name, colour, 16))
        parts.append(line(at(start), y, at(end), y, colour, 7 if start < end else 1))
        for n in {start, end}:
            parts.append(dot(at(n), y, colour))
            parts.append(text(at(n), y - 9, str(n), colour, 12))
    return parts


def gains(o, e, b, top, marked):
    """For each o of O, the largest D(o,e) - D(o,b): the margin of the box that is only o."""
    values = {x: margin((x, x), e, b) for x in range(o[0], o[1] + 1)}
    most = max(abs(v) for v in values.values()) or 1
    across = lambda x: 110 + (WIDTH - 190) * (x - o[0]) / (o[1] - o[0])
    up = lambda v: top + 70 - 60 * v / most
    parts = [line(90, up(0), WIDTH - 60, up(0), SOFT), text(WIDTH - 50, up(0) + 5, "0", SOFT, 13, "start")]
    xs = sorted(values)
    for left, right in zip(xs, xs[1:]):
        parts.append(line(across(left), up(values[left]), across(right), up(values[right]), O_COLOUR, 2))
    for x in xs:
        parts.append(dot(across(x), up(values[x]), O_COLOUR, 3))
        parts.append(text(across(x), top + 176, str(x), SOFT, 12))
    for x in marked:
        shift = -12 if values[x] >= 0 else 20
        parts.append(dot(across(x), up(values[x]), INK, 5))
        parts.append(text(across(x), up(values[x]) + shift, str(values[x]), INK, 14))
    parts.append(text(30, top + 176, "o", O_COLOUR, 14))
    return parts, values


def far_against_near():
    o, e, b = (0, 10), (20, 30), (31, 70)
    curve, values = gains(o, e, b, 120, [0, 10])
    whole = margin(o, e, b)
    assert whole == max(values.values()) == -41
    return svg(345, stretches(o, e, b, 40) + curve + [
        text(WIDTH / 2, 332, f"the largest D(o,e) - D(o,b) for each o: always below 0, so the margin is {whole}"),
    ])  # fmt: skip


def middle_only():
    o, e, b = (0, 10), (0, 0), (15, 15)
    curve, values = gains(o, e, b, 120, [0, 5, 10])
    whole = margin(o, e, b)
    assert whole == max(values.values()) == 75 and values[5] < 0
    return svg(345, stretches(o, e, b, 40) + curve + [
        text(WIDTH / 2, 332, f"in the middle {values[5]}, at the end of O {values[10]}: the margin is {whole}"),
    ])  # fmt: skip


def zero_is_not_nearer():
    o, e, b = (0, 10), (20, 30), (30, 70)
    assert margin(o, e, b) == 0
    # the same two boxes as tiles: B is tile 0, E is tile 1, each with a site at their common point
    tiles = [((30, 0, 70, 0), [(30, 0, 8)]), ((20, 0, 30, 0), [(30, 0, 9)])]
    answer = engine.join(engine.write(tiles), [(0, 0)], 1)
    [[(dist, where, cue)]] = answer.lists
    assert where == 0 and answer.struck == 0
    return svg(190, stretches(o, e, b, 40) + [
        text(WIDTH / 2, 140, "margin 0: a site at 30 may be in E or in B, at the same distance"),
        text(WIDTH / 2, 166, f"if B is tile 0 and E tile 1, a stop at 0 lists the site of B: D {dist}, cue {cue}"),
    ])  # fmt: skip


def town_of_the_page():
    """The town, its file, the stops, the box around them and k that run through docs/WHY.md."""
    return *make(engine, (ROOT / "samples/crossing.txt").read_text()), [(0, 0), (6, 2)], (0, 0, 6, 2), 2


def stop_at_k():
    tiles, file, stops, _, k = town_of_the_page()
    stop = stops[0]
    # the list after tile 0 is that of the town in which only tile 0 has sites
    first = [(box, sites if number == 0 else []) for number, (box, sites) in enumerate(tiles)]
    [early] = engine.join(engine.write(first), [stop], k).lists
    *_, marks, [final, _] = engine.join(file, stops, k)
    assert len(early) == len(final) == k and early != final and marks[:4] == bytes([2, 2, 2, 0])
    scale = 27
    at = lambda x, y: (330 + scale * x, 150 - scale * y)
    parts = []
    for number in (0, 1, 3):
        (x0, y0, x1, y1), sites = tiles[number]
        left, top = at(x0, y1)
        colour = INK if marks[number] == 2 else SOFT
        parts.append(rectangle(left, top, scale * (x1 - x0), scale * (y1 - y0), colour, FILL[marks[number]]))
    for places, dashes in ((early, "6 4"), (final, "")):
        parts.append(ring(*at(*stop), scale * places[-1][0] ** 0.5, dashes))
    for number in (0, 1, 3):
        (x0, y0, x1, y1), sites = tiles[number]
        left, top = at(x0, y1)
        label = f"tile {number}: near {engine.near(stop, (x0, y0, x1, y1))}"
        spot = (left - 5, top + 12, "end") if number == 0 else (left, top + scale * (y1 - y0) + 15, "start")
        parts.append(text(*spot[:2], label, INK, 12, spot[2], True))
        for x, y, cue in sites:
            parts.append(site(*at(x, y), cue in [place[2] for place in final]))
            parts.append(text(at(x, y)[0] + 7, at(x, y)[1] - 5, f"{x * x + y * y}", INK, 12, "start", True))
    parts.append(square(*at(*stop), O_COLOUR))
    parts.append(text(at(*stop)[0] - 9, at(*stop)[1] + 5, "stop 0", O_COLOUR, 12, "end", True))
    near_1, near_3 = [engine.near(stop, tiles[number][0]) for number in (1, 3)]
    said = [
        f"k = 2. After tile 0 the second place is at {early[-1][0]} (dashed circle), but near of tile 1 is {near_1}.",
        f"After tile 1 it is at {final[-1][0]} (full circle), and near of tile 3 is {near_3}: the stop ends.",
    ]
    return svg(345, parts + [text(WIDTH / 2, 311 + 20 * row, words, INK, 13) for row, words in enumerate(said)])


def crossing():
    tiles, file, stops, o, k = town_of_the_page()
    *_, marks, lists = engine.join(file, stops, k)
    listed = {where for places in lists for _, where, _ in places}
    scale = 19
    at = lambda x, y: (395 + scale * x, 118 - scale * y)
    box_of = lambda box, colour, fill: rectangle(
        *at(box[0], box[3]), scale * (box[2] - box[0]), scale * (box[3] - box[1]), colour, fill
    )
    parts = [HATCH]
    for number, (box, sites) in enumerate(tiles):
        parts.append(box_of(box, INK if marks[number] == 2 else SOFT, FILL[marks[number]]))
        left, top = at(box[0], box[3])
        parts.append(text(left + 3, top - 5, f"{number}", INK, 13, "start"))
        for slot, (x, y, cue) in enumerate(sites):
            parts.append(site(*at(x, y), 40 * number + slot in listed) if cue else muted_site(*at(x, y)))
        if not sites:
            parts.append(text(*at((box[0] + box[2]) / 2, box[1] + 0.3), "empty", INK, 11, over=True))
    left, top = at(o[0], o[3])
    parts.append(
        f'<rect x="{left:g}" y="{top:g}" width="{scale * (o[2] - o[0])}" height="{scale * (o[3] - o[1])}"'
        f' stroke="{O_COLOUR}" stroke-width="2" stroke-dasharray="5 4" fill="none"/>'
    )
    parts.append(text(left + 76, top + scale * 2 - 6, "O", O_COLOUR, 14))
    for number, stop in enumerate(stops):
        parts.append(square(*at(*stop), O_COLOUR))
        beside, anchor = ((-9, 5), "end") if number == 0 else ((0, 18), "middle")
        spot = [n + shift for n, shift in zip(at(*stop), beside)]
        parts.append(text(*spot, f"stop {number}", O_COLOUR, 12, anchor, True))
    # an axis below, and what the kinds of boxes and sites mean
    for x in range(-20, 12, 4):
        parts.append(text(at(x, 0)[0], 236, f"{x}", SOFT, 11))
        parts.append(line(at(x, 0)[0], 218, at(x, 0)[0], 224, SOFT))
    parts.append(line(at(-20, 0)[0], 218, at(11, 0)[0], 218, SOFT))
    parts.append(text(at(11, 0)[0] + 20, 236, "x", SOFT, 12))
    for y in (-4, 0, 4):
        parts.append(text(at(11, y)[0] + 24, at(11, y)[1] + 4, f"y {y}", SOFT, 11))
    for step, mark in enumerate((2, 1, 0)):
        parts.append(rectangle(40 + 95 * step, 256, 16, 16, INK if mark == 2 else SOFT, FILL[mark]))
        parts.append(text(62 + 95 * step, 269, WORD[mark], INK, 13, "start"))
    for step, (drawn, words) in enumerate((
        (lambda *spot: site(*spot, True), "site in a list (k = 2)"),
        (lambda *spot: site(*spot, False), "in no list"),
        (muted_site, "muted"),
    )):
        left = 325 + (0, 155, 240)[step]
        parts.append(drawn(left, 264))
        parts.append(text(left + 10, 269, words, INK, 13, "start"))
    return svg(285, parts)


def levels():
    """The level by the distance, in reaches: D is the square of the distance."""
    reach, left, top, bottom = 100, 70, 30, 250
    across = lambda distance: left + (WIDTH - left - 40) * distance / (12 * reach)
    up = lambda level: bottom - (bottom - top) * level
    heard = [(x, engine.level(reach, x * x)) for x in range(0, 12 * reach + 1, 5)]
    curve = [(x, level) for x, level in heard if level is not None]
    last = curve[-1]
    assert last[0] == 10 * reach and engine.level(reach, last[0] ** 2 + 1) is None
    parts = [line(left, bottom, WIDTH - 40, bottom, SOFT), line(left, top, left, bottom, SOFT)]
    for level in (0.5, 1):
        parts.append(text(left - 10, up(level) + 5, f"{level:g}", SOFT, 13, "end"))
        parts.append(line(left - 4, up(level), left, up(level), SOFT))
    for times in (1, 2, 3, 10):
        x, level = times * reach, engine.level(reach, (times * reach) ** 2)
        parts.append(line(across(x), bottom, across(x), up(level), SOFT, 1, "3 3"))
        parts.append(text(across(x), bottom + 18, f"{times if times > 1 else ''} r".strip(), INK, 13))
    for (x, level), (x_2, level_2) in zip(curve, curve[1:]):
        parts.append(line(across(x), up(level), across(x_2), up(level_2), O_COLOUR, 2))
    parts.append(line(across(last[0]), bottom, WIDTH - 40, bottom, B_COLOUR, 3))
    marked = [(0, "1", 10, -8), (1, "1/2", 12, -4), (2, "1/5", 12, -4), (3, "1/10", 10, -6), (10, "1/101", 0, -12)]
    for times, words, right, over in marked:
        x = times * reach
        over_1, under = map(int, (words + "/1").split("/")[:2])
        assert engine.level(reach, x * x) == over_1 / under
        parts.append(dot(across(x), up(engine.level(reach, x * x)), O_COLOUR))
        parts.append(text(across(x) + right, up(engine.level(reach, x * x)) + over, words, INK, 13,
                          "start" if right else "middle", True))
    parts.append(text(across(11 * reach), bottom - 10, "silent", B_COLOUR, 13))
    caption = "the level by the distance: a half at the reach r, silence beyond ten of it"
    parts.append(text(WIDTH / 2, bottom + 45, caption))
    return svg(310, parts)


FREE, NOT_FREE = "#cfe3d2", "#ffffff"


def streamed(tiles, file, o, left, title):
    """A town of tiles of 10 m and its sequence from O: in each tile its place, and in its corner its number. Gives the
    parts, and for each tile that is not free at the start the tiles nearer than it."""
    scale, top = 0.0455, 40
    high = max(box[3] for box, _ in tiles) + 1
    at = lambda x, y: (left + scale * x, top + scale * (high - y))
    boxes = [box for box, _ in tiles]
    waits = {}
    for number, b in enumerate(boxes):
        if nearer := [e for e, box in enumerate(boxes) if engine.margin(o, box, b) < 0]:
            waits[number] = nearer
    order = engine.order(file, o)
    parts = [text(left + scale * 3000, top - 14, title, INK, 14)]
    for number, (x0, y0, x1, y1) in enumerate(boxes):
        free = number not in waits
        x, y = at(x0, y1 + 1)
        parts.append(rectangle(x, y, scale * (x1 + 1 - x0), scale * (y1 + 1 - y0), SOFT, FREE if free else NOT_FREE))
        parts.append(text(x + scale * 500, y + 29, f"{order.index(number)}", INK, 16))
        parts.append(text(x + scale * 1000 - 4, y + 12, f"{number}", SOFT, 10, "end"))
    x, y = at(o[0], o[3])
    if o[:2] == o[2:]:
        parts.append(square(x, y, O_COLOUR))
    else:
        parts.append(rectangle(x, y, scale * (o[2] - o[0]), scale * (o[3] - o[1]), O_COLOUR, "#1f4e7955"))
    return parts, waits


def free_first():
    tiles, file = make(engine, (ROOT / "samples/riverside.txt").read_text())
    parts, around_track = streamed(tiles, file, (1200, 3000, 5600, 3200), 30, "O around the track")
    more, first_stop = streamed(tiles, file, (1200, 3000, 1200, 3000), 337, "O the first stop alone")
    assert around_track == {0: [13, 19], 5: [16, 22]}
    parts += more
    for left, fill, words in ((30, FREE, "free at the start"), (172, NOT_FREE, "not free at the start")):
        parts.append(rectangle(left, 246, 16, 16, SOFT, fill))
        parts.append(text(left + 23, 259, words, INK, 13, "start"))
    parts.append(rectangle(338, 249, 22, 9, O_COLOUR, "#1f4e7955"))
    parts.append(square(373, 254, O_COLOUR))
    parts.append(text(384, 259, "O", O_COLOUR, 13, "start"))
    parts.append(text(411, 259, "large: place, from 0; small: tile", INK, 13, "start"))
    said = [
        "O around the track: tile 0 waits for 13 and 19, tile 5 for 16 and 22. All others are free.",
        f"O the first stop alone: more can be compared, and only {len(tiles) - len(first_stop)} are free at the start.",
    ]
    return svg(320, parts + [text(WIDTH / 2, 288 + 20 * row, words, INK, 13) for row, words in enumerate(said)])


FIGURES = {
    "crossing.svg": crossing,
    "far-against-near.svg": far_against_near,
    "free-first.svg": free_first,
    "levels.svg": levels,
    "middle-only.svg": middle_only,
    "stop-at-k.svg": stop_at_k,
    "zero-is-not-nearer.svg": zero_is_not_nearer,
}


def main(arguments):
    for name, draw in FIGURES.items():
        drawn = draw()
        if arguments == ["--check"]:
            if (HERE / name).read_text() != drawn:
                sys.exit(f"figures: {name} is not what the engine's answers give: run docs/figures/draw.py")
        else:
            (HERE / name).write_text(drawn)
    print(f"figures: {len(FIGURES)} drawn from the engine's answers")


main(sys.argv[1:])
