"""The page of a town and its stops: what it shows is asked of the engine here, when it is written.

What the page holds, and the calls that it comes from:
- marks and counts of the run for each k: nearby_join of all the stops;
- for each stop its queue: the tiles with a sounding site, by key; near by nearby_margin;
- for each stop and k how many tiles it takes: the tiles opened by nearby_join of this stop alone. They are the first of
  its queue: no list and no opening depends on other stops or on striking (theorem pruning_opens_alike of the crate
  `search`);
- for each stop the list after each turn: nearby_join of a town that has only the tiles taken so far, all others
  emptied;
- for pairs of tiles the margin, and of tiles near and far from the corners of O, by nearby_margin; the sounding sites
  of the tiles nearer than a tile by nearby_prune.

No call gives O, or the three points of a margin: these are found here, by their rules. nearby_margin of the points
alone has to be the margin of the boxes.

Where two calls must agree, they are compared, and a page is not written if they do not.
"""
import itertools
import json
import pkgutil

from .ask import OPENED, STRUCK
from .engine import MAX_K, MAX_SITES
from .town import around, ends, has_height

STEPS = 2000  # lists after a turn, in a page
PAIRS = 30_000  # margins, in a page
SEEN_FROM_ABOVE = ("The town has height, and the map shows it from above: x and y. Boxes may lie over one another: "
                   "choose a hidden one by its number. D takes in z, so that what lies inside a circle may be farther "
                   "than it looks.")


class Disagrees(Exception):
    """Two calls that must agree do not."""


def _agree(one, other, what):
    if one != other:
        raise Disagrees(f"the engine's answers disagree: {what}")


class Run:
    """A town's file and its stops, asked for every k from 1 to kmax."""

    def __init__(self, engine, content, tiles, stops, k):
        self.engine, self.tiles, self.stops, self.k = engine, tiles, stops, k
        self.file = engine.file(content)
        self.held = [t for t, tile in enumerate(tiles) if tile.sounding]
        self.o = around(stops)
        self.notes = [SEEN_FROM_ABOVE] if has_height(tiles) else []
        self.kmax = min(MAX_K, max(k, sum(tile.sounding for tile in tiles)))
        self.joined = [engine.join(self.file, stops, k) for k in range(1, self.kmax + 1)]
        self.queues = [sorted((engine.near(stop, tiles[t].box), t) for t in self.held) for stop in stops]
        self.walks = [self._walk(i) for i in range(len(stops))]
        self._cut()
        self._openings_agree()

    def _walk(self, i):
        """How many tiles stop i takes, for each k."""
        order = [t for _, t in self.queues[i]]
        taken = []
        for k in range(1, self.kmax + 1):
            alone = self.engine.join(self.file, [self.stops[i]], k)
            _agree(alone.lists[0], self.joined[k - 1].lists[i],
                   f"the list of stop {i}, alone and among the others, k {k}")
            opened = {t for t, mark in enumerate(alone.marks) if mark == OPENED}
            _agree(opened, set(order[:len(opened)]), f"the tiles that stop {i} takes are the first of its queue, k {k}")
            taken.append(len(opened))
        return taken

    def _cut(self):
        """Fewer k, then fewer stops with all their steps, if there were too many steps for one page."""
        whole = self.kmax
        while self.kmax > self.k and sum(walk[self.kmax - 1] for walk in self.walks) > STEPS:
            self.kmax = max(self.k, self.kmax // 2)
        if self.kmax < whole:
            self.notes.append(f"The slider ends at k = {self.kmax}: this page would be too large with k up to {whole}.")
            self.joined = self.joined[:self.kmax]
            self.walks = [walk[:self.kmax] for walk in self.walks]
        total, self.stepped = 0, 0
        for walk in self.walks:
            total += walk[-1]
            if total > STEPS and self.stepped:
                break
            self.stepped += 1
        if self.stepped < len(self.stops):
            self.notes.append(f"The list after each turn is here for stops 0 to {self.stepped - 1} only: with those of "
                              f"all stops this page would be too large.")

    def _openings_agree(self):
        for k, joined in enumerate(self.joined, 1):
            taken = {t for i, queue in enumerate(self.queues) for _, t in queue[:self.walks[i][k - 1]]}
            marked = {t for t, mark in enumerate(joined.marks) if mark == OPENED}
            _agree(taken, marked, f"the tiles that the stops take are the tiles opened, k {k}")
            struck = self.engine.strike(self.file, self.o, k)
            _agree([mark == STRUCK for mark in joined.marks], [mark == STRUCK for mark in struck],
                   f"the tiles struck, k {k}")

    def queue(self, i):
        """The queue of stop i as far as a page shows it: past the end of its walk for every k, and a little more."""
        queue, last = self.queues[i], 0
        for k, joined in enumerate(self.joined, 1):
            waits = (at for at in range(self.walks[i][k - 1], len(queue)) if joined.marks[queue[at][1]] != STRUCK)
            last = max(last, next(waits, len(queue) - 1))
        return queue[:last + 5]

    def places(self, i):
        """Every place that is ever in the list of stop i, by rank, as (D, site): the list for k after m turns has the
        first k of them whose tile is among the first m of the queue."""
        order = [t for _, t in self.queues[i]]
        last = self.walks[i][-1]
        lists = {last: [place[:2] for place in self.joined[-1].lists[i]]}
        if i < self.stepped:
            for m in range(1, last):
                opened = set(order[:m])
                town = [(tile.box, tile.sites if t in opened else []) for t, tile in enumerate(self.tiles)]
                after = self.engine.join(self.engine.write(town), [self.stops[i]], self.kmax)
                lists[m] = [place[:2] for place in after.lists[0]]
        ever = sorted({place for held in lists.values() for place in held})
        step = {t: m for m, t in enumerate(order, 1)}
        for m, held in lists.items():
            so_far = [place for place in ever if step[place[1] // MAX_SITES] <= m]
            _agree(so_far[:self.kmax], held, f"the list of stop {i} after turn {m}")
        for k, joined in enumerate(self.joined, 1):
            so_far = [place for place in ever if step[place[1] // MAX_SITES] <= self.walks[i][k - 1]]
            _agree(so_far[:k], [place[:2] for place in joined.lists[i]], f"the list of stop {i}, k {k}")
        return ever

    def nearer(self):
        """For each tile how many sounding sites the tiles nearer than it from O hold, 64 standing for more: the last k
        for which it is struck."""
        most = [0] * len(self.tiles)
        for k in range(1, MAX_K + 1):
            for t, mark in enumerate(self.engine.strike(self.file, self.o, k)):
                if mark:
                    most[t] = k
        return most

    def corners(self):
        """Of each corner of O (low-low, high-low, low-high, high-high; with height those of low z first): far and near
        of every tile's box."""
        for reverse in itertools.product(*[(low, high) for _, low, high in reversed(ends(self.o))]):
            corner = reverse[::-1]
            yield ([self.engine.far(corner, tile.box) for tile in self.tiles],
                   [self.engine.near(corner, tile.box) for tile in self.tiles])

    def chosen(self):
        """The tiles that can be E: all, or in a large town those opened, then those that come first in the queues."""
        room = max(1, PAIRS // len(self.tiles))
        if len(self.tiles) <= room:
            return list(range(len(self.tiles)))
        opened = [t for t, mark in enumerate(self.joined[self.k - 1].marks) if mark == OPENED]
        some = opened if len(opened) <= room else [opened[i * len(opened) // room] for i in range(room)]
        rest = [queue[at][1] for at in range(min(room, len(self.held))) for queue in self.queues]
        for t in rest:
            if len(some) >= room:
                break
            if t not in some:
                some.append(t)
        self.notes.append(f"The margin is here for E among {len(some)} tiles; for the others the corners of O are "
                          "compared.")
        return sorted(some)


def _axis(o, e, b):
    """The three points of a margin on one axis, by the rule: o an end of O, e the end of E farther from it, b the point
    of B closest to it; the low end where both are as good. As letters: which end of O, which of E, and for b an end or
    o itself."""
    best = None
    for end, at in (("l", o[0]), ("h", o[1])):
        far = "l" if abs(at - e[0]) >= abs(at - e[1]) else "h"
        close = "l" if at < b[0] else "h" if at > b[1] else "o"
        point = {"l": b[0], "h": b[1], "o": at}[close]
        ahead = e[0] if far == "l" else e[1]
        value = (at - ahead) ** 2 - (at - point) ** 2
        if best is None or value > best[0]:
            best = value, end + far + close, (at, ahead, point)
    return best[1], best[2]


def margins(run, e):
    """For E and every B the margin and, as letters, its three points: the margin of the points alone must be the
    same."""
    box, o = run.tiles[e].box, run.o
    values, letters = [], []
    for b, tile in enumerate(run.tiles):
        axes = [_axis(*(held[1:] for held in of)) for of in zip(ends(o), ends(box), ends(tile.box))]
        value = run.engine.margin(o, box, tile.box)
        _agree(run.engine.margin(*(point + point for point in zip(*(points for _, points in axes)))), value,
               f"the margin of {e} and {b}")
        values.append(value)
        letters += [letter for letter, _ in axes]
    return values, "".join(letters)


def data(engine, name, content, tiles, stops, k):
    """All that the page shows."""
    run = Run(engine, content, tiles, stops, k)
    chosen = run.chosen()
    pairs = {e: margins(run, e) for e in chosen}
    queues = [run.queue(i) for i in range(len(stops))]
    places = [run.places(i) for i in range(len(stops))]
    return {
        "name": name, "k": k, "kmax": run.kmax, "notes": run.notes, "o": run.o, "stops": stops,
        "boxes": [tile.box for tile in tiles],
        "sites": [[end for site in tile.sites for end in site] for tile in tiles],
        "marks": ["".join(map(str, joined.marks)) for joined in run.joined],
        "counts": [[joined.used, joined.opened, joined.struck] for joined in run.joined],
        "queues": [[end for near, t in queue for end in (t, near)] for queue in queues],
        "walks": run.walks, "stepped": run.stepped,
        "places": [[end for dist, site in held for end in (site, dist)] for held in places],
        "nearer": run.nearer(),
        "corners": [{"far": far, "near": near} for far, near in run.corners()],
        "margins": {e: pair[0] for e, pair in pairs.items()},
        "points": {e: pair[1] for e, pair in pairs.items()},
    }


def html(engine, name, content, tiles, stops, k):
    """The page as text, and its largest k. Raises Refused for a question that the engine refuses, Disagrees if two of
    its answers do."""
    page = pkgutil.get_data("towns", "page.html").decode()
    shown = data(engine, name, content, tiles, stops, k)
    held = json.dumps(shown, separators=(",", ":")).replace("<", "\\u003c")
    for part, file in (("/*STYLE*/", "page.css"), ("/*SCRIPT*/", "page.js")):
        page = page.replace(part, pkgutil.get_data("towns", file).decode())
    return page.replace("/*DATA*/", held), shown["kmax"]
