"""A question: the lists of the stops, what became of each tile, and the sequence for streaming."""
from typing import NamedTuple

from .engine import MAX_SITES, Joined
from .town import around, box_words, entry, stop_words

OPENED, STRUCK, NEITHER = 2, 1, 0


class Answer(NamedTuple):
    """An answer of the join; for each opened tile the stop that it was opened for."""
    joined: Joined
    opened_for: dict


def within_32_bits(number):
    """A number in the 32 bits that the engine takes. One that does not fit is refused as well at their ends."""
    return min(max(number, 0), 2**32 - 1)


def _stops_as_taken(stops):
    low, high = -2**31, 2**31 - 1
    return [tuple(min(max(end, low), high) for end in stop) for stop in stops]


def _as_taken(stops, k):
    """The question in the 32 bits that the engine takes. What does not fit is refused as well at their ends."""
    return _stops_as_taken(stops), within_32_bits(k)


def ask(engine, content, stops, k):
    """Asks the engine. Raises Refused.

    Stops are taken in turn, so the tiles opened for the first i stops are those opened by a call with these stops
    alone. Such a call has a smaller box O and may strike other tiles, but striking changes neither which tiles are
    opened nor their order (the theorem pruning_opens_alike of the crate `search`).
    """
    stops, k = _as_taken(stops, k)
    file = engine.file(content)
    joined = engine.join(file, stops, k)
    opened_for = {}
    for i in range(len(stops)):
        marks = joined.marks if i + 1 == len(stops) else engine.join(file, stops[:i + 1], k).marks
        for tile, mark in enumerate(marks):
            if mark == OPENED:
                opened_for.setdefault(tile, i)
        if len(opened_for) == joined.opened:
            break
    return Answer(joined, opened_for)


def by_key(engine, content, stop, tiles):
    """Tiles in the order in which a stop takes them: by key, which is near, then the tile's number."""
    return sorted(tiles, key=lambda tile: (engine.near(tuple(stop), entry(content, tile).box), tile))


def _tile(content, tile):
    """A tile's number, and why it is in no queue if it has no sounding site."""
    held = entry(content, tile)
    return f"{tile}" + ("" if held.sounding else " (muted)" if held.count else " (empty)")


def _tiles(content, numbers):
    return ", ".join(_tile(content, tile) for tile in numbers) or "none"


def report(engine, content, stops, k):
    """The answer as lines."""
    answer = ask(engine, content, stops, k)
    joined, total = answer.joined, len(answer.joined.marks)
    lines = [f"k {k}, stops {len(stops)}, O {box_words(around(stops))}",
             f"tiles {total}: opened {joined.opened}, struck {joined.struck}, "
             f"neither {total - joined.opened - joined.struck}"]
    for i, stop in enumerate(stops):
        first = [tile for tile, of in answer.opened_for.items() if of == i]
        lines.append(f"opened for stop {i}: {_tiles(content, by_key(engine, content, stop, first))}")
    for mark, word in ((STRUCK, "struck"), (NEITHER, "neither")):
        lines.append(f"{word}: {_tiles(content, [tile for tile, held in enumerate(joined.marks) if held == mark])}")
    for i, (stop, places) in enumerate(zip(stops, joined.lists)):
        lines.append(f"stop {i} at {stop_words(stop)}:" + ("" if places else " no sounding site"))
        for dist, site, cue in places:
            lines.append(f"  D {dist}, site {site} (tile {site // MAX_SITES} slot {site % MAX_SITES}), cue {cue}")
    return lines


def levels(engine, content, reach, stops, k):
    """The lists with how loud each place is, as lines. The reach is refused before the file is asked."""
    engine.level(within_32_bits(reach), 0)
    joined = engine.join(content, *_as_taken(stops, k))
    lines = [f"reach {reach}, k {k}, stops {len(stops)}"]
    for i, (stop, places) in enumerate(zip(stops, joined.lists)):
        lines.append(f"stop {i} at {stop_words(stop)}:" + ("" if places else " no sounding site"))
        for dist, _, cue in places:
            level = engine.level(reach, dist)
            lines.append(f"  cue {cue}, D {dist}: " + ("silent" if level is None else f"level {level:.4f}"))
    return lines


def order(engine, content, stops):
    """The tiles in the sequence for streaming from the smallest box around the stops, as lines."""
    tiles = engine.order(content, around(_stops_as_taken(stops)))
    return [f"O {box_words(around(stops))}", f"tiles {len(tiles)}: {', '.join(map(str, tiles))}"]
