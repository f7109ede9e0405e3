"""Writes docs/BENCHMARK.md and its plots from the figures of one run. Usage: report.py FOLDER FLAGS"""
import math
import os
import subprocess
import sys
from collections import defaultdict

FOLDER, FLAGS = sys.argv[1], sys.argv[2]
PLOTS = 'docs/benchmark'
NAMES = {'engine': 'engine (a)', 'search': 'full search (b)', 'nanoflann': 'nanoflann (c)', 'rtree': 'R-tree (d)',
         'paper': "paper in C++ (e)", 'tuned': 'paper, tuned (f)'}
COLOURS = {'engine': '#6a3d9a', 'search': '#888888', 'nanoflann': '#1f78b4', 'rtree': '#33a02c', 'paper': '#e66100',
           'tuned': '#b15928'}
PEERS = ['search', 'nanoflann', 'rtree', 'paper', 'tuned']
# The sequence for streaming has peers of its own.
ORDERS = {'engine': 'engine (a)', 'heap': 'with a heap (g)', 'scan': 'with a scan (h)'}
ORDER_COLOURS = {'engine': '#6a3d9a', 'heap': '#1f78b4', 'scan': '#e66100'}
ORDER_WORDS = {'heap': "Kahn's algorithm with a heap (g)", 'scan': "Kahn's algorithm with a scan (h)"}
TARGET = ('grid 960 x 40', 'track', 256, 8)
HIGH_TARGET = ('height 960 x 30', 'track', 256, 8)
STACK_LIMIT = 512 * 1024
CHECKS = {'proved': 'proved: 16-bit sums in eight lanes', 'c': 'C as the paper says it, a remainder for each byte',
          'c-16': 'C, 16-bit sums, reduced after 21 bytes', 'c-late': 'C, 32-bit sums, reduced at the end',
          'c-lanes': 'C, 16-bit sums in eight lanes'}
LEVELS = {'proved': 'proved', 'c': 'C, a call with the same tests',
          'bare': 'C, the quotient alone, inlined and without a test: a lower bound'}
ALONE = {'block check': CHECKS, 'level': LEVELS, 'level, added up': LEVELS}  # the others are margins


# The figures.

def keep(times, name, value):
    """The better one of the two passes."""
    times[name] = min(times.get(name, math.inf), float(value))


class Run:
    def __init__(self, path):
        self.times = defaultdict(lambda: defaultdict(dict))  # group -> (town, stops, n, k) -> runner -> microseconds
        self.counts, self.towns, self.axes, self.stack = {}, {}, {}, {}
        self.read, self.ns = defaultdict(dict), defaultdict(dict)
        self.orders, self.order_growth = defaultdict(dict), defaultdict(dict)  # (town, O, T) -> runner -> microseconds
        self.ordered = {}  # (town, O) -> nearer pairs, tiles free at the start
        for line in open(path):
            group, *v = line.rstrip('\n').split('\t')
            if group == 'town':
                self.axes[v[0]], self.towns[v[0]] = int(v[1]), v[2]
            elif group == 'counts':
                self.counts[(v[0], v[1], int(v[2]), int(v[3]))] = [int(x) for x in v[4:]]
            elif group == 'read':
                keep(self.read[v[0]], v[1], v[2])
            elif group == 'ns':
                keep(self.ns[v[0]], v[1], v[2])
            elif group == 'ordered':
                self.ordered[(v[0], v[1])] = [int(x) for x in v[2:]]
            elif group in ('order', 'order-T'):
                of = self.orders if group == 'order' else self.order_growth
                keep(of[(v[0], v[1], int(v[2]))], v[3], v[4])
            elif group == 'stack':
                self.stack[v[0]] = int(v[1])
            else:
                keep(self.times[group][(v[0], v[1], int(v[2]), int(v[3]))], v[4], v[5])

    def rows(self, axes):
        """The rows of the towns with so many axes."""
        return {cell: v for cell, v in self.times['main'].items() if self.axes[cell[0]] == axes}


def three(x):
    """x with three significant digits."""
    if x == 0:
        return '0'
    digits = 2 - math.floor(math.log10(abs(x)))
    x = round(x, digits)
    return f'{x:,.{max(digits, 0)}f}'


def ratio(x):
    """With two digits past the point below 10: a ratio near 1 has to show on which side it is."""
    return f'{x:.2f}' if x < 10 else three(x)


def table(head, rows):
    lines = ['| ' + ' | '.join(head) + ' |', '|' + '---|' * len(head)]
    return '\n'.join(lines + ['| ' + ' | '.join(str(c) for c in row) + ' |' for row in rows])


# The machine.

def output(*command):
    try:
        return subprocess.run(command, capture_output=True, text=True).stdout.strip()
    except OSError:
        return ''


def first_line(*command):
    return (output(*command).splitlines() or ['unknown'])[0]


def processor():
    fields = dict(line.split(':', 1) for line in output('lscpu').splitlines() if ':' in line)
    return f"{fields.get('Model name', 'unknown').strip()}, {fields.get('CPU(s)', '?').strip()} processors"


def system():
    names = dict(line.rstrip('\n').replace('"', '').split('=', 1) for line in open('/etc/os-release') if '=' in line)
    return f"{names.get('PRETTY_NAME', 'unknown')}, Linux {os.uname().release}"


def package(name):
    return output('dpkg-query', '-W', '-f', '${Package} ${Version}', name)


# The plots: plain SVG on white, so that they read the same on a light and a dark page.

class Svg:
    def __init__(self, width, height, title):
        self.parts = [f'<svg xmlns="http://www.w3.org/2000/svg" width="{width}" height="{height}" '
                      f'viewBox="0 0 {width} {height}" font-family="sans-serif" font-size="12">',
                      f'<rect width="{width}" height="{height}" fill="white"/>']
        self.text(width / 2, 20, title, 'middle', size=14)

    def text(self, x, y, words, anchor='start', colour='#222', size=12, turn=None):
        turned = f' transform="rotate({turn} {x:.1f} {y:.1f})"' if turn else ''
        self.parts.append(f'<text x="{x:.1f}" y="{y:.1f}" text-anchor="{anchor}" fill="{colour}" '
                          f'font-size="{size}"{turned}>{words}</text>')

    def line(self, x1, y1, x2, y2, colour='#ddd', width=1):
        self.parts.append(f'<line x1="{x1:.1f}" y1="{y1:.1f}" x2="{x2:.1f}" y2="{y2:.1f}" '
                          f'stroke="{colour}" stroke-width="{width}"/>')

    def path(self, points, colour):
        d = ' '.join(f'{x:.1f},{y:.1f}' for x, y in points)
        self.parts.append(f'<polyline points="{d}" fill="none" stroke="{colour}" stroke-width="2"/>')
        self.parts += [f'<circle cx="{x:.1f}" cy="{y:.1f}" r="3" fill="{colour}"/>' for x, y in points]

    def bar(self, x, y, width, height, colour):
        self.parts.append(f'<rect x="{x:.1f}" y="{y:.1f}" width="{width:.1f}" height="{height:.1f}" fill="{colour}"/>')

    def save(self, name):
        with open(f'{PLOTS}/{name}', 'w') as f:
            f.write('\n'.join(self.parts + ['</svg>']) + '\n')


def decades(low, high):
    return [10.0 ** e for e in range(math.floor(math.log10(low)), math.ceil(math.log10(high)) + 1)]


def spread_out(heights, gap):
    """Labels moved apart so that no two overlap."""
    placed = []
    for y, name in sorted((y, name) for name, y in heights.items()):
        placed.append((max(y, placed[-1][0] + gap) if placed else y, name))
    return {name: y for y, name in placed}


def growth_plot(name, title, unit, xs, series, names, colours):
    left, right, top, bottom = 70, 560, 40, 360
    svg = Svg(700, 420, title)
    marks = decades(min(min(v) for v in series.values()), max(max(v) for v in series.values()))
    at_x = lambda x: left + (right - left) * math.log(x / xs[0]) / math.log(xs[-1] / xs[0])
    at_y = lambda y: bottom - (bottom - top) * math.log(y / marks[0]) / math.log(marks[-1] / marks[0])
    for m in marks:
        svg.line(left, at_y(m), right, at_y(m))
        svg.text(left - 6, at_y(m) + 4, f'{m:,.0f}' if m >= 1 else f'{m:g}', 'end')
    for x in xs:
        svg.line(at_x(x), top, at_x(x), bottom, '#eee')
        if (x, xs[-1]) != (768, 960):  # too close to 960
            svg.text(at_x(x), bottom + 18, str(x), 'middle')
    svg.text((left + right) / 2, bottom + 42, unit, 'middle')
    svg.text(18, (top + bottom) / 2, 'microseconds', 'middle', turn=-90)
    for runner, values in series.items():
        svg.path([(at_x(x), at_y(v)) for x, v in zip(xs, values)], colours[runner])
    for runner, y in spread_out({r: at_y(v[-1]) for r, v in series.items()}, 15).items():
        svg.text(right + 10, y + 4, names[runner], colour=colours[runner])
    svg.save(name)


def bar_plot(name, title, cells):
    left, right, top, thick = 175, 640, 40, 11
    height = top + len(cells) * (len(NAMES) * thick + 14) + 34
    svg = Svg(700, height, title)
    marks = decades(min(min(v.values()) for _, v in cells), max(max(v.values()) for _, v in cells))
    at = lambda v: left + (right - left) * math.log(v / marks[0]) / math.log(marks[-1] / marks[0])
    for m in marks:
        svg.line(at(m), top, at(m), height - 30)
        svg.text(at(m), height - 14, f'{m:,.0f}', 'middle')
    y = top
    for words, values in cells:
        svg.text(left - 8, y + len(NAMES) / 2 * thick + 4, words, 'end')
        for runner in NAMES:
            svg.bar(left, y, at(values[runner]) - left, thick - 2, COLOURS[runner])
            svg.text(at(values[runner]) + 4, y + thick - 3, f'{NAMES[runner][-2]} {three(values[runner])}', size=10)
            y += thick
        y += 14
    svg.save(name)


def write_plots(run):
    os.makedirs(PLOTS, exist_ok=True)
    bar_plot('inputs.svg', 'n = 256, k = 8: microseconds (log scale)',
             [(f'{c[0]}, {c[1]}', v) for c, v in run.times['main'].items() if c[2:] == (256, 8)])
    for group, at, title, unit in [
            ('growth-T', 0, 'Growth with T: grid of T tiles x 40 sites, track, n = 64, k = 8', 'tiles'),
            ('growth-n', 2, 'Growth with n: grid 960 x 40, track, k = 8', 'stops'),
            ('growth-k', 3, 'Growth with k: grid 960 x 40, track, n = 64', 'k')]:
        cells = run.times[group]
        xs = [int(c[0].split()[1]) if at == 0 else c[at] for c in cells]
        growth_plot(f'{group}.svg', title, f'{unit} (both scales are logarithmic)', xs,
                    {r: [v[r] for v in cells.values()] for r in NAMES}, NAMES, COLOURS)
    cells = run.order_growth
    growth_plot('order-T.svg', 'The sequence: grid of T tiles, O around the track',
                'tiles (both scales are logarithmic)', [tiles for _, _, tiles in cells],
                {r: [v[r] for v in cells.values()] for r in ORDERS}, ORDERS, ORDER_COLOURS)


# The text.

def ratios(v, peers=PEERS):
    """Of the peers to the engine, in bold where it is slower."""
    words = {p: ratio(v[p] / v['engine']) for p in peers}
    return [f'**{words[p]}**' if v[p] < v['engine'] else words[p] for p in peers]


def main_table(run, axes):
    rows = []
    for cell, v in run.rows(axes).items():
        opened, struck = run.counts[cell][1:]
        rows.append([*cell, *(three(v[r]) for r in NAMES), *ratios(v), opened, struck])
    return table(['town', 'stops', 'n', 'k', 'a', 'b', 'c', 'd', 'e', 'f', 'b/a', 'c/a', 'd/a', 'e/a', 'f/a',
                  'opened', 'struck'], rows)


def ask_table(run):
    rows = []
    for cell, v in run.times['ask'].items():
        if cell[0] in (TARGET[0], 'alike', HIGH_TARGET[0]):
            rows.append([*cell, three(run.times['main'][cell]['engine']),
                         *(three(v[r]) for r in ('search', 'nanoflann', 'rtree'))])
    return table(['town', 'stops', 'n', 'k', 'a, whole call', 'b, sites ready', 'c, tree ready', 'd, tree ready'], rows)


def quick_table(run):
    rows = [[*c, *(three(v[r]) for r in NAMES), *ratios(v)] for c, v in run.times['quick'].items()]
    return table(['town', 'stops', 'n', 'k', 'a', 'b', 'c', 'd', 'e', 'f', 'b/a', 'c/a', 'd/a', 'e/a', 'f/a'], rows)


def order_table(run):
    rows = []
    for cell, v in run.orders.items():
        pairs, free = run.ordered[cell[:2]]
        rows.append([*cell, *(three(v[r]) for r in ORDERS), *ratios(v, ORDER_WORDS), f'{pairs:,}', free])
    return table(['town', 'O', 'T', 'a', 'g', 'h', 'g/a', 'h/a', 'nearer pairs', 'free first'], rows)


def worst_order(run, peer):
    """The row in which the engine stands worst beside a peer: how many times as fast it is there, and the row."""
    cell = min(run.orders, key=lambda c: run.orders[c][peer] / run.orders[c]['engine'])
    return run.orders[cell][peer] / run.orders[cell]['engine'], cell


def order_words(run):
    """How the sequence stands beside its peers, in words made from the figures."""
    lines = []
    for p, words in ORDER_WORDS.items():
        all_times = sorted(v[p] / v['engine'] for v in run.orders.values())
        ahead = sum(r >= 1 for r in all_times)
        _, (town, o, _) = worst_order(run, p)
        lines.append(f'- Beside {words}: not slower in {ahead} of {len(all_times)} rows; from {ratio(all_times[0])} '
                     f'({town}, O {o}) to {ratio(all_times[-1])} times as fast.')
    slowest = max(run.orders, key=lambda c: run.orders[c]['engine'])
    lines.append(f"- The longest time of the engine is {three(run.orders[slowest]['engine'])} µs ({slowest[0]}, "
                 f'O {slowest[1]}).')
    (few, least), *_, (many, most) = [(cell[2], v['engine']) for cell, v in run.order_growth.items()]
    lines.append(f'- From {few} tiles to {many}, {ratio(many / few)} times as many, its time grows '
                 f'{ratio(most / least)} times.')
    return '\n'.join(lines)


def alone_table(run, what):
    v = run.ns[what]
    return table([what, 'ns', '/ proved'], [[words, three(v[c]), ratio(v[c] / v['proved'])]
                                            for c, words in ALONE[what].items()])


def margin_table(run):
    rows = [[what, three(v['proved']), three(v['c']), ratio(v['c'] / v['proved'])]
            for what, v in run.ns.items() if what not in ALONE]
    return table(['', 'proved', 'C', 'C / proved'], rows)


def call(name):
    """A call of the library, with what is said of it past a comma."""
    head, comma, rest = name.partition(',')
    return f'`{head}`{comma}{rest}' if head.startswith('nearby') else name


def reach_table(run):
    v = run.times['main'][TARGET]
    word = lambda holds: 'yes' if holds else '**no**'
    times = {p: v[p] / v['engine'] for p in PEERS}
    rows = [['not slower than (e)', f"{ratio(times['paper'])} times as fast", word(times['paper'] >= 1)],
            ['aim: 4 times faster than (e)', f"{ratio(times['paper'])} times", word(times['paper'] >= 4)],
            ['not slower than (f)', f"{ratio(times['tuned'])} times as fast", word(times['tuned'] >= 1)],
            ['5 times faster than (c)', f"{ratio(times['nanoflann'])} times", word(times['nanoflann'] >= 5)],
            ['5 times faster than (d)', f"{ratio(times['rtree'])} times", word(times['rtree'] >= 5)]]
    for what, n in run.ns.items():
        rows.append([f'{what}: not slower than C', f"{three(n['proved'])} ns against {three(n['c'])} ns",
                     word(n['proved'] <= n['c'])])
        for c, words in (('c-16', 'C with 16-bit sums'), ('c-lanes', 'C with 16-bit sums in eight lanes')):
            if c in n:
                rows.append([f'{what}: at most 1.1 times as long as {words}',
                             f"{three(n['proved'])} ns against {three(n[c])} ns", word(n['proved'] <= 1.1 * n[c])])
    for p, words in ORDER_WORDS.items():
        times, (town, o, _) = worst_order(run, p)
        rows.append([f'sequence: not slower than {words}, in the worst row of all',
                     f'{ratio(times)} times as fast: {town}, O {o}', word(times >= 1)])
    undefined = open(f'{FOLDER}/undefined').read().split()
    calls = open(f'{FOLDER}/syscalls').read().strip()
    rows.append(['no call allocates',
                 f"the archive asks for {', '.join(f'`{u}`' for u in undefined) or 'nothing'} only and has {calls} "
                 "system calls",
                 word(set(undefined) <= {'memset', 'memcpy', 'memmove', 'memcmp'} and calls == '0')])
    most = max(run.stack, key=run.stack.get)
    rows.append(['largest frame under 512 KiB, the limit set for the design (the header promises 128 KiB)',
                 f'{run.stack[most]:,} bytes of stack, by {call(most)}', word(run.stack[most] < STACK_LIMIT)])
    return table(['On the 960 x 40 grid, track, n = 256, k = 8', 'measured', 'holds'], rows)


def slower(run):
    """Where the engine is behind, in words made from the figures."""
    lines = []
    by_town = defaultdict(list)
    for cell, v in run.times['main'].items():
        behind = {p: v['engine'] / v[p] for p in PEERS if v[p] < v['engine']}
        if behind:
            by_town[cell[:2]].append((cell, behind))
    for (town, stops), cells in by_town.items():
        worst = {}
        for cell, behind in cells:
            for p, r in behind.items():
                if r > worst.get(p, (0,))[0]:
                    worst[p] = (r, cell)
        words = '; '.join(f"{NAMES[p]} up to {ratio(r)} times (n = {c[2]}, k = {c[3]})" for p, (r, c) in worst.items())
        lines.append(f"- {town}, {stops}: slower in {len(cells)} of "
                     f"{sum(c[:2] == (town, stops) for c in run.times['main'])} rows. "
                     f"Quicker than the engine: {words}.")
    if not lines:
        lines.append('- In no row of the table.')
    whole, ready = run.times['main'][TARGET]['engine'], run.times['ask'][TARGET]
    lines.append("- Against a tree that is ready: on the 960 x 40 grid (track, n = 256, k = 8) nanoflann answers in "
                 f"{three(ready['nanoflann'])} µs and the R-tree in {three(ready['rtree'])} µs; the engine, which "
                 f"starts from the bytes at each call, takes {three(whole)} µs. The next table has more.")
    for cell, v in run.times['quick'].items():
        behind = [f"{NAMES[p]} {ratio(v['engine'] / v[p])} times" for p in PEERS if v[p] < v['engine']]
        if behind:
            lines.append(f"- Against peers with the quickest block check, below: {cell[0]}, {cell[1]}, n = {cell[2]}, "
                         f"k = {cell[3]}: {', '.join(behind)}.")
    for p, words in ORDER_WORDS.items():
        behind = {c: v['engine'] / v[p] for c, v in run.orders.items() if v[p] < v['engine']}
        if behind:
            town, o, _ = max(behind, key=behind.get)
            lines.append(f'- The sequence: {words} is quicker in {len(behind)} of {len(run.orders)} rows, up to '
                         f'{ratio(max(behind.values()))} times ({town}, O {o}).')
    for what, v in run.ns.items():
        for c in v:
            if v[c] < v['proved']:
                words = ALONE[what][c] if what in ALONE else 'C'
                lines.append(f"- {what[0].upper()}{what[1:]}: {three(v[c])} ns ({words}), the proved one "
                             f"{three(v['proved'])} ns.")
    return '\n'.join(lines)


def height_words(run):
    """How the engine stands with height, in words made from the figures."""
    rows = run.rows(3)
    ahead = sum(all(v[p] >= v['engine'] for p in PEERS) for v in rows.values())
    v, plan = rows[HIGH_TARGET], run.times['main'][TARGET]
    left = {cell: run.counts[cell][0] - run.counts[cell][2] for cell in (TARGET, HIGH_TARGET)}
    times = {p: ratio(v[p] / v['engine']) for p in PEERS}
    return f"""- The engine is not slower than any peer in {ahead} of {len(rows)} rows.
- Track, n = 256, k = 8: {times['nanoflann']} times as fast as nanoflann (c), {times['rtree']} times as fast as the \
R-tree (d), {times['paper']} times as fast as the paper's algorithm (e), {times['tuned']} times as fast as the same \
tuned (f).
- The same without height, on the {TARGET[0]}: {three(plan['engine'])} µs; here {three(v['engine'])} µs. There \
{left[TARGET]} tiles are not struck and {run.counts[TARGET][1]} are opened, here {left[HIGH_TARGET]} and \
{run.counts[HIGH_TARGET][1]}: a tile and those above and below it are about as near, so that none strikes another."""


def write_page(run):
    plan, high = run.read[TARGET[0]], run.read[HIGH_TARGET[0]]
    towns = '\n'.join(f'- {name}: {words}' for name, words in run.towns.items())
    stack = table(['call', 'bytes'],
                  [[call(n), f'{b:,}'] for n, b in run.stack.items()])
    page = f"""# Benchmark

Written by `make bench` from one run. Microseconds, best of at least eight runs, in two passes, in which all take
turns; on one thread.

| | |
|---|---|
| Machine | {processor()} |
| System | {system()} |
| C and C++ | {first_line('g++', '--version')}, `{FLAGS}` |
| Rattle | {first_line('rt', 'version')}, target x86_64-unknown-linux-gnu, x86-64-v2 |
| Packages | {package('libnanoflann-dev')}, {package('libboost-dev')} |

## What is measured

The clock runs from the file's bytes in memory to the lists of all stops: squared distance, site and cue. \
The output slices are made before. All
lists are compared, and the run fails if any differ; so are the opened and struck tiles of (a), (e) and (f).

- a: the engine, `nearby_join` of the static library; with height `nearby_join3`
- b: full search: every block checked and decoded, then all sounding sites for each stop
- c: nanoflann: every block checked and decoded, the k-d tree built, then asked for each stop; with height in three \
dimensions
- d: Boost.Geometry's R-tree, likewise
- e: the paper's own algorithm in straightforward C++ (`bench/paper.cpp` says what it does and does not do): \
a margin for each pair of tiles, all
  tiles looked through for each stop
- f: the same, tuned: squares taken once for each tile, the tiles that wait gathered once

All make the same tests of each block that they read. b to f sum up a block as the paper says it, \
with a remainder for each byte; further down
they do it by eight lanes, as the engine does.

Towns:
{towns}

Stops: *track* is a line of 640 m by 213 m, 5% of the grid's width; with height it climbs 13 m, from the street onto \
the viaduct.
*Spread* is anywhere in the town.

## Reach

{reach_table(run)}

## Times

Microseconds and ratios to the engine: above 1 the engine is quicker; in bold it is slower. \
Opened and struck are tiles of {run.counts[TARGET][0]}.

{main_table(run, 2)}

![Times for n = 256, k = 8](benchmark/inputs.svg)

## With height

Towns with three axes, in the same run, beside the same peers: each is one text, compiled for two axes and for \
three, with the same sizes
of leaves and the same tests of each block. The columns are those above.

{main_table(run, 3)}

{height_words(run)}

## Where the engine is slower

{slower(run)}

## With the index ready

Only the questions, to an index built beforehand: no block is checked, decoded or indexed within the time. \
The trees have 16 sites in
a leaf here and 64 above: as measured, 16 is quicker to ask and 64 is quicker for the whole call. Microseconds.

{ask_table(run)}

## Peers with the quickest block check

The same peers when they sum up a block by eight lanes, as the engine does. \
Reading alone (every block of the 960 x 40 grid checked and decoded) takes
{three(plan["paper's check"])} µs with the paper's sums and {three(plan['quickest check'])} µs with these; \
of the town with height {three(high["paper's check"])} µs and {three(high['quickest check'])} µs. Microseconds.

{quick_table(run)}

## Block check, margin and level alone

Nanoseconds for one call, over the 1,000 blocks of the 960 x 40 grid and over 4,096 triples of valid boxes: \
O around the track
with every 15th tile as E and as B; random boxes; one triple again and again. With height the tiles are those of \
{HIGH_TARGET[0]}.
Of levels, over 4,096 random pairs of a reach and a D that is not silent, with each level kept in an array, as a mixer \
keeps them;
and with the levels added up by the caller, in one sum.

{alone_table(run, 'block check')}

{margin_table(run)}

{alone_table(run, 'level')}

{alone_table(run, 'level, added up')}

The compiler of the proved library turns D into a float by an instruction that writes half of a register, and so has to \
wait for
what the caller left there. If that is a sum of levels, each call waits for the one before.

## The sequence for streaming

The clock runs from the file's bytes in memory to the numbers of all tiles in their sequence from a box O: around the \
track, the whole
town, or the point where the track starts. The sequences of all three programs are compared, and the run fails if any \
differ.

- a: the engine, `nearby_stream_order` of the static library; with height `nearby_stream_order3`
- g: Kahn's algorithm with a heap, in C++ (`bench/stream.cpp`): for each pair of tiles it is found once whether one is \
nearer; each tile has
  the number of tiles left that are nearer than it, and a list of those that it is nearer than; the free tiles are in \
a heap
- h: Kahn's algorithm with a scan: no lists and no heap; each step looks from tile 0 on for the first one that is \
free, and finds again
  which tiles it is nearer than

Both make the same tests of each directory block, and sum up a block by eight lanes, as the engine does. Both measure \
each tile from each
corner of O once. Microseconds and ratios to the engine: above 1 the engine is quicker; in bold it is slower. *Nearer \
pairs* are pairs of
tiles, one nearer than the other; *free first* are the tiles that no tile is nearer than. The grid 960 x 8 and the \
half muted town have the
boxes of the grid 960 x 40: their sequences are the same.

{order_table(run)}

{order_words(run)}

![Growth of the sequence with T](benchmark/order-T.svg)

## Growth

![Growth with T](benchmark/growth-T.svg)

![Growth with n](benchmark/growth-n.svg)

![Growth with k](benchmark/growth-k.svg)

## Stack

Bytes written below the caller, in a thread whose stack was painted before; \
the frames of the measure itself are the first line.

{stack}
"""
    with open('docs/BENCHMARK.md', 'w') as f:
        f.write(page)


figures = Run(f'{FOLDER}/results.tsv')
write_plots(figures)
write_page(figures)
print(f'\nwrote docs/BENCHMARK.md and {PLOTS}/')
