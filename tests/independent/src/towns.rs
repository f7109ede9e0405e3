//! Towns and stops of many sorts.

use crate::fillings::{cluster, filling, point_in, Mutes};
use crate::paper::blocks::most_sites;
use crate::paper::{each_axis, Bounds, Entry, Point, Site, Town, LIMIT};
use crate::rng::Rng;

#[derive(Clone, Copy, Debug, PartialEq, Eq)]
pub enum Sort {
    /// A grid of tiles that touch, with many sites.
    Dense,
    /// Small boxes far apart, with few sites.
    Sparse,
    /// The same over all that the limits allow.
    FarApart,
    /// Boxes of a few centimetres that overlap: many equal distances.
    Ties,
    /// Boxes and sites on a lattice of LATTICE: many equal distances, all of them large.
    Lattice,
    /// Boxes of one point.
    Points,
    /// A grid, or boxes anywhere, with few tiles that are not empty.
    MostlyEmpty,
    AllEmpty,
    /// At most 36 sites in all: places stay unused where k is larger.
    FewSites,
    /// Boxes of any size over each other.
    Overlapping,
    /// Boxes far larger than what their sites take up.
    Wide,
    /// All tiles with the same box.
    Alike,
    /// Boxes with ends at the limits.
    Extreme,
    /// Tiles in a row, as along a track, in any order.
    Row,
}

pub const SORTS: [Sort; 14] = [
    Sort::Dense,
    Sort::Sparse,
    Sort::FarApart,
    Sort::Ties,
    Sort::Lattice,
    Sort::Points,
    Sort::MostlyEmpty,
    Sort::AllEmpty,
    Sort::FewSites,
    Sort::Overlapping,
    Sort::Wide,
    Sort::Alike,
    Sort::Extreme,
    Sort::Row,
];

const LATTICE: i32 = 100;

/// A range on one axis around a middle, kept inside the limits.
fn around(middle: i32, reach: i32) -> [i32; 2] {
    [(middle - reach).max(-LIMIT), (middle + reach).min(LIMIT)]
}

fn range_among(ends: &[i32], rng: &mut Rng) -> [i32; 2] {
    let (p, q) = (rng.pick(ends), rng.pick(ends));
    [p.min(q), p.max(q)]
}

/// Sites on the lattice, in a box whose ends are.
fn on_lattice<const A: usize>(entry: &Entry<A>, rng: &mut Rng) -> Vec<Site<A>> {
    let mut sites = filling(entry, rng);
    sites.iter_mut().for_each(|site| site.at = site.at.map(lattice));
    sites
}

/// The multiple of LATTICE at or below a coordinate.
fn lattice(coordinate: i32) -> i32 {
    coordinate.div_euclid(LATTICE) * LATTICE
}

/// A cell of a grid, along all axes.
fn cell<const A: usize>(tile: usize, columns: usize, side: i32, corner: Point<A>) -> Bounds<A> {
    let step = |axis: usize| {
        let along = tile / columns.pow(axis as u32);
        if axis + 1 < A {
            along % columns
        } else {
            along
        }
    };
    let low: Point<A> = each_axis(|axis| corner[axis] + step(axis) as i32 * side);
    low.map(|low| [low, low + side])
}

/// A box around a point within the middle, with a reach of its own on each axis.
fn somewhere<const A: usize>(middle: i32, reach: i32, rng: &mut Rng) -> Bounds<A> {
    let at: Point<A> = each_axis(|_| rng.range(-middle, middle));
    at.map(|at| around(at, rng.range(0, reach)))
}

/// A town of this sort, with some sites muted or none.
pub fn town<const A: usize>(sort: Sort, tiles: usize, rng: &mut Rng) -> Town<A> {
    town_with(sort, Mutes::some(rng), tiles, rng)
}

pub fn town_with<const A: usize>(sort: Sort, mutes: Mutes, tiles: usize, rng: &mut Rng) -> Town<A> {
    let most = most_sites(A);
    let columns = (1..).find(|c: &usize| c.pow(A as u32) >= tiles).unwrap();
    let side = rng.pick(&[3, 50, 1_000, 20_000]);
    let corner = each_axis(|_| rng.range(-300_000, 100_000));
    let same: Bounds<A> = each_axis(|_| around(rng.range(-500, 500), rng.range(0, 300)));
    let spread = rng.pick(&[10, 200]);
    let in_grid = rng.chance(2);
    // Some towns with height are as low as real ones. Those on the lattice keep their ends on it.
    let low = A == 3 && sort != Sort::Lattice && rng.chance(3);
    let mut row: Vec<usize> = (0..tiles).collect();
    rng.shuffle(&mut row);
    let entries: Vec<Entry<A>> = (0..tiles)
        .map(|tile| {
            let (mut bounds, count): (Bounds<A>, usize) = match sort {
                Sort::Dense => (cell(tile, columns, side, corner), most - 15 + rng.below(16)),
                Sort::Sparse => (somewhere(100_000, 900, rng), rng.below(4)),
                Sort::FarApart => (somewhere(LIMIT, 25_000, rng), rng.below(4)),
                Sort::Ties => {
                    let ends = [-4, -3, -2, -1, 0, 1, 2, 3, 4];
                    (each_axis(|_| range_among(&ends, rng)), rng.below(9))
                }
                Sort::Lattice => {
                    let low: Point<A> = each_axis(|_| rng.range(-10, 4));
                    let bounds = low.map(|low| [low * LATTICE, (low + rng.range(0, 2)) * LATTICE]);
                    (bounds, rng.below(most + 1))
                }
                Sort::Points => {
                    let at: Point<A> = each_axis(|_| rng.range(0, spread));
                    (at.map(|at| [at, at]), rng.pick(&[0, 1, 1, 2, 3, most]))
                }
                Sort::MostlyEmpty => {
                    let anywhere = somewhere(100_000, 10_000, rng);
                    let bounds = if in_grid { cell(tile, columns, side, corner) } else { anywhere };
                    (bounds, if rng.chance(5) { 1 + rng.below(most) } else { 0 })
                }
                Sort::AllEmpty => (cell(tile, columns, side, corner), 0),
                Sort::FewSites => {
                    let bounds = somewhere(500_000, 5_000, rng);
                    (bounds, if row[tile] < 9 { rng.below(5) } else { 0 })
                }
                Sort::Overlapping => (somewhere(50_000, 20_000, rng), rng.below(most + 1)),
                Sort::Wide => {
                    let at: Point<A> = each_axis(|_| rng.range(-LIMIT, LIMIT));
                    let reach = rng.range(100_000, LIMIT);
                    (at.map(|at| around(at, reach)), rng.below(most + 1))
                }
                Sort::Alike => (same, rng.below(most + 1)),
                Sort::Extreme => {
                    let ends = [-LIMIT, -LIMIT, -LIMIT + 1, 0, LIMIT - 1, LIMIT, LIMIT];
                    (each_axis(|_| range_among(&ends, rng)), rng.pick(&[0, 1, 5, most - 1, most]))
                }
                Sort::Row => {
                    let low = row[tile] as i32 * 100 - 5_000;
                    // With height, every second tile is on a viaduct.
                    let level = row[tile] as i32 % 2 * 600;
                    let bounds = each_axis(|axis| [[low, low + 80], [-20, 20], [level - 20, level + 20]][axis]);
                    (bounds, rng.below(16))
                }
            };
            if low {
                bounds[A - 1] = bounds[A - 1].map(|end| end / 40);
            }
            Entry { bounds, count, muted: mutes.of(count, rng) }
        })
        .collect();
    let sites = entries
        .iter()
        .map(|entry| match sort {
            Sort::Wide => cluster(entry, rng),
            Sort::Lattice => on_lattice(entry, rng),
            _ => filling(entry, rng),
        })
        .collect();
    Town { entries, sites }
}

fn limited(coordinate: i64) -> i32 {
    coordinate.clamp(-LIMIT as i64, LIMIT as i64) as i32
}

/// n stops: close together, along a line, anywhere, all the same, at the limits, in boxes, on the lattice, on sites, on
/// muted sites.
pub fn stops<const A: usize>(town: &Town<A>, n: usize, rng: &mut Rng) -> Vec<Point<A>> {
    let in_some_box = |rng: &mut Rng| point_in(town.entries[rng.below(town.entries.len())].bounds, rng);
    let (from, to) = (in_some_box(rng), in_some_box(rng));
    let reach = rng.pick(&[1, 5, 100, 5_000]);
    let sort = rng.below(10);
    (0..n)
        .map(|i| match sort {
            0 | 1 => each_axis(|axis| limited(from[axis] as i64 + rng.range(-reach, reach) as i64)),
            2 => each_axis(|axis| {
                let along = (to[axis] as i64 - from[axis] as i64) * i as i64 / n as i64;
                limited(from[axis] as i64 + along)
            }),
            3 => each_axis(|axis| {
                let (p, q) = (from[axis].min(to[axis]), from[axis].max(to[axis]));
                rng.range(p, q)
            }),
            4 => from,
            5 => each_axis(|_| rng.pick(&[-LIMIT, 0, LIMIT])),
            6 => in_some_box(rng),
            7 => in_some_box(rng).map(lattice),
            _ => {
                let fits = |site: &&Site<A>| sort == 8 || site.is_muted();
                let sites: Vec<&Site<A>> = town.sites[rng.below(town.sites.len())].iter().filter(fits).collect();
                match sites.is_empty() {
                    true => in_some_box(rng),
                    false => sites[rng.below(sites.len())].at,
                }
            }
        })
        .collect()
}
