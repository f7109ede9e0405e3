//! nearby_stream_order against 02.5 by margins, against all points of small boxes, and against sequences said by hand.

use super::strikes::{any_k, bad_box, box_near, spoiled};
use super::unread::engine;
use super::{count, drawn};
use crate::compare::{self, name_of, Failure, Lengths, Query};
use crate::damage;
use crate::fillings::{filling, point_in, Mutes};
use crate::host;
use crate::paper::blocks::{per_block, SIZE};
use crate::paper::boxes::{good_box, margin_of_all_points};
use crate::paper::directory::{directory_blocks, full_check};
use crate::paper::stream::{Nearer, Streamed};
use crate::paper::writer::file_of;
use crate::paper::{each_axis, Bounds, Entry, Point, Town, LIMIT};
use crate::rng::Rng;
use crate::tally::Tally;
use crate::towns::{self, Sort, SORTS};

const ENDS: [i32; 5] = [-LIMIT, -LIMIT + 1, 0, LIMIT - 1, LIMIT];

/// A good box O: near the town, a point, thin on one axis, the whole town, a tile's own, outside of the town, with ends
/// at the limits, all that the limits allow.
fn any_box<const A: usize>(town: &Town<A>, rng: &mut Rng) -> Bounds<A> {
    let some_tile = town.entries[rng.below(town.entries.len())].bounds;
    let whole: Bounds<A> = each_axis(|axis| {
        let ends = |end: usize| town.entries.iter().map(move |e| e.bounds[axis][end]);
        [ends(0).min().unwrap(), ends(1).max().unwrap()]
    });
    match rng.below(12) {
        0..=3 => box_near(town, rng),
        4 => point_in(some_tile, rng).map(|at| [at, at]),
        5 => {
            let (thin, at) = (rng.below(A), point_in(whole, rng));
            each_axis(|axis| if axis == thin { [at[axis], at[axis]] } else { whole[axis] })
        }
        6 => whole,
        7 => some_tile,
        8 | 9 => {
            // Below the low end or above the high end on each axis, where there is room.
            let width = rng.pick(&[0, 10, 5_000]);
            whole.map(|[low, high]| match rng.chance(2) {
                true => [(low - 1 - width).max(-LIMIT), (low - 1).max(-LIMIT)],
                false => [(high + 1).min(LIMIT), (high + 1 + width).min(LIMIT)],
            })
        }
        10 => each_axis(|_| {
            let (p, q) = (rng.pick(&ENDS), rng.pick(&ENDS));
            [p.min(q), p.max(q)]
        }),
        _ => [[-LIMIT, LIMIT]; A],
    }
}

/// The file with other bytes in all blocks of tiles: any, or wrong fields.
fn tiles_at_will<const A: usize>(file: &[u8], town: &Town<A>, rng: &mut Rng) -> Vec<u8> {
    let mut other = file.to_vec();
    if rng.chance(2) {
        damage::every_tile(&mut other, town, rng);
    } else {
        let first = SIZE * directory_blocks(A, town.entries.len());
        let junk = rng.bytes(other.len() - first);
        other[first..].copy_from_slice(&junk);
    }
    other
}

/// Other sequences that would keep each tile after those nearer than it, or nearly so: round after round all that are
/// free, and by the near distance of the boxes.
fn by_rounds(nearer: &Nearer) -> Vec<u32> {
    let mut left: Vec<usize> = (0..nearer.tiles()).collect();
    let mut sequence = Vec::new();
    while !left.is_empty() {
        let (free, kept): (Vec<usize>, Vec<usize>) =
            left.iter().partition(|b| !left.iter().any(|e| nearer.is(*e, **b)));
        sequence.extend(free.iter().map(|tile| *tile as u32));
        left = kept;
    }
    sequence
}

fn by_distance<const A: usize>(o: Bounds<A>, entries: &[Entry<A>]) -> Vec<u32> {
    let gap = |p: [i32; 2], q: [i32; 2]| (p[0] as i64 - q[1] as i64).max(q[0] as i64 - p[1] as i64).max(0);
    let distance = |b: Bounds<A>| -> i64 { (0..A).map(|axis| gap(o[axis], b[axis]).pow(2)).sum() };
    let mut sequence: Vec<u32> = (0..entries.len() as u32).collect();
    sequence.sort_by_key(|tile| distance(entries[*tile as usize].bounds));
    sequence
}

#[derive(Default)]
struct Seen {
    sequences: usize,
    /// Sequences other than 0, 1, 2, .., other than round after round, other than by distance.
    moved: usize,
    not_rounds: usize,
    not_distance: usize,
    /// Tiles without sites, and others without a sounding site.
    empty: usize,
    muted: usize,
    struck: usize,
}

/// Towns of every sort. Whatever the blocks of tiles hold, the sequence is the same. A tile that is struck comes after
/// tiles with k sounding sites or more, and no join with stops in the box and a k that is not greater opens it.
fn many_towns<const A: usize>(rng: &mut Rng, tally: &mut Tally) -> Result<Seen, Failure> {
    let (full, mut seen) = (per_block(A), Seen::default());
    for round in 0..62 {
        for sort in SORTS {
            let tiles = match round {
                0..=5 => [1, 2, full - 1, full, full + 1, 2 * full + 1][round],
                60.. => 960,
                _ => 1 + rng.below(70),
            };
            let town: Town<A> = towns::town(sort, tiles, rng);
            let file = file_of(&town);
            let case = format!("a town of sort {sort:?} with {tiles} tiles");
            for _ in 0..if tiles == 960 { 1 } else { 5 } {
                one_box(&town, &file, &mut seen, rng, tally).map_err(|f| f.case(&case))?;
            }
            seen.empty += town.entries.iter().filter(|e| e.count == 0).count();
            seen.muted += town.entries.iter().filter(|e| e.count > 0 && e.sounding() == 0).count();
        }
    }
    Ok(seen)
}

fn one_box<const A: usize>(
    town: &Town<A>,
    file: &[u8],
    seen: &mut Seen,
    rng: &mut Rng,
    tally: &mut Tally,
) -> Result<(), Failure> {
    let (o, k, tiles) = (any_box(town, rng), any_k(rng), town.entries.len());
    let order_len = tiles + rng.pick(&[0, 0, 1, 7]);
    let (streamed, order) = compare::stream_order(file, o, order_len, rng, tally)?;
    let order = &order[..tiles];
    if streamed != (Streamed { number: 0, block: 0, tiles: tiles as u32 }) {
        return fail::<A>(file, o, format!("a good town and box: got {streamed:?}"));
    }
    let mut other_order = vec![0; tiles];
    let other = host::stream_order(&tiles_at_will(file, town, rng), o, &mut other_order);
    if (other, &other_order[..]) != (streamed, order) {
        return fail::<A>(file, o, format!("with other tiles {other:?}, {other_order:?}; due {order:?}"));
    }
    let mut marks = vec![0; tiles];
    host::prune(file, o, k, &mut marks);
    let mut before = 0;
    for tile in order.iter().map(|tile| *tile as usize) {
        if marks[tile] == 1 && before < k as usize {
            return fail::<A>(file, o, format!("tile {tile} is struck for k {k}, with {before} sites before it"));
        }
        before += town.entries[tile].sounding();
        seen.struck += marks[tile] as usize;
    }
    let stops: Vec<Point<A>> = (0..1 + rng.below(4)).map(|_| point_in(o, rng)).collect();
    let k_joined = 1 + rng.below(k as usize) as u32;
    let lengths = Lengths::enough(&Query::of(&stops, k_joined), tiles, rng);
    let (joined, lent) = engine(file, &stops, k_joined, lengths);
    if let Some(tile) = (0..tiles).find(|tile| marks[*tile] == 1 && lent.marks[*tile] == 2) {
        return fail::<A>(file, o, format!("tile {tile} is struck for k {k}, and {stops:?} open it: {joined:?}"));
    }
    seen.sequences += 1;
    if tiles < 100 {
        seen.moved += !order.is_sorted() as usize;
        seen.not_rounds += (by_rounds(&Nearer::from(o, &town.entries)) != order) as usize;
        seen.not_distance += (by_distance(o, &town.entries) != order) as usize;
    }
    Ok(())
}

fn fail<const A: usize>(file: &[u8], o: Bounds<A>, text: String) -> Result<(), Failure> {
    Err(Failure::with_file(format!("{}(box {o:?}): {text}", name_of::<A>("stream_order")), file))
}

/// Boxes of few points: which tile is nearer is told by all points.
fn small_towns<const A: usize>(rng: &mut Rng, tally: &mut Tally) -> Result<(usize, usize), Failure> {
    let (tried, mut moved) = (1_000, 0);
    for _ in 0..tried {
        let small = |rng: &mut Rng| -> Bounds<A> {
            each_axis(|_| {
                let low = rng.range(0, 9);
                [low, low + rng.range(0, 2)]
            })
        };
        let tiles = 1 + rng.below(12);
        let town = Town::of((0..tiles).map(|_| (small(rng), vec![])).collect());
        let (o, file) = (small(rng), file_of(&town));
        let (_, order) = compare::stream_order(&file, o, tiles, rng, tally)?;
        let due = Nearer::by(&town.entries, |e, b| margin_of_all_points(o, e, b) < 0).sequence();
        if order != due {
            fail(&file, o, format!("by all points: due {due:?}, got {order:?}"))?;
        }
        moved += !order.is_sorted() as usize;
    }
    Ok((tried, moved))
}

/// A box with these ends on one axis and on the next; on a third it is 0..0.
fn along<const A: usize>(axis: usize, ends: [i32; 2], across: [i32; 2]) -> Bounds<A> {
    each_axis(|a| match (a + A - axis) % A {
        0 => ends,
        1 => across,
        _ => [0, 0],
    })
}

/// The sequence of tiles with these boxes is the one that is due. Some have sites, which do not matter.
fn gives<const A: usize>(
    o: Bounds<A>,
    boxes: Vec<Bounds<A>>,
    due: &[u32],
    rng: &mut Rng,
    tally: &mut Tally,
) -> Result<(), Failure> {
    let entry = |bounds: &Bounds<A>, rng: &mut Rng| {
        let sites = rng.pick(&[0, 0, 1, 5]);
        Entry { bounds: *bounds, count: sites, muted: rng.pick(&[0, sites]) }
    };
    let entries: Vec<Entry<A>> = boxes.iter().map(|bounds| entry(bounds, rng)).collect();
    let sites = entries.iter().map(|e| filling(e, rng)).collect();
    let file = file_of(&Town { entries, sites });
    let (streamed, order) = compare::stream_order(&file, o, boxes.len(), rng, tally)?;
    if (streamed.number, &order[..]) != (0, due) {
        fail(&file, o, format!("tiles {boxes:?}: due by hand {due:?}, got {streamed:?} {order:?}"))?;
    }
    Ok(())
}

/// Cases 1 to 6 of the paper's twelve, as towns of two tiles numbered both ways, and others worked by hand; on each
/// axis, and turned about.
fn by_hand<const A: usize>(rng: &mut Rng, tally: &mut Tally) -> Result<usize, Failure> {
    let mut towns = 0;
    // E, B, y of all three, whether the margin is below 0; O is 0..10.
    let cases = [
        ([20, 30], [60, 70], [0, 0], true),
        ([20, 30], [30, 70], [0, 0], false),
        ([20, 30], [31, 70], [0, 0], true),
        ([20, 30], [31, 70], [0, 4], true),
        ([20, 30], [31, 70], [0, 7], false),
        ([0, 0], [15, 15], [0, 0], false),
    ];
    // O, tiles, sequence.
    let worked: [([i32; 2], &[[i32; 2]], &[u32]); 14] = [
        // A chain, from its far end on.
        ([0, 0], &[[30, 30], [20, 20], [10, 10], [0, 0]], &[3, 2, 1, 0]),
        ([0, 0], &[[0, 0], [10, 10], [20, 20], [30, 30]], &[0, 1, 2, 3]),
        ([5, 5], &[[30, 30], [0, 0], [20, 20], [10, 10]], &[1, 3, 2, 0]),
        // Equal boxes; boxes one inside the other, from within and from outside.
        ([0, 9], &[[3, 7], [3, 7], [3, 7]], &[0, 1, 2]),
        ([50, 50], &[[0, 100], [10, 90], [40, 60]], &[0, 1, 2]),
        ([1_000, 1_000], &[[0, 100], [10, 90], [40, 60]], &[0, 1, 2]),
        // Boxes that touch: a margin of 0 is not nearer. With a centimetre between them it is.
        ([0, 0], &[[10, 20], [0, 10]], &[0, 1]),
        ([0, 0], &[[11, 20], [0, 10]], &[1, 0]),
        // Equally far on both sides, and not quite.
        ([0, 0], &[[10, 10], [-10, -10]], &[0, 1]),
        ([0, 0], &[[10, 10], [-9, -9]], &[1, 0]),
        // Tile 0 is free once 1 has come, and then comes before 2, which was free from the start.
        ([0, 100], &[[300, 300], [200, 200], [0, 1_000]], &[1, 0, 2]),
        // Of two that are free the lower number, though the other begins nearer.
        ([0, 0], &[[5, 50], [0, 10]], &[0, 1]),
        // Two wait for the last, and the first for both.
        ([0, 0], &[[30, 30], [20, 20], [-20, -20], [10, 10]], &[3, 1, 2, 0]),
        // From the middle of O tile 1 is nearer, and from its ends not.
        ([-20, 20], &[[30, 30], [0, 0]], &[0, 1]),
    ];
    for axis in 0..A {
        for sign in [1, -1] {
            let turned = |ends: [i32; 2]| if sign == 1 { ends } else { [-ends[1], -ends[0]] };
            for (e, b, across, is_nearer) in cases {
                let of = |ends: [i32; 2]| along::<A>(axis, turned(ends), across);
                let due = if is_nearer { [1, 0] } else { [0, 1] };
                gives(of([0, 10]), vec![of(b), of(e)], &due, rng, tally)?;
                gives(of([0, 10]), vec![of(e), of(b)], &[0, 1], rng, tally)?;
                towns += 2;
            }
            for (o, tiles, due) in worked {
                let of = |ends: &[i32; 2]| along::<A>(axis, turned(*ends), [0, 0]);
                gives(of(&o), tiles.iter().map(of).collect(), due, rng, tally)?;
                towns += 1;
            }
        }
    }
    Ok(towns)
}

/// Tiles one behind the other along an axis, each nearer than the next from all of O, numbered in turn, from the far
/// end on, and in any way: the sequence is that along the axis. Equal boxes: that of the numbers.
fn chains<const A: usize>(rng: &mut Rng, tally: &mut Tally) -> Result<usize, Failure> {
    let (full, mut chains) = (per_block(A), 0);
    for tiles in [1, 2, full - 1, full, full + 1, 2 * full + 1, 960] {
        for numbering in 0..3 {
            let mut number: Vec<usize> = (0..tiles).collect();
            match numbering {
                0 => {}
                1 => number.reverse(),
                _ => rng.shuffle(&mut number),
            }
            let (axis, sign, width) = (rng.below(A), rng.pick(&[1, -1]), rng.pick(&[0, 1, 999]));
            let of = |low: i32, high: i32| -> Bounds<A> {
                let (p, q) = (sign * low, sign * high);
                along(axis, [p.min(q), p.max(q)], [0, 0])
            };
            let o = of(-rng.pick(&[0, 100, LIMIT]), rng.pick(&[0, 50, 1_000]));
            let mut boxes = vec![o; tiles];
            for (at, tile) in number.iter().enumerate() {
                let low = 1_000 + 1_000 * at as i32;
                boxes[*tile] = of(low, low + width);
            }
            let due: Vec<u32> = number.iter().map(|tile| *tile as u32).collect();
            gives(o, boxes, &due, rng, tally)?;
            chains += 1;
        }
        let numbers: Vec<u32> = (0..tiles as u32).collect();
        let same: Bounds<A> = along(rng.below(A), [-7, 40], [3, 3]);
        let o = each_axis(|_| [-rng.pick(&[0, 5, LIMIT]), rng.pick(&[0, 5, LIMIT])]);
        gives(o, vec![same; tiles], &numbers, rng, tally)?;
    }
    Ok(chains)
}

/// Every pair of ends at the limits, one past them and at 0, on each axis, by hand: 9 with block 0, or an answer.
fn limits<const A: usize>(rng: &mut Rng, tally: &mut Tally) -> Result<usize, Failure> {
    let town: Town<A> = towns::town_with(Sort::FarApart, Mutes::Any, 9, rng);
    let (file, mut refused) = (file_of(&town), 0);
    let ends = [i32::MIN, -LIMIT - 1, -LIMIT, -LIMIT + 1, -1, 0, 1, LIMIT - 1, LIMIT, LIMIT + 1, i32::MAX];
    for axis in 0..A {
        for (low, high) in ends.into_iter().flat_map(|low| ends.map(|high| (low, high))) {
            let mut o = any_box(&town, rng);
            o[axis] = [low, high];
            let (streamed, _) = compare::stream_order(&file, o, 9, rng, tally)?;
            let good = -1_000_000 <= low && low <= high && high <= 1_000_000;
            let due = if good { (0, 0, 9) } else { (9, 0, 0) };
            if (streamed.number, streamed.block, streamed.tiles) != due {
                fail(&file, o, format!("due by hand {due:?}, got {streamed:?}"))?;
            }
            refused += !good as usize;
        }
    }
    Ok(refused)
}

/// Slices of 0, T - 1, T, T + 1 and more elements, by hand: 14 where they are too short.
fn slices<const A: usize>(rng: &mut Rng, tally: &mut Tally) -> Result<usize, Failure> {
    let (full, mut slices) = (per_block(A), 0);
    for tiles in [1, 2, 17, 18, full - 1, full, full + 1, 2 * full, 960] {
        let town: Town<A> = towns::town(Sort::Points, tiles, rng);
        let file = file_of(&town);
        for order_len in [0, 1, tiles / 2, tiles - 1, tiles, tiles + 1, tiles + 50, 960, 1_000] {
            let o = any_box(&town, rng);
            let (streamed, _) = compare::stream_order(&file, o, order_len, rng, tally)?;
            let due = if order_len < tiles { (14, 0, 0) } else { (0, 0, tiles as u32) };
            if (streamed.number, streamed.block, streamed.tiles) != due {
                fail(&file, o, format!("{order_len} elements, {tiles} tiles: due {due:?}, got {streamed:?}"))?;
            }
            slices += 1;
        }
    }
    Ok(slices)
}

/// "It refuses as strike does, without 11": every set of the five faults. The last is a town of B axes.
fn refusals<const A: usize, const B: usize>(rng: &mut Rng, tally: &mut Tally) -> Result<usize, Failure> {
    let mut refused = 0;
    for faults in 0..32usize {
        for _ in 0..60 {
            let has = |fault: usize| faults >> fault & 1 == 1;
            let full = per_block(if has(4) { B } else { A });
            let tiles = rng.pick(&[1, 5, full, full + 1, 30, 2 * full + 2]);
            let sort = rng.pick(&[Sort::Row, Sort::Overlapping, Sort::Points]);
            let town: Town<A> = towns::town(sort, tiles, rng);
            let file = match has(4) {
                true => spoiled::<B>(&towns::town(sort, tiles, rng), faults, rng),
                false => spoiled(&town, faults, rng),
            };
            let (mut o, mut order_len) = (any_box(&town, rng), tiles + rng.below(3));
            if has(2) {
                o = bad_box(o, rng);
                assert!(!good_box(o));
            }
            if has(3) {
                order_len = rng.pick(&[0, tiles - 1, tiles / 2]);
            }
            let case = format!("faults {faults:05b} (0 to 4 from the right: 1, directory, 9 for O, 14, 17)");
            let (streamed, _) = compare::stream_order(&file, o, order_len, rng, tally).map_err(|f| f.case(&case))?;
            // Damage may be none; the others are sure, and the first of them is the number.
            if !has(0) && !has(1) {
                let sure = [(4, 17), (2, 9), (3, 14)].into_iter().find(|(fault, _)| has(*fault));
                let due = sure.map_or((0, 0, tiles as u32), |(_, number)| (number, 0, 0));
                assert_eq!((streamed.number, streamed.block, streamed.tiles), due, "{case}");
            }
            refused += (streamed.number != 0) as usize;
        }
    }
    Ok(refused)
}

/// Files that the full check refuses in a tile: the sequence is as for the good file.
fn bad_tiles<const A: usize>(rng: &mut Rng, tally: &mut Tally) -> Result<usize, Failure> {
    let mut files = 0;
    for _ in 0..300 {
        let tiles = 1 + rng.below(60);
        let town: Town<A> = towns::town(rng.pick(&SORTS), tiles, rng);
        let (file, o) = (file_of(&town), any_box(&town, rng));
        let other = tiles_at_will(&file, &town, rng);
        let before = compare::stream_order(&file, o, tiles, rng, tally)?;
        let after = compare::stream_order(&other, o, tiles, rng, tally)?;
        if before != after {
            fail(&other, o, format!("due as for a good file {before:?}, got {after:?}"))?;
        }
        files += full_check(&other).is_err() as usize;
    }
    Ok(files)
}

/// B is the other number of axes.
pub fn run<const A: usize, const B: usize>(rng: &mut Rng, tally: &mut Tally) -> Result<String, Failure> {
    let by_hand = by_hand::<A>(rng, tally)?;
    let chains = chains::<A>(rng, tally)?;
    let seen = many_towns::<A>(rng, tally)?;
    let (small, small_moved) = small_towns::<A>(rng, tally)?;
    let (limits, slices) = (limits::<A>(rng, tally)?, slices::<A>(rng, tally)?);
    let refused = refusals::<A, B>(rng, tally)?;
    let bad_tiles = bad_tiles::<A>(rng, tally)?;
    Ok(format!(
        "{} sequences by hand, {} of chains; {} on towns of every sort with {} empty tiles and {} muted ones, {} not \
         in the order of the numbers, {} not round after round, {} not by distance, {} struck tiles after k sites; \
         {} against all points of small boxes, {} not in the order of the numbers; {} bad boxes by hand, {} slices, \
         {} refusals; {} files with bad tiles",
        count(by_hand),
        count(chains),
        count(seen.sequences),
        drawn(seen.empty, "a tile without sites")?,
        drawn(seen.muted, "a tile without a sounding site")?,
        drawn(seen.moved, "a sequence other than that of the numbers")?,
        drawn(seen.not_rounds, "a sequence other than round after round")?,
        drawn(seen.not_distance, "a sequence other than by distance")?,
        drawn(seen.struck, "a struck tile")?,
        count(small),
        drawn(small_moved, "a sequence of a small town other than that of the numbers")?,
        count(limits),
        count(slices),
        count(refused),
        drawn(bad_tiles, "a file with a bad tile")?
    ))
}
