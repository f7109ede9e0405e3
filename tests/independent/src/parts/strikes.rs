//! nearby_prune against the definition by margins, and against all points of small boxes.

use super::{count, drawn};
use crate::compare::{self, name_of, Failure};
use crate::damage;
use crate::fillings::{filling, point_in};
use crate::paper::blocks::per_block;
use crate::paper::boxes::{margin_of_all_points, smallest_around};
use crate::paper::directory::directory_blocks;
use crate::paper::search::{self, full_search, struck_by};
use crate::paper::writer::file_of;
use crate::paper::{each_axis, Bounds, Entry, Town, LIMIT};
use crate::rng::Rng;
use crate::tally::Tally;
use crate::towns::{self, Sort, SORTS};

/// A box around one to three points that stops could have.
pub fn box_near<const A: usize>(town: &Town<A>, rng: &mut Rng) -> Bounds<A> {
    let n = 1 + rng.below(3);
    smallest_around(&towns::stops(town, n, rng))
}

pub fn any_k(rng: &mut Rng) -> u32 {
    rng.pick(&[1, 1, 2, 3, 5, 10, 20, 40, 41, 63, 64])
}

/// Towns of every sort. No struck tile has a place in a full search from a point of O. Also counts the tiles that would
/// be struck if muted sites were added up too.
fn many_towns<const A: usize>(rng: &mut Rng, tally: &mut Tally) -> Result<(usize, usize, usize), Failure> {
    let (mut tried, mut struck, mut spared) = (0, 0, 0);
    for round in 0..90 {
        for sort in SORTS {
            let tiles = if round == 89 { 960 } else { 1 + rng.below(70) };
            let town: Town<A> = towns::town(sort, tiles, rng);
            let mut file = file_of(&town);
            if rng.chance(3) {
                // Strike reads the directory alone.
                let first = 512 * directory_blocks(A, tiles);
                let junk = rng.bytes(file.len() - first);
                file[first..].copy_from_slice(&junk);
            }
            for _ in 0..4 {
                let (o, k) = (box_near(&town, rng), any_k(rng));
                let marks_len = tiles + rng.pick(&[0, 0, 1, 7]);
                let case = format!("a town of sort {sort:?} with {tiles} tiles");
                let (pruned, marks) = compare::prune(&file, o, k, marks_len, rng, tally).map_err(|f| f.case(&case))?;
                tried += 1;
                struck += pruned.struck as usize;
                let all_sound: Vec<Entry<A>> = town.entries.iter().map(|e| Entry { muted: 0, ..*e }).collect();
                let by_all = search::struck(&all_sound, o, k as usize).iter().filter(|s| **s).count();
                spared += by_all - pruned.struck as usize;
                let stop = point_in(o, rng);
                // A place with cue 0 is one left over.
                for place in full_search(&town, stop, k as usize).iter().filter(|place| place.cue != 0) {
                    if marks[place.site as usize / 40] == 1 {
                        let name = name_of::<A>("prune");
                        let text = format!("{name}(box {o:?}, k {k}) struck the tile of {place:?}, of stop {stop:?}");
                        return Err(Failure::with_file(text, &file).case(&case));
                    }
                }
            }
        }
    }
    Ok((tried, struck, spared))
}

/// Boxes of few points: which tile is nearer is told by all points.
fn small_towns<const A: usize>(rng: &mut Rng, tally: &mut Tally) -> Result<(usize, usize), Failure> {
    let (tried, mut struck) = (1_500, 0);
    for _ in 0..tried {
        let small = |rng: &mut Rng| -> Bounds<A> {
            each_axis(|_| {
                let low = rng.range(0, 9);
                [low, low + rng.range(0, 2)]
            })
        };
        let tiles = 1 + rng.below(12);
        let entries: Vec<Entry<A>> = (0..tiles)
            .map(|_| {
                let count = rng.pick(&[0, 1, 2, 3, 10]);
                Entry { bounds: small(rng), count, muted: rng.below(count + 1) }
            })
            .collect();
        let sites = entries.iter().map(|e| filling(e, rng)).collect();
        let town = Town { entries, sites };
        let (o, k) = (small(rng), rng.pick(&[1, 2, 3, 5, 10]));
        let file = file_of(&town);
        let (_, marks) = compare::prune(&file, o, k, tiles, rng, tally)?;
        let due = struck_by(&town.entries, k as usize, |e, b| margin_of_all_points(o, e, b) < 0);
        let got: Vec<bool> = marks.iter().map(|m| *m == 1).collect();
        if got != due {
            let name = name_of::<A>("prune");
            let text = format!("{name}(box {o:?}, k {k}) by all points: due {due:?}, got {got:?}");
            return Err(Failure::with_file(text, &file));
        }
        struck += due.iter().filter(|s| **s).count();
    }
    Ok((tried, struck))
}

/// The box with a coordinate beyond the limits, or a low end above its high end.
pub fn bad_box<const A: usize>(mut o: Bounds<A>, rng: &mut Rng) -> Bounds<A> {
    let (axis, end) = (rng.below(A), rng.below(2));
    match rng.below(3) {
        0 => o[axis] = [o[axis][1].min(LIMIT - 1) + 1, o[axis][1].min(LIMIT - 1)],
        _ => o[axis][end] = rng.pick(&[LIMIT + 1, -LIMIT - 1, i32::MIN, i32::MAX]),
    }
    o
}

/// The file of a town, with damage in the directory (bit 1) and another length (bit 0).
pub fn spoiled<const A: usize>(town: &Town<A>, faults: usize, rng: &mut Rng) -> Vec<u8> {
    let mut file = file_of(town);
    if faults >> 1 & 1 == 1 {
        damage::some_directory_field(&mut file, town, rng);
    }
    if faults & 1 == 1 {
        damage::wrong_length(&mut file, rng);
    }
    file
}

/// "Strike: 1, directory, 11, 9 for O, 14", and 17 after 11: every set of the six faults. The last is a town of B axes.
fn refusals<const A: usize, const B: usize>(rng: &mut Rng, tally: &mut Tally) -> Result<usize, Failure> {
    let mut refused = 0;
    for faults in 0..64usize {
        for _ in 0..60 {
            let has = |fault: usize| faults >> fault & 1 == 1;
            let full = per_block(if has(5) { B } else { A });
            let tiles = rng.pick(&[1, 5, full, full + 1, 30, 2 * full + 2]);
            let sort = rng.pick(&[Sort::Row, Sort::Overlapping, Sort::Points]);
            let town: Town<A> = towns::town(sort, tiles, rng);
            let file = match has(5) {
                true => spoiled::<B>(&towns::town(sort, tiles, rng), faults, rng),
                false => spoiled(&town, faults, rng),
            };
            let (mut o, mut k, mut marks_len) = (box_near(&town, rng), any_k(rng), tiles + rng.below(3));
            if has(2) {
                k = rng.pick(&[0, 65, 66, 1 << 31, u32::MAX]);
            }
            if has(3) {
                o = bad_box(o, rng);
            }
            if has(4) {
                marks_len = rng.pick(&[0, tiles - 1, tiles / 2]);
            }
            let case = format!("faults {faults:06b} (0 to 5 from the right: 1, directory, 11, 9 for O, 14, 17)");
            let (pruned, _) = compare::prune(&file, o, k, marks_len, rng, tally).map_err(|f| f.case(&case))?;
            // Damage may be none; the others are sure, and the first of them is the number.
            if !has(0) && !has(1) {
                let sure = [(2, 11), (5, 17), (3, 9), (4, 14)].into_iter().find(|(fault, _)| has(*fault));
                if let Some((_, number)) = sure {
                    assert_eq!((pruned.number, pruned.block), (number, 0), "{case}");
                }
            }
            refused += (pruned.number != 0) as usize;
        }
    }
    Ok(refused)
}

/// B is the other number of axes.
pub fn run<const A: usize, const B: usize>(rng: &mut Rng, tally: &mut Tally) -> Result<String, Failure> {
    let (tried, struck, spared) = many_towns::<A>(rng, tally)?;
    let (small, small_struck) = small_towns::<A>(rng, tally)?;
    let refused = refusals::<A, B>(rng, tally)?;
    Ok(format!(
        "{} boxes and k on towns of every sort, {} tiles struck, {} more if muted sites were added up; {} against all \
         points of small boxes, {} tiles struck; {} refusals",
        count(tried),
        count(struck),
        drawn(spared, "a tile that would be struck if muted sites were added up")?,
        count(small),
        count(small_struck),
        count(refused)
    ))
}
