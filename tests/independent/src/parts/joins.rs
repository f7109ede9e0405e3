//! nearby_join against the literal run and the full search; its refusals before the openings, alone and together.

use super::muted::never;
use super::{count, drawn};
use crate::compare::{self, name_of, Failure, Lengths, Query};
use crate::damage;
use crate::paper::blocks::per_block;
use crate::paper::search::{full_search, Lent, Place};
use crate::paper::writer::file_of;
use crate::paper::{each_axis, Entry, Town, LIMIT};
use crate::rng::Rng;
use crate::tally::Tally;
use crate::towns::{self, Sort, SORTS};

pub fn any_k(rng: &mut Rng) -> u32 {
    match rng.below(4) {
        0 => rng.pick(&[1, 2, 3, 64]),
        1 => 1 + rng.below(10) as u32,
        _ => 1 + rng.below(64) as u32,
    }
}

/// A k for a town of this sort: one that leaves places unused where there are few sites.
fn k_for(sort: Sort, rng: &mut Rng) -> u32 {
    match sort {
        Sort::FewSites => 40 + rng.below(25) as u32,
        _ => any_k(rng),
    }
}

/// The list of stop i in the lent slices.
pub fn list(lent: &Lent, i: usize, k: usize) -> Vec<Place> {
    (i * k..(i + 1) * k).map(|at| Place { d: lent.dist[at], site: lent.site[at], cue: lent.cue[at] }).collect()
}

/// "each list is the first k sites of the whole town by Euclidean distance, ties by tile and slot"
pub fn lists_are_full_search<const A: usize>(
    town: &Town<A>,
    file: &[u8],
    query: &Query<A>,
    lent: &Lent,
) -> Result<(), Failure> {
    for i in 0..query.n() {
        let k = query.k as usize;
        let due = full_search(town, query.stop(i), k);
        let got = list(lent, i, k);
        if got != due {
            let name = name_of::<A>("join");
            let text = format!("{name}({query:?}), stop {i}: full search {due:?}, got {got:?}");
            return Err(Failure::with_file(text, file));
        }
    }
    Ok(())
}

#[derive(Default)]
struct Seen {
    joins: usize,
    stops: usize,
    opened: usize,
    struck: usize,
    neither: usize,
    /// Places left over, and places at the distance of the one before them.
    unused: usize,
    tied: usize,
    /// Runs in towns without a muted site, in towns with sites of which none sounds, and the others.
    plain: usize,
    silent: usize,
    mixed: usize,
}

fn answered<const A: usize>(
    sort: Sort,
    tiles: usize,
    n: usize,
    k: u32,
    rng: &mut Rng,
    tally: &mut Tally,
    seen: &mut Seen,
) -> Result<(), Failure> {
    let case = format!("a town of sort {sort:?} with {tiles} tiles");
    let town: Town<A> = towns::town(sort, tiles, rng);
    let file = file_of(&town);
    let stops = towns::stops(&town, n, rng);
    let query = Query::of(&stops, k);
    let lengths = Lengths::enough(&query, tiles, rng);
    let (run, lent) = compare::join(&file, &query, lengths, rng, tally).map_err(|f| f.case(&case))?;
    assert_eq!(run.joined.number, 0);
    lists_are_full_search(&town, &file, &query, &lent).map_err(|f| f.case(&case))?;
    never(&town, &query, &run.joined, &lent).map_err(|text| Failure::with_file(text, &file).case(&case))?;
    let sum = |of: fn(&Entry<A>) -> usize| -> usize { town.entries.iter().map(of).sum() };
    match (sum(|entry| entry.muted), sum(Entry::sounding)) {
        (0, _) => seen.plain += 1,
        (_, 0) => seen.silent += 1,
        _ => seen.mixed += 1,
    }
    seen.joins += 1;
    seen.stops += n;
    seen.opened += run.joined.opened as usize;
    seen.struck += run.joined.struck as usize;
    seen.neither += tiles - (run.joined.opened + run.joined.struck) as usize;
    let (k, used) = (k as usize, run.joined.used as usize);
    seen.unused += n * (k - used);
    seen.tied +=
        (0..n).map(|i| list(&lent, i, k)[..used].windows(2).filter(|p| p[0].d == p[1].d).count()).sum::<usize>();
    Ok(())
}

/// Towns of every sort, n from 1 to 256, k from 1 to 64.
fn many<const A: usize>(rng: &mut Rng, tally: &mut Tally) -> Result<Seen, Failure> {
    let mut seen = Seen::default();
    for _ in 0..450 {
        for sort in SORTS {
            let tiles = match rng.below(4) {
                0 => 1 + rng.below(4),
                1 => 20 + rng.below(10),
                _ => 1 + rng.below(60),
            };
            let n = match rng.below(4) {
                0 => 1,
                1 => 2 + rng.below(3),
                _ => 1 + rng.below(12),
            };
            let k = k_for(sort, rng);
            answered::<A>(sort, tiles, n, k, rng, tally, &mut seen)?;
        }
    }
    // Every n on small towns, every k on middling ones.
    for n in 1..=256 {
        let (sort, tiles, k) = (rng.pick(&SORTS), 1 + rng.below(12), any_k(rng));
        answered::<A>(sort, tiles, n, k, rng, tally, &mut seen)?;
    }
    for k in 1..=64 {
        for sort in SORTS {
            let (tiles, n) = (1 + rng.below(30), 1 + rng.below(4));
            answered::<A>(sort, tiles, n, k, rng, tally, &mut seen)?;
        }
    }
    // The largest towns, and the largest of everything at once.
    for sort in SORTS {
        let (tiles, k) = (rng.pick(&[959, 960]), any_k(rng));
        answered::<A>(sort, tiles, 3, k, rng, tally, &mut seen)?;
    }
    answered::<A>(Sort::Sparse, 960, 256, 64, rng, tally, &mut seen)?;
    answered::<A>(Sort::Row, 960, 256, 64, rng, tally, &mut seen)?;
    Ok(seen)
}

/// Each slice too short by one, alone; k, n, and lengths of x, y and z at and beyond their ends.
fn ends<const A: usize>(rng: &mut Rng, tally: &mut Tally) -> Result<usize, Failure> {
    let mut tried = 0;
    for _ in 0..40 {
        let tiles = 1 + rng.below(30);
        let town: Town<A> = towns::town(rng.pick(&SORTS), tiles, rng);
        let file = file_of(&town);
        let n = 1 + rng.below(20);
        let stops = towns::stops(&town, n, rng);
        let mut query = Query::of(&stops, any_k(rng));
        let needed = n * query.k as usize;
        let exact = Lengths { dist: needed, site: needed, cue: needed, marks: tiles };
        let longer = Lengths { dist: needed + 50, site: needed + 1, cue: needed + 7, marks: tiles + 30 };
        let short = [
            Lengths { dist: needed - 1, ..exact },
            Lengths { site: needed - 1, ..exact },
            Lengths { cue: needed - 1, ..exact },
            Lengths { marks: tiles - 1, ..exact },
            Lengths { dist: needed - 1, ..longer },
            Lengths { site: 0, ..longer },
            Lengths { cue: 0, ..longer },
            Lengths { marks: 0, ..longer },
            Lengths { dist: 0, site: 0, cue: 0, marks: 0 },
        ];
        for lengths in [exact, longer] {
            let (run, lent) = compare::join(&file, &query, lengths, rng, tally)?;
            assert_eq!(run.joined.number, 0);
            lists_are_full_search(&town, &file, &query, &lent)?;
        }
        for lengths in short {
            assert_eq!(compare::join(&file, &query, lengths, rng, tally)?.0.joined.number, 14);
        }
        for k in [0, 65, 66, 1 << 16, 1 << 31, u32::MAX] {
            let other = Query { k, ..query.clone() };
            assert_eq!(compare::join(&file, &other, longer, rng, tally)?.0.joined.number, 11);
        }
        for (x, y) in
            [(0, 0), (257, 257), (300, 300), (n, n + 1), (n + 1, n), (n, 0), (0, n), (256, 257), (257, 256), (257, 1)]
        {
            // The second length is that of one list, and with three axes also that of two.
            for (from, to) in [(1, 2), (1, 3), (2, 3)].into_iter().filter(|(_, to)| *to <= A) {
                let long = |axis: usize| if (from..to).contains(&axis) { y } else { x };
                let other: Query<A> = Query { at: each_axis(|axis| vec![0; long(axis)]), k: query.k };
                let lengths = if rng.chance(2) { longer } else { Lengths::enough(&other, tiles, rng) };
                assert_eq!(compare::join(&file, &other, lengths, rng, tally)?.0.joined.number, 12);
                tried += 1;
            }
        }
        for far in [LIMIT + 1, -LIMIT - 1, i32::MIN, i32::MAX] {
            let stop = rng.below(n);
            let list = rng.below(A);
            let was = query.at[list][stop];
            query.at[list][stop] = far;
            assert_eq!(compare::join(&file, &query, exact, rng, tally)?.0.joined.number, 13);
            query.at[list][stop] = was;
        }
        tried += 2 + 9 + 6 + 4;
    }
    Ok(tried)
}

/// The file of a town, with faults as `together` has them: damage in all tiles (bit 6) and in the directory (bit 1),
/// and another length (bit 0).
fn spoiled<const A: usize>(town: &Town<A>, faults: usize, rng: &mut Rng) -> Vec<u8> {
    let mut file = file_of(town);
    if faults >> 6 & 1 == 1 {
        damage::every_tile(&mut file, town, rng);
    }
    if faults >> 1 & 1 == 1 {
        damage::some_directory_field(&mut file, town, rng);
    }
    if faults & 1 == 1 {
        damage::wrong_length(&mut file, rng);
    }
    file
}

/// "Join: 1; each directory block 2 to 9 in table order; 11 to 14; then openings", and 17 after 12: every set of these
/// eight faults. The last is a town of B axes.
fn together<const A: usize, const B: usize>(rng: &mut Rng, tally: &mut Tally) -> Result<usize, Failure> {
    let mut refused = 0;
    for faults in 0..256usize {
        for _ in 0..30 {
            let has = |fault: usize| faults >> fault & 1 == 1;
            let full = per_block(if has(7) { B } else { A });
            let tiles = rng.pick(&[1, 5, full, full + 1, 30, 2 * full + 2]);
            let sort = rng.pick(&[Sort::Row, Sort::Overlapping, Sort::Dense, Sort::Ties]);
            let town: Town<A> = towns::town(sort, tiles, rng);
            let file = match has(7) {
                true => spoiled::<B>(&towns::town(sort, tiles, rng), faults, rng),
                false => spoiled(&town, faults, rng),
            };
            let n = 1 + rng.below(6);
            let stops = towns::stops(&town, n, rng);
            let mut query = Query::of(&stops, any_k(rng));
            if has(2) {
                query.k = rng.pick(&[0, 65, 1 << 31, u32::MAX]);
            }
            if has(4) {
                let at = rng.below(n);
                query.at[rng.below(A)][at] = rng.pick(&[LIMIT + 1, -LIMIT - 1, i32::MIN, i32::MAX]);
            }
            if has(3) {
                match rng.below(4) {
                    0 => query.at[rng.below(A)].clear(),
                    1 => query.at[rng.below(A)].push(0),
                    2 => drop(query.at[rng.below(A)].pop()),
                    _ => query.at.iter_mut().for_each(|list| list.resize(257, 0)),
                }
            }
            let mut lengths = Lengths::enough(&query, tiles, rng);
            if has(5) {
                match rng.below(4) {
                    0 => lengths.dist = 0,
                    1 => lengths.site = (n * query.k.min(64) as usize).saturating_sub(1),
                    2 => lengths.cue = 0,
                    _ => lengths.marks = tiles - 1,
                }
            }
            let case = format!("faults {faults:08b} (0 to 7 from the right: 1, directory, 11, 12, 13, 14, tiles, 17)");
            let (run, _) = compare::join(&file, &query, lengths, rng, tally).map_err(|f| f.case(&case))?;
            // Damage may be none; the others are sure, and the first of them is the number.
            if !has(0) && !has(1) {
                let sure = [(2, 11), (3, 12), (7, 17), (4, 13), (5, 14)].into_iter().find(|(fault, _)| has(*fault));
                if let Some((_, number)) = sure {
                    assert_eq!((run.joined.number, run.joined.block), (number, 0), "{case}");
                }
            }
            refused += (run.joined.number != 0) as usize;
        }
    }
    Ok(refused)
}

/// B is the other number of axes.
pub fn run<const A: usize, const B: usize>(rng: &mut Rng, tally: &mut Tally) -> Result<String, Failure> {
    let seen = many::<A>(rng, tally)?;
    let ends = ends::<A>(rng, tally)?;
    let refused = together::<A, B>(rng, tally)?;
    Ok(format!(
        "{} runs with {} stops against the literal run and the full search ({} tiles opened, {} struck, \
         {} neither; {} places unused, {} tied with the one before; no site muted in {} runs, all in {}, some in {}); \
         {} at the ends of k, n and lengths; {} refusals by one fault or several at once",
        count(seen.joins),
        count(seen.stops),
        count(seen.opened),
        count(seen.struck),
        count(seen.neither),
        count(seen.unused),
        count(seen.tied),
        drawn(seen.plain, "a town without muted sites")?,
        drawn(seen.silent, "a town with muted sites only")?,
        drawn(seen.mixed, "a town with both")?,
        count(ends),
        count(refused)
    ))
}
