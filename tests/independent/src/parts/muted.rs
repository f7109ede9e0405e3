//! "Muted sites take no place": what must never be, and muted sites put into a town as near to the stops as can be.

use super::joins::{any_k, list};
use super::unread::engine;
use super::{count, drawn};
use crate::compare::{self, name_of, Failure, Lengths, Query};
use crate::fillings::{point_in, Mutes};
use crate::paper::blocks::most_sites;
use crate::paper::boxes::{closest, distance, smallest_around};
use crate::paper::search::{Joined, Lent};
use crate::paper::writer::file_of;
use crate::paper::{muted, Point, Site, Town};
use crate::rng::Rng;
use crate::tally::Tally;
use crate::towns::{self, Sort, SORTS};

/// What must never be, told from the town alone: a used place with cue 0 or of a site that is not there, a place left
/// over that is not 0, a tile without a sounding site that is marked 2.
pub fn never<const A: usize>(town: &Town<A>, query: &Query<A>, joined: &Joined, lent: &Lent) -> Result<(), String> {
    let (k, used) = (query.k as usize, joined.used as usize);
    let sounding: usize = town.sites.iter().map(|sites| sites.len() - muted(sites)).sum();
    if used != k.min(sounding) {
        return Err(format!("{used} places are used, k is {k}, and {sounding} sites sound"));
    }
    for i in 0..query.n() {
        let stop = query.stop(i);
        for (j, place) in list(lent, i, k).into_iter().enumerate() {
            let (tile, slot) = (place.site as usize / 40, place.site as usize % 40);
            let site = town.sites[tile].get(slot);
            let is_that = |site: &Site<A>| (distance(stop, site.at) as u64, site.cue) == (place.d, place.cue);
            let good = match j < used {
                true => place.cue != 0 && site.is_some_and(is_that) && lent.marks[tile] == 2,
                false => (place.d, place.site, place.cue) == (0, 0, 0),
            };
            if !good {
                return Err(format!("place {j} of stop {i}, {used} used, is {place:?}; the site is {site:?}"));
            }
        }
    }
    match (0..town.sites.len()).find(|t| lent.marks[*t] == 2 && muted(&town.sites[*t]) == town.sites[*t].len()) {
        Some(tile) => Err(format!("tile {tile} was opened, and none of its sites sounds: {:?}", town.sites[tile])),
        None => Ok(()),
    }
}

/// The same town with muted sites put in: as near to some stop as the box allows, where another site stands, or
/// anywhere; in any slots.
fn with_muted<const A: usize>(town: &Town<A>, stops: &[Point<A>], rng: &mut Rng) -> Town<A> {
    let mut other = town.clone();
    for (entry, sites) in other.entries.iter_mut().zip(&mut other.sites) {
        let room = most_sites(A) - sites.len();
        let any = rng.below(room + 1);
        let more = rng.pick(&[0, room, any, room.min(1), room.min(3)]);
        for _ in 0..more {
            let at = match rng.below(4) {
                0 => point_in(entry.bounds, rng),
                1 if !sites.is_empty() => sites[rng.below(sites.len())].at,
                _ => closest(rng.pick(stops), entry.bounds),
            };
            sites.insert(rng.below(sites.len() + 1), Site { at, cue: 0 });
        }
        entry.count += more;
        entry.muted += more;
    }
    other
}

/// The slots of a tile's sounding sites: those that the sites have in the town without the muted ones, in turn.
fn sounding_slots<const A: usize>(sites: &[Site<A>]) -> Vec<usize> {
    (0..sites.len()).filter(|slot| !sites[*slot].is_muted()).collect()
}

#[derive(Default)]
struct Seen {
    towns: usize,
    put_in: usize,
    /// Muted sites nearer to a stop than its last place: each would have taken a place.
    nearer: usize,
    /// Tiles with sites of which none sounds, and runs where no site sounds.
    muted_tiles: usize,
    silent: usize,
}

/// The engine's answers for a town without muted sites and with them: the same but for the slots.
fn put_in<const A: usize>(
    sort: Sort,
    tiles: usize,
    rng: &mut Rng,
    tally: &mut Tally,
    seen: &mut Seen,
) -> Result<(), Failure> {
    let plain: Town<A> = towns::town_with(sort, Mutes::None, tiles, rng);
    let (n, k) = (1 + rng.below(6), any_k(rng));
    let stops = towns::stops(&plain, n, rng);
    let town = with_muted(&plain, &stops, rng);
    let (file, query) = (file_of(&town), Query::of(&stops, k));
    let case = format!("a town of sort {sort:?} with {tiles} tiles and muted sites put in, {query:?}");
    let fail = |text: String| Err(Failure::with_file(text, &file).case(&case));
    let lengths = Lengths::enough(&query, tiles, rng);
    compare::join(&file, &query, lengths, rng, tally).map_err(|f| f.case(&case))?;

    let (without, due) = engine(&file_of(&plain), &stops, k, lengths);
    let (joined, lent) = engine(&file, &stops, k, lengths);
    if let Err(text) = never(&town, &query, &joined, &lent) {
        return fail(text);
    }
    if joined != without || lent.marks != due.marks || lent.dist != due.dist || lent.cue != due.cue {
        return fail(format!("without them {without:?} {due:?}, got {joined:?} {lent:?}"));
    }
    let used = joined.used as usize;
    for i in 0..n {
        let (before, after) = (list(&due, i, k as usize), list(&lent, i, k as usize));
        for (place, got) in before.iter().zip(&after).take(used) {
            let (tile, slot) = (place.site as usize / 40, place.site as usize % 40);
            let due = 40 * tile + sounding_slots(&town.sites[tile])[slot];
            if got.site as usize != due {
                return fail(format!("stop {i}, {place:?} without them: due site {due}, got {got:?}"));
            }
        }
        if used > 0 {
            let farthest = after[used - 1].d as i64;
            let is_nearer = |site: &&Site<A>| site.is_muted() && distance(stops[i], site.at) < farthest;
            seen.nearer += town.sites.iter().flatten().filter(is_nearer).count();
        }
    }
    let o = smallest_around(&stops);
    let struck = compare::prune(&file, o, k, tiles, rng, tally).map_err(|f| f.case(&case))?;
    let struck_without = compare::prune(&file_of(&plain), o, k, tiles, rng, tally).map_err(|f| f.case(&case))?;
    if struck != struck_without {
        let name = name_of::<A>("prune");
        return fail(format!("{name}(box {o:?}, k {k}): without them {struck_without:?}, got {struck:?}"));
    }
    seen.towns += 1;
    seen.put_in += town.sites.iter().map(|sites| muted(sites)).sum::<usize>();
    seen.muted_tiles += town.entries.iter().filter(|e| e.count > 0 && e.sounding() == 0).count();
    seen.silent += (used == 0) as usize;
    Ok(())
}

/// Worked by hand: a stop at (0,0) with a muted site there, and sites at D 25 in slots 1 and 2 of tile 1, after a muted
/// one at the same point, and in tile 2.
fn by_hand(rng: &mut Rng, tally: &mut Tally) -> Result<(), Failure> {
    let site = |x: i32, y: i32, cue: u32| Site { at: [x, y], cue };
    let town = Town::of(vec![
        ([[-1, 1], [-1, 1]], vec![site(0, 0, 0)]),
        ([[3, 9], [4, 9]], vec![site(3, 4, 0), site(3, 4, 77), site(3, 4, 78)]),
        ([[-5, -5], [0, 0]], vec![site(-5, 0, 5)]),
        ([[100, 200], [0, 0]], vec![site(100, 0, 0), site(100, 0, 1)]),
    ]);
    // Tile 0 is treated as empty. Near of tiles 1 and 2 is 25, and ahead of tile 2's key are two sites of tile 1. Three
    // sounding sites are in tiles nearer than tile 3, and two muted ones.
    expect_by_hand(&town, [0, 0], rng, tally)
}

/// The same with height: each D of the places is made by z, and the sites have the same slots.
fn by_hand_with_height(rng: &mut Rng, tally: &mut Tally) -> Result<(), Failure> {
    let site = |x: i32, y: i32, z: i32, cue: u32| Site { at: [x, y, z], cue };
    let town = Town::of(vec![
        ([[-1, 1], [-1, 1], [6, 8]], vec![site(0, 0, 7, 0)]),
        ([[0, 0], [3, 9], [11, 16]], vec![site(0, 3, 11, 0), site(0, 3, 11, 77), site(0, 3, 11, 78)]),
        ([[0, 0], [0, 0], [2, 2]], vec![site(0, 0, 2, 5)]),
        ([[0, 0], [0, 0], [107, 200]], vec![site(0, 0, 107, 0), site(0, 0, 107, 1)]),
    ]);
    expect_by_hand(&town, [0, 0, 7], rng, tally)
}

fn expect_by_hand<const A: usize>(
    town: &Town<A>,
    stop: Point<A>,
    rng: &mut Rng,
    tally: &mut Tally,
) -> Result<(), Failure> {
    let file = file_of(town);
    let cases: [(u32, [u8; 4], &[u64], &[u32], &[u32]); 5] = [
        (1, [0, 2, 0, 1], &[25], &[41], &[77]),
        (2, [0, 2, 0, 1], &[25, 25], &[41, 42], &[77, 78]),
        (3, [0, 2, 2, 1], &[25, 25, 25], &[41, 42, 80], &[77, 78, 5]),
        (4, [0, 2, 2, 2], &[25, 25, 25, 10_000], &[41, 42, 80, 121], &[77, 78, 5, 1]),
        (5, [0, 2, 2, 2], &[25, 25, 25, 10_000, 0], &[41, 42, 80, 121, 0], &[77, 78, 5, 1, 0]),
    ];
    for (k, marks, dist, site, cue) in cases {
        let query = Query::of(&[stop], k);
        let places = k as usize;
        let lengths = Lengths { dist: places, site: places, cue: places, marks: 4 };
        let (run, lent) = compare::join(&file, &query, lengths, rng, tally)?;
        let due = Lent { dist: dist.to_vec(), site: site.to_vec(), cue: cue.to_vec(), marks: marks.to_vec() };
        assert_eq!((run.joined.used, &lent), (k.min(4), &due));
    }
    Ok(())
}

pub fn run<const A: usize>(rng: &mut Rng, tally: &mut Tally) -> Result<String, Failure> {
    match A {
        2 => by_hand(rng, tally)?,
        _ => by_hand_with_height(rng, tally)?,
    }
    let mut seen = Seen::default();
    for round in 0..150 {
        for sort in SORTS {
            let tiles = if round == 149 { 960 } else { 1 + rng.below(50) };
            put_in::<A>(sort, tiles, rng, tally, &mut seen)?;
        }
    }
    Ok(format!(
        "{} towns with {} muted sites put in ({} times one is nearer to a stop than its last place) and without: the \
         same answer but for slots; {} tiles with muted sites only, never opened; {} runs where no site sounds",
        count(seen.towns),
        count(seen.put_in),
        drawn(seen.nearer, "a muted site nearer to a stop than its last place")?,
        drawn(seen.muted_tiles, "a tile with muted sites only")?,
        drawn(seen.silent, "a town where no site sounds")?
    ))
}
