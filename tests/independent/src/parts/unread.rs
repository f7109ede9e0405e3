//! Demand 3: tiles that are not opened do not matter, and each opened tile does.

use super::joins::{any_k, list, lists_are_full_search};
use super::{count, drawn};
use crate::compare::{self, Failure, Lengths, Query};
use crate::fillings::{filling, other_cue};
use crate::host::{self, Slices};
use crate::paper::boxes::closest;
use crate::paper::directory::directory_blocks;
use crate::paper::search::{full_search, Joined, Lent, Place};
use crate::paper::writer::file_of;
use crate::paper::{muted, Point, Site, Town};
use crate::rng::Rng;
use crate::tally::Tally;
use crate::towns::{self, SORTS};

/// The engine's own answer on a file, with slices of these lengths.
pub fn engine<const A: usize>(file: &[u8], stops: &[Point<A>], k: u32, lengths: Lengths) -> (Joined, Lent) {
    let query = Query::of(stops, k);
    let mut lent = Lent {
        dist: vec![7; lengths.dist],
        site: vec![7; lengths.site],
        cue: vec![7; lengths.cue],
        marks: vec![7; lengths.marks],
    };
    let slices = Slices { dist: &mut lent.dist, site: &mut lent.site, cue: &mut lent.cue, marks: &mut lent.marks };
    let joined = host::join(file, query.lists(), k, slices);
    (joined, lent)
}

/// The same slots muted, and all sites at this point with other cues: a filling that keeps count and muted number.
fn all_at<const A: usize>(sites: &[Site<A>], at: Point<A>) -> Vec<Site<A>> {
    sites.iter().map(|s| Site { at, cue: other_cue(s.cue) }).collect()
}

/// "some other filling of it ... changes what the full search gives for at least one stop": all sites of the tile at
/// the point of its box nearest to a stop, with other cues.
fn some_filling_matters<const A: usize>(town: &Town<A>, tile: usize, stops: &[Point<A>], lists: &[Vec<Place>]) -> bool {
    stops.iter().zip(lists).any(|(stop, list)| {
        let at = closest(*stop, town.entries[tile].bounds);
        let mut other = town.clone();
        other.sites[tile] = all_at(&town.sites[tile], at);
        full_search(&other, *stop, list.len()) != *list
    })
}

/// A tile that is not opened: each of these fillings leaves all lists as they are.
fn no_filling_matters<const A: usize>(
    town: &Town<A>,
    tile: usize,
    stops: &[Point<A>],
    lists: &[Vec<Place>],
    rng: &mut Rng,
) -> Result<usize, String> {
    let entry = town.entries[tile];
    if entry.count == 0 {
        return Ok(0); // it has one filling only
    }
    let mut fillings = vec![filling(&entry, rng), filling(&entry, rng)];
    for stop in stops {
        let mut sites = all_at(&town.sites[tile], closest(*stop, entry.bounds));
        fillings.push(sites.clone());
        // Other slots muted.
        sites.rotate_left(1);
        fillings.push(sites);
    }
    let tried = fillings.len();
    for sites in fillings {
        assert_eq!((sites.len(), muted(&sites)), (entry.count, entry.muted));
        let mut other = town.clone();
        other.sites[tile] = sites;
        for (stop, list) in stops.iter().zip(lists) {
            if full_search(&other, *stop, list.len()) != *list {
                return Err(format!(
                    "tile {tile} was not opened, yet {:?} changes the list of {stop:?}",
                    other.sites[tile]
                ));
            }
        }
    }
    Ok(tried)
}

pub fn run<const A: usize>(rng: &mut Rng, tally: &mut Tally) -> Result<String, Failure> {
    let (mut pairs, mut matter, mut idle, mut idle_muted, mut runs) = (0, 0, 0, 0, 0);
    for round in 0..150 {
        for sort in SORTS {
            let tiles = if round % 75 == 74 { 300 } else { 1 + rng.below(40) };
            let (n, k) = (1 + rng.below(5), any_k(rng));
            let town: Town<A> = towns::town(sort, tiles, rng);
            let stops = towns::stops(&town, n, rng);
            let file = file_of(&town);
            let query = Query::of(&stops, k);
            let lengths = Lengths::enough(&query, tiles, rng);
            let case = format!("a town of sort {sort:?} with {tiles} tiles, stops {stops:?}, k {k}");
            let fail = |text: String, file: &[u8]| Err(Failure::with_file(text, file).case(&case));
            let (run, lent) = compare::join(&file, &query, lengths, rng, tally).map_err(|f| f.case(&case))?;
            let first = engine(&file, &stops, k, lengths);
            let same_lists = (0..n).all(|i| list(&lent, i, k as usize) == list(&first.1, i, k as usize));
            if first.0 != run.joined || !same_lists || first.1.marks[..tiles] != lent.marks[..tiles] {
                return fail(format!("called again: due {:?} with the same lists, got {first:?}", run.joined), &file);
            }
            runs += 1;

            // "Any file of the same length, equal to this one in every byte of the directory and of the opened tiles,
            // gets an answer with the same lists, marks and counts".
            let d = directory_blocks(A, tiles);
            for _ in 0..3 {
                let mut other = file.clone();
                for tile in (0..tiles).filter(|t| lent.marks[*t] != 2) {
                    let junk = match rng.below(4) {
                        0 => vec![rng.pick(&[0, 255]); 512],
                        _ => rng.bytes(512),
                    };
                    other[512 * (d + tile)..512 * (d + tile + 1)].copy_from_slice(&junk);
                }
                if engine(&other, &stops, k, lengths) != first {
                    return fail("other bytes in tiles that are not marked 2 change the answer".into(), &other);
                }
                compare::join(&other, &query, lengths, rng, tally).map_err(|f| f.case(&case))?;
                pairs += 1;
            }

            // "Take any town that agrees with the directory and the opened tiles": the lists are its full search.
            let mut other = town.clone();
            for tile in (0..tiles).filter(|t| lent.marks[*t] != 2) {
                other.sites[tile] = filling(&town.entries[tile], rng);
            }
            lists_are_full_search(&other, &file, &query, &lent).map_err(|f| f.case(&case))?;

            if tiles > 40 {
                continue;
            }
            // Fillings are put into the town of the file or into the other.
            let town = if rng.chance(2) { town } else { other };
            let lists: Vec<Vec<Place>> = stops.iter().map(|stop| full_search(&town, *stop, k as usize)).collect();
            for (tile, mark) in lent.marks[..tiles].iter().enumerate() {
                if *mark == 2 {
                    if !some_filling_matters(&town, tile, &stops, &lists) {
                        return fail(format!("tile {tile} was opened, and no filling tried changes a list"), &file);
                    }
                    matter += 1;
                } else {
                    match no_filling_matters(&town, tile, &stops, &lists, rng) {
                        Ok(tried) if town.entries[tile].sounding() == 0 => idle_muted += tried,
                        Ok(tried) => idle += tried,
                        Err(text) => return fail(text, &file),
                    }
                }
            }
        }
    }
    Ok(format!(
        "{} runs, {} files that differ in unread tiles; {} opened tiles each with a filling \
         that changes a list, {} other fillings of unread tiles and {} of muted tiles that change none, all with the \
         count and the muted number of the directory",
        count(runs),
        count(pairs),
        count(matter),
        count(idle),
        drawn(idle_muted, "another filling of a muted tile")?
    ))
}
