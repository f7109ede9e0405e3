//! nearby_write byte for byte, its refusals in their order, and nearby_validate on what it wrote.

use super::count;
use crate::compare::{self, Failure};
use crate::fillings::filling;
use crate::paper::blocks::{count_in_entry, entry_at, most_sites, per_block, SIZE};
use crate::paper::directory::file_size;
use crate::paper::writer::Supply;
use crate::paper::{each_axis, Entry, Town, LIMIT};
use crate::rng::Rng;
use crate::tally::Tally;
use crate::towns::{town, SORTS};

/// Towns of every sort and many sizes: the file, later bytes as they were, and T by the full check.
fn good_towns<const A: usize>(rng: &mut Rng, tally: &mut Tally) -> Result<(usize, usize), Failure> {
    let (mut towns, mut bytes) = (0, 0);
    for sort in SORTS {
        let (full, twice) = (per_block(A), 2 * per_block(A));
        let mut sizes = vec![1, 1, 2, 3, full - 1, full, full + 1, twice - 1, twice, twice + 1];
        sizes.extend([twice + full, twice + full + 1, 960]);
        sizes.extend((0..25).map(|_| 1 + rng.below(130)));
        sizes.push(130 + rng.below(830));
        for tiles in sizes {
            let case = format!("a town of sort {sort:?} with {tiles} tiles");
            let supply: Supply<A> = Supply::of(&town(sort, tiles, rng));
            let length = file_size(A, tiles);
            for later in [0, 1, rng.below(2_000)] {
                let written = compare::write(&supply, length + later, rng, tally).map_err(|f| f.case(&case))?;
                let file = written.expect("a good town is written");
                let checked = compare::validate(&file, tally).map_err(|f| f.case(&case))?;
                assert_eq!(checked, Ok(tiles));
                towns += 1;
                bytes += file.len();
            }
            let short = compare::write(&supply, length - 1, rng, tally).map_err(|f| f.case(&case))?;
            assert_eq!(short.map_err(|r| r.number), Err(14));
        }
    }
    Ok((towns, bytes))
}

/// A tile for every count and every number of muted sites up to it: the last four bytes of each entry.
fn every_muted_number<const A: usize>(rng: &mut Rng, tally: &mut Tally) -> Result<usize, Failure> {
    let mut numbers: Vec<(usize, usize)> =
        (0..=most_sites(A)).flat_map(|count| (0..=count).map(move |muted| (count, muted))).collect();
    rng.shuffle(&mut numbers);
    let tiles = numbers.iter().map(|(count, muted)| {
        let bounds = each_axis(|axis| [[-9, 9], [0, 99], [-600, 300]][axis]);
        let entry: Entry<A> = Entry { bounds, count: *count, muted: *muted };
        (entry.bounds, filling(&entry, rng))
    });
    let supply = Supply::of(&Town::of(tiles.collect()));
    let length = file_size(A, numbers.len());
    let file = compare::write(&supply, length, rng, tally)?.expect("a good town is written");
    for (tile, (count, muted)) in numbers.iter().enumerate() {
        let at = SIZE * (tile / per_block(A)) + entry_at(A, tile % per_block(A)) + count_in_entry(A);
        assert_eq!(file[at..at + 4], [*count as u8, 0, *muted as u8, 0]);
    }
    assert_eq!(compare::validate(&file, tally)?, Ok(numbers.len()));
    Ok(numbers.len())
}

/// One of the six faults, in the order of their tests: 6, 15, 9, 15, 10, 14.
fn spoil<const A: usize>(fault: usize, supply: &mut Supply<A>, out_len: &mut usize, rng: &mut Rng) {
    let (tiles, ends) = (supply.counts.len(), 2 * A);
    match fault {
        0 => match rng.below(4) {
            0 => supply.counts.clear(),
            1 => {
                supply.counts.clear();
                supply.boxes.clear();
            }
            2 => supply.counts.resize(961 + rng.below(3), 0),
            _ => {
                supply.counts.resize(961, 0);
                supply.boxes.resize(ends * 961, 0);
                *out_len = file_size(A, 961);
            }
        },
        1 => match rng.below(4) {
            0 => supply.boxes.push(0),
            1 => drop(supply.boxes.pop()),
            2 => supply.boxes.truncate(supply.boxes.len().saturating_sub(ends)),
            _ => supply.boxes.extend(vec![0; ends]),
        },
        2 => {
            let at = rng.below(tiles.max(1));
            match rng.below(6) {
                0 | 1 => {
                    if let Some(number) = supply.boxes.get_mut(ends * at + rng.below(ends)) {
                        *number = rng.pick(&[LIMIT + 1, -LIMIT - 1, i32::MAX, i32::MIN]);
                    }
                }
                2 | 3 => {
                    let axis = rng.below(A);
                    if ends * at + ends <= supply.boxes.len() {
                        supply.boxes[ends * at + axis] = supply.boxes[ends * at + axis + A] + 1;
                    }
                }
                _ => {
                    if let Some(number) = supply.counts.get_mut(at) {
                        let over = most_sites(A) as u32 + 1;
                        *number = rng.pick(&[over, over + 1, 256, 65_536, 65_536 + *number, u32::MAX]);
                    }
                }
            }
        }
        3 => match rng.below(2 * A + 2) {
            list if list < A => supply.at[list].push(0),
            list if list == A => supply.cues.push(0),
            list if list <= 2 * A => drop(supply.at[list - A - 1].pop()),
            _ => drop(supply.cues.pop()),
        },
        4 => {
            // A site one outside its box, on some side, or far beyond.
            let all = supply.at.iter().map(|list| list.len()).min().unwrap();
            let mut first = 0;
            let over = most_sites(A) as u32 + 1;
            let tile_of: Vec<usize> = (0..tiles).flat_map(|t| vec![t; supply.counts[t].min(over) as usize]).collect();
            if all > 0 {
                first = rng.below(all);
            }
            if let (Some(tile), true) = (tile_of.get(first), first < all) {
                let axis = rng.below(A);
                if ends * tile + ends <= supply.boxes.len() {
                    let (low, high) = (supply.boxes[ends * tile + axis], supply.boxes[ends * tile + axis + A]);
                    supply.at[axis][first] =
                        rng.pick(&[low.wrapping_sub(1), high.wrapping_add(1), i32::MIN, i32::MAX, low.wrapping_sub(1)]);
                }
            }
        }
        _ => *out_len = rng.pick(&[0, 1, *out_len / 2, out_len.saturating_sub(1), out_len.saturating_sub(512)]),
    }
}

/// Every set of the six faults, several times: the first in order is the number, and out is as it was.
fn refusals<const A: usize>(rng: &mut Rng, tally: &mut Tally) -> Result<usize, Failure> {
    let mut refused = 0;
    for faults in 0..64usize {
        for round in 0..60 {
            let sort = rng.pick(&SORTS);
            let tiles = if round % 20 == 19 { 960 } else { 1 + rng.below(30) };
            let mut supply: Supply<A> = Supply::of(&town(sort, tiles, rng));
            let mut out_len = file_size(A, tiles);
            for fault in 0..6 {
                if faults >> fault & 1 == 1 {
                    spoil(fault, &mut supply, &mut out_len, rng);
                }
            }
            let case = format!(
                "faults {faults:06b} (the last digit is the first fault) in a town of sort {sort:?} with {tiles} tiles"
            );
            refused += compare::write(&supply, out_len, rng, tally).map_err(|f| f.case(&case))?.is_err() as usize;
        }
    }
    Ok(refused)
}

pub fn run<const A: usize>(rng: &mut Rng, tally: &mut Tally) -> Result<String, Failure> {
    let (towns, bytes) = good_towns::<A>(rng, tally)?;
    let numbers = every_muted_number::<A>(rng, tally)?;
    let refused = refusals::<A>(rng, tally)?;
    Ok(format!(
        "{} towns of 1 to 960 tiles written and checked, {} bytes; one of {numbers} tiles, for every count and muted \
         number; {} refusals by one fault or several at once",
        count(towns),
        count(bytes),
        count(refused)
    ))
}
