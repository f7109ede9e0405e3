//! The order of the tests of one block: every set of faults in a tile, and in a directory block.

use super::count;
use super::damaged::{base, Base};
use super::expected::{refused, Trial};
use crate::compare::Failure;
use crate::damage::{block_mut, flip_cue, not_zero, other_kinds, repair_block, set_i32, set_u16};
use crate::paper::blocks::{count_in_entry, directory_kind, entry_at, per_block, site_at, tile_kind, u16_at};
use crate::paper::{Entry, Refusal};
use crate::rng::Rng;
use crate::tally::Tally;

/// Puts a set of the eight faults into a directory block of a town of so many tiles, bit 0 for the fault that gives 2
/// and bit 7 for 9, by a muted number over the count. Kind 1 or 3 in block 0 is no fault: it settles the axes.
pub fn spoil_directory_block<const A: usize>(
    file: &mut [u8],
    position: usize,
    tiles: usize,
    faults: usize,
    rng: &mut Rng,
) {
    let has = |fault: usize| faults >> fault & 1 == 1;
    let entries = (tiles - per_block(A) * position).min(per_block(A));
    let block = block_mut(file, position);
    let at = entry_at(A, rng.below(entries)) + count_in_entry(A);
    if has(7) {
        let sites = u16_at(block, at);
        set_u16(block, at + 2, rng.pick(&[sites + 1, 41, 256, 256 * (sites + 1), 0xffff]));
    }
    if has(6) {
        // The bytes of a muted number past the last entry are padding.
        let past = entry_at(A, entries) + count_in_entry(A) + 2;
        let place = rng.pick(&[8, 15, 496, 509, past, past + 1, entry_at(A, entries)]);
        block[if place < 510 { place } else { 509 }] = not_zero(rng);
    }
    if has(5) {
        set_u16(block, 4, rng.pick(&[entries - 1, entries + 1, entries + 256]));
    }
    if has(4) {
        set_u16(block, 6, rng.pick(&[0, tiles - 1, tiles + 1, 961, 256 + tiles]));
    }
    if has(3) {
        set_u16(block, 2, rng.pick(&[position + 1, position + 256]));
    }
    if has(2) {
        let settles = |kind: &u8| position == 0 && [1, 3].contains(kind);
        let kinds: Vec<u8> = other_kinds(directory_kind(A)).into_iter().filter(|kind| !settles(kind)).collect();
        block[1] = rng.pick(&kinds);
    }
    repair_block(file, position);
    let block = block_mut(file, position);
    if has(1) {
        block[510 + rng.below(2)] ^= not_zero(rng);
    }
    if has(0) {
        block[0] ^= not_zero(rng);
    }
}

impl Trial<'_> {
    /// "openings, each 2, 3, 4, 5, 7, 8, 10", then 16: every set of the eight faults in one tile.
    fn faults_of_an_opening<const A: usize>(&mut self, base: &Base<A>, tile: usize) -> Result<(), Failure> {
        let Entry { bounds, count: sites, .. } = base.town.entries[tile];
        let position = base.d + tile;
        for faults in 0..256usize {
            let has = |fault: usize| faults >> fault & 1 == 1;
            let mut file = base.file.clone();
            let block = block_mut(&mut file, position);
            let slot = self.rng.below(sites);
            if has(7) {
                flip_cue::<A>(block, self.rng.pick(&[slot, 0, sites - 1]), self.rng);
            }
            if has(6) {
                let (axis, end) = (self.rng.below(A), self.rng.below(2));
                set_i32(block, site_at(A, slot) + 4 * axis, bounds[axis][end] + [-1, 1][end]);
            }
            if has(5) {
                let past = self.rng.range(site_at(A, sites) as i32, 509) as usize;
                block[self.rng.pick(&[6, 7, 8, 15, past, 496, 509])] = not_zero(self.rng);
            }
            if has(4) {
                let entries = u16_at(block, 4);
                set_u16(block, 4, self.rng.pick(&[entries - 1, entries + 1, entries + 256]));
            }
            if has(3) {
                set_u16(block, 2, self.rng.pick(&[position + 1, position - 1, 256 * position]));
            }
            if has(2) {
                block[1] = self.rng.pick(&other_kinds(tile_kind(A)));
            }
            repair_block(&mut file, position);
            let block = block_mut(&mut file, position);
            if has(1) {
                block[510 + self.rng.below(2)] ^= not_zero(self.rng);
            }
            if has(0) {
                block[0] ^= not_zero(self.rng);
            }
            let number = [2, 3, 4, 5, 7, 8, 10, 16].into_iter().enumerate().find(|(fault, _)| has(*fault));
            let case = format!("tile {tile}, faults {faults:08b} (the last digit is the first fault)");
            self.tile_changed(base, &file, tile, number.map(|n| n.1)).map_err(|f| f.case(&case))?;
        }
        Ok(())
    }

    /// "each directory block 2 to 9 in table order": every set of the eight faults in one directory block, 9 by a muted
    /// number over the count.
    fn faults_of_a_directory_block<const A: usize>(&mut self, base: &Base<A>, position: usize) -> Result<(), Failure> {
        let tiles = base.town.entries.len();
        for faults in 0..256usize {
            let mut file = base.file.clone();
            spoil_directory_block::<A>(&mut file, position, tiles, faults, self.rng);
            // Damage in tiles comes later than all of the directory's.
            if self.rng.chance(2) {
                let tile = self.rng.below(tiles);
                if base.town.entries[tile].count > 0 && faults > 0 {
                    flip_cue::<A>(block_mut(&mut file, base.d + tile), 0, self.rng);
                    repair_block(&mut file, base.d + tile);
                }
            }
            let number = (2..=9).find(|number| faults >> (number - 2) & 1 == 1);
            let case = format!("block {position}, faults {faults:08b} (the last digit is the first fault)");
            let query = self.query(&base.town, 0);
            match number {
                None => self.checked(&file, Ok(tiles)),
                Some(number) => self
                    .checked(&file, refused(number, position))
                    .and_then(|_| self.join_refused(&file, &query, tiles, Refusal { number, block: position as u32 })),
            }
            .map_err(|f| f.case(&case))?;
        }
        Ok(())
    }
}

pub fn run<const A: usize>(rng: &mut Rng, tally: &mut Tally) -> Result<String, Failure> {
    let mut trial = Trial { rng, tally, files: 0, unread: 0 };
    let (rounds, full) = (24, per_block(A));
    for round in 0..rounds {
        let tiles = trial.rng.pick(&[1, 2, 6, full, full + 1, 30, 2 * full + 1, 3 * full + 1]);
        let base: Base<A> = base(tiles, trial.rng);
        // Any tile with a site, or one with a sounding site, which joins open.
        let least = round % 2;
        let fits = |tile: &usize| base.town.entries[*tile].sounding() >= least && base.town.entries[*tile].count > 0;
        let fitting: Vec<usize> = (0..tiles).filter(fits).collect();
        let (tile, position) = (trial.rng.pick(&fitting), trial.rng.below(base.d));
        trial.faults_of_an_opening(&base, tile)?;
        trial.faults_of_a_directory_block(&base, position)?;
    }
    Ok(format!(
        "{} files, with all 256 sets of the eight faults of an opening and of a directory block in {rounds} towns; {} \
         joins that did not open the tile and answered",
        count(trial.files),
        count(trial.unread)
    ))
}
