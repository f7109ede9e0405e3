//! Muted numbers that are not the tile's: 9 where over the count, 16 where the tile is opened, nothing where it is not.

use super::count;
use super::damaged::{base, Base};
use super::expected::{refused, Trial};
use super::joins::any_k;
use crate::compare::{Failure, Query};
use crate::damage::{block_mut, flip_cue, repair_block, set_u16};
use crate::fillings::{filling, other_cue, sounding_cue};
use crate::paper::blocks::{count_in_entry, cue_in_site, entry_at, most_sites, per_block, site_at, u32_at};
use crate::paper::search::Joined;
use crate::paper::writer::file_of;
use crate::paper::{each_axis, muted, Bounds, Entry, Refusal, Town};
use crate::rng::Rng;
use crate::tally::Tally;

/// A box for a town of one tile.
fn small_box<const A: usize>() -> Bounds<A> {
    each_axis(|axis| [[-50, 60], [-5, 5], [-20, 30]][axis])
}

/// Where the muted number of a tile is in its directory block; the count is before it.
fn muted_at(axes: usize, tile: usize) -> usize {
    entry_at(axes, tile % per_block(axes)) + count_in_entry(axes) + 2
}

impl Trial<'_> {
    /// One tile with every count, every muted number of the directory up to one over the count, and every number of
    /// muted sites in the tile: 40 of 40 is accepted, 41 of 40 is 9; the same with 30 where a tile has at most 30.
    fn every_triple<const A: usize>(&mut self) -> Result<(), Failure> {
        for sites in 0..=most_sites(A) {
            for in_tile in 0..=sites {
                let entry: Entry<A> = Entry { bounds: small_box(), count: sites, muted: in_tile };
                let town = Town { entries: vec![entry], sites: vec![filling(&entry, self.rng)] };
                let good = file_of(&town);
                for by_directory in 0..=sites + 1 {
                    let mut file = good.clone();
                    set_u16(block_mut(&mut file, 0), muted_at(A, 0), by_directory);
                    repair_block(&mut file, 0);
                    let case = format!("{sites} sites, {in_tile} muted, {by_directory} by the directory");
                    self.one_triple::<A>(&file, sites, by_directory, in_tile).map_err(|f| f.case(&case))?;
                }
            }
        }
        Ok(())
    }

    fn one_triple<const A: usize>(
        &mut self,
        file: &[u8],
        sites: usize,
        by_directory: usize,
        in_tile: usize,
    ) -> Result<(), Failure> {
        let k = any_k(self.rng);
        let query: Query<A> = Query::of(&[each_axis(|_| self.rng.range(-90, 90))], k);
        if by_directory > sites {
            self.checked(file, refused(9, 0))?;
            return self.join_refused(file, &query, 1, Refusal { number: 9, block: 0 });
        }
        let differ = by_directory != in_tile;
        self.checked(file, if differ { refused(16, 1) } else { Ok(1) })?;
        let sounding = sites - by_directory;
        if sounding > 0 && differ {
            return self.join_refused(file, &query, 1, Refusal { number: 16, block: 1 });
        }
        // No sounding site by the directory: the tile is not opened, whatever it holds.
        let (joined, lent) = self.joined(file, &query, 1)?;
        let (opened, used) = ((sounding > 0) as u32, sounding.min(k as usize) as u32);
        assert_eq!(joined, Joined { number: 0, block: 0, used, tiles: 1, opened, struck: 0 });
        assert_eq!(lent.marks, [2 * opened as u8]);
        self.unread += (differ && sounding == 0) as usize;
        Ok(())
    }

    /// Each slot of a tile alone muted, and alone sounding: the file passes, and 16 when that site is changed.
    fn every_slot<const A: usize>(&mut self) -> Result<(), Failure> {
        let bounds = small_box();
        for sites in [1, 2, most_sites(A) - 1, most_sites(A)] {
            for slot in 0..sites {
                for alone_muted in [true, false] {
                    let entry: Entry<A> = Entry { bounds, count: sites, muted: 0 };
                    let mut held = filling(&entry, self.rng);
                    for (other, site) in held.iter_mut().enumerate() {
                        if (other == slot) == alone_muted {
                            site.cue = 0;
                        }
                    }
                    let mut file = file_of(&Town::of(vec![(bounds, held)]));
                    let case = format!("slot {slot} of {sites} alone muted: {alone_muted}");
                    self.checked(&file, Ok(1)).map_err(|f| f.case(&case))?;
                    flip_cue::<A>(block_mut(&mut file, 1), slot, self.rng);
                    repair_block(&mut file, 1);
                    self.checked(&file, refused(16, 1)).map_err(|f| f.case(&case))?;
                }
            }
        }
        Ok(())
    }

    /// The muted number of one entry: next to the true one, next to the count, and bytes in the wrong order; and a
    /// count below it, which is 9 before the tile is looked at.
    fn numbers<const A: usize>(&mut self, base: &Base<A>, tile: usize) -> Result<(), Failure> {
        let (Entry { count, muted, .. }, position) = (base.town.entries[tile], tile / per_block(A));
        let values = [
            muted + 1,
            muted.wrapping_sub(1) & 0xffff,
            count,
            count + 1,
            0,
            most_sites(A),
            most_sites(A) + 1,
            255,
            256,
            256 * muted,
            256 + muted,
            256 * count,
            0x8000,
            0xffff,
        ];
        for value in values {
            let mut file = base.file.clone();
            set_u16(block_mut(&mut file, position), muted_at(A, tile), value);
            repair_block(&mut file, position);
            let tiles = base.town.entries.len();
            let case = format!("tile {tile} of {tiles}: {muted} of {count} sites muted, {value} by the directory");
            let due = match value {
                _ if value > count => refused(9, position),
                _ if value != muted => refused(16, base.d + tile),
                _ => Ok(tiles),
            };
            self.checked(&file, due).map_err(|f| f.case(&case))?;
            let query = self.query(&base.town, tile);
            if value > count {
                let due = Refusal { number: 9, block: position as u32 };
                self.join_refused(&file, &query, tiles, due).map_err(|f| f.case(&case))?;
            } else {
                let (joined, lent) = self.joined(&file, &query, tiles).map_err(|f| f.case(&case))?;
                let due = Refusal { number: 16, block: (base.d + tile) as u32 };
                assert!(joined.number == 0 || joined == due.into());
                assert!(joined.number != 0 || value == muted || lent.marks[tile] != 2);
                self.unread += (joined.number == 0 && value != muted) as usize;
            }
        }
        if muted > 0 {
            let mut file = base.file.clone();
            set_u16(block_mut(&mut file, position), muted_at(A, tile) - 2, muted - 1);
            repair_block(&mut file, position);
            let case = format!("tile {tile}: {muted} muted by the directory, and a count of {}", muted - 1);
            self.checked(&file, refused(9, position)).map_err(|f| f.case(&case))?;
        }
        Ok(())
    }

    /// The cues of one tile: some muted or made to sound, with the check made right.
    fn cues<const A: usize>(&mut self, base: &Base<A>, tile: usize) -> Result<(), Failure> {
        let sites = &base.town.sites[tile];
        let cue_at = |slot: usize| site_at(A, slot) + cue_in_site(A);
        for round in 0..8 {
            let mut file = base.file.clone();
            let block = block_mut(&mut file, base.d + tile);
            let mut order: Vec<usize> = (0..sites.len()).collect();
            self.rng.shuffle(&mut order);
            let find = |is_muted: bool| order.iter().find(|slot| sites[**slot].is_muted() == is_muted).copied();
            let mut set = |slot: usize, cue: u32| {
                block[cue_at(slot)..cue_at(slot) + 4].copy_from_slice(&cue.to_le_bytes());
            };
            match round {
                // One more muted; one less, by any cue and by one byte of it.
                0 => find(false).into_iter().for_each(|slot| set(slot, 0)),
                1 => find(true).into_iter().for_each(|slot| set(slot, sounding_cue(self.rng))),
                2 => find(true).into_iter().for_each(|slot| set(slot, 1 << (8 * self.rng.below(4)))),
                // One more and one less: as many as before, in other slots.
                3 => {
                    if let (Some(one), Some(other)) = (find(false), find(true)) {
                        set(one, 0);
                        set(other, sounding_cue(self.rng));
                    }
                }
                4 => (0..sites.len()).for_each(|slot| set(slot, 0)),
                5 => (0..sites.len()).for_each(|slot| set(slot, sounding_cue(self.rng))),
                6 => (0..sites.len()).for_each(|slot| set(slot, other_cue(sites[slot].cue))),
                _ => order.iter().filter(|_| self.rng.chance(2)).for_each(|slot| set(*slot, 0)),
            }
            let now = (0..sites.len()).filter(|slot| u32_at(block, cue_at(*slot)) == 0).count();
            repair_block(&mut file, base.d + tile);
            let number = if now == muted(sites) { None } else { Some(16) };
            let case = format!("tile {tile}: {now} muted sites, {} by the directory (round {round})", muted(sites));
            self.tile_changed(base, &file, tile, number).map_err(|f| f.case(&case))?;
        }
        Ok(())
    }

    /// 02.1: "Old files with a cue 0 must be written again": zero in bytes 18-19 of every entry.
    fn old_file<const A: usize>(&mut self, base: &Base<A>) -> Result<(), Failure> {
        let mut file = base.file.clone();
        let tiles = base.town.entries.len();
        for tile in 0..tiles {
            set_u16(block_mut(&mut file, tile / per_block(A)), muted_at(A, tile), 0);
        }
        (0..base.d).for_each(|position| repair_block(&mut file, position));
        let first = (0..tiles).find(|tile| muted(&base.town.sites[*tile]) > 0);
        self.checked(&file, first.map_or(Ok(tiles), |tile| refused(16, base.d + tile)))?;
        for _ in 0..20 {
            let tile = self.rng.below(tiles);
            let query = self.query(&base.town, tile);
            let (joined, lent) = self.joined(&file, &query, tiles)?;
            let opened = || (0..tiles).filter(|tile| lent.marks[*tile] == 2);
            assert!(joined.number == 16 || opened().all(|tile| muted(&base.town.sites[tile]) == 0));
        }
        Ok(())
    }
}

pub fn run<const A: usize>(rng: &mut Rng, tally: &mut Tally) -> Result<String, Failure> {
    let before = tally.sixteens();
    let mut trial = Trial { rng, tally, files: 0, unread: 0 };
    trial.every_triple::<A>()?;
    let triples = trial.files;
    trial.every_slot::<A>()?;
    let full = per_block(A);
    for _ in 0..60 {
        let tiles = trial.rng.pick(&[1, 2, 4, 6, full, full + 1, 30, 2 * full + 1, 3 * full + 1]);
        let base: Base<A> = base(tiles, trial.rng);
        for _ in 0..6 {
            let tile = trial.rng.below(tiles);
            trial.numbers(&base, tile)?;
            trial.cues(&base, tile)?;
        }
        trial.old_file(&base)?;
    }
    // The largest file: the first and the last tile, and a block whose position takes two bytes.
    let largest: Base<A> = base(960, trial.rng);
    for tile in [0, 256 - largest.d, 959] {
        trial.numbers(&largest, tile)?;
        trial.cues(&largest, tile)?;
    }
    let (files, unread) = (trial.files, trial.unread);
    let after = tally.sixteens();
    Ok(format!(
        "{} files with every count, muted number and number of muted sites, {} with other muted numbers and cues; 16 \
         from the full check {} times and from the join {} times; {} joins that did not open the tile and answered",
        count(triples),
        count(files - triples),
        count(after.0 - before.0),
        count(after.1 - before.1),
        count(unread)
    ))
}
