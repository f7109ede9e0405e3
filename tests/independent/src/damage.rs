//! Ways to damage a file: fields of a block set to wrong values, lengths, whole blocks.

use crate::fillings::sounding_cue;
use crate::paper::blocks::{
    count_in_entry, cue_in_site, entry_at, i32_at, most_sites, per_block, site_at, u16_at, u32_at, SIZE,
};
use crate::paper::directory::directory_blocks;
use crate::paper::writer::repair;
use crate::paper::{Town, LIMIT};
use crate::rng::Rng;

pub fn block_mut(file: &mut [u8], position: usize) -> &mut [u8] {
    &mut file[position * SIZE..(position + 1) * SIZE]
}

pub fn repair_block(file: &mut [u8], position: usize) {
    repair(block_mut(file, position));
}

pub fn set_u16(block: &mut [u8], at: usize, value: usize) {
    block[at..at + 2].copy_from_slice(&(value as u16).to_le_bytes());
}

pub fn set_i32(block: &mut [u8], at: usize, value: i32) {
    block[at..at + 4].copy_from_slice(&value.to_le_bytes());
}

pub fn not_zero(rng: &mut Rng) -> u8 {
    1 + rng.below(255) as u8
}

fn beyond(rng: &mut Rng) -> i32 {
    rng.pick(&[LIMIT + 1, -LIMIT - 1, i32::MIN, i32::MAX])
}

/// Another number than the one that is there.
fn wrong_u16(block: &mut [u8], at: usize, candidates: &[usize], rng: &mut Rng) -> usize {
    let was = u16_at(block, at);
    let near_it = [was.wrapping_sub(1) & 0xffff, was + 1, was ^ 0x100, was.swap_bytes() >> 48, 0, 0xffff];
    loop {
        let value = if rng.chance(2) { rng.pick(&near_it) } else { rng.pick(candidates) } & 0xffff;
        if value != was {
            set_u16(block, at, value);
            return value;
        }
    }
}

/// The kinds of both families and some that are none, without this one.
pub fn other_kinds(kind: u8) -> Vec<u8> {
    [0, 1, 2, 3, 4, 5, 255].into_iter().filter(|other| *other != kind).collect()
}

/// Changes the header fields that every block has. Says what it did.
fn common_field(block: &mut [u8], which: usize, rng: &mut Rng) -> String {
    match which {
        0 => {
            block[0] ^= not_zero(rng);
            format!("sync {}", block[0])
        }
        1 => {
            block[1] = rng.pick(&other_kinds(block[1]));
            format!("kind {}", block[1])
        }
        2 => format!("position {}", wrong_u16(block, 2, &[1, 2, 999], rng)),
        3 => format!("entries {}", wrong_u16(block, 4, &[24, 40, 41, 25, 1], rng)),
        _ => {
            let at = rng.pick(&[8, 9, 10, 11, 12, 13, 14, 15, 496, 497, 500, 508, 509]);
            block[at] = not_zero(rng);
            format!("byte {at} is {}", block[at])
        }
    }
}

/// A wrong value in a directory block.
fn directory_field<const A: usize>(block: &mut [u8], rng: &mut Rng) -> String {
    let entries = u16_at(block, 4).clamp(1, per_block(A));
    let any = rng.below(entries);
    let entry = rng.pick(&[0, entries - 1, any]);
    let at = entry_at(A, entry);
    let (low_at, high_at) = (|axis: usize| at + 4 * axis, |axis: usize| at + 4 * (A + axis));
    let (count_at, most) = (at + count_in_entry(A), most_sites(A));
    match rng.below(15) {
        which @ 0..=4 => common_field(block, which, rng),
        5 | 6 => format!("T {}", wrong_u16(block, 6, &[1, per_block(A), per_block(A) + 1, 960, 961], rng)),
        7 => {
            let field = at + 4 * rng.below(2 * A);
            set_i32(block, field, beyond(rng));
            format!("entry {entry} has a coordinate {}", i32_at(block, field))
        }
        8 => {
            // Both ends beyond on the same side: low is not above high.
            let (axis, value) = (rng.below(A), beyond(rng));
            set_i32(block, low_at(axis), value);
            set_i32(block, high_at(axis), value);
            format!("entry {entry} has both ends {value}")
        }
        9 => {
            let axis = rng.below(A);
            let high = i32_at(block, high_at(axis)).clamp(-LIMIT, LIMIT - 1);
            set_i32(block, high_at(axis), high);
            set_i32(block, low_at(axis), high + 1);
            format!("entry {entry} has low above high on axis {axis}")
        }
        10 => {
            let count = wrong_u16(block, count_at, &[most + 1, 40, 41, 65_535, 256 + most], rng);
            format!("entry {entry} has count {count}")
        }
        11 | 14 => {
            let count = u16_at(block, count_at);
            let muted = wrong_u16(block, count_at + 2, &[count, count + 1, count / 2, most, most + 1, 255, 256], rng);
            format!("entry {entry} has muted number {muted}")
        }
        12 => {
            let unused = rng.range(entry_at(A, entries) as i32, 509) as usize;
            block[unused] = not_zero(rng);
            format!("byte {unused} is {}", block[unused])
        }
        _ => {
            // A box that the sites may not fit any more.
            let axis = rng.below(A);
            let high = i32_at(block, high_at(axis));
            set_i32(block, low_at(axis), high);
            format!("entry {entry} has its low end at its high end on axis {axis}")
        }
    }
}

/// Mutes the site in this slot, or lets it sound. Gives the cue.
pub fn flip_cue<const A: usize>(block: &mut [u8], slot: usize, rng: &mut Rng) -> u32 {
    let at = site_at(A, slot) + cue_in_site(A);
    let cue = if u32_at(block, at) == 0 { sounding_cue(rng) } else { 0 };
    block[at..at + 4].copy_from_slice(&cue.to_le_bytes());
    cue
}

/// A wrong value in the block of a tile.
fn tile_field<const A: usize>(block: &mut [u8], town: &Town<A>, tile: usize, rng: &mut Rng) -> String {
    let entry = town.entries[tile];
    let any = rng.below(entry.count.max(1));
    let slot = rng.pick(&[0, entry.count.saturating_sub(1), any]);
    let at = site_at(A, slot);
    match rng.below(16) {
        which @ 0..=4 => common_field(block, which, rng),
        5 => {
            let high = rng.below(2);
            block[6 + high] = rng.pick(&[1, 255, town.entries.len() as u8 | 1]);
            format!("byte {} is {}", 6 + high, block[6 + high])
        }
        6 => {
            let unused = rng.range(site_at(A, entry.count) as i32, 509) as usize;
            block[unused] = not_zero(rng);
            format!("byte {unused} is {}", block[unused])
        }
        7 => {
            let unused = site_at(A, entry.count);
            block[unused] = not_zero(rng);
            format!("the first byte past the sites, {unused}, is {}", block[unused])
        }
        8..=10 if entry.count > 0 => {
            let (axis, end) = (rng.below(A), rng.below(2));
            let outside = entry.bounds[axis][end] + if end == 0 { -1 } else { 1 };
            set_i32(block, at + 4 * axis, outside);
            format!("slot {slot} is at {outside} on axis {axis}, one outside")
        }
        11 if entry.count > 0 => {
            let (axis, value) = (rng.below(A), beyond(rng));
            set_i32(block, at + 4 * axis, value);
            format!("slot {slot} is at {value} on axis {axis}")
        }
        12 if entry.count > 0 => {
            // Another good filling.
            let (axis, end) = (rng.below(A), rng.below(2));
            set_i32(block, at + 4 * axis, entry.bounds[axis][end]);
            format!("slot {slot} is at an end of axis {axis}")
        }
        13 if entry.count > 0 => {
            let cue = at + cue_in_site(A) + rng.below(4);
            block[cue] = rng.byte();
            format!("byte {cue} of a cue is {}", block[cue])
        }
        14 | 15 if entry.count > 0 => format!("slot {slot} has cue {}", flip_cue::<A>(block, slot, rng)),
        _ => {
            let value = rng.pick(&[0u8, 255]);
            block[16..496].fill(value);
            format!("the payload is all {value}")
        }
    }
}

/// A wrong value in the block at this position; the check is left as it is. Says what it did.
pub fn wrong_field<const A: usize>(file: &mut [u8], town: &Town<A>, position: usize, rng: &mut Rng) -> String {
    let d = directory_blocks(A, town.entries.len());
    let block = block_mut(file, position);
    let what = match position.checked_sub(d) {
        None => directory_field::<A>(block, rng),
        Some(tile) => tile_field(block, town, tile, rng),
    };
    format!("block {position}: {what}")
}

/// A wrong value in some directory block, with the check repaired mostly.
pub fn some_directory_field<const A: usize>(file: &mut [u8], town: &Town<A>, rng: &mut Rng) -> String {
    let position = rng.below(directory_blocks(A, town.entries.len()));
    let what = wrong_field(file, town, position, rng);
    if !rng.chance(5) {
        repair_block(file, position);
    }
    what
}

/// A wrong value in every tile that is not empty, with the check repaired mostly.
pub fn every_tile<const A: usize>(file: &mut [u8], town: &Town<A>, rng: &mut Rng) {
    let d = directory_blocks(A, town.entries.len());
    for tile in 0..town.entries.len() {
        wrong_field(file, town, d + tile, rng);
        if !rng.chance(5) {
            repair_block(file, d + tile);
        }
    }
}

/// A length that is 0, over 512,000, over 520,704 or no multiple of 512.
pub fn wrong_length(file: &mut Vec<u8>, rng: &mut Rng) -> String {
    let was = file.len();
    let length = match rng.below(8) {
        0 => 0,
        1 => 512_000 + rng.pick(&[512, 1_024, 8_704, 8_704 + 512]),
        2 => rng.pick(&[512_001, 520_705]),
        3 => 1 + rng.below(511),
        4 => was + 1,
        5 => was + 1 + rng.below(511),
        6 => was - 1 - rng.below(511),
        _ => was - 1,
    };
    file.resize(length, 0);
    format!("length {length}, was {was}")
}
