//! The length of a file and its directory: 1, then each directory block "2 to 9 in table order"; and the full check.

use super::blocks::{
    block_check, common_tests, count_in_entry, directory_kind, entry_at, i32_at, most_sites, open_tile, per_block,
    u16_at, SIZE,
};
use super::boxes::good_box;
use super::{each_axis, refuse, Entry, Refusal, Site};

/// "T is 1 to 960."; 02.2: "T stays at most 960".
pub const MOST_TILES: usize = 960;

/// "over 512,000" is 1: with two axes.
pub const MOST_BYTES_OF_PLAN: usize = 512_000;

/// 02.2: "such a file may have 1,017 blocks: over 520,704 bytes is 1 before all else".
pub const MOST_BYTES: usize = 520_704;

/// "d = T/24 rounded up"; 02.2: "17 to a block".
pub fn directory_blocks(axes: usize, tiles: usize) -> usize {
    tiles.div_ceil(per_block(axes))
}

/// The bytes of a file: d directory blocks, then the tiles.
pub fn file_size(axes: usize, tiles: usize) -> usize {
    SIZE * (directory_blocks(axes, tiles) + tiles)
}

pub fn block_of(file: &[u8], position: usize) -> &[u8] {
    &file[position * SIZE..(position + 1) * SIZE]
}

/// 1, and what of block 0 comes before its position: 02.2: "Block 0 settles the axes".
fn settled_axes(file: &[u8]) -> Result<usize, Refusal> {
    // 1: "file of 0 bytes, not a multiple of 512, or over 512,000"
    if file.is_empty() || file.len() % SIZE != 0 || file.len() > MOST_BYTES {
        return refuse(1, 0);
    }
    let block = block_of(file, 0);
    match block_check(block) {
        0 => {}
        number => return refuse(number, 0),
    }
    let axes = match [2, 3].into_iter().find(|axes| block[1] == directory_kind(*axes)) {
        Some(axes) => axes,
        None => return refuse(4, 0),
    };
    // 02.2: "and over 512,000 is 1 directly after block 0's test for 4 if its kind is 1"
    if axes == 2 && file.len() > MOST_BYTES_OF_PLAN {
        return refuse(1, 0);
    }
    Ok(axes)
}

/// The length and the whole directory: gives the entries of all tiles, nothing if the town has not A axes, or the first
/// refusal.
pub fn read_directory<const A: usize>(file: &[u8]) -> Result<Option<Vec<Entry<A>>>, Refusal> {
    match settled_axes(file)? {
        axes if axes == A => read_entries::<A>(file).map(Some),
        2 => read_entries::<2>(file).map(|_| None),
        _ => read_entries::<3>(file).map(|_| None),
    }
}

/// The same for any number of axes: gives that number, 2 or 3, or the first refusal.
pub fn axes_of(file: &[u8]) -> Result<usize, Refusal> {
    Ok(if read_directory::<2>(file)?.is_some() { 2 } else { 3 })
}

/// Gives the entries of all tiles, or the first refusal, where block 0 has settled on A axes.
fn read_entries<const A: usize>(file: &[u8]) -> Result<Vec<Entry<A>>, Refusal> {
    let blocks = file.len() / SIZE;
    let mut entries = Vec::new();
    let mut d = 1; // known better once block 0 is read
    let mut position = 0;
    while position < d {
        let block = block_of(file, position);
        // 02.2: "another kind later is 4"
        common_tests(block, directory_kind(A), position)?;
        // 6: "T is 0, over 960, unlike block 0, or d + T is not the file's blocks"
        let tiles = u16_at(block, 6);
        let tiles_of_block_0 = u16_at(block_of(file, 0), 6);
        if tiles == 0 || tiles > MOST_TILES || tiles != tiles_of_block_0 || directory_blocks(A, tiles) + tiles != blocks
        {
            return refuse(6, position);
        }
        d = directory_blocks(A, tiles);
        // 7: "Each directory block but the last has 24 entries."
        let due = if position + 1 < d { per_block(A) } else { tiles - per_block(A) * (d - 1) };
        if u16_at(block, 4) != due {
            return refuse(7, position);
        }
        // 8: "All else zero, unused payload too."
        let mut due_zero = (8..16).chain(entry_at(A, due)..510);
        if due_zero.any(|i| block[i] != 0) {
            return refuse(8, position);
        }
        // "low x, low y, high x, high y (signed, 4 bytes each), count (2)"; 02.1: "Bytes 18-19 of a directory entry
        // hold the number of muted sites"; 02.2: "three lows, three highs, count, muted"
        let here: Vec<Entry<A>> = (0..due)
            .map(|entry| entry_at(A, entry))
            .map(|at| Entry {
                bounds: each_axis(|axis| [i32_at(block, at + 4 * axis), i32_at(block, at + 4 * (A + axis))]),
                count: u16_at(block, at + count_in_entry(A)),
                muted: u16_at(block, at + count_in_entry(A) + 2),
            })
            .collect();
        // 9: "coordinate beyond limits, low above high, or count over 40"; 02.1: "at most the count, else 9"; 02.2: "A
        // count over 30 is 9 there"
        let good = |e: &Entry<A>| good_box(e.bounds) && e.count <= most_sites(A) && e.muted <= e.count;
        if !here.iter().all(good) {
            return refuse(9, position);
        }
        entries.extend(here);
        position += 1;
    }
    Ok(entries)
}

/// "then tile t at position d + t"; "A tile not yet opened is opened, which checks its block".
pub fn open<const A: usize>(file: &[u8], entries: &[Entry<A>], tile: usize) -> Result<Vec<Site<A>>, Refusal> {
    let position = directory_blocks(A, entries.len()) + tile;
    open_tile(block_of(file, position), position, &entries[tile])
}

/// "The full check tests 1 and the directory as the join does, then opens all tiles in order, empty ones too, and
/// gives T or the first refusal." It takes a town of any number of axes.
pub fn full_check(file: &[u8]) -> Result<usize, Refusal> {
    match settled_axes(file)? {
        2 => all_tiles::<2>(file),
        _ => all_tiles::<3>(file),
    }
}

fn all_tiles<const A: usize>(file: &[u8]) -> Result<usize, Refusal> {
    let entries = read_entries::<A>(file)?;
    for tile in 0..entries.len() {
        open(file, &entries, tile)?;
    }
    Ok(entries.len())
}
