//! "Blocks": fields, the check, and what is tested of a tile when it is opened.

use super::boxes::inside;
use super::{each_axis, muted, refuse, Entry, Refusal, Site};

pub const SIZE: usize = 512;
pub const SYNC: u8 = 0xd6;

/// "kind, 1 directory, 2 tile"; 02.2: "kind 3 for directory and 4 for tile".
pub const fn directory_kind(axes: usize) -> u8 {
    if axes == 2 {
        1
    } else {
        3
    }
}

pub const fn tile_kind(axes: usize) -> u8 {
    if axes == 2 {
        2
    } else {
        4
    }
}

/// "A directory entry has 20 bytes: low x, low y, high x, high y (signed, 4 bytes each), count (2), zero (2)", which
/// 02.1 makes the muted number; 02.2: "entries of 28 bytes (three lows, three highs, count, muted)".
pub const fn entry_size(axes: usize) -> usize {
    8 * axes + 4
}

/// "A site has 12 bytes: x, y (signed), cue."; 02.2: "sites of 16 bytes with z after y".
pub const fn site_size(axes: usize) -> usize {
    4 * axes + 4
}

/// "Payload at 16-495."
const PAYLOAD: usize = 480;

/// "24 fit a block."; 02.2: "17 to a block".
pub const fn per_block(axes: usize) -> usize {
    PAYLOAD / entry_size(axes)
}

/// "A tile has 0 to 40 sites"; 02.2: "at most 30 to a tile".
pub const fn most_sites(axes: usize) -> usize {
    PAYLOAD / site_size(axes)
}

/// Where entry i of a directory block starts, and site i of a tile.
pub fn entry_at(axes: usize, entry: usize) -> usize {
    16 + entry_size(axes) * entry
}

pub fn site_at(axes: usize, slot: usize) -> usize {
    16 + site_size(axes) * slot
}

/// Where in an entry the count is; the muted number is after it.
pub const fn count_in_entry(axes: usize) -> usize {
    8 * axes
}

/// Where in a site the cue is.
pub const fn cue_in_site(axes: usize) -> usize {
    4 * axes
}

pub fn u16_at(block: &[u8], at: usize) -> usize {
    block[at] as usize + 256 * block[at + 1] as usize
}

pub fn u32_at(bytes: &[u8], at: usize) -> u32 {
    u32::from_le_bytes([bytes[at], bytes[at + 1], bytes[at + 2], bytes[at + 3]])
}

pub fn i32_at(bytes: &[u8], at: usize) -> i32 {
    u32_at(bytes, at) as i32
}

/// "Check: a and c, 64-bit numbers, start at 0; for each of bytes 1 to 509, a becomes (a + byte) mod 255, then c
/// becomes (c + a) mod 255."
pub fn check(block: &[u8]) -> (u8, u8) {
    let (mut a, mut c) = (0u64, 0u64);
    for byte in &block[1..=509] {
        a = (a + *byte as u64) % 255;
        c = (c + a) % 255;
    }
    (a as u8, c as u8)
}

/// "Exported check takes a byte slice: 0, or 1 (not 512 bytes), 2, 3." "Byte 510 is a, byte 511 is c; a stored 255
/// never agrees" (a and c are below 255).
pub fn block_check(slice: &[u8]) -> u32 {
    if slice.len() != SIZE {
        1
    } else if slice[0] != SYNC {
        2
    } else if (slice[510], slice[511]) != check(slice) {
        3
    } else {
        0
    }
}

/// The tests that every block has, in table order: 2 sync, 3 check, 4 kind, 5 position.
pub fn common_tests(block: &[u8], kind_due: u8, position: usize) -> Result<(), Refusal> {
    match block_check(block) {
        0 => {}
        number => return refuse(number, position),
    }
    if block[1] != kind_due {
        return refuse(4, position);
    }
    if u16_at(block, 2) != position {
        return refuse(5, position);
    }
    Ok(())
}

/// "then openings, each 2, 3, 4, 5, 7, 8, 10"; 02.1: 16 "tested after 10". `position` is d + t.
pub fn open_tile<const A: usize>(block: &[u8], position: usize, entry: &Entry<A>) -> Result<Vec<Site<A>>, Refusal> {
    // 02.2: "Block 0 settles the axes; another kind later is 4."
    common_tests(block, tile_kind(A), position)?;
    // 7: "in a tile not the directory's count"
    if u16_at(block, 4) != entry.count {
        return refuse(7, position);
    }
    // 8: bytes 6-7 are "zero in a tile"; "All else zero, unused payload too."
    let due_zero = (6..16).chain(site_at(A, entry.count)..510);
    if due_zero.into_iter().any(|i| block[i] != 0) {
        return refuse(8, position);
    }
    // "x, y (signed), cue"; 02.2: "with z after y"
    let sites: Vec<Site<A>> = (0..entry.count)
        .map(|slot| site_at(A, slot))
        .map(|at| Site { at: each_axis(|axis| i32_at(block, at + 4 * axis)), cue: u32_at(block, at + cue_in_site(A)) })
        .collect();
    // 10: "a site outside its box"
    if sites.iter().any(|site| !inside(site.at, entry.bounds)) {
        return refuse(10, position);
    }
    // 02.1: "16 when an opened tile's muted sites differ in number from the directory"
    if muted(&sites) != entry.muted {
        return refuse(16, position);
    }
    Ok(sites)
}
