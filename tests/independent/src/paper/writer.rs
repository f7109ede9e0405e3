//! "The writer takes boxes, counts, and x, y, cue lists in tile order, and writes the file; later bytes stay."

use super::blocks::{check, directory_kind, most_sites, per_block, tile_kind, SIZE, SYNC};
use super::boxes::{good_box, inside};
use super::directory::{directory_blocks, file_size, read_directory, MOST_TILES};
use super::{each_axis, refuse, Bounds, Refusal, Town};

/// The writer's lists.
#[derive(Clone, Debug)]
pub struct Supply<const A: usize> {
    /// "4 numbers for each tile, in the directory's order": low x, low y, high x, high y; 02.2: "the writer takes six
    /// numbers for each box", three lows and three highs.
    pub boxes: Vec<i32>,
    pub counts: Vec<u32>,
    /// The lists of x, y and, with three axes, z.
    pub at: [Vec<i32>; A],
    pub cues: Vec<u32>,
}

impl<const A: usize> Supply<A> {
    pub fn of(town: &Town<A>) -> Supply<A> {
        let all = || town.sites.iter().flatten();
        let lows_and_highs = |b: Bounds<A>| [0, 1].map(|end| b.map(|ends| ends[end])).concat();
        Supply {
            boxes: town.entries.iter().flat_map(|e| lows_and_highs(e.bounds)).collect(),
            counts: town.entries.iter().map(|e| e.count as u32).collect(),
            at: each_axis(|axis| all().map(|s| s.at[axis]).collect()),
            cues: all().map(|s| s.cue).collect(),
        }
    }

    /// The numbers of a tile's box.
    fn numbers(&self, tile: usize) -> &[i32] {
        &self.boxes[2 * A * tile..2 * A * (tile + 1)]
    }

    fn bounds(&self, tile: usize) -> Bounds<A> {
        each_axis(|axis| [self.numbers(tile)[axis], self.numbers(tile)[A + axis]])
    }
}

/// Sets the check of a block.
pub fn repair(block: &mut [u8]) {
    let (a, c) = check(block);
    block[510] = a;
    block[511] = c;
}

/// "Byte 0: D6 hex. Byte 1: kind. Bytes 2-3: the block's position in the file. Bytes 4-5: entries. Bytes 6-7: T ...
/// in a directory block; zero in a tile. Payload at 16-495. Check at 510-511. All else zero".
fn block(kind: u8, position: usize, entries: usize, tiles: usize, payload: &[u8]) -> Vec<u8> {
    let mut block = vec![0; SIZE];
    block[0] = SYNC;
    block[1] = kind;
    block[2..4].copy_from_slice(&(position as u16).to_le_bytes());
    block[4..6].copy_from_slice(&(entries as u16).to_le_bytes());
    block[6..8].copy_from_slice(&(tiles as u16).to_le_bytes());
    block[16..16 + payload.len()].copy_from_slice(payload);
    repair(&mut block);
    block
}

/// "Order: 6, 15 (boxes are not 4 numbers for each tile, in the directory's order), 9, 15 (a site list's length is
/// not the sum of counts), 10, 14; refused, it writes nothing." Gives "the file's length in bytes".
pub fn write<const A: usize>(supply: &Supply<A>, out: &mut [u8]) -> Result<usize, Refusal> {
    // "T is the number of counts."
    let tiles = supply.counts.len();
    if tiles == 0 || tiles > MOST_TILES {
        return refuse(6, 0);
    }
    if supply.boxes.len() != 2 * A * tiles {
        return refuse(15, 0);
    }
    // 02.2: "A count over 30 is 9 there"
    if (0..tiles).any(|t| !good_box(supply.bounds(t)) || supply.counts[t] > most_sites(A) as u32) {
        return refuse(9, 0);
    }
    let all: usize = supply.counts.iter().map(|c| *c as usize).sum();
    if supply.at.iter().any(|list| list.len() != all) || supply.cues.len() != all {
        return refuse(15, 0);
    }
    let mut tile_of = Vec::new();
    for tile in 0..tiles {
        for _ in 0..supply.counts[tile] {
            tile_of.push(tile);
        }
    }
    if (0..all).any(|s| !inside(each_axis(|axis| supply.at[axis][s]), supply.bounds(tile_of[s]))) {
        return refuse(10, 0);
    }
    let d = directory_blocks(A, tiles);
    let length = SIZE * (d + tiles);
    if out.len() < length {
        return refuse(14, 0);
    }

    // 02.1: "the writer counts them from the cues"
    let mut muted = vec![0u16; tiles];
    for site in (0..all).filter(|s| supply.cues[*s] == 0) {
        muted[tile_of[site]] += 1;
    }
    let mut file = Vec::new();
    for position in 0..d {
        let first = per_block(A) * position;
        let last = tiles.min(first + per_block(A));
        let mut payload = Vec::new();
        for tile in first..last {
            for number in supply.numbers(tile) {
                payload.extend(number.to_le_bytes());
            }
            payload.extend((supply.counts[tile] as u16).to_le_bytes());
            payload.extend(muted[tile].to_le_bytes());
        }
        file.extend(block(directory_kind(A), position, last - first, tiles, &payload));
    }
    let mut site = 0;
    for tile in 0..tiles {
        let mut payload = Vec::new();
        for _ in 0..supply.counts[tile] {
            for list in &supply.at {
                payload.extend(list[site].to_le_bytes());
            }
            payload.extend(supply.cues[site].to_le_bytes());
            site += 1;
        }
        file.extend(block(tile_kind(A), d + tile, supply.counts[tile] as usize, 0, &payload));
    }
    out[..length].copy_from_slice(&file);
    Ok(length)
}

/// The file of a town. The numbers of its directory are those that the town was generated with.
pub fn file_of<const A: usize>(town: &Town<A>) -> Vec<u8> {
    let tiles = town.entries.len();
    let mut out = vec![0; file_size(A, tiles)];
    let length = write(&Supply::of(town), &mut out).expect("a generated town is good");
    assert_eq!(length, out.len());
    assert_eq!(read_directory(&out), Ok(Some(town.entries.clone())));
    out
}
