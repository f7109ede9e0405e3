//! Which numbers of the table were reached, and at which blocks.

use crate::paper::directory::axes_of;
use crate::paper::Refusal;
use crate::parts::count;
use std::collections::{BTreeMap, BTreeSet};

type Blocks = BTreeMap<u32, BTreeSet<u32>>;

#[derive(Default)]
pub struct Tally {
    /// Every number that some call gave, with its block.
    all: Blocks,
    /// Numbers given to directory blocks.
    directory: Blocks,
    /// Numbers given to tiles by the full check.
    tiles: Blocks,
    /// Numbers given to tiles by the join, and those after it had opened another tile.
    openings: Blocks,
    later_openings: Blocks,
    /// How often 16 was given, by the full check and by the join.
    sixteens: (usize, usize),
}

fn add(to: &mut Blocks, refusal: Refusal) {
    to.entry(refusal.number).or_default().insert(refusal.block);
}

impl Tally {
    /// A refusal that is not of a block.
    pub fn plain(&mut self, refusal: Refusal) {
        add(&mut self.all, refusal);
    }

    /// A refusal by the strike call, the stream order call, the full check (`opened_well` none) or the join.
    pub fn of_file(&mut self, file: &[u8], refusal: Refusal, opened_well: Option<usize>) {
        add(&mut self.all, refusal);
        if !(2..=10).contains(&refusal.number) && refusal.number != 16 {
            return;
        }
        match (refusal.number, opened_well) {
            (16, None) => self.sixteens.0 += 1,
            (16, Some(_)) => self.sixteens.1 += 1,
            _ => {}
        }
        match axes_of(file) {
            Err(r) if r == refusal => add(&mut self.directory, refusal),
            Err(_) => {}
            // 9 for O, of the strike call or of the stream order call
            Ok(_) if refusal.number == 9 => {}
            Ok(_) => match opened_well {
                None => add(&mut self.tiles, refusal),
                Some(before) => {
                    add(&mut self.openings, refusal);
                    if before > 0 {
                        add(&mut self.later_openings, refusal);
                    }
                }
            },
        }
    }

    pub fn sixteens(&self) -> (usize, usize) {
        self.sixteens
    }

    /// Each number was reached, and those of blocks at several blocks.
    pub fn verdict(&self) -> Result<String, String> {
        let least = |blocks: &Blocks, numbers: &[u32]| -> usize {
            numbers.iter().map(|number| blocks.get(number).map_or(0, |set| set.len())).min().unwrap()
        };
        let every: Vec<u32> = (1..=17).collect();
        let in_directory = [2, 3, 4, 5, 6, 7, 8, 9];
        let in_tiles = [2, 3, 4, 5, 7, 8, 10, 16];
        let needs = [
            ("any call", &self.all, &every[..], 1),
            ("a directory block", &self.directory, &in_directory[..], 3),
            ("a tile, by the full check", &self.tiles, &in_tiles[..], 5),
            ("a tile, by the join", &self.openings, &in_tiles[..], 5),
            ("a tile, by the join after other openings", &self.later_openings, &in_tiles[..], 5),
        ];
        for (what, blocks, numbers, due) in needs {
            let got = least(blocks, numbers);
            if got < due {
                return Err(format!(
                    "some number of {numbers:?} was reached at {got} blocks, {due} due, for {what}: {blocks:?}"
                ));
            }
        }
        let pairs = |blocks: &Blocks| -> usize { blocks.values().map(|set| set.len()).sum() };
        Ok(format!(
            "each of 1 to 17 reached; pairs of number and block: {} in directories, {} in tiles by the full check, \
             {} by openings, {} by openings that were not the first; 16 given {} times by the full check, {} times by \
             the join",
            pairs(&self.directory),
            pairs(&self.tiles),
            pairs(&self.openings),
            pairs(&self.later_openings),
            count(self.sixteens.0),
            count(self.sixteens.1),
        ))
    }
}
