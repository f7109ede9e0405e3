//! Damaged files: nearby_validate, nearby_prune, nearby_stream_order and nearby_join on each, with guard elements.

use super::count;
use crate::compare::{self, Failure, Lengths, Query};
use crate::damage::{repair_block, wrong_field, wrong_length};
use crate::fillings::{filling, point_in, Mutes};
use crate::paper::blocks::{directory_kind, most_sites, per_block, SIZE, SYNC};
use crate::paper::boxes::smallest_around;
use crate::paper::directory::{axes_of, directory_blocks, open, read_directory};
use crate::paper::writer::{file_of, Supply};
use crate::paper::{each_axis, Entry, Town};
use crate::rng::Rng;
use crate::tally::Tally;

/// A town in a grid with empty, full, muted and other tiles, and its file.
pub struct Base<const A: usize> {
    pub town: Town<A>,
    pub file: Vec<u8>,
    pub d: usize,
}

pub fn base<const A: usize>(tiles: usize, rng: &mut Rng) -> Base<A> {
    let (mutes, most) = (Mutes::some(rng), most_sites(A));
    let entries: Vec<Entry<A>> = (0..tiles)
        .map(|tile| {
            let low = [tile % 7 * 900, tile / 7 * 900, tile % 3 * 300].map(|low| low as i32);
            let ends = [[low[0] - 2_000, low[0] - 1_000], [low[1] - 1_000, low[1] - 50], [low[2] - 400, low[2]]];
            let (count, muted) = match tile % 6 {
                0 => (3, 1),
                1 => (most, rng.pick(&[0, 1, most - 1, most])),
                2 => (0, 0),
                3 => rng.pick(&[(1, 1), (5, 5), (most, most)]),
                _ => {
                    let count = rng.below(most + 1);
                    (count, mutes.of(count, rng))
                }
            };
            Entry { bounds: each_axis(|axis| ends[axis]), count, muted }
        })
        .collect();
    let sites = entries.iter().map(|e| filling(e, rng)).collect();
    let town = Town { entries, sites };
    Base { file: file_of(&town), d: directory_blocks(A, tiles), town }
}

struct Trial<'a> {
    rng: &'a mut Rng,
    tally: &'a mut Tally,
    files: usize,
    /// Files that went to the stream order.
    streamed: usize,
    accepted: usize,
}

impl Trial<'_> {
    /// The calls on a file. The stops are somewhere else first and then in the box of the tile that matters, so that
    /// the tile is opened after others. Stream order reads the directory alone: where that is as in the base, it has
    /// one file in eight.
    fn calls<const A: usize>(&mut self, base: &Base<A>, file: &[u8], tile: usize, case: &str) -> Result<(), Failure> {
        self.calls_on(base, file, tile).map_err(|f| f.case(case))
    }

    fn calls_on<const A: usize>(&mut self, base: &Base<A>, file: &[u8], tile: usize) -> Result<(), Failure> {
        let (rng, tiles) = (&mut *self.rng, base.town.entries.len());
        let elsewhere = base.town.entries[rng.below(tiles)].bounds;
        let mut stops = vec![point_in(base.town.entries[tile].bounds, rng)];
        if rng.chance(4) {
            stops.push(point_in(elsewhere, rng));
        } else {
            stops.insert(0, point_in(elsewhere, rng));
        }
        let query = Query::of(&stops, rng.pick(&[1, 2, 5, 30, 64]));
        let lengths = Lengths::enough(&query, tiles, rng);
        compare::join(file, &query, lengths, rng, self.tally)?;
        let (o, marks_len) = (smallest_around(&stops), tiles + rng.below(3));
        compare::prune(file, o, query.k, marks_len, rng, self.tally)?;
        let of_directory = SIZE * base.d;
        if file.get(..of_directory) != Some(&base.file[..of_directory]) || rng.chance(8) {
            compare::stream_order(file, o, marks_len, rng, self.tally)?;
            self.streamed += 1;
        }
        let checked = compare::validate(file, self.tally)?;
        self.files += 1;
        // "A file passes the full check exactly when our writer makes it from some town."
        if checked.is_ok() && file != base.file {
            self.accepted += 1;
            match axes_of(file).unwrap() {
                2 => self.written_again::<2>(file)?,
                _ => self.written_again::<3>(file)?,
            }
        }
        Ok(())
    }

    fn written_again<const A: usize>(&mut self, file: &[u8]) -> Result<(), Failure> {
        let entries = read_directory::<A>(file).unwrap().unwrap();
        let sites = (0..entries.len()).map(|t| open(file, &entries, t).unwrap()).collect();
        let supply = Supply::of(&Town { entries, sites });
        let written = compare::write(&supply, file.len(), self.rng, self.tally)?;
        if written.as_deref() != Ok(file) {
            let text = "nearby_validate accepts the file, and the writer makes another from its town".into();
            return Err(Failure::with_file(text, file));
        }
        Ok(())
    }

    /// The tile that matters for a block: its own, or any of a directory block's.
    fn tile_of<const A: usize>(&mut self, base: &Base<A>, position: usize) -> usize {
        match position.checked_sub(base.d) {
            Some(tile) => tile,
            None => {
                let first = per_block(A) * position;
                first + self.rng.below((base.town.entries.len() - first).min(per_block(A)))
            }
        }
    }

    /// Every byte position of a block, changed to several values, with the check repaired and not.
    fn every_byte<const A: usize>(&mut self, base: &Base<A>, position: usize) -> Result<(), Failure> {
        let tile = self.tile_of(base, position);
        for at in 0..SIZE {
            let was = base.file[SIZE * position + at];
            for value in [was ^ 1, was ^ 0x80, self.rng.byte()] {
                for repaired in [false, true] {
                    let mut file = base.file.clone();
                    file[SIZE * position + at] = value;
                    if repaired {
                        repair_block(&mut file, position);
                    }
                    let tiles = base.town.entries.len();
                    let case = format!(
                        "a town of {tiles} tiles, block {position}: byte {at} is {value}, was {was}, \
                         check repaired: {repaired}"
                    );
                    self.calls(base, &file, tile, &case)?;
                }
            }
        }
        Ok(())
    }

    /// One to three wrong fields in one block or several.
    fn wrong_fields<const A: usize>(&mut self, base: &Base<A>) -> Result<(), Failure> {
        let mut file = base.file.clone();
        let blocks = base.d + base.town.entries.len();
        let mut position = match self.rng.below(3) {
            0 => self.rng.below(base.d),
            _ => self.rng.below(blocks),
        };
        let tile = self.tile_of(base, position);
        let mut case = format!("a town of {} tiles", base.town.entries.len());
        for _ in 0..self.rng.pick(&[1, 1, 2, 2, 3]) {
            case += &format!("; {}", wrong_field(&mut file, &base.town, position, self.rng));
            if !self.rng.chance(6) {
                repair_block(&mut file, position);
                case += ", check repaired";
            }
            if self.rng.chance(4) {
                position = self.rng.below(blocks);
            }
        }
        self.calls(base, &file, tile, &case)
    }

    /// Blocks that changed places, were copied, or hold nothing of a block.
    fn whole_blocks<const A: usize>(&mut self, base: &Base<A>) -> Result<(), Failure> {
        let mut file = base.file.clone();
        let blocks = base.d + base.town.entries.len();
        let (p, q) = (self.rng.below(blocks), self.rng.below(blocks));
        let (from, to) = (SIZE * p..SIZE * (p + 1), SIZE * q..SIZE * (q + 1));
        let what = match self.rng.below(5) {
            0 => {
                file[to.clone()].copy_from_slice(&base.file[from.clone()]);
                file[from].copy_from_slice(&base.file[to]);
                "changed places"
            }
            1 => {
                file[to].copy_from_slice(&base.file[from]);
                "second is a copy of first"
            }
            2 => {
                file[to].fill(0);
                "second is all 0"
            }
            3 => {
                file[to].fill(255);
                "second is all 255"
            }
            _ => {
                let junk = self.rng.bytes(SIZE);
                file[to].copy_from_slice(&junk);
                if self.rng.chance(2) {
                    file[SIZE * q] = SYNC;
                    repair_block(&mut file, q);
                }
                "second is random bytes"
            }
        };
        let tile = self.tile_of(base, q);
        self.calls(base, &file, tile, &format!("blocks {p} and {q}: {what}"))
    }

    /// Files cut and lengthened, by bytes and by blocks.
    fn lengths<const A: usize>(&mut self, base: &Base<A>) -> Result<(), Failure> {
        let whole = base.file.len();
        for length in [0, 1, 511, 512, 513, whole - 512, whole - 1, whole + 1, whole + 511, whole + 512, whole + 1024] {
            for content in [0, 1] {
                let mut file = base.file.clone();
                file.truncate(length);
                while file.len() < length {
                    file.push(if content == 0 { 0 } else { base.file[file.len() % whole] });
                }
                self.calls(base, &file, 0, &format!("{length} bytes of a file of {whole}"))?;
            }
        }
        for _ in 0..20 {
            let mut file = base.file.clone();
            let case = wrong_length(&mut file, self.rng);
            self.calls(base, &file, 0, &case)?;
        }
        Ok(())
    }

    /// Random bytes of any length, some with a first block that is good so far.
    fn garbage<const A: usize>(&mut self, base: &Base<A>) -> Result<(), Failure> {
        let blocks = self.rng.below(6);
        let length = SIZE * blocks + if self.rng.chance(5) { self.rng.below(512) } else { 0 };
        let mut file = self.rng.bytes(length);
        for position in 0..blocks {
            if self.rng.chance(4) {
                break;
            }
            file[SIZE * position] = SYNC;
            let depth = self.rng.below(4);
            let kind = directory_kind(A) + (position > 0) as u8;
            let header = [kind, position as u8, 0, blocks as u8 - 1, 0, blocks as u8 - 1, 0];
            file[SIZE * position + 1..SIZE * position + 1 + [1, 3, 5, 7][depth]]
                .copy_from_slice(&header[..[1, 3, 5, 7][depth]]);
            repair_block(&mut file, position);
        }
        self.calls(base, &file, 0, &format!("random bytes, {blocks} blocks"))
    }
}

pub fn run<const A: usize>(rng: &mut Rng, tally: &mut Tally) -> Result<String, Failure> {
    let mut trial = Trial { rng, tally, files: 0, streamed: 0, accepted: 0 };
    let full = per_block(A);
    let sizes = [1, full, full + 1, 2 * full + 2];
    let mut blocks = 0;
    for tiles in sizes {
        let base: Base<A> = base(tiles, trial.rng);
        trial.calls(&base, &base.file, 0, "an undamaged file")?;
        // All directory blocks; the first tile, a full one, an empty one, a muted one and the last.
        let mut positions: Vec<usize> = (0..base.d).collect();
        positions.extend([0, 1, 2, 3, tiles - 1].iter().filter(|t| **t < tiles).map(|t| base.d + t));
        positions.dedup();
        for position in positions {
            trial.every_byte(&base, position)?;
            blocks += 1;
        }
    }
    let every_byte = trial.files;
    for round in 0..160 {
        let twice = 2 * full;
        let tiles =
            trial.rng.pick(&[1, 2, 6, 13, full, full + 1, full + 2, twice, twice + 1, twice + 2, twice + full + 1]);
        let base: Base<A> = base(tiles, trial.rng);
        for _ in 0..120 {
            trial.wrong_fields(&base)?;
        }
        for _ in 0..15 {
            trial.whole_blocks(&base)?;
            trial.garbage(&base)?;
        }
        if round % 8 == 0 {
            trial.lengths(&base)?;
        }
    }
    // The largest file: positions over 255 and the last of everything.
    let largest: Base<A> = base(960, trial.rng);
    trial.calls(&largest, &largest.file, 959, "the largest file")?;
    let (d, all) = (largest.d, largest.file.len() / SIZE);
    for position in [0, 1, d - 2, d - 1, d, d + 255, d + 256, d + 257, d + 512, all - 2, all - 1] {
        for _ in 0..4 {
            let mut file = largest.file.clone();
            let what = wrong_field(&mut file, &largest.town, position, trial.rng);
            if !trial.rng.chance(5) {
                repair_block(&mut file, position);
            }
            let tile = trial.tile_of(&largest, position);
            trial.calls(&largest, &file, tile, &format!("the largest file, {what}"))?;
        }
    }
    Ok(format!(
        "{} files with one byte changed (every position of {blocks} blocks in files of {sizes:?} tiles, check repaired \
         and not), {} with wrong fields, blocks and lengths; each to the full check, strike and join, {} to stream \
         order; {} still passed the full check and were written again",
        count(every_byte),
        count(trial.files - every_byte),
        count(trial.streamed),
        count(trial.accepted)
    ))
}
