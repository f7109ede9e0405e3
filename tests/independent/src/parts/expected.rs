//! Calls on damaged files whose outcome is said by hand, besides what the paper's part gives.

use super::damaged::Base;
use super::joins::any_k;
use crate::compare::{self, name_of, Failure, Lengths, Query};
use crate::fillings::point_in;
use crate::paper::boxes::smallest_around;
use crate::paper::search::{Joined, Lent};
use crate::paper::{Point, Refusal, Town};
use crate::rng::Rng;
use crate::tally::Tally;

pub struct Trial<'a> {
    pub rng: &'a mut Rng,
    pub tally: &'a mut Tally,
    pub files: usize,
    /// Joins that did not open the damaged tile, and answered.
    pub unread: usize,
}

/// What the full check gives.
pub type Checked = Result<usize, Refusal>;

pub fn refused(number: u32, block: usize) -> Checked {
    Err(Refusal { number, block: block as u32 })
}

impl Trial<'_> {
    /// The full check gives what is due.
    pub fn checked(&mut self, file: &[u8], due: Checked) -> Result<(), Failure> {
        self.files += 1;
        let got = compare::validate(file, self.tally)?;
        if got == due {
            return Ok(());
        }
        Err(Failure::with_file(format!("nearby_validate: due by hand {due:?}, got {got:?}"), file))
    }

    pub fn joined<const A: usize>(
        &mut self,
        file: &[u8],
        query: &Query<A>,
        tiles: usize,
    ) -> Result<(Joined, Lent), Failure> {
        let needed = query.n() * query.k as usize;
        let lengths = Lengths { dist: needed, site: needed, cue: needed, marks: tiles };
        let (run, lent) = compare::join(file, query, lengths, self.rng, self.tally)?;
        Ok((run.joined, lent))
    }

    /// The join is refused with this number and block.
    pub fn join_refused<const A: usize>(
        &mut self,
        file: &[u8],
        query: &Query<A>,
        tiles: usize,
        due: Refusal,
    ) -> Result<(), Failure> {
        let (joined, _) = self.joined(file, query, tiles)?;
        if joined == due.into() {
            return Ok(());
        }
        let name = name_of::<A>("join");
        Err(Failure::with_file(format!("{name}({query:?}): due by hand {due:?}, got {joined:?}"), file))
    }

    /// Stops, one of them in the tile's box mostly.
    pub fn query<const A: usize>(&mut self, town: &Town<A>, tile: usize) -> Query<A> {
        let rng = &mut *self.rng;
        let tiles = town.entries.len();
        let mut stops: Vec<Point<A>> =
            (0..1 + rng.below(3)).map(|_| point_in(town.entries[rng.below(tiles)].bounds, rng)).collect();
        if !rng.chance(4) {
            stops.push(point_in(town.entries[tile].bounds, rng));
        }
        Query::of(&stops, any_k(rng))
    }

    /// A file that differs from the base in the block of one tile only, for which the full check gives `number`, or
    /// nothing: the join gives it too if it opens the tile, and otherwise answers as for the base.
    pub fn tile_changed<const A: usize>(
        &mut self,
        base: &Base<A>,
        file: &[u8],
        tile: usize,
        number: Option<u32>,
    ) -> Result<(), Failure> {
        let (tiles, position) = (base.town.entries.len(), base.d + tile);
        self.checked(file, number.map_or(Ok(tiles), |number| refused(number, position)))?;
        let query = self.query(&base.town, tile);
        let before = self.joined(&base.file, &query, tiles)?;
        match number {
            Some(number) if before.1.marks[tile] == 2 => {
                self.join_refused(file, &query, tiles, Refusal { number, block: position as u32 })?;
            }
            None if before.1.marks[tile] == 2 => {
                let (joined, _) = self.joined(file, &query, tiles)?;
                assert_eq!((joined.number, joined.used), (0, before.0.used));
            }
            _ => {
                let after = self.joined(file, &query, tiles)?;
                if after != before {
                    let name = name_of::<A>("join");
                    let text = format!("{name}({query:?}): tile {tile} is not opened, and the answer is another");
                    return Err(Failure::with_file(text, file));
                }
                self.unread += 1;
            }
        }
        // Strike and stream order read no tile.
        let o = smallest_around(&query.stops());
        let before = compare::prune(&base.file, o, query.k, tiles, self.rng, self.tally)?;
        let after = compare::prune(file, o, query.k, tiles, self.rng, self.tally)?;
        assert_eq!(before, after);
        let after = compare::stream_order(file, o, tiles, self.rng, self.tally)?.0;
        assert_eq!((after.number, after.tiles), (0, tiles as u32));
        Ok(())
    }
}
