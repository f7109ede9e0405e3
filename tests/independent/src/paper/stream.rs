//! 02.5, "A sequence for streaming", and the call that gives it.

use super::boxes::{good_box, nearer};
use super::directory::read_directory;
use super::{refuse, Bounds, Entry, Refusal};

/// Which tiles are nearer than which from O, each pair asked once.
pub struct Nearer {
    tiles: usize,
    pairs: Vec<bool>,
}

impl Nearer {
    pub fn from<const A: usize>(o: Bounds<A>, entries: &[Entry<A>]) -> Nearer {
        Nearer::by(entries, |e, b| nearer(o, e, b))
    }

    /// The same with another way to tell which box is nearer.
    pub fn by<const A: usize>(entries: &[Entry<A>], is_nearer: impl Fn(Bounds<A>, Bounds<A>) -> bool) -> Nearer {
        let pair = |b: &Entry<A>, e: &Entry<A>| is_nearer(e.bounds, b.bounds);
        let pairs = entries.iter().flat_map(|b| entries.iter().map(move |e| pair(b, e))).collect();
        Nearer { tiles: entries.len(), pairs }
    }

    pub fn tiles(&self) -> usize {
        self.tiles
    }

    /// Whether tile e is nearer than tile b.
    pub fn is(&self, e: usize, b: usize) -> bool {
        self.pairs[b * self.tiles + e]
    }

    /// "all tiles in a sequence where each tile comes after every tile nearer than it from O; of those free to come
    /// next, the lowest number comes first. Each tile is listed once, empty ones too."
    pub fn sequence(&self) -> Vec<u32> {
        let mut left: Vec<usize> = (0..self.tiles).collect();
        let mut sequence = Vec::new();
        while !left.is_empty() {
            let is_free = |b: usize| !left.iter().any(|e| self.is(*e, b));
            // "so a next tile always exists"
            let at = (0..left.len()).find(|at| is_free(left[*at])).expect("a next tile always exists");
            sequence.push(left.remove(at) as u32);
        }
        sequence
    }
}

#[derive(Clone, Copy, Debug, PartialEq, Eq, Default)]
pub struct Streamed {
    pub number: u32,
    pub block: u32,
    pub tiles: u32,
}

impl From<Refusal> for Streamed {
    fn from(r: Refusal) -> Streamed {
        Streamed { number: r.number, block: r.block, ..Streamed::default() }
    }
}

/// The call for A axes: "It refuses as strike does, without 11". Gives the answer, and where it is one, which tiles are
/// nearer than which.
pub fn stream_order<const A: usize>(file: &[u8], o: Bounds<A>, order: &mut [u32]) -> (Streamed, Option<Nearer>) {
    let tested = || -> Result<Vec<Entry<A>>, Refusal> {
        // 02.2: "17 when the call has another number of axes than the town"
        let Some(entries) = read_directory(file)? else {
            return refuse(17, 0);
        };
        if !good_box(o) {
            return refuse(9, 0);
        }
        // "a slice shorter than T is 14"
        if order.len() < entries.len() {
            return refuse(14, 0);
        }
        Ok(entries)
    };
    let entries = match tested() {
        Ok(entries) => entries,
        Err(refusal) => return (refusal.into(), None),
    };
    // "the first T elements of the lent slice take the tile numbers", "and the result carries T"
    let nearer = Nearer::from(o, &entries);
    order[..entries.len()].copy_from_slice(&nearer.sequence());
    (Streamed { number: 0, block: 0, tiles: entries.len() as u32 }, Some(nearer))
}
