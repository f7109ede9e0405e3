//! Document 01 with the requests of document 02 that have landed, written out as plainly as they read. Nothing here is
//! meant to be fast. A quotation with '02.1' before it is from request 1, one with '02.2' from request 2, one with
//! '02.4' from request 4, one with '02.5', and those of stream.rs without a number, from request 5; the others are from
//! document 01. What hangs on the number of axes is written over it, and called A.

pub mod blocks;
pub mod boxes;
pub mod directory;
pub mod level;
pub mod program;
pub mod search;
pub mod stream;
pub mod writer;

/// "A coordinate is a whole number of centimetres from -1,000,000 to 1,000,000."
pub const LIMIT: i32 = 1_000_000;

/// "A box is a low and a high end for each axis"; "it is passed as an array of axis pairs".
pub type Bounds<const A: usize> = [[i32; 2]; A];

pub type Point<const A: usize> = [i32; A];

/// One thing for each axis, x first.
pub fn each_axis<T, const A: usize>(of: impl FnMut(usize) -> T) -> [T; A] {
    std::array::from_fn(of)
}

/// "A site is x, y and a cue (unsigned 32 bits, any number)." 02.2: "with z after y".
#[derive(Clone, Copy, Debug, PartialEq, Eq)]
pub struct Site<const A: usize> {
    pub at: Point<A>,
    pub cue: u32,
}

impl<const A: usize> Site<A> {
    /// 02.1: "Town builders mute a site by giving it cue 0."
    pub fn is_muted(&self) -> bool {
        self.cue == 0
    }
}

/// "the number of muted sites"
pub fn muted<const A: usize>(sites: &[Site<A>]) -> usize {
    sites.iter().filter(|site| site.is_muted()).count()
}

/// What the directory says of a tile.
#[derive(Clone, Copy, Debug, PartialEq, Eq)]
pub struct Entry<const A: usize> {
    pub bounds: Bounds<A>,
    pub count: usize,
    pub muted: usize,
}

impl<const A: usize> Entry<A> {
    /// The sites that sound: count less muted.
    pub fn sounding(&self) -> usize {
        self.count - self.muted
    }
}

/// "A town is a filling of all tiles, each with as many sites as the directory says and all inside its box." 02.1: "A
/// filling of a tile keeps both numbers".
#[derive(Clone, Debug, PartialEq, Eq)]
pub struct Town<const A: usize> {
    pub entries: Vec<Entry<A>>,
    pub sites: Vec<Vec<Site<A>>>,
}

impl<const A: usize> Town<A> {
    /// The town of tiles with these boxes and sites.
    pub fn of(tiles: Vec<(Bounds<A>, Vec<Site<A>>)>) -> Town<A> {
        let entry = |(bounds, sites): &(Bounds<A>, Vec<Site<A>>)| Entry {
            bounds: *bounds,
            count: sites.len(),
            muted: muted(sites),
        };
        Town { entries: tiles.iter().map(entry).collect(), sites: tiles.into_iter().map(|(_, sites)| sites).collect() }
    }
}

/// "A refusal gives the number and the block position".
#[derive(Clone, Copy, Debug, PartialEq, Eq)]
pub struct Refusal {
    pub number: u32,
    pub block: u32,
}

pub fn refuse<T>(number: u32, block: usize) -> Result<T, Refusal> {
    Err(Refusal { number, block: block as u32 })
}
