//! Fillings of a tile: how many of its sites are muted, and where all of them are.

use crate::paper::{each_axis, Bounds, Entry, Point, Site};
use crate::rng::Rng;

/// How many sites of a tile are muted, in one town.
#[derive(Clone, Copy, Debug, PartialEq, Eq)]
pub enum Mutes {
    /// No cue is 0.
    None,
    /// About one site in eight.
    Few,
    /// Any number.
    Any,
    /// All sites of a tile or none.
    WholeTiles,
    /// One tile in five has a sounding site or two, the others have none: mostly fewer in all than k.
    AllButFew,
    /// Every cue is 0.
    All,
}

impl Mutes {
    /// For some town: none in one of three, and all in one of twelve.
    pub fn some(rng: &mut Rng) -> Mutes {
        match rng.below(12) {
            0..=3 => Mutes::None,
            4 | 5 => Mutes::Few,
            6..=8 => Mutes::Any,
            9 => Mutes::WholeTiles,
            10 => Mutes::AllButFew,
            _ => Mutes::All,
        }
    }

    /// A muted number for a tile of so many sites.
    pub fn of(self, count: usize, rng: &mut Rng) -> usize {
        match self {
            Mutes::None => 0,
            Mutes::Few => (0..count).filter(|_| rng.chance(8)).count(),
            Mutes::Any => rng.below(count + 1),
            Mutes::WholeTiles => rng.pick(&[0, count]),
            Mutes::AllButFew if rng.chance(5) => count.saturating_sub(1 + rng.below(2)),
            Mutes::AllButFew | Mutes::All => count,
        }
    }
}

/// A cue that sounds: any but 0, the largest among them and those with one byte that is not 0.
pub fn sounding_cue(rng: &mut Rng) -> u32 {
    match rng.below(8) {
        0 => rng.pick(&[1, 2, 1 << 8, 1 << 16, 1 << 24, 1 << 31]),
        1 => u32::MAX,
        _ => (rng.next() as u32).max(1),
    }
}

/// Another cue of the same sort: 0 for 0, and for any other one that sounds too.
pub fn other_cue(cue: u32) -> u32 {
    match cue {
        0 => 0,
        1 => 3,
        _ => cue ^ 1,
    }
}

pub fn point_in<const A: usize>(b: Bounds<A>, rng: &mut Rng) -> Point<A> {
    b.map(|[low, high]| rng.range(low, high))
}

/// Mutes so many of the sites: the first slots, the last, or any. Some muted sites stand where another site stands.
fn mute<const A: usize>(sites: &mut [Site<A>], muted: usize, rng: &mut Rng) {
    let mut slots: Vec<usize> = (0..sites.len()).collect();
    match rng.below(5) {
        0 => {}
        1 => slots.reverse(),
        _ => rng.shuffle(&mut slots),
    }
    for slot in &slots[..muted] {
        sites[*slot].cue = 0;
        if rng.chance(4) {
            sites[*slot].at = sites[rng.below(sites.len())].at;
        }
    }
}

/// Sites anywhere in the box, some on its corners; as many as the entry says, and as many of them muted.
pub fn filling<const A: usize>(entry: &Entry<A>, rng: &mut Rng) -> Vec<Site<A>> {
    let mut sites: Vec<Site<A>> = (0..entry.count)
        .map(|_| {
            let mut at = point_in(entry.bounds, rng);
            for (axis, ends) in entry.bounds.iter().enumerate() {
                if rng.chance(6) {
                    at[axis] = ends[rng.below(2)];
                }
            }
            Site { at, cue: sounding_cue(rng) }
        })
        .collect();
    mute(&mut sites, entry.muted, rng);
    sites
}

/// Sites close together somewhere in the box.
pub fn cluster<const A: usize>(entry: &Entry<A>, rng: &mut Rng) -> Vec<Site<A>> {
    let middle = point_in(entry.bounds, rng);
    let small = each_axis(|axis| {
        let [low, high] = entry.bounds[axis];
        [(middle[axis] - 20).max(low), (middle[axis] + 20).min(high)]
    });
    filling(&Entry { bounds: small, ..*entry }, rng)
}
