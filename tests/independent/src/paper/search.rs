//! "Striking", "The join" as the literal run, and the full search of a town.

use super::boxes::{distance, good_box, near, nearer, smallest_around, within_limits};
use super::directory::{open, read_directory};
use super::{each_axis, refuse, Bounds, Entry, Point, Refusal, Site, Town};

/// A place of a list: "D, tile × 40 + slot, and cue".
#[derive(Clone, Copy, Debug, PartialEq, Eq)]
pub struct Place {
    pub d: u64,
    pub site: u32,
    pub cue: u32,
}

/// "tile B is struck exactly when the counts of all tiles nearer than B from O add up to at least k." 02.1: "Striking
/// adds up sounding sites only".
pub fn struck<const A: usize>(entries: &[Entry<A>], o: Bounds<A>, k: usize) -> Vec<bool> {
    struck_by(entries, k, |e, b| nearer(o, e, b))
}

/// The same with another way to tell which box is nearer.
pub fn struck_by<const A: usize>(
    entries: &[Entry<A>],
    k: usize,
    is_nearer: impl Fn(Bounds<A>, Bounds<A>) -> bool,
) -> Vec<bool> {
    let sites_nearer =
        |b: &Entry<A>| -> usize { entries.iter().filter(|e| is_nearer(e.bounds, b.bounds)).map(Entry::sounding).sum() };
    entries.iter().map(|b| sites_nearer(b) >= k).collect()
}

/// Row 11: "0 or over 64".
fn good_k(k: u32) -> bool {
    (1..=64).contains(&k)
}

#[derive(Clone, Copy, Debug, PartialEq, Eq, Default)]
pub struct Pruned {
    pub number: u32,
    pub block: u32,
    pub tiles: u32,
    pub struck: u32,
}

impl From<Refusal> for Pruned {
    fn from(r: Refusal) -> Pruned {
        Pruned { number: r.number, block: r.block, ..Pruned::default() }
    }
}

/// The strike call for A axes. "Strike: 1, directory, 11, 9 for O, 14." 02.2: 17 "in strike after 11".
pub fn prune<const A: usize>(file: &[u8], o: Bounds<A>, k: u32, marks: &mut [u8]) -> Pruned {
    let tested = || -> Result<Vec<Entry<A>>, Refusal> {
        let directory = read_directory(file)?;
        if !good_k(k) {
            return refuse(11, 0);
        }
        // 02.2: "17 when the call has another number of axes than the town"; "it gives block 0"
        let Some(entries) = directory else {
            return refuse(17, 0);
        };
        if !good_box(o) {
            return refuse(9, 0);
        }
        if marks.len() < entries.len() {
            return refuse(14, 0);
        }
        Ok(entries)
    };
    let entries = match tested() {
        Ok(entries) => entries,
        Err(refusal) => return refusal.into(),
    };
    // "Marks: 1 struck, 0 not. The result carries T and the number struck."
    let struck = struck(&entries, o, k as usize);
    for (mark, is_struck) in marks.iter_mut().zip(&struck) {
        *mark = *is_struck as u8;
    }
    Pruned { number: 0, block: 0, tiles: entries.len() as u32, struck: struck.iter().filter(|s| **s).count() as u32 }
}

#[derive(Clone, Copy, Debug, PartialEq, Eq, Default)]
pub struct Joined {
    pub number: u32,
    pub block: u32,
    pub used: u32,
    pub tiles: u32,
    pub opened: u32,
    pub struck: u32,
}

impl From<Refusal> for Joined {
    fn from(r: Refusal) -> Joined {
        Joined { number: r.number, block: r.block, ..Joined::default() }
    }
}

/// The four lent slices of the join.
#[derive(Clone, Debug, PartialEq, Eq)]
pub struct Lent {
    pub dist: Vec<u64>,
    pub site: Vec<u32>,
    pub cue: Vec<u32>,
    pub marks: Vec<u8>,
}

/// What the join of the paper gives, and how many tiles had been opened without a refusal.
pub struct Run {
    pub joined: Joined,
    pub opened_well: usize,
}

/// The sites of an opened tile, none when it is not opened.
type Opened<const A: usize> = Vec<Option<Vec<Site<A>>>>;

/// All sites of opened tiles as tile, slot, site.
fn sites_of<const A: usize>(opened: &Opened<A>) -> impl Iterator<Item = (usize, usize, Site<A>)> + '_ {
    opened
        .iter()
        .enumerate()
        .flat_map(|(tile, sites)| sites.iter().flatten().enumerate().map(move |(slot, site)| (tile, slot, *site)))
}

/// 02.1: "From now on only sites with another cue rank" than 0. A muted site keeps its slot.
fn ranks<const A: usize>(site: Site<A>) -> bool {
    !site.is_muted()
}

/// "Sites rank by D from the stop, then tile, then slot", cut after k. 02.2: "The site number still uses 40."
fn first_in_ranking<const A: usize>(
    sites: impl Iterator<Item = (usize, usize, Site<A>)>,
    stop: Point<A>,
    k: usize,
) -> Vec<Place> {
    let mut ranked: Vec<(i64, usize, usize, u32)> = sites
        .filter(|(_, _, site)| ranks(*site))
        .map(|(tile, slot, site)| (distance(stop, site.at), tile, slot, site.cue))
        .collect();
    ranked.sort();
    ranked.truncate(k);
    ranked
        .iter()
        .map(|(d, tile, slot, cue)| Place { d: *d as u64, site: (tile * 40 + slot) as u32, cue: *cue })
        .collect()
}

/// "Stops are taken in turn. For each, the tiles that are not struck and not empty are taken by key: near distance
/// from the stop, then tile number." 02.1: "a tile with none", no sounding site, "is treated as empty".
fn serve<const A: usize>(
    file: &[u8],
    entries: &[Entry<A>],
    struck: &[bool],
    stop: Point<A>,
    k: usize,
    opened: &mut Opened<A>,
) -> Result<(), Refusal> {
    let mut keys: Vec<(i64, usize)> = (0..entries.len())
        .filter(|t| !struck[*t] && entries[*t].sounding() > 0)
        .map(|t| (near(stop, entries[t].bounds), t))
        .collect();
    keys.sort();
    for key in keys {
        // "It ends when k sites of opened tiles are ahead of the next key (smaller D, or equal D and a lower tile
        // number)"
        let is_ahead = |tile: usize, site: Site<A>| ranks(site) && (distance(stop, site.at), tile) < key;
        let ahead = sites_of(opened).filter(|(tile, _, site)| is_ahead(*tile, *site)).take(k).count();
        if ahead >= k {
            break;
        }
        // "A tile not yet opened is opened, which checks its block; each tile is opened once a run."
        let tile = key.1;
        if opened[tile].is_none() {
            opened[tile] = Some(open(file, entries, tile)?);
        }
    }
    Ok(())
}

/// What is tested before the openings. "Join: 1; each directory block 2 to 9 in table order; 11 to 14"; 02.2: 17
/// "tested after 12". The coordinates of the stops are a list for each axis.
fn tests_before_openings<const A: usize>(
    file: &[u8],
    at: [&[i32]; A],
    k: u32,
    lent: &Lent,
) -> Result<Vec<Entry<A>>, Refusal> {
    let directory = read_directory(file)?;
    if !good_k(k) {
        return refuse(11, 0);
    }
    // 12: "none, over 256, or unequal x and y slices"; 02.2: "and 12 takes in a z slice of another length"
    let n = at[0].len();
    if n == 0 || n > 256 || at.iter().any(|list| list.len() != n) {
        return refuse(12, 0);
    }
    // 02.2: "17 when the call has another number of axes than the town"; "it gives block 0"
    let Some(entries) = directory else {
        return refuse(17, 0);
    };
    // 13: "stop beyond the limits"
    if at.iter().any(|list| list.iter().any(|c| !within_limits(*c))) {
        return refuse(13, 0);
    }
    // 14: "n × k for each of the join's three, T for marks"
    let needed = n * k as usize;
    if lent.dist.len() < needed
        || lent.site.len() < needed
        || lent.cue.len() < needed
        || lent.marks.len() < entries.len()
    {
        return refuse(14, 0);
    }
    Ok(entries)
}

/// The join for A axes.
pub fn join<const A: usize>(file: &[u8], at: [&[i32]; A], k: u32, lent: &mut Lent) -> Run {
    let entries = match tests_before_openings(file, at, k, lent) {
        Ok(entries) => entries,
        // "any earlier one leaves the lent slices unchanged"
        Err(refusal) => return Run { joined: refusal.into(), opened_well: 0 },
    };
    let (n, k, tiles) = (at[0].len(), k as usize, entries.len());
    let stops: Vec<Point<A>> = (0..n).map(|i| each_axis(|axis| at[axis][i])).collect();
    let struck = struck(&entries, smallest_around(&stops), k);
    let mut opened: Opened<A> = vec![None; tiles];
    let mut refusal = None;
    for stop in &stops {
        if let Err(r) = serve(file, &entries, &struck, *stop, k, &mut opened) {
            refusal = Some(r);
            break;
        }
    }
    // "Unused places are 0"; a refusal by an opening "leaves the first n × k places and T marks zero".
    lent.dist[..n * k].fill(0);
    lent.site[..n * k].fill(0);
    lent.cue[..n * k].fill(0);
    lent.marks[..tiles].fill(0);
    let opened_well = opened.iter().filter(|o| o.is_some()).count();
    if let Some(r) = refusal {
        return Run { joined: r.into(), opened_well };
    }
    // "place j of stop i is at i × k + j, both from 0"
    for (i, stop) in stops.iter().enumerate() {
        for (j, place) in first_in_ranking(sites_of(&opened), *stop, k).iter().enumerate() {
            lent.dist[i * k + j] = place.d;
            lent.site[i * k + j] = place.site;
            lent.cue[i * k + j] = place.cue;
        }
    }
    // "Marks, one byte for each tile: 2 opened, 1 struck, 0 neither."
    for tile in 0..tiles {
        lent.marks[tile] = if opened[tile].is_some() {
            2
        } else if struck[tile] {
            1
        } else {
            0
        };
    }
    // "Places used for each stop: the smaller of k and all sites." 02.1: "places used counts only these", the sounding
    // ones. "The result carries places used, T, opened and struck."
    let all_sounding: usize = entries.iter().map(Entry::sounding).sum();
    let joined = Joined {
        number: 0,
        block: 0,
        used: k.min(all_sounding) as u32,
        tiles: tiles as u32,
        opened: opened_well as u32,
        struck: struck.iter().filter(|s| **s).count() as u32,
    };
    Run { joined, opened_well }
}

/// "What a full search of a town gives for a stop: the town's sites in their ranking, cut after k of them, each place
/// with D, tile × 40 + slot, and cue; places left over up to k are 0."
pub fn full_search<const A: usize>(town: &Town<A>, stop: Point<A>, k: usize) -> Vec<Place> {
    let all = town
        .sites
        .iter()
        .enumerate()
        .flat_map(|(tile, sites)| sites.iter().enumerate().map(move |(slot, site)| (tile, slot, *site)));
    let mut list = first_in_ranking(all, stop, k);
    list.resize(k, Place { d: 0, site: 0, cue: 0 });
    list
}
