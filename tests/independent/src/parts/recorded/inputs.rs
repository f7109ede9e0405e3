//! Inputs with two axes for the record of what the library gave before towns had height.
//!
//! FIXED FOREVER: the record is worth nothing for other inputs. Nothing here uses another module of the tests, and
//! nothing here changes, not the order of draws either; what else is to be tried is put elsewhere. A change shows: each
//! group of the record ends with a hash of its inputs.
//!
//! What request 2 gives another answer on purpose is not among them: no file whose block 0 has kind 3, and over 512,000
//! bytes only files that are no multiple of 512, that are over 520,704 bytes, or whose block 0 passes 2, 3 and 4 with
//! kind 1. Coordinates beyond 1,000,000 and not beyond 4,000,000 are in the group `limits` alone, and kinds 17 to 20
//! nowhere, since requests 6 and 7 speak of them.

const LIMIT: i32 = 1_000_000;
const SIZE: usize = 512;

/// Xorshift, 64 bits: shifts 13, 7 and 17. Each case has a state of its own, by its group and number.
pub struct Draw(u64);

impl Draw {
    pub fn new(group: u64, case: u64) -> Draw {
        let seed = (group << 32 | case).wrapping_mul(0x9e37_79b9_7f4a_7c15).wrapping_add(0x0123_4567_89ab_cdef);
        let mut draw = Draw(seed.max(1));
        for _ in 0..12 {
            draw.next();
        }
        draw
    }

    pub fn next(&mut self) -> u64 {
        self.0 ^= self.0 << 13;
        self.0 ^= self.0 >> 7;
        self.0 ^= self.0 << 17;
        self.0
    }

    /// From 0 to n - 1.
    fn below(&mut self, n: usize) -> usize {
        ((self.next() >> 16) % n as u64) as usize
    }

    /// From low to high, both included.
    fn range(&mut self, low: i32, high: i32) -> i32 {
        low + self.below((high - low + 1) as usize) as i32
    }

    fn one_in(&mut self, n: usize) -> bool {
        self.below(n) == 0
    }

    fn pick<T: Copy>(&mut self, list: &[T]) -> T {
        list[self.below(list.len())]
    }

    fn byte(&mut self) -> u8 {
        self.below(256) as u8
    }

    fn not_zero(&mut self) -> u8 {
        1 + self.below(255) as u8
    }
}

/// One call with all its arguments. Lent slices are given by their lengths.
pub enum Call {
    Join { file: Vec<u8>, x: Vec<i32>, y: Vec<i32>, k: u32, lengths: [usize; 4] },
    Prune { file: Vec<u8>, o: [[i32; 2]; 2], k: u32, marks: usize },
    Validate { file: Vec<u8> },
    Write { boxes: Vec<i32>, counts: Vec<u32>, x: Vec<i32>, y: Vec<i32>, cues: Vec<u32>, out: usize },
    Margin { boxes: [[[i32; 2]; 2]; 3] },
    Check { slice: Vec<u8> },
}

/// A case: its group, what it is in words, and the call.
pub type Each<'a> = &'a mut dyn FnMut(&'static str, &str, Call);

#[derive(Clone)]
struct Tile {
    /// Low x, low y, high x, high y.
    ends: [i32; 4],
    /// x, y, cue.
    sites: Vec<(i32, i32, u32)>,
}

impl Tile {
    fn muted(&self) -> usize {
        self.sites.iter().filter(|site| site.2 == 0).count()
    }
}

const SORTS: [&str; 11] = [
    "grid",
    "sparse",
    "anywhere",
    "ties",
    "points",
    "mostly empty",
    "overlapping",
    "alike",
    "ends at the limits",
    "row",
    "empty",
];

fn around(middle: i32, reach: i32) -> [i32; 2] {
    [(middle - reach).max(-LIMIT), (middle + reach).min(LIMIT)]
}

fn ends_among(list: &[i32], draw: &mut Draw) -> [i32; 2] {
    let (p, q) = (draw.pick(list), draw.pick(list));
    [p.min(q), p.max(q)]
}

fn cue_of(mutes: usize, whole: bool, draw: &mut Draw) -> u32 {
    let is_muted = match mutes {
        0 | 1 => false,
        2 => draw.one_in(8),
        3 => draw.one_in(2),
        4 => whole,
        5 => !draw.one_in(12),
        _ => true,
    };
    let cue = match draw.below(8) {
        0 => draw.pick(&[1, 255, 1 << 8, 1 << 16, 1 << 24, 1 << 31, u32::MAX]),
        _ => (draw.next() >> 20) as u32 | 1 << draw.below(32),
    };
    if is_muted {
        0
    } else {
        cue
    }
}

fn town(sort: usize, tiles: usize, draw: &mut Draw) -> Vec<Tile> {
    let columns = (1..).find(|c| c * c >= tiles).unwrap();
    let side = draw.pick(&[3, 50, 1_000, 20_000]);
    let corner = [draw.range(-300_000, 100_000), draw.range(-300_000, 100_000)];
    let same = [around(draw.range(-500, 500), draw.range(0, 300)), around(draw.range(-500, 500), draw.range(0, 300))];
    let step = draw.pick(&[1, 7, 11, 13]);
    let mutes = draw.below(7);
    let mut town: Vec<Tile> = Vec::new();
    for tile in 0..tiles {
        let cell = |axis: usize| {
            let low = corner[axis] + [tile % columns, tile / columns][axis] as i32 * side;
            [low, low + side]
        };
        let mut spread = |middle: i32, reach: i32| {
            let at = draw.range(-middle, middle);
            around(at, draw.range(0, reach))
        };
        let ([x, y], count) = match sort {
            0 => ([cell(0), cell(1)], 20 + draw.below(21)),
            1 => ([spread(100_000, 900), spread(100_000, 900)], draw.below(4)),
            2 => ([spread(LIMIT, 300_000), spread(LIMIT, 300_000)], draw.below(13)),
            3 => {
                let list = [-4, -3, -2, -1, 0, 1, 2, 3, 4];
                ([ends_among(&list, draw), ends_among(&list, draw)], draw.below(9))
            }
            4 => ([spread(10, 0), spread(10, 0)], draw.pick(&[0, 1, 1, 2, 3, 40])),
            5 => ([cell(0), cell(1)], if draw.one_in(6) { 1 + draw.below(40) } else { 0 }),
            6 => ([spread(5_000, 6_000), spread(5_000, 6_000)], draw.below(41)),
            7 => (same, draw.below(41)),
            8 => {
                let list = [-LIMIT, -LIMIT, -LIMIT + 1, 0, LIMIT - 1, LIMIT, LIMIT];
                ([ends_among(&list, draw), ends_among(&list, draw)], draw.pick(&[0, 1, 5, 39, 40]))
            }
            9 => {
                let low = (tile * step % tiles) as i32 * 100 - 5_000;
                ([[low, low + 80], [-20, 20]], draw.below(16))
            }
            _ => ([cell(0), cell(1)], 0),
        };
        let whole = draw.one_in(2);
        let mut sites: Vec<(i32, i32, u32)> = Vec::new();
        for _ in 0..count {
            let mut on = |ends: [i32; 2]| match draw.below(12) {
                end @ 0..=1 => ends[end],
                _ => draw.range(ends[0], ends[1]),
            };
            let (mut at, cue) = ((on(x), on(y)), cue_of(mutes, whole, draw));
            if !sites.is_empty() && draw.one_in(8) {
                let other = draw.pick(&sites);
                at = (other.0, other.1);
            }
            sites.push((at.0, at.1, cue));
        }
        town.push(Tile { ends: [x[0], y[0], x[1], y[1]], sites });
    }
    town
}

fn directory_blocks(tiles: usize) -> usize {
    tiles.div_ceil(24)
}

fn mend(file: &mut [u8], position: usize) {
    let block = &mut file[SIZE * position..SIZE * (position + 1)];
    let (mut a, mut c) = (0u32, 0u32);
    for byte in &block[1..510] {
        a = (a + *byte as u32) % 255;
        c = (c + a) % 255;
    }
    block[510] = a as u8;
    block[511] = c as u8;
}

fn file_of(town: &[Tile]) -> Vec<u8> {
    let (tiles, d) = (town.len(), directory_blocks(town.len()));
    let mut file = vec![0; SIZE * (d + tiles)];
    for position in 0..d + tiles {
        let here = match position.checked_sub(d) {
            None => &town[24 * position..tiles.min(24 * position + 24)],
            Some(tile) => &town[tile..tile + 1],
        };
        let (kind, entries) = if position < d { (1, here.len()) } else { (2, here[0].sites.len()) };
        let block = &mut file[SIZE * position..SIZE * (position + 1)];
        let mut at = 0;
        let mut put = |bytes: &[u8]| {
            block[at..at + bytes.len()].copy_from_slice(bytes);
            at += bytes.len();
        };
        put(&[0xd6, kind]);
        put(&(position as u16).to_le_bytes());
        put(&(entries as u16).to_le_bytes());
        put(&if position < d { tiles as u16 } else { 0 }.to_le_bytes());
        put(&[0; 8]);
        for tile in here {
            if position < d {
                tile.ends.iter().for_each(|end| put(&end.to_le_bytes()));
                put(&(tile.sites.len() as u16).to_le_bytes());
                put(&(tile.muted() as u16).to_le_bytes());
                continue;
            }
            for (x, y, cue) in &tile.sites {
                put(&x.to_le_bytes());
                put(&y.to_le_bytes());
                put(&cue.to_le_bytes());
            }
        }
        mend(&mut file, position);
    }
    file
}

fn in_box(tile: &Tile, draw: &mut Draw) -> [i32; 2] {
    [draw.range(tile.ends[0], tile.ends[2]), draw.range(tile.ends[1], tile.ends[3])]
}

fn stops(town: &[Tile], n: usize, draw: &mut Draw) -> Vec<[i32; 2]> {
    let (first, sort) = (in_box(&town[draw.below(town.len())], draw), draw.below(6));
    let reach = draw.pick(&[1, 5, 100, 5_000]);
    let mut stops = Vec::new();
    for _ in 0..n {
        let tile = &town[draw.below(town.len())];
        stops.push(match sort {
            0 | 1 => first.map(|c| (c + draw.range(-reach, reach)).clamp(-LIMIT, LIMIT)),
            2 => in_box(tile, draw),
            3 => [draw.range(-LIMIT, LIMIT), draw.pick(&[-LIMIT, 0, LIMIT])],
            4 => first,
            _ if tile.sites.is_empty() => first,
            _ => {
                let site = draw.pick(&tile.sites);
                [site.0, site.1]
            }
        });
    }
    stops
}

fn around_all(stops: &[[i32; 2]]) -> [[i32; 2]; 2] {
    [0, 1].map(|axis| [stops.iter().map(|s| s[axis]).min().unwrap(), stops.iter().map(|s| s[axis]).max().unwrap()])
}

fn any_k(draw: &mut Draw) -> u32 {
    match draw.below(4) {
        0 => draw.pick(&[1, 2, 3, 63, 64]),
        1 => 1 + draw.below(10) as u32,
        _ => 1 + draw.below(64) as u32,
    }
}

/// A join of these stops with slices as long as needed or a little longer.
fn join_of(file: &[u8], tiles: usize, stops: &[[i32; 2]], k: u32, draw: &mut Draw) -> Call {
    let needed = stops.len() * k as usize;
    let lengths = [needed, needed, needed, tiles].map(|n| n + draw.pick(&[0, 0, 1, 5]));
    let [x, y] = [0, 1].map(|axis| stops.iter().map(|stop| stop[axis]).collect());
    Call::Join { file: file.to_vec(), x, y, k, lengths }
}

fn prune_of(file: &[u8], tiles: usize, o: [[i32; 2]; 2], k: u32, draw: &mut Draw) -> Call {
    Call::Prune { file: file.to_vec(), o, k, marks: tiles + draw.pick(&[0, 0, 1, 5]) }
}

/// Join, strike and full check on towns as they are: 1 to 960 tiles, 1 to 256 stops.
fn good(each: Each) {
    const GROUP: &str = "good";
    for case in 0..860u64 {
        let mut draw = Draw::new(1, case);
        let tiles = match case {
            0..=9 => [960, 960, 959, 960, 937, 936, 960, 960, 960, 960][case as usize],
            10..=39 => 61 + draw.below(400),
            _ if case % 3 == 0 => 1 + draw.below(4),
            _ if case % 3 == 1 => 22 + draw.below(6),
            _ => 1 + draw.below(60),
        };
        let n = match case {
            0 => 256,
            1..=39 => 1 + draw.below(4),
            40..=60 => 200 + draw.below(57),
            _ => 1 + draw.below(8),
        };
        let (sort, k) = (case as usize % SORTS.len(), if case == 0 { 64 } else { any_k(&mut draw) });
        let town = town(sort, tiles, &mut draw);
        let (file, stops) = (file_of(&town), stops(&town, n, &mut draw));
        let what = format!("a town of sort `{}`, {tiles} tiles; k {k}, {n} stops, first {:?}", SORTS[sort], stops[0]);
        each(GROUP, &what, join_of(&file, tiles, &stops, k, &mut draw));
        if case % 3 == 0 {
            each(GROUP, &what, prune_of(&file, tiles, around_all(&stops), k, &mut draw));
        }
        if case % 4 == 0 {
            each(GROUP, &what, Call::Validate { file });
        }
    }
}

fn u16_at(file: &[u8], at: usize) -> usize {
    file[at] as usize + 256 * file[at + 1] as usize
}

fn set_u16(file: &mut [u8], at: usize, value: usize) {
    file[at..at + 2].copy_from_slice(&(value as u16).to_le_bytes());
}

fn set_i32(file: &mut [u8], at: usize, value: i32) {
    file[at..at + 4].copy_from_slice(&value.to_le_bytes());
}

/// Another number than the one that is there.
fn other_u16(file: &mut [u8], at: usize, list: &[usize], draw: &mut Draw) -> usize {
    let was = u16_at(file, at);
    let close = [was + 1, was.wrapping_sub(1), was + 256, was * 256, 0, 0xffff];
    let value = if draw.one_in(2) { draw.pick(&close) } else { draw.pick(list) } & 0xffff;
    let value = if value == was { was ^ 1 } else { value };
    set_u16(file, at, value);
    value
}

fn far_beyond(draw: &mut Draw) -> i32 {
    draw.pick(&[4_000_001, -4_000_001, 5_000_000, i32::MIN, i32::MAX])
}

/// A kind that is none of a plan town's, or the other one; never 3 in block 0.
fn other_kind(was: u8, position: usize, draw: &mut Draw) -> u8 {
    let list = if was == 1 { [0, 2, 4, 3, 5, 255, 129] } else { [0, 1, 4, 3, 5, 255, 130] };
    match draw.pick(&list) {
        3 if position == 0 => 6,
        kind => kind,
    }
}

/// A tile with sites, if there is one.
fn some_tile(town: &[Tile], draw: &mut Draw) -> usize {
    let with: Vec<usize> = (0..town.len()).filter(|t| !town[*t].sites.is_empty()).collect();
    match with.is_empty() {
        true => draw.below(town.len()),
        false => draw.pick(&with),
    }
}

const DAMAGE: usize = 28;

/// Damage of one sort: 0 to 11 in a directory block, the others in tiles or anywhere. Gives the block and words.
fn damage(sort: usize, file: &mut [u8], town: &[Tile], draw: &mut Draw) -> (usize, String) {
    let (tiles, d) = (town.len(), directory_blocks(town.len()));
    let tile = some_tile(town, draw);
    let position = if sort < 12 { draw.below(d) } else { d + tile };
    let start = SIZE * position;
    let entry = match sort {
        0..=11 => draw.below((tiles - 24 * position).min(24)),
        _ => tile % 24,
    };
    // The entry of the tile that is damaged, or any of the directory block.
    let entry_at = if sort < 12 { start } else { SIZE * (tile / 24) } + 16 + 20 * entry;
    let sites = town[tile].sites.len();
    let slot = draw.below(sites.max(1));
    let site_at = start + 16 + 12 * slot;
    let mut mended = true;
    let what = match sort {
        0 | 12 => {
            file[start] ^= draw.not_zero();
            format!("sync {}", file[start])
        }
        1 | 13 => {
            mended = false;
            let at = start + 510 + draw.below(2);
            file[at] = file[at].wrapping_add(draw.not_zero());
            format!("byte {} is {}", at - start, file[at])
        }
        2 => {
            mended = false;
            let at = start + 510 + draw.below(2);
            file[at] = 255;
            format!("byte {} is 255", at - start)
        }
        3 | 14 => {
            file[start + 1] = other_kind(file[start + 1], position, draw);
            format!("kind {}", file[start + 1])
        }
        4 | 15 => format!("position {}", other_u16(file, start + 2, &[0, 1, 999, 1_000], draw)),
        5 => format!("T {}", other_u16(file, start + 6, &[1, 24, 25, 960, 961, 1_000], draw)),
        6 | 16 => format!("entries {}", other_u16(file, start + 4, &[0, 1, 17, 24, 25, 30, 40, 41], draw)),
        7 => {
            let past = 16 + 20 * (tiles - 24 * position).min(24);
            let at = draw.pick(&[8, 9, 15, past, past + 4, 496, 500, 509]).min(509);
            file[start + at] = draw.not_zero();
            format!("byte {at} is {}", file[start + at])
        }
        8 => {
            let at = entry_at + 4 * draw.below(4);
            set_i32(file, at, far_beyond(draw));
            format!("entry {entry}: a coordinate far beyond the limits")
        }
        9 => {
            let axis = draw.below(2);
            let high = town[24 * position + entry].ends[axis + 2].min(LIMIT - 1);
            set_i32(file, entry_at + 4 * axis + 8, high);
            set_i32(file, entry_at + 4 * axis, high + 1);
            format!("entry {entry}: low above high on axis {axis}")
        }
        10 => {
            let count = draw.pick(&[41, 42, 64, 256, 296, 0xffff]);
            set_u16(file, entry_at + 16, count);
            format!("entry {entry}: count {count}")
        }
        11 => {
            let muted = u16_at(file, entry_at + 16) + draw.pick(&[1, 1, 2, 41, 256]);
            set_u16(file, entry_at + 18, muted);
            format!("entry {entry}: {muted} muted")
        }
        17 => {
            let past = 16 + 12 * sites;
            let at = draw.pick(&[6, 7, 8, 15, past, past + 11, 496, 509]).min(509);
            file[start + at] = draw.not_zero();
            format!("byte {at} is {}", file[start + at])
        }
        18 | 19 if sites > 0 => {
            let (axis, high) = (draw.below(2), draw.below(2));
            let outside = town[tile].ends[axis + 2 * high] + [-1, 1][high];
            let value = if sort == 18 { outside } else { far_beyond(draw) };
            set_i32(file, site_at + 4 * axis, value);
            format!("slot {slot}: {value} on axis {axis}")
        }
        20 | 21 if sites > 0 => {
            let cue = if town[tile].sites[slot].2 == 0 { 1 << draw.below(32) } else { 0 };
            set_i32(file, site_at + 8, cue);
            format!("slot {slot}: cue {cue}")
        }
        22 if sites > 0 => {
            let muted = (town[tile].muted() + 1 + draw.below(sites)) % (sites + 1);
            set_u16(file, entry_at + 18, muted);
            mend(file, tile / 24);
            format!("{muted} muted by the directory")
        }
        23 => {
            let count = (sites + 1 + draw.below(40)) % 41;
            set_u16(file, entry_at + 16, count);
            set_u16(file, entry_at + 18, draw.below(count + 1));
            mend(file, tile / 24);
            format!("count {count} by the directory")
        }
        24 => {
            let axis = draw.below(2);
            set_i32(file, entry_at + 4 * axis, town[tile].ends[axis + 2]);
            mend(file, tile / 24);
            format!("a box without its low part on axis {axis}")
        }
        25 => {
            let other = draw.below(d + tiles);
            let (here, there) = (file[start..start + SIZE].to_vec(), file[SIZE * other..SIZE * (other + 1)].to_vec());
            file[start..start + SIZE].copy_from_slice(&there);
            file[SIZE * other..SIZE * (other + 1)].copy_from_slice(&here);
            mended = false;
            format!("in the place of block {other}, and the other way round")
        }
        26 => {
            mended = draw.one_in(2);
            let value = draw.pick(&[0, 255]);
            file[start..start + SIZE].fill(value);
            format!("all {value}")
        }
        _ => {
            for at in start + 2..start + SIZE {
                file[at] = draw.byte();
            }
            mended = draw.one_in(2);
            "bytes of any sort after the first two".into()
        }
    };
    if mended && !(sort < 12 && draw.one_in(8)) {
        mend(file, position);
    }
    (position, what)
}

/// Stops that open the tile of a block mostly.
fn stops_at(town: &[Tile], position: usize, draw: &mut Draw) -> Vec<[i32; 2]> {
    let tile = position.saturating_sub(directory_blocks(town.len()));
    let mut stops = vec![in_box(&town[tile], draw)];
    for _ in 0..draw.below(3) {
        let other = draw.below(town.len());
        stops.insert(0, in_box(&town[other], draw));
    }
    stops
}

/// The full check and the join, and strike for one in `prunes` files.
fn calls(
    group: &'static str,
    what: &str,
    file: &[u8],
    town: &[Tile],
    position: usize,
    prunes: usize,
    draw: &mut Draw,
    each: Each,
) {
    let (stops, k, tiles) = (stops_at(town, position, draw), any_k(draw), town.len());
    each(group, what, Call::Validate { file: file.to_vec() });
    each(group, what, join_of(file, tiles, &stops, k, draw));
    if draw.one_in(prunes) {
        each(group, what, prune_of(file, tiles, around_all(&stops), k, draw));
    }
}

const SIZES: [usize; 9] = [1, 2, 6, 13, 24, 25, 30, 49, 73];

/// Every sort of damage, several times; two at once in one file of four.
fn damaged(each: Each) {
    for case in 0..15 * DAMAGE {
        let mut draw = Draw::new(2, case as u64);
        let tiles = draw.pick(&SIZES);
        let sort = draw.pick(&[0, 3, 5, 6, 6, 7, 9]);
        let town = town(sort, tiles, &mut draw);
        let mut file = file_of(&town);
        let (mut position, text) = damage(case % DAMAGE, &mut file, &town, &mut draw);
        let mut what = format!("a town of sort `{}`, {tiles} tiles; block {position}: {text}", SORTS[sort]);
        if draw.one_in(4) {
            let second = draw.below(DAMAGE);
            let (other, text) = damage(second, &mut file, &town, &mut draw);
            what += &format!("; block {other}: {text}");
            position = position.max(other);
        }
        calls("damaged", &what, &file, &town, position, 3, &mut draw, each);
    }
    // The largest file: positions over 255, the last of everything.
    for case in 0..2 * DAMAGE {
        let mut draw = Draw::new(3, case as u64);
        let town = town(5, 960, &mut draw);
        let mut file = file_of(&town);
        let (position, text) = damage(case % DAMAGE, &mut file, &town, &mut draw);
        let what = format!("960 tiles; block {position}: {text}");
        calls("damaged", &what, &file, &town, position, 4, &mut draw, each);
    }
}

/// Whether some coordinate of the directory is between the limits of today and those of request 6.
fn between_limits(file: &[u8], tiles: usize) -> bool {
    let coordinate = |at: usize| i32::from_le_bytes([file[at], file[at + 1], file[at + 2], file[at + 3]]) as i64;
    (0..tiles).any(|tile| {
        let at = SIZE * (tile / 24) + 16 + 20 * (tile % 24);
        (0..4).any(|i| (LIMIT as i64 + 1..=4_000_000).contains(&coordinate(at + 4 * i).abs()))
    })
}

/// Each byte position of a block: one byte changed, with the check mended and not.
fn bytes(each: Each) {
    for case in 0..2 * SIZE {
        let mut draw = Draw::new(4, case as u64);
        let (at, tiles) = (case % SIZE, draw.pick(&[1, 5, 25, 49]));
        let town = town(draw.pick(&[3, 6]), tiles, &mut draw);
        let mut file = file_of(&town);
        let d = directory_blocks(tiles);
        let tile = some_tile(&town, &mut draw);
        let position = if case < SIZE { draw.below(d) } else { d + tile };
        let was = file[SIZE * position + at];
        let random = was.wrapping_add(draw.not_zero());
        let value = match at {
            1 => other_kind(was, position, &mut draw),
            _ => draw.pick(&[was ^ 1, was ^ 0x80, random]),
        };
        file[SIZE * position + at] = value;
        let mended = !draw.one_in(4);
        if mended {
            mend(&mut file, position);
        }
        if between_limits(&file, tiles) {
            continue;
        }
        let what = format!("{tiles} tiles; block {position}, byte {at}: {value}, was {was}, check mended: {mended}");
        let (stops, k) = (stops_at(&town, position, &mut draw), any_k(&mut draw));
        if case % 2 == 0 || position >= d {
            each("bytes", &what, join_of(&file, tiles, &stops, k, &mut draw));
        } else {
            each("bytes", &what, prune_of(&file, tiles, around_all(&stops), k, &mut draw));
        }
        if draw.one_in(8) {
            each("bytes", &what, Call::Validate { file });
        }
    }
}

/// Makes the file so long: cut, or with zeros or its own bytes again after it.
fn resize(file: &mut Vec<u8>, length: usize, zeros: bool) {
    let whole = file.len();
    file.truncate(length);
    while file.len() < length {
        file.push(if zeros { 0 } else { file[file.len() % whole] });
    }
}

/// Files cut and lengthened.
fn lengths(each: Each) {
    for case in 0..12 {
        let mut draw = Draw::new(5, case);
        let town = town(6, [1, 2, 24, 25, 26, 50][case as usize % 6], &mut draw);
        let good = file_of(&town);
        let whole = good.len();
        for length in [0, 1, 511, 512, 513, 1_024, whole - 512, whole - 1, whole + 1, whole + 511, whole + 512] {
            let mut file = good.clone();
            resize(&mut file, length, case < 6);
            let what = format!("{length} bytes of a file of {whole}");
            calls("lengths", &what, &file, &town, 0, 3, &mut draw, each);
        }
    }
    // Around 512,000 and 520,704 bytes. Block 0 is good so far as 2, 3 and 4 go, where the length is a multiple of 512.
    let mut long: Vec<usize> = (0..=17).map(|more| 512_000 + 512 * more).collect();
    long.extend([511_488, 511_999, 512_001, 512_511, 520_703, 520_705, 521_215, 600_064, 1_024_000]);
    for (case, length) in long.iter().enumerate() {
        for round in 0..4u64 {
            let mut draw = Draw::new(6, 4 * case as u64 + round);
            let town = town(5, draw.pick(&[960, 960, 959, 30]), &mut draw);
            let mut file = file_of(&town);
            resize(&mut file, *length, round % 2 == 0);
            let mut what = format!("{length} bytes, a town of {} tiles at first", town.len());
            let late = [4, 5, 6, 7, 9, 10, 11];
            if round > 0 {
                // Damage of block 0 that is tested later than the length; and any, where the length comes first.
                let first = *length % 512 != 0 || *length > 520_704;
                let sort = if first && round == 3 { draw.pick(&[0, 1, 3]) } else { draw.pick(&late) };
                let (position, text) = damage(sort, &mut file, &town, &mut draw);
                if position == 0 && !(first && round == 3) {
                    mend(&mut file, 0);
                }
                what += &format!("; block {position}: {text}");
            }
            calls("lengths", &what, &file, &town, 0, 3, &mut draw, each);
        }
    }
}

/// What is wrong with the arguments of a join: any set of the six faults.
fn join_arguments(case: u64, draw: &mut Draw) -> (String, Call) {
    let tiles = draw.pick(&SIZES);
    let town = town(draw.pick(&[3, 6, 9]), tiles, draw);
    let mut file = file_of(&town);
    let n = 1 + draw.below(5);
    let (stops, mut k) = (stops(&town, n, draw), any_k(draw));
    let mut needed = n * k as usize;
    let [mut x, mut y] = [0, 1].map(|axis| stops.iter().map(|stop| stop[axis]).collect::<Vec<i32>>());
    // Each fault alone at first, then any.
    let faults = if case < 240 { 1 << (case % 6) } else { draw.below(64) & draw.below(64) };
    let has = |fault: usize| faults >> fault & 1 == 1;
    let mut what = format!("{tiles} tiles, {n} stops, faults {faults:06b} (the last digit is the first)");
    if has(5) {
        let (position, text) = damage(12 + draw.below(6), &mut file, &town, draw);
        what += &format!("; block {position}: {text}");
    }
    if has(0) {
        let sort = draw.below(12);
        let (position, text) = damage(sort, &mut file, &town, draw);
        what += &format!("; block {position}: {text}");
    }
    if has(3) {
        let list = if draw.one_in(2) { &mut x } else { &mut y };
        list[draw.below(n)] = far_beyond(draw);
    }
    if has(2) {
        match draw.below(7) {
            0 => x.clear(),
            1 => y.clear(),
            2 => x.push(0),
            3 => y.push(0),
            4 => (x.clear(), y.clear()).0,
            5 => (x.resize(257, 7), y.resize(257, 7)).0,
            _ => (x.resize(257, 7), y.resize(256, 7)).0,
        }
        needed = needed.max(draw.pick(&[1, 16_448]));
    }
    if has(1) {
        k = draw.pick(&[0, 0, 65, 66, 256, 1 << 16, 1 << 31, u32::MAX]);
    }
    let mut lengths = [needed, needed, needed, tiles];
    if has(4) {
        let which = draw.below(4);
        lengths[which] = draw.pick(&[0, lengths[which] - 1, lengths[which] / 2]);
    }
    what += &format!("; k {k}, {} x, {} y, slices of {lengths:?}", x.len(), y.len());
    (what, Call::Join { file, x, y, k, lengths })
}

/// What is wrong with the arguments of a strike: any set of the four faults.
fn prune_arguments(case: u64, draw: &mut Draw) -> (String, Call) {
    let tiles = draw.pick(&SIZES);
    let town = town(draw.pick(&[3, 6, 9]), tiles, draw);
    let mut file = file_of(&town);
    let (mut o, mut k) = (around_all(&stops(&town, 2, draw)), any_k(draw));
    let faults = if case < 120 { 1 << (case % 4) } else { draw.below(16) };
    let has = |fault: usize| faults >> fault & 1 == 1;
    let mut marks = tiles;
    if has(0) {
        let sort = draw.below(12);
        damage(sort, &mut file, &town, draw);
    }
    if has(1) {
        k = draw.pick(&[0, 0, 65, 66, 256, 1 << 16, 1 << 31, u32::MAX]);
    }
    if has(2) {
        let axis = draw.below(2);
        match draw.below(3) {
            0 => o[axis][0] = o[axis][1] + 1,
            1 => o[axis] = [far_beyond(draw); 2],
            _ => o[axis][draw.below(2)] = far_beyond(draw),
        }
    }
    if has(3) {
        marks = draw.pick(&[0, tiles - 1, tiles / 2]);
    }
    let what = format!("{tiles} tiles, faults {faults:04b} (the last digit is the first); {o:?}, k {k}, {marks} marks");
    (what, Call::Prune { file, o, k, marks })
}

fn arguments(each: Each) {
    for case in 0..450 {
        let (what, call) = join_arguments(case, &mut Draw::new(7, case));
        each("arguments", &what, call);
    }
    for case in 0..200 {
        let (what, call) = prune_arguments(case, &mut Draw::new(8, case));
        each("arguments", &what, call);
    }
}

type Supply = (Vec<i32>, Vec<u32>, Vec<i32>, Vec<i32>, Vec<u32>);

fn supply_of(town: &[Tile]) -> Supply {
    let all = || town.iter().flat_map(|tile| tile.sites.iter());
    (
        town.iter().flat_map(|tile| tile.ends).collect(),
        town.iter().map(|tile| tile.sites.len() as u32).collect(),
        all().map(|site| site.0).collect(),
        all().map(|site| site.1).collect(),
        all().map(|site| site.2).collect(),
    )
}

/// The writer on towns as they are, and with any set of its six faults.
fn writes(each: Each) {
    for case in 0..480u64 {
        let mut draw = Draw::new(9, case);
        let tiles = match case {
            0..=4 => 960,
            5..=20 => 61 + draw.below(400),
            _ => 1 + draw.below(40),
        };
        let sort = case as usize % SORTS.len();
        let town = town(sort, tiles, &mut draw);
        let (mut boxes, mut counts, mut x, mut y, mut cues) = supply_of(&town);
        let mut out = SIZE * (tiles + directory_blocks(tiles)) + draw.pick(&[0, 0, 1, 700]);
        let faults = match case {
            0..=179 => 0,
            180..=359 => 1 << (case % 6),
            _ => draw.below(64) & draw.below(64),
        };
        let has = |fault: usize| faults >> fault & 1 == 1;
        let tile = some_tile(&town, &mut draw);
        let first: usize = counts[..tile].iter().map(|c| *c as usize).sum();
        if has(5) {
            out = draw.pick(&[0, 1, out / 2, SIZE * (tiles + directory_blocks(tiles)) - 1]);
        }
        if has(4) && counts[tile] > 0 {
            let (axis, high) = (draw.below(2), draw.below(2));
            let outside = town[tile].ends[axis + 2 * high] + [-1, 1][high];
            let value = draw.pick(&[outside, outside, i32::MIN, i32::MAX]);
            let site = first + draw.below(counts[tile] as usize);
            [&mut x, &mut y][axis][site] = value;
        }
        if has(3) {
            match draw.below(6) {
                0 => x.push(0),
                1 => y.push(0),
                2 => cues.push(0),
                3 => drop(x.pop()),
                4 => drop(y.pop()),
                _ => drop(cues.pop()),
            }
        }
        if has(2) {
            let axis = draw.below(2);
            match draw.below(4) {
                0 => boxes[4 * tile + draw.below(4)] = far_beyond(&mut draw),
                1 => boxes[4 * tile + axis] = boxes[4 * tile + axis + 2] + 1,
                _ => counts[tile] = draw.pick(&[41, 42, 256, 65_536, 65_537, u32::MAX]),
            }
        }
        if has(1) {
            match draw.below(5) {
                0 => boxes.push(0),
                1 => drop(boxes.pop()),
                2 => boxes.extend([0; 4]),
                3 => boxes.extend(vec![0; 2 * tiles]),
                _ => boxes.truncate(4 * tiles - 4),
            }
        }
        if has(0) {
            match draw.below(3) {
                0 => counts.clear(),
                1 => (counts.clear(), boxes.clear()).0,
                _ => {
                    counts.resize(961, 0);
                    boxes.resize(4 * 961, 0);
                    out = SIZE * (961 + 41);
                }
            }
        }
        let what = format!(
            "a town of sort `{}`, {tiles} tiles, faults {faults:06b} (the last digit is the first); {out} bytes of out",
            SORTS[sort]
        );
        each("writes", &what, Call::Write { boxes, counts, x, y, cues, out });
    }
}

fn any_box(draw: &mut Draw) -> [[i32; 2]; 2] {
    [0, 1].map(|_| {
        let reach = draw.pick(&[4, 10, 1_000, LIMIT, LIMIT]);
        let mut end = || if draw.one_in(8) { draw.pick(&[-LIMIT, 0, LIMIT]) } else { draw.range(-reach, reach) };
        let (p, q) = (end(), end());
        [p.min(q), p.max(q)]
    })
}

fn margins(each: Each) {
    for case in 0..400 {
        let mut draw = Draw::new(10, case);
        let mut boxes = [any_box(&mut draw), any_box(&mut draw), any_box(&mut draw)];
        if case >= 300 {
            let axis = &mut boxes[draw.below(3)][draw.below(2)];
            match draw.below(3) {
                0 => axis[0] = axis[1] + 1,
                1 => *axis = [far_beyond(&mut draw); 2],
                _ => axis[draw.below(2)] = far_beyond(&mut draw),
            }
        }
        each("margins", &format!("O, E, B {boxes:?}"), Call::Margin { boxes });
    }
}

fn checks(each: Each) {
    for case in 0..240 {
        let mut draw = Draw::new(11, case);
        let mut slice: Vec<u8> = match draw.below(4) {
            0 => (0..SIZE).map(|_| draw.pick(&[0, 0, 1, 254, 255])).collect(),
            _ => (0..SIZE).map(|_| draw.byte()).collect(),
        };
        slice[0] = 0xd6;
        slice[1] = draw.pick(&[0, 1, 2, 3, 4, 5, 128, 255]);
        mend(&mut slice, 0);
        let what = match case % 6 {
            0 => "a block with the right check",
            1 => {
                slice[0] ^= draw.not_zero();
                "another first byte"
            }
            2 => {
                let at = 2 + draw.below(510);
                slice[at] = slice[at].wrapping_add(draw.not_zero());
                "another byte"
            }
            3 => {
                slice[510 + draw.below(2)] = 255;
                "a stored 255"
            }
            4 => {
                let length = draw.pick(&[0, 1, 2, 511, 513, 1_024]);
                slice.resize(length, 0);
                "another length"
            }
            _ => {
                let at = 2 + draw.below(508);
                slice[at] = 255 - slice[at];
                mend(&mut slice, 0);
                "another byte, check mended"
            }
        };
        each("checks", what, Call::Check { slice });
    }
}

/// What hangs on the limits of a coordinate, one beyond them: request 6 moves them.
fn limits(each: Each) {
    const GROUP: &str = "limits";
    for case in 0..40 {
        let mut draw = Draw::new(12, case);
        let tiles = draw.pick(&[1, 5, 25]);
        let town = town(8, tiles, &mut draw);
        let good = file_of(&town);
        let beyond = draw.pick(&[LIMIT + 1, -LIMIT - 1, 2_000_000, -4_000_000]);
        let (stops, k) = (stops(&town, 2, &mut draw), any_k(&mut draw));
        let (tile, end, axis) = (draw.below(tiles), draw.below(4), draw.below(2));
        let what = format!("{tiles} tiles, {beyond}: tile {tile}, end {end}, axis {axis}");

        let mut file = good.clone();
        set_i32(&mut file, SIZE * (tile / 24) + 16 + 20 * (tile % 24) + 4 * end, beyond);
        mend(&mut file, tile / 24);
        each(GROUP, &what, join_of(&file, tiles, &stops, k, &mut draw));
        let mut far = stops.clone();
        far[case as usize % 2][axis] = beyond;
        each(GROUP, &what, join_of(&good, tiles, &far, k, &mut draw));
        let mut o = around_all(&stops);
        o[axis][(beyond > 0) as usize] = beyond;
        each(GROUP, &what, prune_of(&good, tiles, o, k, &mut draw));
        let mut boxes = [any_box(&mut draw), any_box(&mut draw), any_box(&mut draw)];
        boxes[case as usize % 3][axis][(beyond > 0) as usize] = beyond;
        each(GROUP, &what, Call::Margin { boxes });
        let (mut boxes, counts, x, y, cues) = supply_of(&town);
        boxes[4 * tile + axis + 2 * (beyond > 0) as usize] = beyond;
        each(GROUP, &what, Call::Write { boxes, counts, x, y, cues, out: good.len() });
    }
}

/// Every case, in the order of the record.
pub fn all(each: Each) {
    good(each);
    damaged(each);
    bytes(each);
    lengths(each);
    arguments(each);
    writes(each);
    margins(each);
    checks(each);
    limits(each);
}
