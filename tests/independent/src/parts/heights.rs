//! Document 02, request 2: what hangs on towns with three axes beside towns with two, with outcomes said by hand. The
//! other parts run over towns with height as they do over plan towns.

use super::damaged::{base, Base};
use super::expected::{refused, Trial};
use super::faults::spoil_directory_block;
use super::joins::{any_k, list};
use super::unread::engine;
use super::{count, drawn};
use crate::compare::{self, Failure, Lengths, Query};
use crate::damage::{block_mut, other_kinds, repair_block, set_u16};
use crate::fillings::filling;
use crate::paper::blocks::{
    count_in_entry, directory_kind, entry_at, entry_size, most_sites, per_block, site_size, tile_kind, SIZE,
};
use crate::paper::boxes::smallest_around;
use crate::paper::directory::{directory_blocks, file_size};
use crate::paper::search::Place;
use crate::paper::writer::{file_of, Supply};
use crate::paper::{each_axis, muted, Bounds, Entry, Point, Refusal, Site, Town};
use crate::rng::Rng;
use crate::tally::Tally;
use crate::towns::{self, SORTS};

/// The numbers of the papers, which the formulas over the axes have to give.
fn layout() {
    let of = |axes: usize| (directory_kind(axes), tile_kind(axes), entry_size(axes), site_size(axes));
    assert_eq!((of(2), per_block(2), most_sites(2)), ((1, 2, 20, 12), 24, 40));
    assert_eq!((of(3), per_block(3), most_sites(3)), ((3, 4, 28, 16), 17, 30));
    // "such a file may have 1,017 blocks: over 520,704 bytes is 1"
    assert_eq!((file_size(2, 960), file_size(3, 960), 1_017 * SIZE), (512_000, 520_704, 520_704));
    let d = [1, 17, 18, 34, 35, 952, 953, 960].map(|tiles| directory_blocks(3, tiles));
    assert_eq!(d, [1, 1, 2, 2, 3, 56, 57, 57]);
}

impl Trial<'_> {
    /// Every call for A axes on this file is refused so.
    fn all_refused<const A: usize>(&mut self, file: &[u8], town: &Town<A>, due: Refusal) -> Result<(), Failure> {
        let tiles = town.entries.len();
        let query = self.query(town, 0);
        self.join_refused(file, &query, tiles, due)?;
        let o = smallest_around(&query.stops());
        let (pruned, _) = compare::prune(file, o, query.k, tiles, self.rng, self.tally)?;
        if pruned != due.into() {
            let text = format!("strike for {A} axes, {o:?}: due by hand {due:?}, got {pruned:?}");
            return Err(Failure::with_file(text, file));
        }
        let (streamed, _) = compare::stream_order(file, o, tiles, self.rng, self.tally)?;
        if streamed != due.into() {
            let text = format!("stream order for {A} axes, {o:?}: due by hand {due:?}, got {streamed:?}");
            return Err(Failure::with_file(text, file));
        }
        Ok(())
    }

    /// Every call, for two axes and for three, is refused so, by the tests of the directory.
    fn directory_refused(
        &mut self,
        file: &[u8],
        plan: &Town<2>,
        high: &Town<3>,
        number: u32,
        block: usize,
    ) -> Result<(), Failure> {
        self.checked(file, refused(number, block))?;
        self.all_refused(file, plan, Refusal { number, block: block as u32 })?;
        self.all_refused(file, high, Refusal { number, block: block as u32 })
    }

    /// "over 520,704 bytes is 1 before all else, and over 512,000 is 1 directly after block 0's test for 4 if its kind
    /// is 1": plan files of such lengths, with any faults of block 0. 2, 3 and 4 come before, 5 to 9 after.
    fn late_length(&mut self, plan: &Base<2>, high: &Base<3>) -> Result<(), Failure> {
        for length in (512_000..=520_704 + 1_024).step_by(SIZE) {
            let all = [512_512, 520_704, 520_704 + 512].contains(&length);
            for round in 0..if all { 256 } else { 24 } {
                let faults = match (all, round) {
                    (true, _) => round,
                    (false, 0..=8) => (1 << round) >> 1,
                    _ => self.rng.below(256),
                };
                let mut file = plan.file.clone();
                let zeros = self.rng.chance(2);
                file.resize_with(length, || if zeros { 0 } else { 0xd6 });
                spoil_directory_block::<2>(&mut file, 0, 960, faults, self.rng);
                let first = (2..=9).find(|number| faults >> (number - 2) & 1 == 1);
                let number = match (length, first) {
                    (512_000, _) => first,
                    (520_705.., _) => Some(1),
                    (_, Some(2..=4)) => first,
                    _ => Some(1),
                };
                let case = format!("a plan file of {length} bytes, faults of block 0 {faults:08b}");
                match number {
                    None => self.checked(&file, Ok(960)),
                    Some(number) => self.directory_refused(&file, &plan.town, &high.town, number, 0),
                }
                .map_err(|f| f.case(&case))?;
            }
        }
        // No multiple of 512, whatever block 0 is.
        for length in [512_001, 512_511, 512_513, 520_703, 520_705] {
            for faults in [0, 1, 2, 4, 8, 255] {
                let mut file = plan.file.clone();
                file.resize(length, 0);
                spoil_directory_block::<2>(&mut file, 0, 960, faults, self.rng);
                self.directory_refused(&file, &plan.town, &high.town, 1, 0)?;
            }
        }
        Ok(())
    }

    /// Files with height of more than 512,000 bytes: good ones, and ones cut or too long for their T, which is 6.
    fn long_files(&mut self, plan: &Base<2>) -> Result<(), Failure> {
        for tiles in 943..=960 {
            let base: Base<3> = base(tiles, self.rng);
            assert_eq!(base.file.len(), SIZE * (tiles + tiles.div_ceil(17)));
            self.checked(&base.file, Ok(tiles))?;
            let tile = self.rng.below(tiles);
            let query = self.query(&base.town, tile);
            let (joined, _) = self.joined(&base.file, &query, tiles)?;
            assert_eq!((joined.number, joined.tiles), (0, tiles as u32));
            for length in [base.file.len() - 512, base.file.len() + 512, 511_488, 512_000, 512_512, 520_704] {
                if length == base.file.len() {
                    continue;
                }
                let mut file = base.file.clone();
                file.resize(length, 0);
                let number = if length > 520_704 { 1 } else { 6 };
                self.directory_refused(&file, &plan.town, &base.town, number, 0)?;
            }
        }
        // 961 tiles would be 1,018 blocks: 1, before T is looked at.
        let largest: Base<3> = base(960, self.rng);
        let mut file = largest.file.clone();
        file.resize(1_018 * SIZE, 0);
        set_u16(block_mut(&mut file, 0), 6, 961);
        repair_block(&mut file, 0);
        self.directory_refused(&file, &plan.town, &largest.town, 1, 0)
    }

    /// 17 for a good town of B axes in every call for A, whatever its tiles hold; the full check takes it.
    fn other_axes<const A: usize, const B: usize>(&mut self, tiles: usize) -> Result<(), Failure> {
        let (here, there): (Base<A>, Base<B>) = (base(tiles, self.rng), base(tiles, self.rng));
        self.checked(&there.file, Ok(tiles))?;
        self.all_refused(&there.file, &here.town, Refusal { number: 17, block: 0 })?;
        let mut file = there.file.clone();
        let junk = self.rng.bytes(file.len() - SIZE * there.d);
        file[SIZE * there.d..].copy_from_slice(&junk);
        self.all_refused(&file, &here.town, Refusal { number: 17, block: 0 })
    }

    /// "Block 0 settles the axes; another kind later is 4": each kind that is not due, in each later directory block
    /// and in each tile, with the check mended.
    fn families<const A: usize>(&mut self, base: &Base<A>, plan: &Town<2>, high: &Town<3>) -> Result<(), Failure> {
        let tiles = base.town.entries.len();
        for position in 1..base.d + tiles {
            let due = if position < base.d { directory_kind(A) } else { tile_kind(A) };
            for kind in other_kinds(due) {
                let mut file = base.file.clone();
                block_mut(&mut file, position)[1] = kind;
                repair_block(&mut file, position);
                match position.checked_sub(base.d) {
                    None => self.directory_refused(&file, plan, high, 4, position),
                    Some(tile) => self.tile_changed(base, &file, tile, Some(4)),
                }
                .map_err(|f| f.case(&format!("{A} axes, {tiles} tiles: block {position} has kind {kind}")))?;
            }
        }
        // A kind in block 0 that is neither.
        for kind in other_kinds(1).into_iter().filter(|kind| *kind != 3) {
            let mut file = base.file.clone();
            block_mut(&mut file, 0)[1] = kind;
            repair_block(&mut file, 0);
            self.directory_refused(&file, plan, high, 4, 0)?;
        }
        Ok(())
    }

    /// "A count over 30 is 9 there": of the directory and of the writer; on plan the same for 40.
    fn counts<const A: usize>(&mut self, plan: &Town<2>, high: &Town<3>) -> Result<(), Failure> {
        let most = most_sites(A);
        for sites in [most - 1, most, most + 1, 29, 30, 31, 39, 40, 41, 42] {
            let bounds: Bounds<A> = each_axis(|axis| [[0, 50], [-9, 9], [600, 640]][axis]);
            let entry = Entry { bounds, count: sites, muted: 0 };
            let town = Town::of(vec![(bounds, filling(&entry, self.rng)), (bounds, vec![])]);
            let out = file_size(A, 2);
            let written = compare::write(&Supply::of(&town), out, self.rng, self.tally)?;
            match sites <= most {
                true => self.checked(&written.expect("a good town"), Ok(2))?,
                false => assert_eq!(written.map_err(|r| (r.number, r.block)), Err((9, 0))),
            }
            // The same count in the directory of a file whose tile has fewer.
            let mut file = file_of(&Town::of(vec![(bounds, vec![]), (bounds, vec![])]));
            set_u16(block_mut(&mut file, 0), entry_at(A, 1) + count_in_entry(A), sites);
            repair_block(&mut file, 0);
            match sites <= most {
                true => self.checked(&file, refused(7, 2))?,
                false => self.directory_refused(&file, plan, high, 9, 0)?,
            }
        }
        Ok(())
    }

    /// One entry more than a block has: T of one more with one directory block is 6, one more by bytes 4-5 is 7, and a
    /// byte of it is 8. With three axes 4 bytes of the payload are left over.
    fn one_entry_more<const A: usize>(&mut self, plan: &Town<2>, high: &Town<3>) -> Result<(), Failure> {
        let full = per_block(A);
        let base: Base<A> = base(full, self.rng);
        assert_eq!(base.d, 1);
        self.checked(&base.file, Ok(full))?;
        let changed = |change: &dyn Fn(&mut [u8])| {
            let mut file = base.file.clone();
            change(block_mut(&mut file, 0));
            repair_block(&mut file, 0);
            file
        };
        let mut longer = changed(&|block| set_u16(block, 6, full + 1));
        self.directory_refused(&longer, plan, high, 6, 0)?;
        longer.resize(base.file.len() + SIZE, 0);
        self.directory_refused(&longer, plan, high, 6, 0)?;
        self.directory_refused(&changed(&|block| set_u16(block, 4, full + 1)), plan, high, 7, 0)?;
        for at in entry_at(A, full)..510 {
            self.directory_refused(&changed(&|block| block[at] = 1), plan, high, 8, 0)?;
        }
        Ok(())
    }
}

/// The town with one more axis, at a place of its own: every box and site has the same coordinate there.
fn raised(town: &Town<2>, place: usize, level: i32) -> Town<3> {
    let site = |s: &Site<2>| Site { at: with_axis(s.at, place, level), cue: s.cue };
    let tile = |(e, sites): (&Entry<2>, &Vec<Site<2>>)| {
        (with_axis(e.bounds, place, [level, level]), sites.iter().map(site).collect())
    };
    Town::of(town.entries.iter().zip(&town.sites).map(tile).collect())
}

fn with_axis<T: Copy>(two: [T; 2], place: usize, third: T) -> [T; 3] {
    let mut all = two.to_vec();
    all.insert(place, third);
    [all[0], all[1], all[2]]
}

/// At most 30 sites to a tile.
fn thinned(town: &Town<2>) -> Town<2> {
    Town::of(town.entries.iter().zip(&town.sites).map(|(e, s)| (e.bounds, s[..s.len().min(30)].to_vec())).collect())
}

/// A plan town, and the same as a town with height where all sites are on one level and all stops on another: the same
/// answer, but that each D has the square of the difference more.
fn flat(rng: &mut Rng, tally: &mut Tally) -> Result<usize, Failure> {
    let mut used = 0;
    for round in 0..40 {
        for sort in SORTS {
            let tiles = if round == 39 { 960 } else { 1 + rng.below(50) };
            let plan = thinned(&towns::town(sort, tiles, rng));
            let (n, k) = (1 + rng.below(5), any_k(rng));
            let stops = towns::stops(&plan, n, rng);
            let (place, level) = (rng.below(3), rng.range(-1_000_000, 1_000_000));
            let at = if rng.chance(2) { level } else { rng.range(-1_000_000, 1_000_000) };
            let high = raised(&plan, place, level);
            let high_stops: Vec<Point<3>> = stops.iter().map(|stop| with_axis(*stop, place, at)).collect();
            let more = (at as i64 - level as i64).pow(2) as u64;
            let file = file_of(&high);
            let case =
                format!("a town of sort {sort:?} with {tiles} tiles, all at {level} on axis {place}, stops {at}");

            let lengths = Lengths::enough(&Query::of(&stops, k), tiles, rng);
            let (due, due_lent) = engine(&file_of(&plan), &stops, k, lengths);
            let (got, lent) = engine(&file, &high_stops, k, lengths);
            let lists = |lent, more: u64| -> Vec<Vec<Place>> {
                let higher =
                    |(j, p): (usize, Place)| Place { d: if j < due.used as usize { p.d + more } else { p.d }, ..p };
                (0..n).map(|i| list(lent, i, k as usize).into_iter().enumerate().map(higher).collect()).collect()
            };
            let same_lists = lists(&due_lent, more) == lists(&lent, 0);
            if got != due || !same_lists || lent.marks != due_lent.marks {
                let text = format!("k {k}, stops {stops:?}: due {due:?} {due_lent:?}, got {got:?} {lent:?}");
                return Err(Failure::with_file(text, &file).case(&case));
            }
            let (o, high_o) = (smallest_around(&stops), smallest_around(&high_stops));
            let due = compare::prune(&file_of(&plan), o, k, tiles, rng, tally).map_err(|f| f.case(&case))?;
            let got = compare::prune(&file, high_o, k, tiles, rng, tally).map_err(|f| f.case(&case))?;
            if got.0 != due.0 || got.1 != due.1 {
                let text = format!("strike, k {k}, {o:?}: due {due:?}, got {got:?}");
                return Err(Failure::with_file(text, &file).case(&case));
            }
            used += n * due.0.tiles as usize;
        }
    }
    Ok(used)
}

/// The same town with its axes in another order and some of them turned about: the same answer.
fn turned(rng: &mut Rng) -> Result<usize, Failure> {
    let mut towns = 0;
    for round in 0..30 {
        for sort in SORTS {
            let tiles = if round == 29 { 960 } else { 1 + rng.below(50) };
            let town: Town<3> = towns::town(sort, tiles, rng);
            let (n, k) = (1 + rng.below(5), any_k(rng));
            let stops = towns::stops(&town, n, rng);
            let mut order = [0, 1, 2];
            rng.shuffle(&mut order);
            let sign: Point<3> = each_axis(|_| rng.pick(&[1, -1]));
            let point = |p: Point<3>| -> Point<3> { each_axis(|axis| sign[axis] * p[order[axis]]) };
            let bounds = |b: Bounds<3>| -> Bounds<3> {
                let (p, q) = (point(b.map(|ends| ends[0])), point(b.map(|ends| ends[1])));
                each_axis(|axis| [p[axis].min(q[axis]), p[axis].max(q[axis])])
            };
            let tile = |(e, sites): (&Entry<3>, &Vec<Site<3>>)| {
                (bounds(e.bounds), sites.iter().map(|s| Site { at: point(s.at), cue: s.cue }).collect())
            };
            let other = Town::of(town.entries.iter().zip(&town.sites).map(tile).collect());
            let other_stops: Vec<Point<3>> = stops.iter().map(|stop| point(*stop)).collect();
            let (file, lengths) = (file_of(&other), Lengths::enough(&Query::of(&stops, k), tiles, rng));
            let (due, got) = (engine(&file_of(&town), &stops, k, lengths), engine(&file, &other_stops, k, lengths));
            if due != got {
                let text = format!("axes {order:?}, signs {sign:?}, k {k}, {stops:?}: due {due:?}, got {got:?}");
                return Err(Failure::with_file(text, &file).case(&format!("sort {sort:?}, {tiles} tiles")));
            }
            towns += 1;
        }
    }
    Ok(towns)
}

/// Two lines, one 6 metres above the other, worked by hand: from a stop below, the site above is at D 360,000 and the
/// one 7 metres along at 490,000; from a stop above, at 0 and 850,000. Site numbers use 40.
fn viaduct(rng: &mut Rng, tally: &mut Tally) -> Result<(), Failure> {
    let site = |x: i32, z: i32, cue: u32| Site { at: [x, 0, z], cue };
    let below = |x: i32| -> Bounds<3> { [[x, x + 100], [0, 0], [0, 0]] };
    let town = Town::of(vec![
        (below(700), vec![site(800, 0, 0), site(700, 0, 11)]),
        ([[0, 100], [0, 0], [600, 640]], vec![site(0, 600, 22)]),
        (below(5_000), vec![site(5_000, 0, 33)]),
    ]);
    let file = file_of(&town);
    let query = Query::of(&[[0, 0, 0], [0, 0, 600]], 2);
    let lengths = Lengths { dist: 4, site: 4, cue: 4, marks: 3 };
    let (run, lent) = compare::join(&file, &query, lengths, rng, tally)?;
    assert_eq!((run.joined.used, run.joined.tiles, run.joined.opened, run.joined.struck), (2, 3, 2, 1));
    assert_eq!(lent.dist, [360_000, 490_000, 0, 850_000]);
    assert_eq!((lent.site, lent.cue), (vec![40, 1, 40, 1], vec![22, 11, 22, 11]));
    assert_eq!(lent.marks, [2, 2, 1]);
    Ok(())
}

/// The largest file: 960 tiles, 1,017 blocks.
fn largest(rng: &mut Rng, tally: &mut Tally) -> Result<(), Failure> {
    let base: Base<3> = base(960, rng);
    let supply = Supply::of(&base.town);
    for (out, due) in [(520_704, Ok(520_704)), (520_703, Err(14)), (512_000, Err(14)), (600_000, Ok(520_704))] {
        let written = compare::write(&supply, out, rng, tally)?;
        assert_eq!(written.as_ref().map(|file| file.len()).map_err(|r| r.number), due);
        assert!(written.is_err() || written.as_ref() == Ok(&base.file));
    }
    assert!(base.town.sites.iter().any(|sites| sites.len() == 30 && muted(sites) == 30));
    Ok(())
}

pub fn run(rng: &mut Rng, tally: &mut Tally) -> Result<String, Failure> {
    layout();
    viaduct(rng, tally)?;
    largest(rng, tally)?;
    let places = flat(rng, tally)?;
    let turned = turned(rng)?;
    let mut trial = Trial { rng, tally, files: 0, unread: 0 };
    let (plan, high): (Base<2>, Base<3>) = (base(960, trial.rng), base(960, trial.rng));
    trial.late_length(&plan, &high)?;
    let late = trial.files;
    trial.long_files(&plan)?;
    for tiles in [1, 2, 16, 17, 18, 24, 25, 34, 35, 48, 49, 51, 52, 72, 73, 944, 945, 960] {
        trial.other_axes::<2, 3>(tiles)?;
        trial.other_axes::<3, 2>(tiles)?;
    }
    let (small_plan, small_high): (Base<2>, Base<3>) = (base(49, trial.rng), base(35, trial.rng));
    trial.families(&small_plan, &small_plan.town, &small_high.town)?;
    trial.families(&small_high, &small_plan.town, &small_high.town)?;
    trial.counts::<2>(&small_plan.town, &small_high.town)?;
    trial.counts::<3>(&small_plan.town, &small_high.town)?;
    trial.one_entry_more::<2>(&small_plan.town, &small_high.town)?;
    trial.one_entry_more::<3>(&small_plan.town, &small_high.town)?;
    Ok(format!(
        "{} files over 512,000 bytes with faults of block 0, {} with other kinds, counts, entries and axes; {} tiles \
         of flat towns with the answers of their plan; {} towns with their axes turned",
        count(late),
        count(trial.files - late),
        drawn(places, "a flat town")?,
        count(turned)
    ))
}
