//! One call of the engine against the paper: answer, block, counts, slices, and guard elements around them.

use crate::host::{self, Slices, Validated, Written};
use crate::paper::directory::{axes_of, full_check};
use crate::paper::search::{self, Joined, Lent, Pruned, Run};
use crate::paper::stream::{self, Nearer, Streamed};
use crate::paper::writer::{self, Supply};
use crate::paper::{each_axis, Bounds, Point, Refusal};
use crate::rng::Rng;
use crate::tally::Tally;
use std::fmt::Debug;

/// A case that failed: what was called with what, what was due and what came. The file is saved by main.
#[derive(Debug)]
pub struct Failure {
    pub text: String,
    pub file: Option<Vec<u8>>,
}

impl Failure {
    pub fn new(text: String) -> Failure {
        Failure { text, file: None }
    }

    pub fn with_file(text: String, file: &[u8]) -> Failure {
        Failure { text, file: Some(file.to_vec()) }
    }

    /// Says first how the case was made.
    pub fn case(mut self, case: &str) -> Failure {
        self.text = format!("{case}\n{}", self.text);
        self
    }
}

/// The name of a call for A axes.
pub fn name_of<const A: usize>(call: &str) -> String {
    format!("nearby_{call}{}", if A == 2 { "" } else { "3" })
}

/// Elements before and after each lent slice.
const GUARD: usize = 9;

/// A slice with guard elements on both sides, all of random content.
struct Guarded<T> {
    whole: Vec<T>,
    len: usize,
}

impl<T: Copy + PartialEq + Debug> Guarded<T> {
    fn new(len: usize, mut content: impl FnMut() -> T) -> Guarded<T> {
        Guarded { whole: (0..len + 2 * GUARD).map(|_| content()).collect(), len }
    }

    fn slice(&mut self) -> &mut [T] {
        &mut self.whole[GUARD..GUARD + self.len]
    }

    fn copy(&self) -> Vec<T> {
        self.whole[GUARD..GUARD + self.len].to_vec()
    }

    /// The slice is as due and the guard elements are as they were in `before`.
    fn differs(&self, name: &str, before: &[T], due: &[T]) -> Option<String> {
        let due_at = |i: usize| if (GUARD..GUARD + self.len).contains(&i) { due[i - GUARD] } else { before[i] };
        (0..self.whole.len()).find(|i| self.whole[*i] != due_at(*i)).map(|i| {
            format!(
                "{name}[{}] of {} elements: before {:?}, due {:?}, got {:?}",
                i as i64 - GUARD as i64,
                self.len,
                before[i],
                due_at(i),
                self.whole[i]
            )
        })
    }
}

/// The stops and k of a join: a list of coordinates for each axis, which may differ in length.
#[derive(Clone, Debug)]
pub struct Query<const A: usize> {
    pub at: [Vec<i32>; A],
    pub k: u32,
}

impl<const A: usize> Query<A> {
    pub fn of(stops: &[Point<A>], k: u32) -> Query<A> {
        Query { at: each_axis(|axis| stops.iter().map(|s| s[axis]).collect()), k }
    }

    /// The number of stops.
    pub fn n(&self) -> usize {
        self.at[0].len()
    }

    /// Stop i, where the lists are as long as each other.
    pub fn stop(&self, i: usize) -> Point<A> {
        each_axis(|axis| self.at[axis][i])
    }

    pub fn stops(&self) -> Vec<Point<A>> {
        (0..self.n()).map(|i| self.stop(i)).collect()
    }

    pub fn lists(&self) -> [&[i32]; A] {
        each_axis(|axis| &self.at[axis][..])
    }
}

/// The lengths of the join's four slices.
#[derive(Clone, Copy, Debug)]
pub struct Lengths {
    pub dist: usize,
    pub site: usize,
    pub cue: usize,
    pub marks: usize,
}

impl Lengths {
    /// Exactly as long as needed, or a little longer.
    pub fn enough<const A: usize>(query: &Query<A>, tiles: usize, rng: &mut Rng) -> Lengths {
        let needed = query.n() * query.k.min(64) as usize;
        let mut more = || if rng.chance(2) { 0 } else { rng.below(6) };
        Lengths { dist: needed + more(), site: needed + more(), cue: needed + more(), marks: tiles + more() }
    }
}

/// nearby_join or nearby_join3. Gives what both gave.
pub fn join<const A: usize>(
    file: &[u8],
    query: &Query<A>,
    lengths: Lengths,
    rng: &mut Rng,
    tally: &mut Tally,
) -> Result<(Run, Lent), Failure> {
    let mut dist = Guarded::new(lengths.dist, || rng.next());
    let mut site = Guarded::new(lengths.site, || rng.next() as u32);
    let mut cue = Guarded::new(lengths.cue, || rng.next() as u32);
    let mut marks = Guarded::new(lengths.marks, || rng.byte());
    let before = (dist.whole.clone(), site.whole.clone(), cue.whole.clone(), marks.whole.clone());
    let mut due = Lent { dist: dist.copy(), site: site.copy(), cue: cue.copy(), marks: marks.copy() };

    let run = search::join(file, query.lists(), query.k, &mut due);
    let slices = Slices { dist: dist.slice(), site: site.slice(), cue: cue.slice(), marks: marks.slice() };
    let got: Joined = host::join(file, query.lists(), query.k, slices);

    let difference = if got != run.joined {
        Some(format!("due {:?}, got {got:?}", run.joined))
    } else {
        dist.differs("dist", &before.0, &due.dist)
            .or_else(|| site.differs("site", &before.1, &due.site))
            .or_else(|| cue.differs("cue", &before.2, &due.cue))
            .or_else(|| marks.differs("marks", &before.3, &due.marks))
    };
    if let Some(difference) = difference {
        let text = format!(
            "{}(file of {} bytes, x, y, .. {:?}, k {}, lengths {lengths:?}): {difference} (due answer {:?})",
            name_of::<A>("join"),
            file.len(),
            query.at,
            query.k,
            run.joined
        );
        return Err(Failure::with_file(text, file));
    }
    if run.joined.number != 0 {
        let refusal = Refusal { number: run.joined.number, block: run.joined.block };
        tally.of_file(file, refusal, Some(run.opened_well));
    }
    Ok((run, due))
}

/// nearby_prune or nearby_prune3. Gives what both gave.
pub fn prune<const A: usize>(
    file: &[u8],
    o: Bounds<A>,
    k: u32,
    marks_len: usize,
    rng: &mut Rng,
    tally: &mut Tally,
) -> Result<(Pruned, Vec<u8>), Failure> {
    let mut marks = Guarded::new(marks_len, || rng.byte());
    let before = marks.whole.clone();
    let mut due_marks = marks.copy();
    let due = search::prune(file, o, k, &mut due_marks);
    let got = host::prune(file, o, k, marks.slice());
    let difference = if got != due {
        Some(format!("due {due:?}, got {got:?}"))
    } else {
        marks.differs("marks", &before, &due_marks)
    };
    if let Some(difference) = difference {
        let text = format!(
            "{}(file of {} bytes, box {o:?}, k {k}, {marks_len} marks): {difference} (due answer {due:?})",
            name_of::<A>("prune"),
            file.len()
        );
        return Err(Failure::with_file(text, file));
    }
    if due.number != 0 {
        tally.of_file(file, Refusal { number: due.number, block: due.block }, None);
    }
    Ok((due, due_marks))
}

/// nearby_stream_order or nearby_stream_order3, into `order_len` elements of random content. Gives what both gave. If
/// it is no refusal, the sequence has the properties that 02.5 asks for.
pub fn stream_order<const A: usize>(
    file: &[u8],
    o: Bounds<A>,
    order_len: usize,
    rng: &mut Rng,
    tally: &mut Tally,
) -> Result<(Streamed, Vec<u32>), Failure> {
    let mut order = Guarded::new(order_len, || rng.next() as u32);
    let before = order.whole.clone();
    let mut due_order = order.copy();
    let (due, nearer) = stream::stream_order(file, o, &mut due_order);
    let got = host::stream_order(file, o, order.slice());
    let difference = if got != due {
        Some(format!("due {due:?}, got {got:?}"))
    } else {
        let properties = |nearer: &Nearer| is_in_order(nearer, &order.copy()[..nearer.tiles()]).err();
        nearer.as_ref().and_then(properties).or_else(|| order.differs("order", &before, &due_order))
    };
    if let Some(difference) = difference {
        let text = format!(
            "{}(file of {} bytes, box {o:?}, {order_len} elements): {difference} (due answer {due:?})",
            name_of::<A>("stream_order"),
            file.len()
        );
        return Err(Failure::with_file(text, file));
    }
    if due.number != 0 {
        tally.of_file(file, Refusal { number: due.number, block: due.block }, None);
    }
    Ok((due, due_order))
}

/// What 02.5 asks of a sequence, told without making one: "Each tile is listed once"; "each tile comes after every tile
/// nearer than it"; "of those free to come next, the lowest number comes first". A tile is free once the last tile
/// nearer than it has come: all that come between the two have lower numbers.
fn is_in_order(nearer: &Nearer, order: &[u32]) -> Result<(), String> {
    let tiles = nearer.tiles();
    let mut place = vec![tiles; tiles];
    for (at, tile) in order.iter().enumerate() {
        match place.get_mut(*tile as usize) {
            Some(place) if *place == tiles => *place = at,
            Some(first) => return Err(format!("order[{first}] and order[{at}] are tile {tile}")),
            None => return Err(format!("order[{at}] is {tile}, and there are {tiles} tiles")),
        }
    }
    for b in 0..tiles {
        let last = (0..tiles).filter(|e| nearer.is(*e, b)).max_by_key(|e| place[*e]);
        if let Some(e) = last.filter(|e| place[*e] > place[b]) {
            return Err(format!("tile {e} is nearer than tile {b}, and comes after it: {} and {}", place[e], place[b]));
        }
        let free_from = last.map_or(0, |e| place[e] + 1);
        if let Some(at) = (free_from..place[b]).find(|at| order[*at] as usize > b) {
            return Err(format!("order[{at}] is tile {}, and tile {b} was free from {free_from} on", order[at]));
        }
    }
    Ok(())
}

/// nearby_validate. Gives what both gave.
pub fn validate(file: &[u8], tally: &mut Tally) -> Result<Result<usize, Refusal>, Failure> {
    let result = full_check(file);
    let due = match result {
        Ok(tiles) => Validated { number: 0, block: 0, tiles: tiles as u32, axes: axes_of(file).unwrap() as u32 },
        Err(r) => Validated { number: r.number, block: r.block, tiles: 0, axes: 0 },
    };
    let got = host::validate(file);
    if got != due {
        return Err(Failure::with_file(
            format!("nearby_validate(file of {} bytes): due {due:?}, got {got:?}", file.len()),
            file,
        ));
    }
    if let Err(refusal) = result {
        tally.of_file(file, refusal, None);
    }
    Ok(result)
}

/// nearby_write or nearby_write3 into `out_len` bytes of random content. Gives the file or the refusal.
pub fn write<const A: usize>(
    supply: &Supply<A>,
    out_len: usize,
    rng: &mut Rng,
    tally: &mut Tally,
) -> Result<Result<Vec<u8>, Refusal>, Failure> {
    let mut out = Guarded::new(out_len, || rng.byte());
    let before = out.whole.clone();
    let mut due_out = out.copy();
    let result = writer::write(supply, &mut due_out);
    let due = match result {
        Ok(length) => Written { number: 0, block: 0, length },
        Err(r) => Written { number: r.number, block: r.block, length: 0 },
    };
    let got = host::write(supply, out.slice());
    let difference =
        if got != due { Some(format!("due {due:?}, got {got:?}")) } else { out.differs("out", &before, &due_out) };
    if let Some(difference) = difference {
        let name = name_of::<A>("write");
        let text = format!("{name}({supply:?}, {out_len} bytes of out): {difference} (due answer {due:?})");
        return Err(Failure::new(text));
    }
    match result {
        Ok(length) => {
            due_out.truncate(length);
            Ok(Ok(due_out))
        }
        Err(refusal) => {
            tally.plain(refusal);
            Ok(Err(refusal))
        }
    }
}
