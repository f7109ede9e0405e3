//! "plan towns keep their answers" (02.2): what each call gave for some thousand inputs with two axes before towns had
//! height, in recorded/plan.txt, and what it gives now.
//!
//! The record has a line for each case: the call, what it answered, and for each lent slice `=` if every element is as
//! it was before, guard elements too, else the hash of all of them. A line `inputs` ends each group, with the hash of
//! what its calls were given.
//!
//! The paper's part of these tests has to give the same lines.
//!
//! `independent record` writes the record anew. That is due only where a request changes an answer on purpose, and what
//! it changes is then looked at line by line: git diff shows it.

mod inputs;

use super::count;
use crate::compare::Failure;
use crate::host::{self, Slices, Validated, Written};
use crate::paper::search::{self, Joined, Pruned};
use crate::paper::writer::{self, Supply};
use crate::paper::{blocks, boxes, directory, Refusal};
use inputs::{Call, Draw};
use std::collections::{BTreeMap, BTreeSet};
use std::path::PathBuf;

fn path() -> PathBuf {
    PathBuf::from(env!("CARGO_MANIFEST_DIR")).join("recorded/plan.txt")
}

/// FNV-1a in a u64.
struct Hash(u64);

impl Hash {
    fn new() -> Hash {
        Hash(0xcbf2_9ce4_8422_2325)
    }

    fn add(&mut self, bytes: &[u8]) {
        for byte in bytes {
            self.0 = (self.0 ^ *byte as u64).wrapping_mul(0x0100_0000_01b3);
        }
    }

    /// A list with its length.
    fn list<T: Element>(&mut self, list: &[T]) {
        self.add(&(list.len() as u64).to_le_bytes());
        list.iter().for_each(|element| self.add(element.bytes().as_ref()));
    }
}

trait Element: Copy + PartialEq {
    fn bytes(self) -> impl AsRef<[u8]>;
    fn of(number: u64) -> Self;
}

macro_rules! elements {
    ($($name:ty)*) => { $(
        impl Element for $name {
            fn bytes(self) -> impl AsRef<[u8]> {
                self.to_le_bytes()
            }
            fn of(number: u64) -> Self {
                number as $name
            }
        }
    )* };
}

elements!(u8 u32 i32 u64);

const GUARD: usize = 9;

/// A lent slice between guard elements, and what all of them were before.
struct Lent<T> {
    before: Vec<T>,
    whole: Vec<T>,
}

impl<T: Element> Lent<T> {
    /// Content that hangs on which slice it is, and on nothing else.
    fn new(slice: u64, len: usize) -> Lent<T> {
        let mut draw = Draw::new(1_000, slice);
        let before: Vec<T> = (0..len + 2 * GUARD).map(|_| T::of(draw.next() >> 9)).collect();
        Lent { whole: before.clone(), before }
    }

    fn slice(&mut self) -> &mut [T] {
        let end = self.whole.len() - GUARD;
        &mut self.whole[GUARD..end]
    }

    fn after(&self) -> String {
        if self.whole == self.before {
            return "=".into();
        }
        let mut hash = Hash::new();
        hash.list(&self.whole);
        format!("{:016x}", hash.0)
    }
}

fn hash_inputs(call: &Call, hash: &mut Hash) {
    match call {
        Call::Join { file, x, y, k, lengths } => {
            hash.list(file);
            hash.list(x);
            hash.list(y);
            hash.list(&[*k]);
            hash.list(&lengths.map(|length| length as u64));
        }
        Call::Prune { file, o, k, marks } => {
            hash.list(file);
            hash.list(&o.concat());
            hash.list(&[*k, *marks as u32]);
        }
        Call::Validate { file } => hash.list(file),
        Call::Write { boxes, counts, x, y, cues, out } => {
            hash.list(boxes);
            hash.list(counts);
            hash.list(x);
            hash.list(y);
            hash.list(cues);
            hash.list(&[*out as u64]);
        }
        Call::Margin { boxes } => hash.list(&boxes.concat().concat()),
        Call::Check { slice } => hash.list(slice),
    }
}

/// Who is asked.
#[derive(Clone, Copy, PartialEq, Eq)]
enum By {
    Library,
    Paper,
}

fn join(by: By, file: &[u8], at: [&[i32]; 2], k: u32, slices: Slices) -> Joined {
    if by == By::Library {
        return host::join(file, at, k, slices);
    }
    let mut lent = search::Lent {
        dist: slices.dist.to_vec(),
        site: slices.site.to_vec(),
        cue: slices.cue.to_vec(),
        marks: slices.marks.to_vec(),
    };
    let joined = search::join(file, at, k, &mut lent).joined;
    slices.dist.copy_from_slice(&lent.dist);
    slices.site.copy_from_slice(&lent.site);
    slices.cue.copy_from_slice(&lent.cue);
    slices.marks.copy_from_slice(&lent.marks);
    joined
}

fn prune(by: By, file: &[u8], o: [[i32; 2]; 2], k: u32, marks: &mut [u8]) -> Pruned {
    match by {
        By::Library => host::prune(file, o, k, marks),
        By::Paper => search::prune(file, o, k, marks),
    }
}

fn validate(by: By, file: &[u8]) -> Validated {
    match by {
        By::Library => host::validate(file),
        By::Paper => match directory::full_check(file) {
            Ok(tiles) => Validated { number: 0, block: 0, tiles: tiles as u32, axes: 2 },
            Err(Refusal { number, block }) => Validated { number, block, tiles: 0, axes: 0 },
        },
    }
}

fn write(by: By, supply: &Supply<2>, out: &mut [u8]) -> Written {
    match by {
        By::Library => host::write(supply, out),
        By::Paper => match writer::write(supply, out) {
            Ok(length) => Written { number: 0, block: 0, length },
            Err(Refusal { number, block }) => Written { number, block, length: 0 },
        },
    }
}

/// Calls the library or the paper's part. Gives the line of the record and the number of the refusal.
fn line_of(call: &Call, by: By) -> (String, u32) {
    match call {
        Call::Join { file, x, y, k, lengths } => {
            let (mut dist, mut site) = (Lent::<u64>::new(1, lengths[0]), Lent::<u32>::new(2, lengths[1]));
            let (mut cue, mut marks) = (Lent::<u32>::new(3, lengths[2]), Lent::<u8>::new(4, lengths[3]));
            let slices = Slices { dist: dist.slice(), site: site.slice(), cue: cue.slice(), marks: marks.slice() };
            let got = join(by, file, [x, y], *k, slices);
            let numbers = [got.number, got.block, got.used, got.tiles, got.opened, got.struck];
            let slices = [dist.after(), site.after(), cue.after(), marks.after()];
            (format!("join {} {}", numbers.map(|n| n.to_string()).join(" "), slices.join(" ")), got.number)
        }
        Call::Prune { file, o, k, marks } => {
            let mut marks = Lent::<u8>::new(4, *marks);
            let got = prune(by, file, *o, *k, marks.slice());
            let after = marks.after();
            (format!("prune {} {} {} {} {after}", got.number, got.block, got.tiles, got.struck), got.number)
        }
        Call::Validate { file } => {
            let got = validate(by, file);
            // A plan town has two axes, and nothing else is recorded.
            assert_eq!(got.axes, if got.number == 0 { 2 } else { 0 });
            (format!("validate {} {} {}", got.number, got.block, got.tiles), got.number)
        }
        Call::Write { boxes, counts, x, y, cues, out } => {
            let mut out = Lent::<u8>::new(5, *out);
            let [x, y] = [x, y].map(|list| list.to_vec());
            let supply = Supply { boxes: boxes.clone(), counts: counts.clone(), at: [x, y], cues: cues.clone() };
            let got = write(by, &supply, out.slice());
            (format!("write {} {} {} {}", got.number, got.block, got.length, out.after()), got.number)
        }
        Call::Margin { boxes } => {
            let margin = if by == By::Library { host::margin } else { boxes::exported_margin };
            let got = margin(boxes[0], boxes[1], boxes[2]);
            (format!("margin {got}"), if got == 9_000_000_000_000_000_000 { 9 } else { 0 })
        }
        Call::Check { slice } => {
            let got = if by == By::Library { host::block_check(slice) } else { blocks::block_check(slice) };
            (format!("check {got}"), got)
        }
    }
}

/// What stands after the name of a call, and the numbers that it has to have given at least one time.
fn fields(call: &str) -> (&'static [&'static str], &'static [u32]) {
    match call {
        "join" => (
            &["number", "block", "used", "tiles", "opened", "struck", "dist", "site", "cue", "marks"],
            &[0, 1, 2, 3, 4, 5, 6, 7, 8, 9, 10, 11, 12, 13, 14, 16],
        ),
        "prune" => (&["number", "block", "tiles", "struck", "marks"], &[0, 1, 2, 3, 4, 5, 6, 7, 8, 9, 11, 14]),
        "validate" => (&["number", "block", "tiles"], &[0, 1, 2, 3, 4, 5, 6, 7, 8, 9, 10, 16]),
        "write" => (&["number", "block", "length", "out"], &[0, 6, 9, 10, 14, 15]),
        "margin" => (&["margin"], &[0, 9]),
        _ => (&["number"], &[0, 1, 2, 3]),
    }
}

fn file_of(call: &Call) -> Option<&[u8]> {
    match call {
        Call::Join { file, .. } | Call::Prune { file, .. } | Call::Validate { file } => Some(file),
        _ => None,
    }
}

/// Whether request 2 leaves the answer to this file as it was.
fn is_plan(file: &[u8]) -> bool {
    if file.is_empty() || file.len() % 512 != 0 || file.len() > 520_704 {
        return true;
    }
    file[1] != 3 && (file.len() <= 512_000 || (blocks::block_check(&file[..512]) == 0 && file[1] == 1))
}

/// In which fields two lines of the same call differ.
fn differences(recorded: &str, got: &str) -> String {
    let (recorded, got): (Vec<&str>, Vec<&str>) = (recorded.split(' ').collect(), got.split(' ').collect());
    if recorded.len() != got.len() || recorded[0] != got[0] {
        return "another call".into();
    }
    let differs = |i: &usize| recorded[*i] != got[*i];
    let field = |i: usize| format!("{} was {}, is {}", fields(got[0]).0[i - 1], recorded[i], got[i]);
    (1..got.len()).filter(differs).map(field).collect::<Vec<String>>().join("; ")
}

/// Which numbers each call gave.
type Numbers = BTreeMap<String, BTreeSet<u32>>;

/// What all inputs give, and the first difference from the record if there is one to compare with.
struct Made {
    lines: Vec<String>,
    calls: BTreeMap<&'static str, usize>,
    numbers: Numbers,
    failure: Option<Failure>,
}

fn make(by: By, recorded: Option<&[&str]>) -> Made {
    let mut made = Made { lines: Vec::new(), calls: BTreeMap::new(), numbers: BTreeMap::new(), failure: None };
    let (mut group, mut hash, mut failed_here) = ("", Hash::new(), false);
    // The line `inputs` of a group: if the group failed, it says whether the inputs are still those of the record.
    let end_group = |made: &mut Made, group: &str, hash: &mut Hash, failed_here: &mut bool| {
        let line = format!("inputs {group} {:016x}", hash.0);
        let same = recorded.is_none_or(|lines| lines.contains(&line.as_str()));
        let text = match (*failed_here, same) {
            (true, true) => Some("The inputs of the group are those of the record."),
            (true, false) => Some("THE INPUTS OF THE GROUP ARE OTHERS: inputs.rs was changed, and may not be."),
            (false, false) if made.failure.is_none() => {
                let text = format!("recorded/plan.txt: the group {group} has other inputs, with the same answers");
                made.failure = Some(Failure::new(text));
                None
            }
            _ => None,
        };
        if let (Some(text), Some(failure)) = (text, &mut made.failure) {
            failure.text += &format!("\n{text}");
        }
        made.lines.push(line);
        *hash = Hash::new();
        *failed_here = false;
    };
    inputs::all(&mut |of: &'static str, what: &str, call: Call| {
        if of != group {
            if !group.is_empty() {
                end_group(&mut made, group, &mut hash, &mut failed_here);
            }
            group = of;
        }
        if let Some(file) = file_of(&call) {
            assert!(is_plan(file), "{group}, {what}: not an input for the record");
        }
        hash_inputs(&call, &mut hash);
        let (line, number) = line_of(&call, by);
        let due = recorded.map(|lines| lines.get(made.lines.len()).copied().unwrap_or("nothing"));
        if let (Some(due), true) = (due, made.failure.is_none()) {
            if due != line {
                let differences = differences(due, &line);
                let whose = if by == By::Library { "" } else { " by the paper's part, not the library" };
                let text = format!(
                    "recorded/plan.txt, line {}, group {group}: {what}\nrecorded {due}\ngot      {line}{whose}\n\
                     {differences}",
                    made.lines.len() + 1
                );
                made.failure = Some(Failure { text, file: file_of(&call).map(|file| file.to_vec()) });
                failed_here = true;
            }
        }
        *made.calls.entry(group).or_default() += 1;
        made.numbers.entry(line.split(' ').next().unwrap().to_string()).or_default().insert(number);
        made.lines.push(line);
    });
    end_group(&mut made, group, &mut hash, &mut failed_here);
    made
}

/// Each call gave each of its numbers, so each of 1 to 16 was given.
fn every_number(numbers: &Numbers) -> Result<(), String> {
    let mut all = BTreeSet::new();
    for call in ["join", "prune", "validate", "write", "margin", "check"] {
        let given = numbers.get(call).cloned().unwrap_or_default();
        if let Some(missing) = fields(call).1.iter().find(|number| !given.contains(number)) {
            return Err(format!("recorded: no {call} gives {missing}"));
        }
        all.extend(given);
    }
    match (1..=16).find(|number| !all.contains(number)) {
        Some(missing) => Err(format!("recorded: no call gives {missing}")),
        None => Ok(()),
    }
}

/// Writes the record anew.
pub fn record() -> Result<String, Failure> {
    let made = make(By::Library, None);
    every_number(&made.numbers).map_err(Failure::new)?;
    let text = made.lines.join("\n") + "\n";
    let widest = made.lines.iter().map(|line| line.len()).max().unwrap();
    assert!(widest <= 120);
    std::fs::write(path(), &text)
        .map_err(|error| Failure::new(format!("{} cannot be written: {error}", path().display())))?;
    Ok(format!("{} lines, {} bytes, in {}", count(made.lines.len()), count(text.len()), path().display()))
}

pub fn run() -> Result<String, Failure> {
    let text = std::fs::read_to_string(path())
        .map_err(|error| Failure::new(format!("{} cannot be read: {error}", path().display())))?;
    let lines: Vec<&str> = text.lines().collect();
    let made = make(By::Library, Some(&lines));
    if let Some(failure) = made.failure.or_else(|| make(By::Paper, Some(&lines)).failure) {
        return Err(failure);
    }
    if made.lines.len() != lines.len() {
        let text = format!("recorded/plan.txt has {} lines, {} were due", lines.len(), made.lines.len());
        return Err(Failure::new(text));
    }
    every_number(&made.numbers).map_err(Failure::new)?;
    let groups: Vec<String> = made.calls.iter().map(|(group, calls)| format!("{} {group}", count(*calls))).collect();
    Ok(format!(
        "{} calls on inputs with two axes answer as recorded before towns had height, by library and paper ({})",
        count(made.calls.values().sum()),
        groups.join(", ")
    ))
}
