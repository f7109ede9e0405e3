//! nearby_level against 02.4 by whole numbers, against C's division and against Rust's: the same bits.

use super::{count, drawn};
use crate::compare::Failure;
use crate::divide;
use crate::host::{self, Leveled};
use crate::paper::level::{level, Answer, MOST_REACH};
use crate::paper::Refusal;
use crate::rng::Rng;
use std::cmp::Ordering;

/// The bits of 1, 1/2 and 1/101.
const ONE: u64 = 0x3ff0_0000_0000_0000;
const HALF: u64 = 0x3fe0_0000_0000_0000;
const LEAST: u64 = 0x3f84_46f8_6562_d9fb;

const REFUSED: Result<Answer, Refusal> = Err(Refusal { number: 18, block: 0 });

fn square(reach: u32) -> u64 {
    reach as u64 * reach as u64
}

fn fail<T>(reach: u32, dist: u64, text: String) -> Result<T, Failure> {
    Err(Failure::new(format!("nearby_level(reach {reach}, D {dist}): {text}")))
}

fn words(l: Leveled) -> String {
    format!("number {}, silent {}, level {:#018x}", l.number, l.silent, l.bits)
}

/// The library's answer, which is that of 02.4, and if it is a level that of both divisions.
fn agrees(reach: u32, dist: u64) -> Result<Result<Answer, Refusal>, Failure> {
    let answer = level(reach, dist);
    let due = match answer {
        Err(refusal) => Leveled { number: refusal.number, silent: 0, bits: 0 },
        Ok(Answer::Silent) => Leveled { number: 0, silent: 1, bits: 0 },
        Ok(Answer::Level(bits)) => Leveled { number: 0, silent: 0, bits },
    };
    let got = host::level(reach, dist);
    if got != due {
        return fail(reach, dist, format!("due {}, got {}", words(due), words(got)));
    }
    if let Ok(Answer::Level(_)) = answer {
        let s = square(reach);
        let (c, rust) = (divide::quotient(s, dist), (s as f64 / (s + dist) as f64).to_bits());
        if (c, rust) != (got.bits, got.bits) {
            return fail(reach, dist, format!("got {:#x}; C divides to {c:#x}, Rust to {rust:#x}", got.bits));
        }
        let value = f64::from_bits(got.bits);
        if !(value > 0.0 && value <= 1.0) {
            return fail(reach, dist, format!("got {value}, not above 0 and at most 1"));
        }
    }
    Ok(answer)
}

fn gives(reach: u32, dist: u64, due: Result<Answer, Refusal>) -> Result<(), Failure> {
    let got = agrees(reach, dist)?;
    assert_eq!(got, due, "02.4 for reach {reach}, D {dist}");
    Ok(())
}

/// "For r = 1000 and D = 1,000,000 it is 0.5", and others worked by hand.
fn by_hand() -> Result<usize, Failure> {
    let is = |bits: u64| Ok(Answer::Level(bits));
    let cases = [
        (1_000, 1_000_000, is(HALF)),
        (1_000, 0, is(ONE)),
        (1_000, 3_000_000, is(0x3fd0_0000_0000_0000)),
        (1_000, 100_000_000, is(LEAST)),
        (1_000, 100_000_001, Ok(Answer::Silent)),
        (1, 0, is(ONE)),
        (1, 1, is(HALF)),
        (1, 2, is(0x3fd5_5555_5555_5555)),
        (1, 4, is(0x3fc9_9999_9999_999a)),
        (1, 6, is(0x3fc2_4924_9249_2492)),
        (1, 9, is(0x3fb9_9999_9999_999a)),
        (1, 63, is(0x3f90_0000_0000_0000)),
        (1, 100, is(LEAST)),
        (1, 101, Ok(Answer::Silent)),
        (1, u64::MAX, Ok(Answer::Silent)),
        (MOST_REACH, 0, is(ONE)),
        (MOST_REACH, 1_000_000_000_000, is(HALF)),
        (MOST_REACH, 100_000_000_000_000, is(LEAST)),
        (MOST_REACH, 100_000_000_000_001, Ok(Answer::Silent)),
        (MOST_REACH, u64::MAX, Ok(Answer::Silent)),
        (0, 0, REFUSED),
        (0, u64::MAX, REFUSED),
        (MOST_REACH + 1, 0, REFUSED),
        (MOST_REACH + 1, u64::MAX, REFUSED),
        (u32::MAX, 1, REFUSED),
    ];
    for (reach, dist, due) in cases {
        gives(reach, dist, due)?;
    }
    Ok(cases.len())
}

/// Every reach within the limits, with D at both ends of what is not silent, just past it, and where the level is 0.5.
fn every_reach() -> Result<usize, Failure> {
    let mut tried = 0;
    for reach in 1..=MOST_REACH {
        let s = square(reach);
        gives(reach, 0, Ok(Answer::Level(ONE)))?;
        gives(reach, s, Ok(Answer::Level(HALF)))?;
        gives(reach, 100 * s, Ok(Answer::Level(LEAST)))?;
        gives(reach, 100 * s + 1, Ok(Answer::Silent))?;
        gives(reach, u64::MAX, Ok(Answer::Silent))?;
        for dist in [1, 100 * s - 1] {
            assert!(matches!(agrees(reach, dist)?, Ok(Answer::Level(_))));
        }
        tried += 7;
    }
    Ok(tried)
}

/// Reaches outside the limits, whatever D is.
fn outside(rng: &mut Rng) -> Result<usize, Failure> {
    let mut reaches = vec![0, MOST_REACH + 1, MOST_REACH + 2, 1 << 31, u32::MAX - 1, u32::MAX];
    for _ in 0..100_000 {
        let width = u32::MAX - MOST_REACH;
        let above = (rng.next() % width as u64) as u32 >> rng.below(32);
        reaches.push(MOST_REACH + 1 + above);
    }
    let mut tried = 0;
    for reach in reaches {
        let limit = square(reach).checked_mul(100);
        let any = rng.next() >> rng.below(64);
        for dist in [Some(0), Some(1), limit, Some(1 << 53), Some(u64::MAX), Some(any)].into_iter().flatten() {
            gives(reach, dist, REFUSED)?;
            tried += 1;
        }
    }
    Ok(tried)
}

/// A reach within the limits: any, or one of fewer bits.
fn any_reach(rng: &mut Rng) -> u32 {
    let any = 1 + rng.below(MOST_REACH as usize) as u32;
    (any >> rng.below(20)).max(1)
}

/// A D that is not silent: anything, of any size, or close to D = r r or to the limit.
fn any_dist(reach: u32, rng: &mut Rng) -> u64 {
    let s = square(reach);
    let any = rng.next() % (100 * s + 1);
    match rng.below(6) {
        0 | 1 => any,
        2 => any >> rng.below(47),
        3 => rng.next() % (2 * s),
        4 => s - rng.next() % s.min(9),
        _ => 100 * s - rng.next() % s.min(9),
    }
}

/// How the level stands to the quotient itself: Greater if it was rounded up.
fn rounded(reach: u32, dist: u64, bits: u64) -> Ordering {
    let (s, significand) = (square(reach) as u128, (bits % (1 << 52) + (1 << 52)) as u128);
    (significand * (s + dist as u128)).cmp(&(s << (1075 - (bits >> 52))))
}

#[derive(Default)]
struct Seen {
    pairs: usize,
    silent: usize,
    up: usize,
    down: usize,
    exact: usize,
    /// By the number of bits of the reach, less 1.
    reaches: [usize; 20],
    /// By the whole part of the level's logarithm: 1, then 1/2 to 1, and so on to 1/101 to 1/64.
    levels: [usize; 8],
}

/// Pairs of every size, silent and not.
fn random_pairs(rng: &mut Rng) -> Result<Seen, Failure> {
    let mut seen = Seen::default();
    while seen.pairs < 2_000_000 {
        let reach = any_reach(rng);
        let dist = match rng.below(8) {
            0 => rng.next() >> rng.below(64),
            1 => 100 * square(reach) + rng.next() % 5,
            _ => any_dist(reach, rng),
        };
        seen.pairs += 1;
        seen.reaches[reach.ilog2() as usize] += 1;
        match agrees(reach, dist)? {
            Ok(Answer::Level(bits)) => {
                match rounded(reach, dist, bits) {
                    Ordering::Greater => seen.up += 1,
                    Ordering::Less => seen.down += 1,
                    Ordering::Equal => seen.exact += 1,
                }
                seen.levels[1023 - (bits >> 52) as usize] += 1;
            }
            Ok(Answer::Silent) => seen.silent += 1,
            Err(refusal) => return fail(reach, dist, format!("{refusal:?}")),
        }
    }
    Ok(seen)
}

#[derive(Default)]
struct Ordered {
    farther: usize,
    greater: usize,
    /// Of these, where the level is the same.
    alike: usize,
}

/// The library alone: a place one farther is less loud, and with a greater reach it is no less loud. The bits of
/// floats that are not negative are in the order of the floats.
fn in_order(rng: &mut Rng) -> Result<Ordered, Failure> {
    let mut seen = Ordered::default();
    let loud = |reach: u32, dist: u64| match host::level(reach, dist) {
        Leveled { number: 0, silent: 0, bits } => Ok(bits),
        other => fail(reach, dist, format!("due a level, got {}", words(other))),
    };
    for _ in 0..500_000 {
        let reach = any_reach(rng);
        let dist = any_dist(reach, rng);
        let here = loud(reach, dist)?;
        if dist < 100 * square(reach) {
            let farther = loud(reach, dist + 1)?;
            if farther >= here {
                return fail(reach, dist, format!("got {here:#x}, and {farther:#x} for the next D"));
            }
            seen.farther += 1;
        }
        if reach < MOST_REACH {
            let more = rng.below((MOST_REACH - reach) as usize) as u32;
            let reach_2 = reach + 1 + (more >> rng.below(20));
            let greater = loud(reach_2, dist)?;
            if greater < here {
                return fail(reach, dist, format!("got {here:#x}, and {greater:#x} for reach {reach_2}"));
            }
            seen.greater += 1;
            seen.alike += (greater == here && dist > 0) as usize;
        }
    }
    Ok(seen)
}

pub fn run(rng: &mut Rng) -> Result<String, Failure> {
    let hand = by_hand()?;
    let every = every_reach()?;
    let refused = outside(rng)?;
    let seen = random_pairs(rng)?;
    for (bits, n) in (1..).zip(seen.reaches) {
        drawn(n, &format!("a reach of {bits} bits"))?;
    }
    for (halvings, n) in seen.levels.into_iter().enumerate() {
        drawn(n, &format!("a level of 1/2^{halvings} or more, below twice that"))?;
    }
    let ordered = in_order(rng)?;
    Ok(format!(
        "{hand} cases by hand, {} with every reach, {} random pairs ({} silent; rounded up {}, down {}, exact {}), \
         {} with a reach outside the limits: bit for bit the quotient of whole numbers, of C and of Rust; {} places \
         one farther are less loud, {} with a greater reach no less ({} rounded alike)",
        count(every),
        count(seen.pairs),
        drawn(seen.silent, "a silent place")?,
        drawn(seen.up, "a level rounded up")?,
        drawn(seen.down, "a level rounded down")?,
        drawn(seen.exact, "a level that is exact")?,
        drawn(refused, "a reach outside the limits")?,
        drawn(ordered.farther, "a place one farther")?,
        drawn(ordered.greater, "a greater reach")?,
        drawn(ordered.alike, "a greater reach with the same level")?
    ))
}
