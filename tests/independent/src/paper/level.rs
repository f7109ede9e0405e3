//! 02.4, "Levels for the mixer", by whole numbers alone: a level is given as the bits of its 64-bit float.

use super::{refuse, Refusal};

/// 02.4: "For a reach r in whole centimetres, 1 to 1,000,000".
pub const MOST_REACH: u32 = 1_000_000;

/// 02.4: "the answer is silent if ..., else the level".
#[derive(Clone, Copy, Debug, PartialEq, Eq)]
pub enum Answer {
    Silent,
    Level(u64),
}

/// 02.4: "The call takes a reach and one place's D, any unsigned 64-bit number."
pub fn level(reach: u32, dist: u64) -> Result<Answer, Refusal> {
    // 02.4: "18 when r is outside its limits, before anything else is looked at."
    if !(1..=MOST_REACH).contains(&reach) {
        return refuse(18, 0);
    }
    let (r, d) = (reach as u128, dist as u128);
    // 02.4: "silent if D is above 100 × r × r"
    if d > 100 * r * r {
        return Ok(Answer::Silent);
    }
    // 02.4: "else the level: the 64-bit float quotient of r × r by r × r + D"
    Ok(Answer::Level(quotient(r * r, r * r + d)))
}

/// The 64-bit float nearest to p / q, where 0 < p <= q and both are below 2^53: "rounded only one time". Of two floats
/// that are equally near it is the one with an even significand.
fn quotient(p: u128, q: u128) -> u64 {
    const HIDDEN: u128 = 1 << 52;
    // p / q times 2^shift is at least 2^52 and below 2^53, so that its whole part has 53 bits.
    let mut shift = 52;
    while p << shift < q * HIDDEN {
        shift += 1;
    }
    let (whole, rest) = ((p << shift) / q, (p << shift) % q);
    let up = 2 * rest > q || 2 * rest == q && whole % 2 == 1;
    let significand = whole + up as u128;
    // The float is significand / 2^shift. Its highest bit is not stored; the exponent of 2^0 is 1023. Rounded up to
    // 2^53, the significand carries into the exponent, as it has to.
    let exponent = 1023 + 52 - shift;
    (exponent * HIDDEN + (significand - HIDDEN)) as u64
}
