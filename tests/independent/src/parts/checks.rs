//! nearby_block_check: lengths, large sums, good blocks, every byte position changed, checks repaired and not, stored
//! 255.

use super::count;
use crate::compare::Failure;
use crate::host;
use crate::paper::blocks::{block_check, SIZE, SYNC};
use crate::paper::writer::repair;
use crate::paper::Refusal;
use crate::rng::Rng;
use crate::tally::Tally;

struct Checks<'a> {
    tried: usize,
    tally: &'a mut Tally,
}

impl Checks<'_> {
    fn agrees(&mut self, slice: &[u8]) -> Result<u32, Failure> {
        let (due, got) = (block_check(slice), host::block_check(slice));
        if got != due {
            let text = format!("nearby_block_check({} bytes {slice:?}): due {due}, got {got}", slice.len());
            return Err(Failure::with_file(text, slice));
        }
        if due != 0 {
            self.tally.plain(Refusal { number: due, block: 0 });
        }
        self.tried += 1;
        Ok(due)
    }

    fn gives(&mut self, slice: &[u8], due: u32) -> Result<(), Failure> {
        let got = self.agrees(slice)?;
        assert_eq!(got, due, "the check of document 01 on {slice:?}");
        Ok(())
    }
}

/// Blocks of any bytes, of few bytes other than 0, of 0 and 255, and of one value.
fn blocks(rng: &mut Rng) -> Vec<Vec<u8>> {
    let mut few = vec![0; SIZE];
    for _ in 0..20 {
        few[1 + rng.below(509)] = rng.byte();
    }
    let edges = (0..SIZE).map(|_| rng.pick(&[0, 0, 255, 254, 1])).collect();
    let mut all = vec![rng.bytes(SIZE), rng.bytes(SIZE), few, edges, vec![0; SIZE], vec![255; SIZE], vec![SYNC; SIZE]];
    for block in &mut all {
        block[0] = SYNC;
        repair(block);
    }
    all
}

/// Cases 9 to 11: "bytes 1-509 zero" 0, 0; "only byte 1 is 1" 1, 254; "only byte 509 is 1" 1, 1.
fn cases_of_the_paper(checks: &mut Checks) -> Result<(), Failure> {
    for (at, a, c) in [(None, 0, 0), (Some(1), 1, 254), (Some(509), 1, 1)] {
        let mut block = vec![0; SIZE];
        block[0] = SYNC;
        if let Some(at) = at {
            block[at] = 1;
        }
        block[510] = a;
        block[511] = c;
        checks.gives(&block, 0)?;
        // Every other stored pair disagrees, 255 among them.
        for other in 0..=255 {
            for at in [510, 511] {
                let stored = block[at];
                block[at] = other;
                checks.gives(&block, if other == stored { 0 } else { 3 })?;
                block[at] = stored;
            }
        }
        block[510] = 255;
        block[511] = 255;
        checks.gives(&block, 3)?;
    }
    Ok(())
}

/// 02.3: "the sums never need more" than 16 bits. Blocks on which sums that are reduced late, or kept in parts, get
/// large: 255 or 254 in a run from any byte to any other, and in every n-th byte from any on; random bytes of at least
/// 0, 128, 240, 250 and 253.
fn large_sums(checks: &mut Checks, rng: &mut Rng) -> Result<(), Failure> {
    let mut summed = |mut block: Vec<u8>| {
        block[0] = SYNC;
        repair(&mut block);
        checks.gives(&block, 0)?;
        for stored in [510, 511] {
            let right = block[stored];
            block[stored] = (right + 1) % 255;
            checks.gives(&block, 3)?;
            block[stored] = right;
        }
        Ok(())
    };
    for value in [254, 255] {
        for from in 1..510 {
            for to in from..510 {
                let mut block = vec![0; SIZE];
                block[from..=to].fill(value);
                summed(block)?;
            }
            for step in 2..=64 {
                let mut block = vec![0; SIZE];
                block[from..510].iter_mut().step_by(step).for_each(|byte| *byte = value);
                summed(block)?;
            }
        }
    }
    for least in [0, 128, 240, 250, 253] {
        for _ in 0..10_000 {
            summed((0..SIZE).map(|_| (least + rng.below(256 - least)) as u8).collect())?;
        }
    }
    Ok(())
}

pub fn run(rng: &mut Rng, tally: &mut Tally) -> Result<String, Failure> {
    let mut checks = Checks { tried: 0, tally };
    cases_of_the_paper(&mut checks)?;
    large_sums(&mut checks, rng)?;
    let large = checks.tried;
    // "1 (not 512 bytes)", whatever the bytes.
    for length in 0..=1100 {
        let mut random = rng.bytes(length);
        checks.agrees(&random)?;
        if length > 0 {
            random[0] = SYNC;
            checks.agrees(&random)?;
        }
        let mut twice = blocks(rng)[0].repeat(3);
        twice.truncate(length);
        checks.agrees(&twice)?;
    }
    let lengths = checks.tried - large;
    for block in blocks(rng) {
        checks.gives(&block, 0)?;
        for at in 0..SIZE {
            let was = block[at];
            for value in [was ^ 1, was ^ 0x80, !was, 0, 255, rng.byte()] {
                let mut changed = block.clone();
                changed[at] = value;
                checks.agrees(&changed)?;
                repair(&mut changed);
                checks.gives(&changed, if at == 0 && value != SYNC { 2 } else { 0 })?;
                // The check takes 0 and 255 for the same byte, and a stored 255 for nothing.
                for stored in [510, 511] {
                    let mut broken = changed.clone();
                    broken[stored] = if broken[stored] == 0 { 255 } else { broken[stored] - 1 };
                    checks.agrees(&broken)?;
                }
            }
            // Two bytes changed by amounts that cancel in a, and seldom in c.
            let (mut two, other) = (block.clone(), 1 + rng.below(509));
            two[at] = two[at].wrapping_add(1);
            two[other] = two[other].wrapping_sub(1);
            checks.agrees(&two)?;
        }
    }
    // All pairs of stored bytes on one block: one agrees.
    let mut block = blocks(rng)[0].clone();
    let mut good = 0;
    for a in 0..=255 {
        for c in 0..=255 {
            block[510] = a;
            block[511] = c;
            good += (checks.agrees(&block)? == 0) as usize;
        }
    }
    assert_eq!(good, 1);
    Ok(format!(
        "cases 9 to 11 and large sums in {} blocks, {} slices of 0 to 1,100 bytes, {} blocks with every byte position \
         changed and with all 65,536 stored pairs",
        count(large),
        count(lengths),
        count(checks.tried - large - lengths)
    ))
}
