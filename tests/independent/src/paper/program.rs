//! "Program `nearby`": the whole of what it prints.

use super::blocks::{i32_at, u32_at};
use super::search::{join, Lent};

/// What is printed for these bytes on standard input.
pub fn printed(input: &[u8]) -> Vec<u8> {
    const CUT: &str = "input\n";
    // "reads standard input, at most 65,536 bytes"; "Too long, n over 128 (its own limit), or cut before the stops
    // end: it prints `input`."
    if input.len() > 65_536 || input.len() < 8 {
        return CUT.into();
    }
    let (k, n) = (u32_at(input, 0), u32_at(input, 4));
    if n > 128 || input.len() < 8 + 8 * n as usize {
        return CUT.into();
    }
    let n = n as usize;
    let x: Vec<i32> = (0..n).map(|i| i32_at(input, 8 + 8 * i)).collect();
    let y: Vec<i32> = (0..n).map(|i| i32_at(input, 12 + 8 * i)).collect();
    let file = &input[8 + 8 * n..];
    let mut lent =
        Lent { dist: vec![0; n * 64], site: vec![0; n * 64], cue: vec![0; n * 64], marks: vec![0; file.len() / 512] };
    // A town with height is 17: the input has stops of two axes.
    let joined = join(file, [&x, &y], k, &mut lent).joined;
    if joined.number != 0 {
        return format!("refused {} block {}\n", joined.number, joined.block).into();
    }
    // "The first line has T, opened and struck; then comes a line for each stop, numbered from 0."
    let mut text = format!("tiles {} opened {} struck {}\n", joined.tiles, joined.opened, joined.struck);
    for i in 0..n {
        let first = i * k as usize;
        // "Each place is D, site, cue, in decimal; places are joined by a semicolon and a space"
        let places: Vec<String> = (first..first + joined.used as usize)
            .map(|at| format!(" {} {} {}", lent.dist[at], lent.site[at], lent.cue[at]))
            .collect();
        // "a stop without places prints `stop 0:` (its own number) alone"
        text += &format!("stop {i}:{}\n", places.join(";"));
    }
    text.into()
}
