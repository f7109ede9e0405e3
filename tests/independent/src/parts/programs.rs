//! The program `nearby`: its whole output for many inputs.

use super::count;
use super::joins::any_k;
use crate::compare::Failure;
use crate::damage;
use crate::paper::blocks::SIZE;
use crate::paper::directory::directory_blocks;
use crate::paper::program::printed;
use crate::paper::writer::file_of;
use crate::paper::{Point, Site, Town, LIMIT};
use crate::rng::Rng;
use crate::towns::{self, Sort, SORTS};
use std::io::{Read, Write};
use std::process::{Command, Stdio};

/// "k, n (unsigned, 4 bytes), n stops (x, y, signed, 4 bytes each), all little-endian, then a file"
fn input_of(k: u32, n: u32, stops: &[Point<2>], file: &[u8]) -> Vec<u8> {
    let mut input = Vec::new();
    input.extend(k.to_le_bytes());
    input.extend(n.to_le_bytes());
    for stop in stops {
        input.extend(stop[0].to_le_bytes());
        input.extend(stop[1].to_le_bytes());
    }
    input.extend(file);
    input
}

struct Program<'a> {
    path: &'a str,
    runs: usize,
    cut: usize,
    refused: usize,
}

impl Program<'_> {
    fn output(&self, input: &[u8]) -> Result<Vec<u8>, String> {
        let mut child = Command::new(self.path)
            .stdin(Stdio::piped())
            .stdout(Stdio::piped())
            .stderr(Stdio::inherit())
            .spawn()
            .map_err(|e| format!("{} does not start: {e}", self.path))?;
        let mut stdin = child.stdin.take().unwrap();
        let to_write = input.to_vec();
        // The program may end before it has read an input that is too long: a broken pipe is no failure.
        let writer = std::thread::spawn(move || drop(stdin.write_all(&to_write)));
        let mut output = Vec::new();
        child.stdout.take().unwrap().read_to_end(&mut output).map_err(|e| format!("reading: {e}"))?;
        let status = child.wait().map_err(|e| format!("waiting: {e}"))?;
        writer.join().map_err(|_| "the writing thread failed".to_string())?;
        match status.code() {
            Some(_) => Ok(output),
            None => Err(format!("ended by a signal: {status}")),
        }
    }

    fn agrees(&mut self, case: &str, input: &[u8]) -> Result<(), Failure> {
        let due = printed(input);
        let got = self.output(input).map_err(|text| Failure::with_file(text, input).case(case))?;
        if got != due {
            let text = format!(
                "nearby with {} bytes on standard input: due\n{}got\n{}",
                input.len(),
                String::from_utf8_lossy(&due),
                String::from_utf8_lossy(&got)
            );
            return Err(Failure::with_file(text, input).case(case));
        }
        self.runs += 1;
        self.cut += (due == b"input\n") as usize;
        self.refused += due.starts_with(b"refused") as usize;
        Ok(())
    }
}

/// "stop (0,0), k = 2, and tiles with y 0..0: tile 0 x 0..10, site (10,0) cue 7; tile 1 x -10..-4, site (-10,0) cue
/// 8; tile 2 x 10..12, site (11,0) cue 9". Case 12.
fn town_of_the_paper() -> Town<2> {
    town_in_a_row(&[([0, 10], &[(10, 7)]), ([-10, -4], &[(-10, 8)]), ([10, 12], &[(11, 9)])])
}

/// Tiles with y 0..0: the range of x, and each site's x and cue.
fn town_in_a_row(tiles: &[([i32; 2], &[(i32, u32)])]) -> Town<2> {
    let site = |(x, cue): &(i32, u32)| Site { at: [*x, 0], cue: *cue };
    Town::of(tiles.iter().map(|(x, sites)| ([*x, [0, 0]], sites.iter().map(site).collect())).collect())
}

fn worked_example(program: &mut Program) -> Result<(), Failure> {
    let file = file_of(&town_of_the_paper());
    let input = input_of(2, 1, &[[0, 0]], &file);
    assert_eq!(printed(&input), b"tiles 3 opened 2 struck 0\nstop 0: 100 0 7; 100 40 8\n");
    program.agrees("the worked example", &input)?;
    // "with k = 3 they are 2, 2, 2"
    let input = input_of(3, 1, &[[0, 0]], &file);
    assert!(printed(&input).starts_with(b"tiles 3 opened 3 struck 0\n"));
    program.agrees("the worked example with k = 3", &input)
}

/// The same town with sites muted or muted ones put in, worked by hand.
fn worked_example_muted(program: &mut Program) -> Result<(), Failure> {
    type Tiles<'a> = &'a [([i32; 2], &'a [(i32, u32)])];
    let (first, second, third): ([i32; 2], [i32; 2], [i32; 2]) = ([0, 10], [-10, -4], [10, 12]);
    let cases: [(&str, u32, Tiles, &str); 6] = [
        (
            "a muted site at the stop, in slot 0",
            2,
            &[(first, &[(0, 0), (10, 7)]), (second, &[(-10, 8)]), (third, &[(11, 9)])],
            "tiles 3 opened 2 struck 0\nstop 0: 100 1 7; 100 40 8\n",
        ),
        (
            "tile 1 muted: it is not opened, and tile 2 is",
            2,
            &[(first, &[(10, 7)]), (second, &[(-10, 0)]), (third, &[(11, 9)])],
            "tiles 3 opened 2 struck 0\nstop 0: 100 0 7; 121 80 9\n",
        ),
        (
            "tile 1 muted, and fewer sites than k",
            3,
            &[(first, &[(10, 7)]), (second, &[(-10, 0)]), (third, &[(11, 9)])],
            "tiles 3 opened 2 struck 0\nstop 0: 100 0 7; 121 80 9\n",
        ),
        (
            "the third tile farther: one sounding site is nearer, so it is struck for k = 1",
            1,
            &[(first, &[(10, 7), (1, 0)]), (second, &[(-10, 0)]), ([11, 12], &[(11, 9)])],
            "tiles 3 opened 1 struck 1\nstop 0: 100 0 7\n",
        ),
        (
            "for k = 2 it is not, though three sites are nearer",
            2,
            &[(first, &[(10, 7), (1, 0)]), (second, &[(-10, 0)]), ([11, 12], &[(11, 9)])],
            "tiles 3 opened 2 struck 0\nstop 0: 100 0 7; 121 80 9\n",
        ),
        (
            "every site muted",
            2,
            &[(first, &[(10, 0)]), (second, &[(-10, 0)]), (third, &[(11, 0)])],
            "tiles 3 opened 0 struck 0\nstop 0:\n",
        ),
    ];
    for (case, k, tiles, due) in cases {
        let input = input_of(k, 1, &[[0, 0]], &file_of(&town_in_a_row(tiles)));
        assert_eq!(String::from_utf8_lossy(&printed(&input)), due, "{case}");
        program.agrees(case, &input)?;
    }
    // A file from before the muted numbers: the first tile opened with a muted site is refused.
    let mut file = file_of(&town_in_a_row(&[(first, &[(10, 7)]), (second, &[(-10, 0)]), (third, &[(11, 9)])]));
    damage::set_u16(damage::block_mut(&mut file, 0), 16 + 20 + 18, 0);
    damage::repair_block(&mut file, 0);
    let input = input_of(2, 1, &[[0, 0]], &file);
    assert_eq!(printed(&input), b"refused 16 block 2\n");
    program.agrees("an old file with a cue 0", &input)
}

/// Towns that fit the input: at most 65,536 bytes in all.
fn answered(program: &mut Program, rng: &mut Rng) -> Result<(), Failure> {
    for round in 0..12 {
        for sort in SORTS {
            let n = match round {
                0 => 128,
                1 => 1,
                _ => 1 + rng.below(20),
            };
            let room = (65_536 - 8 - 8 * n) / SIZE;
            let most = (1..room).rev().find(|t| t + directory_blocks(2, *t) <= room).unwrap();
            let tiles = if round < 3 { most } else { 1 + rng.below(40) };
            let town: Town<2> = towns::town(sort, tiles, rng);
            let stops = towns::stops(&town, n, rng);
            let k = if round == 0 { 64 } else { any_k(rng) };
            let input = input_of(k, n as u32, &stops, &file_of(&town));
            program.agrees(&format!("a town of sort {sort:?} with {tiles} tiles"), &input)?;
        }
    }
    // "a stop without places prints `stop 0:` (its own number) alone"
    let empty: Town<2> = towns::town(Sort::AllEmpty, 3, rng);
    let input = input_of(4, 3, &[[0, 0], [1, 1], [2, 2]], &file_of(&empty));
    assert_eq!(printed(&input), b"tiles 3 opened 0 struck 0\nstop 0:\nstop 1:\nstop 2:\n");
    program.agrees("all tiles empty", &input)
}

/// "Too long, n over 128 (its own limit), or cut before the stops end: it prints `input`."
fn cut(program: &mut Program, rng: &mut Rng) -> Result<(), Failure> {
    let file = file_of(&town_of_the_paper());
    let stops = [[0, 0], [5, 0], [-3, 0], [1, 1]];
    let whole = input_of(2, 4, &stops, &file);
    for length in (0..=45).chain([39, 40, 41, 551, 552, 553, whole.len() - 1, whole.len()]) {
        program.agrees(&format!("{length} bytes of {}", whole.len()), &whole[..length])?;
    }
    for n in [0, 5, 127, 128, 129, 130, 256, 257, 65_536, 1 << 29, (1 << 29) + 4, 1 << 31, u32::MAX] {
        let case = format!("n says {n}");
        program.agrees(&case, &input_of(2, n, &stops, &file))?;
        program.agrees(&case, &input_of(2, n, &[], &[]))?;
        program.agrees(&case, &input_of(0, n, &[[0, 0]; 300], &file))?;
    }
    // Exactly 65,536 bytes, one more, and many more: n = 63 leaves 127 blocks, that is 121 tiles.
    let town: Town<2> = towns::town(Sort::Dense, 121, rng);
    let long_file = file_of(&town);
    let stops = towns::stops(&town, 63, rng);
    let exact = input_of(9, 63, &stops, &long_file);
    assert_eq!(exact.len(), 65_536);
    program.agrees("65,536 bytes", &exact)?;
    for more in [1, 2, 511, 512, 1_000, 65_536, 500_000] {
        let mut longer = exact.clone();
        longer.extend(rng.bytes(more));
        program.agrees(&format!("65,536 bytes and {more}"), &longer)?;
    }
    for length in [65_535, 65_537, 65_536] {
        let random = rng.bytes(length);
        program.agrees(&format!("{length} random bytes"), &random)?;
        let zero = vec![0; length];
        program.agrees(&format!("{length} zero bytes"), &zero)?;
    }
    Ok(())
}

/// "Refused by the join: `refused N block P`."
fn refused(program: &mut Program, rng: &mut Rng) -> Result<(), Failure> {
    for _ in 0..220 {
        let tiles = rng.pick(&[1, 3, 24, 25, 50]);
        let sort = rng.pick(&[Sort::Row, Sort::Overlapping, Sort::Dense, Sort::Ties]);
        let town: Town<2> = towns::town(sort, tiles, rng);
        let mut file = file_of(&town);
        let n = 1 + rng.below(5);
        let mut stops = towns::stops(&town, n, rng);
        let mut k = any_k(rng);
        let case = match rng.below(7) {
            0 => damage::some_directory_field(&mut file, &town, rng),
            1 => damage::wrong_length(&mut file, rng),
            2 => {
                k = rng.pick(&[0, 65, 1 << 31, u32::MAX]);
                format!("k {k}")
            }
            3 => {
                let at = rng.below(n);
                stops[at][rng.below(2)] = rng.pick(&[LIMIT + 1, -LIMIT - 1, i32::MIN, i32::MAX]);
                format!("stops {stops:?}")
            }
            4 => {
                stops.clear();
                "no stops".into()
            }
            _ => {
                damage::every_tile(&mut file, &town, rng);
                "damage in every tile".into()
            }
        };
        program.agrees(&case, &input_of(k, stops.len() as u32, &stops, &file))?;
    }
    Ok(())
}

/// The program has stops of two axes: 17 for a town with height, after the tests of its directory, 11 and 12, and
/// before 13 and the tiles.
fn with_height(program: &mut Program, rng: &mut Rng) -> Result<(), Failure> {
    for round in 0..60 {
        let sort = rng.pick(&SORTS);
        let tiles = if round == 0 { 119 } else { 1 + rng.below(60) };
        let town: Town<3> = towns::town(sort, tiles, rng);
        let mut file = file_of(&town);
        let mut stops: Vec<Point<2>> = towns::stops(&town, 2, rng).iter().map(|s| [s[0], s[1]]).collect();
        let mut k = any_k(rng);
        let due: Option<&[u8]> = match round % 6 {
            0 | 1 => Some(b"refused 17 block 0\n"),
            2 => {
                stops[1][rng.below(2)] = rng.pick(&[LIMIT + 1, i32::MIN]);
                damage::every_tile(&mut file, &town, rng);
                Some(b"refused 17 block 0\n")
            }
            3 => {
                k = rng.pick(&[0, 65]);
                Some(b"refused 11 block 0\n")
            }
            4 => {
                stops.clear();
                Some(b"refused 12 block 0\n")
            }
            _ => {
                damage::some_directory_field(&mut file, &town, rng);
                None
            }
        };
        let input = input_of(k, stops.len() as u32, &stops, &file);
        if let Some(due) = due {
            assert_eq!(printed(&input), due);
        }
        program.agrees(&format!("a town with height, of sort {sort:?}, with {tiles} tiles"), &input)?;
    }
    Ok(())
}

pub fn run(path: &str, rng: &mut Rng) -> Result<String, Failure> {
    let mut program = Program { path, runs: 0, cut: 0, refused: 0 };
    worked_example(&mut program)?;
    worked_example_muted(&mut program)?;
    answered(&mut program, rng)?;
    cut(&mut program, rng)?;
    refused(&mut program, rng)?;
    with_height(&mut program, rng)?;
    Ok(format!(
        "{} inputs, whole output each: {} `input`, {} refused, {} answered with the worked example among them",
        count(program.runs),
        count(program.cut),
        count(program.refused),
        count(program.runs - program.cut - program.refused)
    ))
}
