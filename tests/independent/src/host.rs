//! The interface of include/nearby.h: the functions of the static library behind safe calls on slices, each over the
//! number of axes, and nearby_level, which has none.

use crate::paper::search::{Joined, Pruned};
use crate::paper::stream::Streamed;
use crate::paper::writer::Supply;
use crate::paper::Bounds;

#[repr(C)]
struct CJoined {
    number: u32,
    block: u32,
    used: u32,
    tiles: u32,
    opened: u32,
    pruned: u32,
}

#[repr(C)]
struct CPruned {
    number: u32,
    block: u32,
    tiles: u32,
    pruned: u32,
}

#[repr(C)]
struct CStreamed {
    number: u32,
    block: u32,
    tiles: u32,
}

#[repr(C)]
struct CValidated {
    number: u32,
    block: u32,
    tiles: u32,
    axes: u32,
}

/// What nearby_validate gives.
#[derive(Clone, Copy, Debug, PartialEq, Eq)]
pub struct Validated {
    pub number: u32,
    pub block: u32,
    pub tiles: u32,
    /// 2 or 3; 0 when refused.
    pub axes: u32,
}

/// What nearby_write gives.
#[repr(C)]
#[derive(Clone, Copy, Debug, PartialEq, Eq)]
pub struct Written {
    pub number: u32,
    pub block: u32,
    pub length: usize,
}

#[repr(C)]
struct CLeveled {
    number: u32,
    silent: u32,
    level: f64,
}

/// What nearby_level gives. The level is taken by its bits: 0.0 is not -0.0.
#[derive(Clone, Copy, Debug, PartialEq, Eq)]
pub struct Leveled {
    pub number: u32,
    pub silent: u32,
    pub bits: u64,
}

#[rustfmt::skip]
extern "C" {
    fn nearby_block_check(block: *const u8, block_len: usize) -> u32;
    fn nearby_margin(
        ox0: i32, ox1: i32, oy0: i32, oy1: i32,
        ex0: i32, ex1: i32, ey0: i32, ey1: i32,
        bx0: i32, bx1: i32, by0: i32, by1: i32,
    ) -> i64;
    fn nearby_join(
        file: *const u8, file_len: usize,
        x: *const i32, x_len: usize, y: *const i32, y_len: usize, k: u32,
        dist: *mut u64, dist_len: usize, site: *mut u32, site_len: usize,
        cue: *mut u32, cue_len: usize, marks: *mut u8, marks_len: usize,
    ) -> CJoined;
    fn nearby_prune(
        file: *const u8, file_len: usize,
        x0: i32, x1: i32, y0: i32, y1: i32, k: u32,
        marks: *mut u8, marks_len: usize,
    ) -> CPruned;
    fn nearby_stream_order(
        file: *const u8, file_len: usize,
        x0: i32, x1: i32, y0: i32, y1: i32,
        order: *mut u32, order_len: usize,
    ) -> CStreamed;
    fn nearby_validate(file: *const u8, file_len: usize) -> CValidated;
    fn nearby_write(
        boxes: *const i32, boxes_len: usize, counts: *const u32, counts_len: usize,
        x: *const i32, x_len: usize, y: *const i32, y_len: usize,
        cues: *const u32, cues_len: usize, out: *mut u8, out_len: usize,
    ) -> Written;
    fn nearby_margin3(
        ox0: i32, ox1: i32, oy0: i32, oy1: i32, oz0: i32, oz1: i32,
        ex0: i32, ex1: i32, ey0: i32, ey1: i32, ez0: i32, ez1: i32,
        bx0: i32, bx1: i32, by0: i32, by1: i32, bz0: i32, bz1: i32,
    ) -> i64;
    fn nearby_join3(
        file: *const u8, file_len: usize,
        x: *const i32, x_len: usize, y: *const i32, y_len: usize, z: *const i32, z_len: usize, k: u32,
        dist: *mut u64, dist_len: usize, site: *mut u32, site_len: usize,
        cue: *mut u32, cue_len: usize, marks: *mut u8, marks_len: usize,
    ) -> CJoined;
    fn nearby_prune3(
        file: *const u8, file_len: usize,
        x0: i32, x1: i32, y0: i32, y1: i32, z0: i32, z1: i32, k: u32,
        marks: *mut u8, marks_len: usize,
    ) -> CPruned;
    fn nearby_stream_order3(
        file: *const u8, file_len: usize,
        x0: i32, x1: i32, y0: i32, y1: i32, z0: i32, z1: i32,
        order: *mut u32, order_len: usize,
    ) -> CStreamed;
    fn nearby_write3(
        boxes: *const i32, boxes_len: usize, counts: *const u32, counts_len: usize,
        x: *const i32, x_len: usize, y: *const i32, y_len: usize, z: *const i32, z_len: usize,
        cues: *const u32, cues_len: usize, out: *mut u8, out_len: usize,
    ) -> Written;
    fn nearby_level(reach: u32, dist: u64) -> CLeveled;
}

pub fn block_check(block: &[u8]) -> u32 {
    unsafe { nearby_block_check(block.as_ptr(), block.len()) }
}

#[rustfmt::skip]
pub fn margin<const A: usize>(o: Bounds<A>, e: Bounds<A>, b: Bounds<A>) -> i64 {
    unsafe {
        match A {
            2 => nearby_margin(
                o[0][0], o[0][1], o[1][0], o[1][1],
                e[0][0], e[0][1], e[1][0], e[1][1],
                b[0][0], b[0][1], b[1][0], b[1][1],
            ),
            3 => nearby_margin3(
                o[0][0], o[0][1], o[1][0], o[1][1], o[2][0], o[2][1],
                e[0][0], e[0][1], e[1][0], e[1][1], e[2][0], e[2][1],
                b[0][0], b[0][1], b[1][0], b[1][1], b[2][0], b[2][1],
            ),
            _ => unreachable!("no margin for {A} axes"),
        }
    }
}

/// The four slices that are lent to the join.
pub struct Slices<'a> {
    pub dist: &'a mut [u64],
    pub site: &'a mut [u32],
    pub cue: &'a mut [u32],
    pub marks: &'a mut [u8],
}

/// The stops are a list of coordinates for each axis.
#[rustfmt::skip]
pub fn join<const A: usize>(file: &[u8], at: [&[i32]; A], k: u32, lent: Slices) -> Joined {
    let c = unsafe {
        match A {
            2 => nearby_join(
                file.as_ptr(), file.len(),
                at[0].as_ptr(), at[0].len(), at[1].as_ptr(), at[1].len(), k,
                lent.dist.as_mut_ptr(), lent.dist.len(), lent.site.as_mut_ptr(), lent.site.len(),
                lent.cue.as_mut_ptr(), lent.cue.len(), lent.marks.as_mut_ptr(), lent.marks.len(),
            ),
            3 => nearby_join3(
                file.as_ptr(), file.len(),
                at[0].as_ptr(), at[0].len(), at[1].as_ptr(), at[1].len(), at[2].as_ptr(), at[2].len(), k,
                lent.dist.as_mut_ptr(), lent.dist.len(), lent.site.as_mut_ptr(), lent.site.len(),
                lent.cue.as_mut_ptr(), lent.cue.len(), lent.marks.as_mut_ptr(), lent.marks.len(),
            ),
            _ => unreachable!("no join for {A} axes"),
        }
    };
    Joined { number: c.number, block: c.block, used: c.used, tiles: c.tiles, opened: c.opened, struck: c.pruned }
}

#[rustfmt::skip]
pub fn prune<const A: usize>(file: &[u8], o: Bounds<A>, k: u32, marks: &mut [u8]) -> Pruned {
    let c = unsafe {
        match A {
            2 => nearby_prune(
                file.as_ptr(), file.len(),
                o[0][0], o[0][1], o[1][0], o[1][1], k,
                marks.as_mut_ptr(), marks.len(),
            ),
            3 => nearby_prune3(
                file.as_ptr(), file.len(),
                o[0][0], o[0][1], o[1][0], o[1][1], o[2][0], o[2][1], k,
                marks.as_mut_ptr(), marks.len(),
            ),
            _ => unreachable!("no strike for {A} axes"),
        }
    };
    Pruned { number: c.number, block: c.block, tiles: c.tiles, struck: c.pruned }
}

#[rustfmt::skip]
pub fn stream_order<const A: usize>(file: &[u8], o: Bounds<A>, order: &mut [u32]) -> Streamed {
    let c = unsafe {
        match A {
            2 => nearby_stream_order(
                file.as_ptr(), file.len(),
                o[0][0], o[0][1], o[1][0], o[1][1],
                order.as_mut_ptr(), order.len(),
            ),
            3 => nearby_stream_order3(
                file.as_ptr(), file.len(),
                o[0][0], o[0][1], o[1][0], o[1][1], o[2][0], o[2][1],
                order.as_mut_ptr(), order.len(),
            ),
            _ => unreachable!("no stream order for {A} axes"),
        }
    };
    Streamed { number: c.number, block: c.block, tiles: c.tiles }
}

pub fn validate(file: &[u8]) -> Validated {
    let c = unsafe { nearby_validate(file.as_ptr(), file.len()) };
    Validated { number: c.number, block: c.block, tiles: c.tiles, axes: c.axes }
}

#[rustfmt::skip]
pub fn write<const A: usize>(supply: &Supply<A>, out: &mut [u8]) -> Written {
    let Supply { boxes, counts, at, cues } = supply;
    unsafe {
        match A {
            2 => nearby_write(
                boxes.as_ptr(), boxes.len(), counts.as_ptr(), counts.len(),
                at[0].as_ptr(), at[0].len(), at[1].as_ptr(), at[1].len(),
                cues.as_ptr(), cues.len(), out.as_mut_ptr(), out.len(),
            ),
            3 => nearby_write3(
                boxes.as_ptr(), boxes.len(), counts.as_ptr(), counts.len(),
                at[0].as_ptr(), at[0].len(), at[1].as_ptr(), at[1].len(), at[2].as_ptr(), at[2].len(),
                cues.as_ptr(), cues.len(), out.as_mut_ptr(), out.len(),
            ),
            _ => unreachable!("no writer for {A} axes"),
        }
    }
}

pub fn level(reach: u32, dist: u64) -> Leveled {
    let c = unsafe { nearby_level(reach, dist) };
    Leveled { number: c.number, silent: c.silent, bits: c.level.to_bits() }
}
