//! nearby_margin and nearby_margin3 against all points of small boxes, against the ends for large ones, and with bad
//! boxes.

use super::count;
use crate::compare::{name_of, Failure};
use crate::fillings::point_in;
use crate::host;
use crate::paper::boxes::{
    distance, exported_margin, far, good_box, margin, margin_of_all_points, near, nearer, points, reaching,
};
use crate::paper::{each_axis, Bounds, Point, LIMIT};
use crate::rng::Rng;

fn agrees<const A: usize>(o: Bounds<A>, e: Bounds<A>, b: Bounds<A>, due: i64) -> Result<(), Failure> {
    let got = host::margin(o, e, b);
    if got == due {
        Ok(())
    } else {
        let name = name_of::<A>("margin");
        Err(Failure::new(format!("{name}(O {o:?}, E {e:?}, B {b:?}): due {due}, got {got}")))
    }
}

/// "Twelve cases", 1 to 8.
fn cases_of_the_paper() -> Result<usize, Failure> {
    let flat = |low: i32, high: i32| -> Bounds<2> { [[low, high], [0, 0]] };
    let tall = |b: Bounds<2>, y: i32| -> Bounds<2> { [b[0], [0, y]] };
    let (o, e) = (flat(0, 10), flat(20, 30));
    let third = flat(31, 70);
    let cases = [
        (o, e, flat(60, 70), -2100),
        (o, e, flat(30, 70), 0),
        (o, e, third, -41),
        (tall(o, 4), tall(e, 4), tall(third, 4), -25),
        (tall(o, 7), tall(e, 7), tall(third, 7), 8),
        (o, flat(0, 0), flat(15, 15), 75),
    ];
    for (o, e, b, due) in cases {
        agrees(o, e, b, due)?;
        assert_eq!(margin(o, e, b), due);
        assert_eq!(margin_of_all_points(o, e, b), due);
        assert_eq!(nearer(o, e, b), due < 0);
    }
    // Near and far are not exported: their cases hold for the definitions that the other parts use.
    let (p, q): (Point<2>, Point<2>) = ([5, 5], [0, 0]);
    let (box_7, box_8): (Bounds<2>, Bounds<2>) = ([[10, 20], [0, 4]], [[-3, 4], [-2, 2]]);
    for (p, b, due_near, due_far) in [(p, box_7, 26, 250), (q, box_8, 0, 20)] {
        let all: Vec<i64> = points(b).iter().map(|q| distance(p, *q)).collect();
        assert_eq!((near(p, b), far(p, b)), (due_near, due_far));
        assert_eq!((all.iter().min(), all.iter().max()), (Some(&due_near), Some(&due_far)));
    }
    Ok(cases.len())
}

/// The same with a third axis, and boxes that are high, worked by hand: an axis on which all three boxes are 0..w adds
/// w squared.
fn cases_with_height() -> Result<usize, Failure> {
    let (o, e, b): ([i32; 2], [i32; 2], [i32; 2]) = ([0, 10], [20, 30], [31, 70]);
    let (dot, four, five, seven) = ([0, 0], [0, 4], [0, 5], [0, 7]);
    let high = |y: [i32; 2], z: [i32; 2]| -> [Bounds<3>; 3] { [[o, y, z], [e, y, z], [b, y, z]] };
    let square = LIMIT as i64 * LIMIT as i64;
    let cases: [([Bounds<3>; 3], i64); 15] = [
        ([[o, dot, dot], [e, dot, dot], [[60, 70], dot, dot]], -2100),
        ([[o, dot, dot], [e, dot, dot], [[30, 70], dot, dot]], 0),
        (high(dot, dot), -41),
        (high(four, dot), -25),
        (high(dot, four), -25),
        (high(seven, dot), 8),
        (high(dot, seven), 8),
        (high(four, four), -9),
        (high(four, five), 0),
        (high(seven, seven), 57),
        ([[o, dot, dot], [dot, dot, dot], [[15, 15], dot, dot]], 75),
        // B on a viaduct above O, 6 metres up.
        ([[o, dot, dot], [e, dot, dot], [o, dot, [600, 640]]], 900 - 360_000),
        ([[o, dot, dot], [o, dot, [600, 640]], [e, dot, dot]], 100 - 100 + 640 * 640),
        ([[[-LIMIT; 2]; 3], [[LIMIT; 2]; 3], [[-LIMIT; 2]; 3]], 12 * square),
        ([[[-LIMIT; 2]; 3], [[-LIMIT; 2]; 3], [[LIMIT; 2]; 3]], -12 * square),
    ];
    // The axes in any order.
    let orders = [[0, 1, 2], [0, 2, 1], [1, 0, 2], [1, 2, 0], [2, 0, 1], [2, 1, 0]];
    for ([o, e, b], due) in cases {
        for order in orders {
            let turned = |b: Bounds<3>| -> Bounds<3> { order.map(|axis| b[axis]) };
            agrees(turned(o), turned(e), turned(b), due)?;
            assert_eq!(margin(turned(o), turned(e), turned(b)), due);
        }
        if due.abs() < 3_000 {
            assert_eq!(margin_of_all_points(o, e, b), due);
        }
        assert_eq!(nearer(o, e, b), due < 0);
    }
    let (box_7, box_8): (Bounds<3>, Bounds<3>) = ([[10, 20], [0, 4], [0, 4]], [[-3, 4], [-2, 2], [-1, 1]]);
    for (p, b, due_near, due_far) in [([5, 5, 5], box_7, 27, 275), ([0, 0, 0], box_8, 0, 21)] {
        let all: Vec<i64> = points(b).iter().map(|q| distance(p, *q)).collect();
        assert_eq!((near(p, b), far(p, b)), (due_near, due_far));
        assert_eq!((all.iter().min(), all.iter().max()), (Some(&due_near), Some(&due_far)));
    }
    Ok(cases.len())
}

/// All ranges with ends from low to high.
fn ranges(low: i32, high: i32) -> Vec<[i32; 2]> {
    (low..=high).flat_map(|p| (p..=high).map(move |q| [p, q])).collect()
}

/// All boxes that have one of these ranges on each axis.
fn boxes_of<const A: usize>(ranges: &[[i32; 2]]) -> Vec<Bounds<A>> {
    let number = ranges.len();
    (0..number.pow(A as u32)).map(|i| each_axis(|axis| ranges[i / number.pow(axis as u32) % number])).collect()
}

/// Every triple of boxes with ends in 0..3 on both axes, or in 0..1 on three; every triple with ends in 0..7 on one
/// axis, which is any of them.
fn all_small_triples<const A: usize>() -> Result<usize, Failure> {
    let mut tried = 0;
    let boxes: Vec<Bounds<A>> = boxes_of(&ranges(0, if A == 2 { 3 } else { 1 }));
    for o in &boxes {
        for e in &boxes {
            for b in &boxes {
                agrees(*o, *e, *b, margin_of_all_points(*o, *e, *b))?;
                tried += 1;
            }
        }
    }
    let long = ranges(0, 7);
    for o in &long {
        for e in &long {
            for b in &long {
                let on_axis = |axis: usize, long: [i32; 2], others: i32| -> Bounds<A> {
                    each_axis(|a| if a == axis { long } else { [others, others] })
                };
                for axis in 0..A {
                    let (o, e, b) = (on_axis(axis, *o, -1), on_axis(axis, *e, 0), on_axis(axis, *b, 2));
                    agrees(o, e, b, margin_of_all_points(o, e, b))?;
                    tried += 1;
                }
            }
        }
    }
    Ok(tried)
}

/// Small boxes anywhere, also close to the limits and far from each other, against all their points.
fn small_boxes_anywhere<const A: usize>(rng: &mut Rng) -> Result<usize, Failure> {
    // A box of three axes has more points: shorter ones, and more of them.
    let (tried, longest) = if A == 2 { (20_000, 3) } else { (60_000, 2) };
    for _ in 0..tried {
        let reach = rng.pick(&[6, 40, LIMIT]);
        let mut small = || -> Bounds<A> {
            each_axis(|_| {
                let low = rng.range(-reach, reach);
                [low, (low + rng.range(0, longest)).min(LIMIT)]
            })
        };
        let (o, e, b) = (small(), small(), small());
        agrees(o, e, b, margin_of_all_points(o, e, b))?;
    }
    Ok(tried)
}

fn any_range(rng: &mut Rng) -> [i32; 2] {
    let reach = rng.pick(&[10, 1_000, LIMIT, LIMIT]);
    let end = |rng: &mut Rng| if rng.chance(8) { rng.pick(&[-LIMIT, 0, LIMIT]) } else { rng.range(-reach, reach) };
    let (p, q) = (end(rng), end(rng));
    [p.min(q), p.max(q)]
}

fn any_box<const A: usize>(rng: &mut Rng) -> Bounds<A> {
    each_axis(|_| any_range(rng))
}

/// Boxes of any size: the margin by the points that reach it, and no other points give more.
fn large_boxes<const A: usize>(rng: &mut Rng) -> Result<usize, Failure> {
    let tried = 200_000;
    for _ in 0..tried {
        let (o, e, b): (Bounds<A>, Bounds<A>, Bounds<A>) = (any_box(rng), any_box(rng), any_box(rng));
        let due = margin(o, e, b);
        agrees(o, e, b, due)?;
        let [at_o, at_e, at_b] = reaching(o, e, b);
        assert_eq!(distance(at_o, at_e) - distance(at_o, at_b), due);
        for _ in 0..3 {
            let (p, q, r) = (point_in(o, rng), point_in(e, rng), point_in(b, rng));
            let difference = distance(p, q) - distance(p, r);
            if difference > host::margin(o, e, b) {
                return Err(Failure::new(format!(
                    "{}(O {o:?}, E {e:?}, B {b:?}): points {p:?}, {q:?}, {r:?} give {difference}, got less",
                    name_of::<A>("margin")
                )));
            }
        }
    }
    Ok(tried)
}

/// Every triple of boxes with ends at the limits or 0.
fn extreme_boxes<const A: usize>() -> Result<usize, Failure> {
    let ends = [[-LIMIT, -LIMIT], [-LIMIT, 0], [-LIMIT, LIMIT], [0, 0], [0, LIMIT], [LIMIT, LIMIT]];
    let boxes: Vec<Bounds<A>> = boxes_of(&ends);
    for o in &boxes {
        for e in &boxes {
            for b in &boxes {
                agrees(*o, *e, *b, margin(*o, *e, *b))?;
            }
        }
    }
    Ok(boxes.len() * boxes.len() * boxes.len())
}

/// Each of the twelve or eighteen numbers beyond the limits, each low end above its high end, and any numbers at all.
fn bad_boxes<const A: usize>(rng: &mut Rng) -> Result<usize, Failure> {
    const BAD: i64 = 9_000_000_000_000_000_000;
    let mut tried = 0;
    for _ in 0..300 {
        let good: [Bounds<A>; 3] = [any_box(rng), any_box(rng), any_box(rng)];
        for number in 0..6 * A {
            let (which, axis, end) = (number / (2 * A), number / 2 % A, number % 2);
            for beyond in [LIMIT + 1, -LIMIT - 1, i32::MAX, i32::MIN, rng.range(LIMIT + 1, i32::MAX)] {
                let mut boxes = good;
                boxes[which][axis][end] = beyond;
                agrees(boxes[0], boxes[1], boxes[2], BAD)?;
                // Beyond with both ends, so that low is not above high.
                boxes[which][axis] = [beyond, beyond];
                agrees(boxes[0], boxes[1], boxes[2], BAD)?;
                tried += 2;
            }
            let mut boxes = good;
            let other = boxes[which][axis][1 - end];
            boxes[which][axis][end] = if end == 0 { other + 1 } else { other - 1 };
            agrees(boxes[0], boxes[1], boxes[2], BAD)?;
            tried += 1;
        }
    }
    for _ in 0..20_000 {
        let mut any = || -> Bounds<A> {
            let mut number = || match rng.below(4) {
                0 => rng.next() as i32,
                1 => rng.pick(&[-LIMIT - 1, -LIMIT, LIMIT, LIMIT + 1]),
                _ => rng.range(-LIMIT, LIMIT),
            };
            let b: Bounds<A> = each_axis(|_| [number(), number()]);
            b.map(|[p, q]| if number() > -LIMIT / 2 { [p.min(q), p.max(q)] } else { [p, q] })
        };
        let (o, e, b) = (any(), any(), any());
        agrees(o, e, b, exported_margin(o, e, b))?;
        tried += !(good_box(o) && good_box(e) && good_box(b)) as usize;
    }
    Ok(tried)
}

pub fn run<const A: usize>(rng: &mut Rng) -> Result<String, Failure> {
    let cases = match A {
        2 => format!("{} cases of the paper", cases_of_the_paper()?),
        _ => format!("{} cases worked by hand", cases_with_height()?),
    };
    let all = all_small_triples::<A>()?;
    let anywhere = small_boxes_anywhere::<A>(rng)?;
    let large = large_boxes::<A>(rng)?;
    let extreme = extreme_boxes::<A>()?;
    let bad = bad_boxes::<A>(rng)?;
    Ok(format!(
        "{cases}, {} triples of small boxes against all their points and {} more anywhere, \
         {} random triples, {} at the limits, {} with bad boxes",
        count(all),
        count(anywhere),
        count(large),
        count(extreme),
        count(bad)
    ))
}
