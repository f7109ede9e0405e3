//! "Three boxes": near, far and margin, by their definition over all points and by the ends.

use super::{each_axis, Bounds, Point, LIMIT};

pub fn within_limits(coordinate: i32) -> bool {
    (-LIMIT..=LIMIT).contains(&coordinate)
}

/// Row 9: "coordinate beyond limits, low above high".
pub fn good_box<const A: usize>(b: Bounds<A>) -> bool {
    b.iter().all(|[low, high]| within_limits(*low) && within_limits(*high) && low <= high)
}

pub fn inside<const A: usize>(p: Point<A>, b: Bounds<A>) -> bool {
    (0..A).all(|axis| b[axis][0] <= p[axis] && p[axis] <= b[axis][1])
}

fn square(p: i32, q: i32) -> i64 {
    (p as i64 - q as i64) * (p as i64 - q as i64)
}

/// "D(p,q) is the squared Euclidean distance."
pub fn distance<const A: usize>(p: Point<A>, q: Point<A>) -> i64 {
    (0..A).map(|axis| square(p[axis], q[axis])).sum()
}

/// The point of the box closest to p, on each axis the number of the range closest to p's.
pub fn closest<const A: usize>(p: Point<A>, b: Bounds<A>) -> Point<A> {
    each_axis(|axis| p[axis].clamp(b[axis][0], b[axis][1]))
}

/// "the least ... D(p,q) over the whole-number points q of the box"
pub fn near<const A: usize>(p: Point<A>, b: Bounds<A>) -> i64 {
    distance(p, closest(p, b))
}

/// "and the largest": some corner reaches it.
pub fn far<const A: usize>(p: Point<A>, b: Bounds<A>) -> i64 {
    let corner = |ends: usize| -> Point<A> { each_axis(|axis| b[axis][ends >> axis & 1]) };
    (0..1 << A).map(|ends| distance(p, corner(ends))).max().unwrap()
}

/// The whole-number points of a box.
pub fn points<const A: usize>(b: Bounds<A>) -> Vec<Point<A>> {
    let mut points = vec![b.map(|[low, _]| low)];
    for axis in 0..A {
        let along =
            |p: Point<A>| (b[axis][0]..=b[axis][1]).map(move |c| each_axis(|a| if a == axis { c } else { p[a] }));
        points = points.into_iter().flat_map(along).collect();
    }
    points
}

/// "the largest D(o,e) - D(o,b) over whole-number points o of O, e of E, b of B": all of them.
pub fn margin_of_all_points<const A: usize>(o: Bounds<A>, e: Bounds<A>, b: Bounds<A>) -> i64 {
    let (e_points, b_points) = (points(e), points(b));
    let mut largest = i64::MIN;
    for o in points(o) {
        for e in &e_points {
            for b in &b_points {
                largest = largest.max(distance(o, *e) - distance(o, *b));
            }
        }
    }
    largest
}

/// The three points on one axis: "o is the end of O that gives the larger difference, the low end if equal; e is the
/// end of E farther from o, the low end if equal; b is the point of B closest to o." Gives o, e, b.
fn reaching_on_axis(o: [i32; 2], e: [i32; 2], b: [i32; 2]) -> [i32; 3] {
    let from = |o: i32| {
        let farther = if square(o, e[1]) > square(o, e[0]) { e[1] } else { e[0] };
        let closest = o.clamp(b[0], b[1]);
        (square(o, farther) - square(o, closest), [o, farther, closest])
    };
    let (low, high) = (from(o[0]), from(o[1]));
    if high.0 > low.0 {
        high.1
    } else {
        low.1
    }
}

/// The three points "that reach" the margin.
pub fn reaching<const A: usize>(o: Bounds<A>, e: Bounds<A>, b: Bounds<A>) -> [Point<A>; 3] {
    let on_axes: [[i32; 3]; A] = each_axis(|axis| reaching_on_axis(o[axis], e[axis], b[axis]));
    [0, 1, 2].map(|point| on_axes.map(|three| three[point]))
}

/// The margin by the three points that reach it.
pub fn margin<const A: usize>(o: Bounds<A>, e: Bounds<A>, b: Bounds<A>) -> i64 {
    let [o, e, b] = reaching(o, e, b);
    distance(o, e) - distance(o, b)
}

/// "E is nearer than B from O exactly when the margin is below 0".
pub fn nearer<const A: usize>(o: Bounds<A>, e: Bounds<A>, b: Bounds<A>) -> bool {
    margin(o, e, b) < 0
}

/// "Exported margin takes twelve signed 32-bit numbers (O, E, B; each low x, high x, low y, high y) and gives a
/// signed 64-bit number, 9,000,000,000,000,000,000 for a bad box." Eighteen numbers for three axes.
pub fn exported_margin<const A: usize>(o: Bounds<A>, e: Bounds<A>, b: Bounds<A>) -> i64 {
    if good_box(o) && good_box(e) && good_box(b) {
        margin(o, e, b)
    } else {
        9_000_000_000_000_000_000
    }
}

/// "O is the smallest box around the stops."
pub fn smallest_around<const A: usize>(stops: &[Point<A>]) -> Bounds<A> {
    each_axis(|a| [stops.iter().map(|s| s[a]).min().unwrap(), stops.iter().map(|s| s[a]).max().unwrap()])
}
