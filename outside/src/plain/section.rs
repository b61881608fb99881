//! Corner points for a whole section, in two ways. All levels at once, without a walk down the levels: the bits of a
//! word have the types of all levels, and then all steps; no position waits for another, so that the compiler takes two
//! at a time. And walking, digit by digit, but from the parent of the last position where the next has the same one.

use super::point::far;
use super::{CHILD, HIGHEST};
use crate::{Corner, Root};

/// Positions that are taken together. Two loops of this fixed length are a tenth faster than one over the section.
const BLOCK: usize = 16;

/// The lowest bit of each digit of a position.
const EACH: u64 = 0o111_111_111_111_111_111_111;

/// A corner of the triangle from the anchor, in sides: x, y, and what goes from x to y where the type is 1.
static STEP: [(u64, u64, u64); 3] = [(0, 0, 0), (1, 0, 1), (1, 1, 0)];

/// What all points of a section share: the corner, as one of the triangle and an end of the line, and the factors of
/// each coordinate.
struct Section {
    step: (u64, u64, u64),
    top: u64,
    factors: [[f64; 6]; 3],
}

/// 0, or place * 256 + number: the refusal of a section.
#[inline(always)]
fn refusal(level: u8, positions: &[u64], corner: u8, root: &Root, lengths: [usize; 3]) -> u64 {
    if lengths != [positions.len(); 3] {
        return 11;
    }
    if level > HIGHEST {
        return 1;
    }
    let beyond = |position: u64| position >> (3 * level) != 0;
    // All at once: the bits of all together stay below 8^level exactly when each position does.
    if beyond(positions.iter().fold(0, |all, position| all | position)) {
        let first = positions.iter().position(|&position| beyond(position)).expect("one of them has the bit");
        return (first as u64) << 8 | 5;
    }
    if corner > 5 {
        return 8;
    }
    if root.corners.iter().any(far) {
        return 24;
    }
    0
}

/// Writes the points of a corner at the positions of a level, all levels of a position at once. Gives 0, or
/// place * 256 + number.
#[inline(never)]
pub fn corner_points(
    level: u8,
    positions: &[u64],
    corner: u8,
    root: Root,
    x: &mut [f64],
    y: &mut [f64],
    z: &mut [f64],
) -> u64 {
    let refusal = refusal(level, positions, corner, &root, [x.len(), y.len(), z.len()]);
    if refusal != 0 {
        return refusal;
    }
    let section =
        Section { step: STEP[corner as usize % 3], top: corner as u64 / 3, factors: all_factors(level, root) };
    let count = positions.len();
    let whole = count - count % BLOCK;
    for i in (0..whole).step_by(BLOCK) {
        write::<BLOCK>(&section, i, positions, x, y, z);
    }
    for i in whole..count {
        write::<1>(&section, i, positions, x, y, z);
    }
    0
}

/// The same, walking. Gives 0, or place * 256 + number.
#[inline(never)]
pub fn corner_points_walking(
    level: u8,
    positions: &[u64],
    corner: u8,
    root: Root,
    x: &mut [f64],
    y: &mut [f64],
    z: &mut [f64],
) -> u64 {
    let refusal = refusal(level, positions, corner, &root, [x.len(), y.len(), z.len()]);
    if refusal != 0 {
        return refusal;
    }
    let factors = all_factors(level, root);
    let offsets = offsets(level, corner);
    let (mut above, mut parent) = (0, Parent { x: 0, y: 0, z: 0, kind: 0 });
    let points = x.iter_mut().zip(y).zip(z);
    for (&position, ((x, y), z)) in positions.iter().zip(points) {
        if position >> 3 != above {
            above = position >> 3;
            parent = parent_at(level - 1, above);
        }
        let [dx, dy, dz] = offsets[parent.kind & 1][(position & 7) as usize];
        let [a, b, c] = [parent.x + dx, parent.y + dy, parent.z + dz].map(|v| v as i32 as f64);
        *x = value(&factors[0], a, b, c);
        *y = value(&factors[1], a, b, c);
        *z = value(&factors[2], a, b, c);
    }
    0
}

/// The parent of an element, its anchor in sides of the child.
struct Parent {
    x: u32,
    y: u32,
    z: u32,
    kind: usize,
}

/// The parent of a level at a position, down from the root.
#[inline(always)]
fn parent_at(level: u8, position: u64) -> Parent {
    let mut e = Parent { x: 0, y: 0, z: 0, kind: 0 };
    for i in (0..level).rev() {
        let number = position >> (3 * i);
        let row = CHILD[e.kind][(number & 3) as usize];
        e.x = e.x << 1 | (row.step & 1) as u32;
        e.y = e.y << 1 | (row.step >> 1) as u32;
        e.z = e.z << 1 | (number >> 2 & 1) as u32;
        e.kind = row.kind as usize;
    }
    Parent { x: 2 * e.x, y: 2 * e.y, z: 2 * e.z, kind: e.kind }
}

/// How far the corner of each child lies from the parent's anchor, in sides of the child, by the parent's type and the
/// child's number. Level 0 has the root alone, as child 0.
fn offsets(level: u8, corner: u8) -> [[[u32; 3]; 8]; 2] {
    let (step_x, step_y, turn) = STEP[corner as usize % 3];
    std::array::from_fn(|kind| {
        std::array::from_fn(|number| {
            let row = CHILD[kind][number & 3];
            let (x, y, z) = if level == 0 { (0, 0, 0) } else { (row.step & 1, row.step >> 1, number as u8 / 4) };
            let turn = if level == 0 { 0 } else { turn as u32 * row.kind as u32 };
            [x as u32 + step_x as u32 - turn, y as u32 + step_y as u32 + turn, z as u32 + corner as u32 / 3]
        })
    })
}

#[inline(always)]
fn all_factors(level: u8, root: Root) -> [[f64; 6]; 3] {
    [factors(level, root, |c| c.x), factors(level, root, |c| c.y), factors(level, root, |c| c.z)]
}

/// The factors of 1, x, y, z, x z and y z in a coordinate, where x, y and z are counted in sides.
#[inline(always)]
fn factors(level: u8, root: Root, of: fn(&Corner) -> i64) -> [f64; 6] {
    let v = root.corners.each_ref().map(of);
    let side = 1.0 / (1u64 << level) as f64;
    let (x, y) = (v[1] - v[0], v[2] - v[1]);
    let (upper_x, upper_y) = (v[4] - v[3], v[5] - v[4]);
    [
        v[0] as f64,
        x as f64 * side,
        y as f64 * side,
        (v[3] - v[0]) as f64 * side,
        (upper_x - x) as f64 * side * side,
        (upper_y - y) as f64 * side * side,
    ]
}

/// Writes the points at N positions, from entry i on.
#[inline(always)]
fn write<const N: usize>(section: &Section, i: usize, positions: &[u64], x: &mut [f64], y: &mut [f64], z: &mut [f64]) {
    let (positions, x) = (&positions[i..i + N], &mut x[i..i + N]);
    let (y, z) = (&mut y[i..i + N], &mut z[i..i + N]);
    // A column each, so that a load has the same coordinate of several positions.
    let mut local = [[0; N]; 3];
    for j in 0..N {
        [local[0][j], local[1][j], local[2][j]] = corner_at(section, positions[j]);
    }
    for j in 0..N {
        let [a, b, c] = [local[0][j], local[1][j], local[2][j]].map(f64::from);
        x[j] = value(&section.factors[0], a, b, c);
        y[j] = value(&section.factors[1], a, b, c);
        z[j] = value(&section.factors[2], a, b, c);
    }
}

/// A coordinate. Each product and each sum is a multiple of 2^-42 of at most 2^11, so that none is rounded. A sum is -0
/// only if both its terms are, and no factor is.
#[inline(always)]
fn value(factors: &[f64; 6], x: f64, y: f64, z: f64) -> f64 {
    let [one, by_x, by_y, by_z, by_xz, by_yz] = factors;
    (one + by_z * z) + (by_x + by_xz * z) * x + (by_y + by_yz * z) * y
}

/// The local corner at a position, in sides.
#[inline(always)]
fn corner_at(section: &Section, position: u64) -> [i32; 3] {
    let (low, high) = (position & EACH, position >> 1 & EACH);
    // Of a triangle's children, 1 has type 0 and 2 has type 1; 0 and 3 have their parent's. So types go down over the
    // digits that are free to take them, over 1, 2, 4, .. at a time.
    let own = low ^ high;
    let mut kind = high & own;
    let mut free = EACH ^ own;
    for shift in [3, 6, 12, 24, 48] {
        kind |= kind >> shift & free;
        free &= free >> shift;
    }
    // Child 3 steps in x and y; 1 and 2 step in x where the parent has type 0, else in y.
    let y = low & high | own & kind >> 3;
    let x = y ^ own;
    let (step_x, step_y, turn) = section.step;
    let turn = kind & turn;
    [
        (close(x) + step_x - turn) as i32,
        (close(y) + step_y + turn) as i32,
        (close(position >> 2 & EACH) + section.top) as i32,
    ]
}

/// A bit of each digit, closed up to a number of 21 bits: by three, by nine, all.
#[inline(always)]
fn close(bits: u64) -> u64 {
    let threes = (bits | bits >> 2 | bits >> 4) & 0o007_007_007_007_007_007_007;
    let nines = (threes | threes >> 6 | threes >> 12) & 0o777_000_000_777_000_000_777;
    (nines | nines >> 18 | nines >> 36) & ((1 << HIGHEST) - 1)
}
