//! Prisms: a triangle in x and y, a line in z. A number is 4 times the line's plus the triangle's.

use super::{fault_prism as fault, outside, sides, CHILD, EDGE, FACE, HIGHEST, UP};
use crate::{Answer, Prism};

/// The prism at a position that the level has.
#[inline(always)]
pub(super) fn placed(level: u8, position: u64) -> Prism {
    let mut e = Prism { x: 0, y: 0, z: 0, level, kind: 0 };
    let mut kind = 0;
    for i in (0..level).rev() {
        let number = position >> (3 * i);
        let row = CHILD[kind][(number & 3) as usize];
        e.x = e.x << 1 | (row.step & 1) as u32;
        e.y = e.y << 1 | (row.step >> 1) as u32;
        e.z = e.z << 1 | (number >> 2 & 1) as u32;
        kind = row.kind as usize;
    }
    e.kind = kind as u8;
    e.x <<= HIGHEST - level;
    e.y <<= HIGHEST - level;
    e.z <<= HIGHEST - level;
    e
}

/// The prism at a position of a level.
#[inline(never)]
pub extern "C" fn at(level: u8, position: u64) -> Answer<Prism> {
    if level > HIGHEST {
        return Answer::refused(1);
    }
    if position >> (3 * level) != 0 {
        return Answer::refused(5);
    }
    Answer::accepted(placed(level, position))
}

/// A child's number and its parent's type, from the prism's last step.
#[inline(always)]
fn step(e: Prism, kind: usize, shift: u8) -> super::Up {
    let up = UP[kind][((e.y >> shift & 1) << 1 | (e.x >> shift & 1)) as usize];
    super::Up { number: ((e.z >> shift & 1) << 2) as u8 | up.number, kind: up.kind }
}

/// The position of a valid prism. Coordinates are taken in sides of its level; the triangle's number and, as the child rows
/// have it, the parent's type are by the last bits of x and y and by the type.
#[inline(always)]
fn rank(e: Prism) -> u64 {
    let shift = HIGHEST - e.level;
    let (mut x, mut y, mut z) = (e.x >> shift, e.y >> shift, e.z >> shift);
    let mut position = 0;
    let mut kind = e.kind as u32;
    for i in 0..e.level {
        let agree = (x ^ y) & 1 == 0;
        let number = if agree { 3 * (x & 1) } else { 1 + kind };
        kind = if agree { kind } else { y & 1 };
        position |= (((z & 1) << 2 | number) as u64) << (3 * i);
        x >>= 1;
        y >>= 1;
        z >>= 1;
    }
    position
}

/// The position among all prisms of the level.
#[inline(never)]
pub extern "C" fn position(e: Prism) -> Answer<u64> {
    let refusal = fault(e);
    if refusal != 0 {
        return Answer::refused(refusal);
    }
    Answer::accepted(rank(e))
}

/// The parent of a valid prism that has one.
#[inline(always)]
fn above(e: Prism) -> Prism {
    let side = EDGE >> e.level;
    let kind = step(e, e.kind as usize, HIGHEST - e.level).kind;
    Prism { x: e.x & !side, y: e.y & !side, z: e.z & !side, level: e.level - 1, kind }
}

/// A child of a valid prism that has children.
#[inline(always)]
fn below(e: Prism, number: u8) -> Prism {
    let level = e.level + 1;
    let shift = HIGHEST - level;
    let row = CHILD[e.kind as usize][(number & 3) as usize];
    Prism {
        x: e.x | ((row.step & 1) as u32) << shift,
        y: e.y | ((row.step >> 1) as u32) << shift,
        z: e.z | (number as u32 >> 2) << shift,
        level,
        kind: row.kind,
    }
}

/// The parent.
#[inline(never)]
pub extern "C" fn parent(e: Prism) -> Answer<Prism> {
    let refusal = fault(e);
    if refusal != 0 {
        return Answer::refused(refusal);
    }
    if e.level == 0 {
        return Answer::refused(6);
    }
    Answer::accepted(above(e))
}

/// The child with a number.
#[inline(never)]
pub extern "C" fn child(e: Prism, number: u8) -> Answer<Prism> {
    let refusal = fault(e);
    if refusal != 0 {
        return Answer::refused(refusal);
    }
    if e.level == HIGHEST {
        return Answer::refused(7);
    }
    if number > 7 {
        return Answer::refused(8);
    }
    Answer::accepted(below(e, number))
}

/// The next prism of the same level: up while it is a last child, one on, down the first children.
#[inline(never)]
pub extern "C" fn successor(e: Prism) -> Answer<Prism> {
    let refusal = fault(e);
    if refusal != 0 {
        return Answer::refused(refusal);
    }
    let mut a = e;
    while a.level > 0 {
        let number = step(a, a.kind as usize, HIGHEST - a.level).number;
        a = above(a);
        if number < 7 {
            // A first child has its parent's anchor and type, and so have all first descendants.
            return Answer::accepted(Prism { level: e.level, ..below(a, number + 1) });
        }
    }
    Answer::refused(9)
}

/// The first descendant at a level.
#[inline(never)]
pub extern "C" fn first_descendant(e: Prism, level: u8) -> Answer<Prism> {
    let refusal = fault(e);
    if refusal != 0 {
        return Answer::refused(refusal);
    }
    if level > HIGHEST {
        return Answer::refused(1);
    }
    if level < e.level {
        return Answer::refused(6);
    }
    Answer::accepted(Prism { level, ..e })
}

/// The last descendant at a level: a last child lies in its parent's far corner and has its type.
#[inline(never)]
pub extern "C" fn last_descendant(e: Prism, level: u8) -> Answer<Prism> {
    let refusal = fault(e);
    if refusal != 0 {
        return Answer::refused(refusal);
    }
    if level > HIGHEST {
        return Answer::refused(1);
    }
    if level < e.level {
        return Answer::refused(6);
    }
    let far = (EDGE >> e.level) - (EDGE >> level);
    Answer::accepted(Prism { x: e.x + far, y: e.y + far, z: e.z + far, level, kind: e.kind })
}

/// The prism across a face.
#[inline(never)]
pub extern "C" fn neighbour(e: Prism, face: u8) -> Answer<Prism> {
    let refusal = fault(e);
    if refusal != 0 {
        return Answer::refused(refusal);
    }
    if face > 4 {
        return Answer::refused(8);
    }
    let shift = HIGHEST - e.level;
    let row = FACE[e.kind as usize][face as usize];
    // Below 0 the sums wrap and are past the edge too.
    let x = e.x.wrapping_add(sides(row.x, shift));
    let y = e.y.wrapping_add(sides(row.y, shift));
    let z = e.z.wrapping_add(sides(row.z, shift));
    if (x | y | z) >= EDGE || outside(x, y, row.kind) {
        return Answer::refused(10);
    }
    Answer::accepted(Prism { x, y, z, level: e.level, kind: row.kind })
}

/// The order of two prisms: -1, 0 or 1.
#[inline(never)]
pub extern "C" fn compare(e: Prism, f: Prism) -> Answer<i32> {
    let refusal = fault(e);
    if refusal != 0 {
        return Answer::refused(refusal);
    }
    let refusal = fault(f);
    if refusal != 0 {
        return Answer::refused(1 << 8 | refusal);
    }
    let first = rank(e) << (3 * (HIGHEST - e.level));
    let second = rank(f) << (3 * (HIGHEST - f.level));
    Answer::accepted((first, e.level).cmp(&(second, f.level)) as i32)
}

/// 1 if the prisms in the columns are the children of one parent, in order, else 0.
#[inline(never)]
pub fn family(x: &[u32], y: &[u32], z: &[u32], level: &[u8], kind: &[u8]) -> Answer<u64> {
    let count = level.len();
    if x.len() != count || y.len() != count || z.len() != count || kind.len() != count {
        return Answer::refused(11);
    }
    let get = |i: usize| Prism { x: x[i], y: y[i], z: z[i], level: level[i], kind: kind[i] };
    for i in 0..count {
        let refusal = fault(get(i));
        if refusal != 0 {
            return Answer::refused((i as u64) << 8 | refusal);
        }
    }
    if count != 8 || level[0] == 0 {
        return Answer::accepted(0);
    }
    let parent = above(get(0));
    for i in 0..8 {
        if get(i as usize) != below(parent, i) {
            return Answer::accepted(0);
        }
    }
    Answer::accepted(1)
}
