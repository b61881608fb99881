//! Triangles. The type of each ancestor decides a child's number, so positions go level by level.

use super::{fault_triangle as fault, outside, sides, CHILD, EDGE, FACE, HIGHEST, UP};
use crate::{Answer, Triangle};

/// The triangle at a position of a level.
#[inline(never)]
pub extern "C" fn at(level: u8, position: u64) -> Answer<Triangle> {
    if level > HIGHEST {
        return Answer::refused(1);
    }
    if position >> (2 * level) != 0 {
        return Answer::refused(5);
    }
    let mut e = Triangle { x: 0, y: 0, level, kind: 0 };
    let mut kind = 0;
    for i in (0..level).rev() {
        let row = CHILD[kind][(position >> (2 * i) & 3) as usize];
        e.x = e.x << 1 | (row.step & 1) as u32;
        e.y = e.y << 1 | (row.step >> 1) as u32;
        kind = row.kind as usize;
    }
    e.kind = kind as u8;
    e.x <<= HIGHEST - level;
    e.y <<= HIGHEST - level;
    Answer::accepted(e)
}

/// A child's number and its parent's type, from the triangle's last step.
#[inline(always)]
fn step(x: u32, y: u32, kind: usize, shift: u8) -> super::Up {
    UP[kind][((y >> shift & 1) << 1 | (x >> shift & 1)) as usize]
}

/// The position of a valid triangle. Coordinates are taken in sides of its level; the number and, as the child rows have it,
/// the parent's type are by the last bits of x and y and by the type.
#[inline(always)]
fn rank(e: Triangle) -> u64 {
    let shift = HIGHEST - e.level;
    let (mut x, mut y) = (e.x >> shift, e.y >> shift);
    let mut position = 0;
    let mut kind = e.kind as u32;
    for i in 0..e.level {
        let agree = (x ^ y) & 1 == 0;
        let number = if agree { 3 * (x & 1) } else { 1 + kind };
        kind = if agree { kind } else { y & 1 };
        position |= (number as u64) << (2 * i);
        x >>= 1;
        y >>= 1;
    }
    position
}

/// The position among all triangles of the level.
#[inline(never)]
pub extern "C" fn position(e: Triangle) -> Answer<u64> {
    let refusal = fault(e);
    if refusal != 0 {
        return Answer::refused(refusal);
    }
    Answer::accepted(rank(e))
}

/// The parent of a valid triangle that has one.
#[inline(always)]
fn above(e: Triangle) -> Triangle {
    let side = EDGE >> e.level;
    let kind = step(e.x, e.y, e.kind as usize, HIGHEST - e.level).kind;
    Triangle { x: e.x & !side, y: e.y & !side, level: e.level - 1, kind }
}

/// A child of a valid triangle that has children.
#[inline(always)]
fn below(e: Triangle, number: u8) -> Triangle {
    let level = e.level + 1;
    let shift = HIGHEST - level;
    let row = CHILD[e.kind as usize][number as usize];
    Triangle {
        x: e.x | ((row.step & 1) as u32) << shift,
        y: e.y | ((row.step >> 1) as u32) << shift,
        level,
        kind: row.kind,
    }
}

/// The parent.
#[inline(never)]
pub extern "C" fn parent(e: Triangle) -> Answer<Triangle> {
    let refusal = fault(e);
    if refusal != 0 {
        return Answer::refused(refusal);
    }
    if e.level == 0 {
        return Answer::refused(6);
    }
    Answer::accepted(above(e))
}

/// The child with a number.
#[inline(never)]
pub extern "C" fn child(e: Triangle, number: u8) -> Answer<Triangle> {
    let refusal = fault(e);
    if refusal != 0 {
        return Answer::refused(refusal);
    }
    if e.level == HIGHEST {
        return Answer::refused(7);
    }
    if number > 3 {
        return Answer::refused(8);
    }
    Answer::accepted(below(e, number))
}

/// The next triangle of the same level: up while it is a last child, one on, down the first children.
#[inline(never)]
pub extern "C" fn successor(e: Triangle) -> Answer<Triangle> {
    let refusal = fault(e);
    if refusal != 0 {
        return Answer::refused(refusal);
    }
    let mut a = e;
    while a.level > 0 {
        let number = step(a.x, a.y, a.kind as usize, HIGHEST - a.level).number;
        a = above(a);
        if number < 3 {
            // A first child has its parent's anchor and type, and so have all first descendants.
            return Answer::accepted(Triangle { level: e.level, ..below(a, number + 1) });
        }
    }
    Answer::refused(9)
}

/// The first descendant at a level.
#[inline(never)]
pub extern "C" fn first_descendant(e: Triangle, level: u8) -> Answer<Triangle> {
    let refusal = fault(e);
    if refusal != 0 {
        return Answer::refused(refusal);
    }
    if level > HIGHEST {
        return Answer::refused(1);
    }
    if level < e.level {
        return Answer::refused(6);
    }
    Answer::accepted(Triangle { level, ..e })
}

/// The last descendant at a level: a last child lies in its parent's far corner and has its type.
#[inline(never)]
pub extern "C" fn last_descendant(e: Triangle, level: u8) -> Answer<Triangle> {
    let refusal = fault(e);
    if refusal != 0 {
        return Answer::refused(refusal);
    }
    if level > HIGHEST {
        return Answer::refused(1);
    }
    if level < e.level {
        return Answer::refused(6);
    }
    let far = (EDGE >> e.level) - (EDGE >> level);
    Answer::accepted(Triangle { x: e.x + far, y: e.y + far, level, kind: e.kind })
}

/// The triangle across a face.
#[inline(never)]
pub extern "C" fn neighbour(e: Triangle, face: u8) -> Answer<Triangle> {
    let refusal = fault(e);
    if refusal != 0 {
        return Answer::refused(refusal);
    }
    if face > 2 {
        return Answer::refused(8);
    }
    let shift = HIGHEST - e.level;
    let row = FACE[e.kind as usize][face as usize];
    // Below 0 the sums wrap and are past the edge too.
    let x = e.x.wrapping_add(sides(row.x, shift));
    let y = e.y.wrapping_add(sides(row.y, shift));
    if (x | y) >= EDGE || outside(x, y, row.kind) {
        return Answer::refused(10);
    }
    Answer::accepted(Triangle { x, y, level: e.level, kind: row.kind })
}

/// The order of two triangles: -1, 0 or 1.
#[inline(never)]
pub extern "C" fn compare(e: Triangle, f: Triangle) -> Answer<i32> {
    let refusal = fault(e);
    if refusal != 0 {
        return Answer::refused(refusal);
    }
    let refusal = fault(f);
    if refusal != 0 {
        return Answer::refused(1 << 8 | refusal);
    }
    let first = rank(e) << (2 * (HIGHEST - e.level));
    let second = rank(f) << (2 * (HIGHEST - f.level));
    Answer::accepted((first, e.level).cmp(&(second, f.level)) as i32)
}

/// 1 if the triangles in the columns are the children of one parent, in order, else 0.
#[inline(never)]
pub fn family(x: &[u32], y: &[u32], level: &[u8], kind: &[u8]) -> Answer<u64> {
    let count = level.len();
    if x.len() != count || y.len() != count || kind.len() != count {
        return Answer::refused(11);
    }
    let get = |i: usize| Triangle { x: x[i], y: y[i], level: level[i], kind: kind[i] };
    for i in 0..count {
        let refusal = fault(get(i));
        if refusal != 0 {
            return Answer::refused((i as u64) << 8 | refusal);
        }
    }
    if count != 4 || level[0] == 0 {
        return Answer::accepted(0);
    }
    let parent = above(get(0));
    for i in 0..4 {
        if get(i as usize) != below(parent, i) {
            return Answer::accepted(0);
        }
    }
    Answer::accepted(1)
}
