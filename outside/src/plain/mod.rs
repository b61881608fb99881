//! The calls once more, as a C programmer would write them: constant tables, but for a position the rule of document 02; a
//! loop over the levels, one over a list, one over the bytes of an order line; and for a section a second way, without a loop
//! over the levels.
//!
//! Written from the rules alone and not from the proved source, so that the tests hear a second opinion; but a position has
//! the proved code's form of the rule, for its speed, and the second opinion on it is `CHILD`, `UP` and tests/pencil.rs. The
//! calls take and return what the C interface does, by the same convention, so that the benchmark compares like with like.

use crate::{Line, Prism, Triangle};

pub mod adaption;
pub mod balance;
pub mod file;
pub mod line;
pub mod list;
pub mod orders;
pub mod point;
pub mod prism;
pub mod section;
pub mod shares;
mod text;
pub mod triangle;

const HIGHEST: u8 = crate::HIGHEST_LEVEL;
const EDGE: u32 = 1 << HIGHEST;

/// A child of a triangle: its step from the parent's anchor, in halves of the parent's side, as 2 y + x; its type.
/// Two bytes to a row make the loops over the levels a fifth faster than three.
#[derive(Clone, Copy)]
struct Child {
    step: u8,
    kind: u8,
}

const fn child(x: u8, y: u8, kind: u8) -> Child {
    Child { step: y << 1 | x, kind }
}

/// By the parent's type and the child's number along the curve.
static CHILD: [[Child; 4]; 2] = [
    [child(0, 0, 0), child(1, 0, 0), child(1, 0, 1), child(1, 1, 0)],
    [child(0, 0, 1), child(0, 1, 0), child(0, 1, 1), child(1, 1, 1)],
];

/// The way back: a child's number and its parent's type.
#[derive(Clone, Copy)]
struct Up {
    number: u8,
    kind: u8,
}

const fn up(number: u8, kind: u8) -> Up {
    Up { number, kind }
}

/// By the child's type and its step. All eight cases occur, each once.
static UP: [[Up; 4]; 2] = [[up(0, 0), up(1, 0), up(1, 1), up(3, 0)], [up(0, 1), up(2, 0), up(2, 1), up(3, 1)]];

/// A step across a face, in sides, and the neighbour's type.
#[derive(Clone, Copy)]
struct Face {
    x: i8,
    y: i8,
    z: i8,
    kind: u8,
}

const fn face(x: i8, y: i8, z: i8, kind: u8) -> Face {
    Face { x, y, z, kind }
}

/// By type and face. A triangle has the first three.
static FACE: [[Face; 5]; 2] = [
    [face(1, 0, 0, 1), face(0, 0, 0, 1), face(0, -1, 0, 1), face(0, 0, -1, 0), face(0, 0, 1, 0)],
    [face(0, 1, 0, 0), face(0, 0, 0, 0), face(-1, 0, 0, 0), face(0, 0, -1, 1), face(0, 0, 1, 1)],
];

/// The step `unit` in sides of 2^shift, as a number to add by wrapping.
#[inline(always)]
fn sides(unit: i8, shift: u8) -> u32 {
    ((unit as i32) << shift) as u32
}

/// The bits of an anchor that must be 0: those below the side, and those from the edge on.
#[inline(always)]
fn stray(level: u8) -> u32 {
    let side = EDGE >> level;
    !(EDGE - 1) | (side - 1)
}

/// The first refusal of a line, or 0.
#[inline(always)]
fn fault_line(e: Line) -> u64 {
    if e.level > HIGHEST {
        return 1;
    }
    if e.x & stray(e.level) != 0 {
        return 2;
    }
    0
}

/// The first refusal of a triangle, or 0.
#[inline(always)]
fn fault_triangle(e: Triangle) -> u64 {
    if e.level > HIGHEST {
        return 1;
    }
    if (e.x | e.y) & stray(e.level) != 0 {
        return 2;
    }
    if e.kind > 1 {
        return 3;
    }
    if outside(e.x, e.y, e.kind) {
        return 4;
    }
    0
}

/// The first refusal of a prism, or 0. Its z is free within the edge.
#[inline(always)]
fn fault_prism(e: Prism) -> u64 {
    if e.level > HIGHEST {
        return 1;
    }
    if (e.x | e.y | e.z) & stray(e.level) != 0 {
        return 2;
    }
    if e.kind > 1 {
        return 3;
    }
    if outside(e.x, e.y, e.kind) {
        return 4;
    }
    0
}

/// Inside means y <= x for type 0 and y < x for type 1.
#[inline(always)]
fn outside(x: u32, y: u32, kind: u8) -> bool {
    x < y + kind as u32
}
