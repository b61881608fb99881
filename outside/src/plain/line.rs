//! Lines. A position is the anchor in sides, so no call needs a loop.

use super::{fault_line as fault, sides, EDGE, HIGHEST};
use crate::{Answer, Line};

/// The line at a position of a level.
#[inline(never)]
pub extern "C" fn at(level: u8, position: u64) -> Answer<Line> {
    if level > HIGHEST {
        return Answer::refused(1);
    }
    if position >> level != 0 {
        return Answer::refused(5);
    }
    Answer::accepted(Line { x: (position as u32) << (HIGHEST - level), level })
}

/// The position among all lines of the level.
#[inline(never)]
pub extern "C" fn position(e: Line) -> Answer<u64> {
    let refusal = fault(e);
    if refusal != 0 {
        return Answer::refused(refusal);
    }
    Answer::accepted((e.x >> (HIGHEST - e.level)) as u64)
}

/// The parent.
#[inline(never)]
pub extern "C" fn parent(e: Line) -> Answer<Line> {
    let refusal = fault(e);
    if refusal != 0 {
        return Answer::refused(refusal);
    }
    if e.level == 0 {
        return Answer::refused(6);
    }
    Answer::accepted(Line { x: e.x & !(EDGE >> e.level), level: e.level - 1 })
}

/// The child with a number.
#[inline(never)]
pub extern "C" fn child(e: Line, number: u8) -> Answer<Line> {
    let refusal = fault(e);
    if refusal != 0 {
        return Answer::refused(refusal);
    }
    if e.level == HIGHEST {
        return Answer::refused(7);
    }
    if number > 1 {
        return Answer::refused(8);
    }
    let level = e.level + 1;
    Answer::accepted(Line { x: e.x | (number as u32) << (HIGHEST - level), level })
}

/// The next line of the same level.
#[inline(never)]
pub extern "C" fn successor(e: Line) -> Answer<Line> {
    let refusal = fault(e);
    if refusal != 0 {
        return Answer::refused(refusal);
    }
    let x = e.x + (EDGE >> e.level);
    if x == EDGE {
        return Answer::refused(9);
    }
    Answer::accepted(Line { x, ..e })
}

/// The first descendant at a level.
#[inline(never)]
pub extern "C" fn first_descendant(e: Line, level: u8) -> Answer<Line> {
    let refusal = fault(e);
    if refusal != 0 {
        return Answer::refused(refusal);
    }
    if level > HIGHEST {
        return Answer::refused(1);
    }
    if level < e.level {
        return Answer::refused(6);
    }
    Answer::accepted(Line { level, ..e })
}

/// The last descendant at a level.
#[inline(never)]
pub extern "C" fn last_descendant(e: Line, level: u8) -> Answer<Line> {
    let refusal = fault(e);
    if refusal != 0 {
        return Answer::refused(refusal);
    }
    if level > HIGHEST {
        return Answer::refused(1);
    }
    if level < e.level {
        return Answer::refused(6);
    }
    Answer::accepted(Line { x: e.x + (EDGE >> e.level) - (EDGE >> level), level })
}

/// The line across a face.
#[inline(never)]
pub extern "C" fn neighbour(e: Line, face: u8) -> Answer<Line> {
    let refusal = fault(e);
    if refusal != 0 {
        return Answer::refused(refusal);
    }
    if face > 1 {
        return Answer::refused(8);
    }
    // Below 0 the sum wraps and is past the edge too.
    let x = e.x.wrapping_add(sides(if face == 0 { -1 } else { 1 }, HIGHEST - e.level));
    if x >= EDGE {
        return Answer::refused(10);
    }
    Answer::accepted(Line { x, ..e })
}

/// The order of two lines: -1, 0 or 1.
#[inline(never)]
pub extern "C" fn compare(e: Line, f: Line) -> Answer<i32> {
    let refusal = fault(e);
    if refusal != 0 {
        return Answer::refused(refusal);
    }
    let refusal = fault(f);
    if refusal != 0 {
        return Answer::refused(1 << 8 | refusal);
    }
    // At level 21 the anchor is the position.
    Answer::accepted((e.x, e.level).cmp(&(f.x, f.level)) as i32)
}

/// 1 if the lines in the columns are the children of one parent, in order, else 0.
#[inline(never)]
pub fn family(x: &[u32], level: &[u8]) -> Answer<u64> {
    if x.len() != level.len() {
        return Answer::refused(11);
    }
    for i in 0..level.len() {
        let refusal = fault(Line { x: x[i], level: level[i] });
        if refusal != 0 {
            return Answer::refused((i as u64) << 8 | refusal);
        }
    }
    if level.len() != 2 || level[0] == 0 || level[1] != level[0] {
        return Answer::accepted(0);
    }
    let side = EDGE >> level[0];
    Answer::accepted((x[0] & side == 0 && x[1] == x[0] | side) as u64)
}
