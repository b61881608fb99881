//! Leaf lists. Starts and ends are counted in smallest cells, of which a root has 8^21 = 2^63.

use super::HIGHEST;
use crate::{Answer, MOST_LEAVES, MOST_ROOTS};

const ROOT_CELLS: u64 = 1 << (3 * HIGHEST);

/// By level, the smallest cells of a leaf. Looking them up is faster than shifting by a number read from a column.
static CELLS: [u64; HIGHEST as usize + 1] = {
    let mut cells = [ROOT_CELLS; HIGHEST as usize + 1];
    let mut level = 1;
    while level < cells.len() {
        cells[level] = cells[level - 1] / 8;
        level += 1;
    }
    cells
};

/// 0 for a valid list of the roots, else place * 256 + number.
#[inline(never)]
pub fn check(roots: u16, root: &[u16], level: &[u8], position: &[u64]) -> u64 {
    if outside(roots) {
        return 17;
    }
    if unequal(root, level, position) {
        return 11;
    }
    uncovered(roots, root, level, position)
}

/// Whether a number of roots, or of shares, is refused.
#[inline(always)]
pub(super) fn outside(roots: u16) -> bool {
    roots == 0 || roots > MOST_ROOTS
}

/// Whether the columns of an input list are refused for their lengths.
#[inline(always)]
pub(super) fn unequal(root: &[u16], level: &[u8], position: &[u64]) -> bool {
    let count = root.len();
    level.len() != count || position.len() != count || count == 0 || count > MOST_LEAVES
}

/// The refusal of the first leaf that doesn't start where the one before it ended, or 0. Root by root, so that the way
/// from leaf to leaf is a single sum.
#[inline(never)]
pub(super) fn uncovered(roots: u16, root: &[u16], level: &[u8], position: &[u64]) -> u64 {
    let count = root.len();
    let (level, position) = (&level[..count], &position[..count]);
    let mut i = 0;
    for due_root in 0..roots {
        let mut due_cell = 0;
        while due_cell < ROOT_CELLS {
            if i >= count {
                return (count as u64) << 8 | 12;
            }
            let Some(&cells) = CELLS.get(level[i] as usize) else {
                return misplaced(i, level[i], position[i]);
            };
            // Of the full width, for a position too high must not come round to the right start.
            let start = position[i] as u128 * cells as u128;
            if start != due_cell as u128 || root[i] != due_root {
                return misplaced(i, level[i], position[i]);
            }
            due_cell += cells;
            i += 1;
        }
    }
    if i < count {
        return misplaced(i, level[i], position[i]);
    }
    0
}

/// The refusal of a leaf that doesn't start where it should, by its first reason.
#[cold]
#[inline(never)]
fn misplaced(i: usize, level: u8, position: u64) -> u64 {
    let number = if level > HIGHEST {
        1
    } else if position >> (3 * level) != 0 {
        5
    } else {
        12
    };
    (i as u64) << 8 | number
}

/// Writes the leaves of the roots, all at one level, at the front of the columns. Gives how many.
#[inline(never)]
pub fn uniform(roots: u16, level: u8, root: &mut [u16], leaf_level: &mut [u8], position: &mut [u64]) -> Answer<u64> {
    if outside(roots) {
        return Answer::refused(17);
    }
    let room = root.len();
    if leaf_level.len() != room || position.len() != room {
        return Answer::refused(11);
    }
    if level > HIGHEST {
        return Answer::refused(1);
    }
    // By dividing, for the leaves of many roots at a high level are more than 2^64.
    let each = 1u64 << (3 * level);
    if each > MOST_LEAVES as u64 / roots as u64 {
        return Answer::refused(15);
    }
    let count = roots as usize * each as usize;
    if room < count {
        return Answer::refused((count as u64) << 8 | 14);
    }
    // Column by column: a third faster than leaf by leaf.
    leaf_level[..count].fill(level);
    for (r, leaves) in root[..count].chunks_exact_mut(each as usize).enumerate() {
        leaves.fill(r as u16);
    }
    for leaves in position[..count].chunks_exact_mut(each as usize) {
        leaves.iter_mut().zip(0..each).for_each(|(leaf, p)| *leaf = p);
    }
    Answer::accepted(count as u64)
}
