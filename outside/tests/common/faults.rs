//! Faults put into valid lists, each with the refusal that must come out.

use gwerniloc::{Refusal, HIGHEST_LEVEL, MOST_LEAVES, MOST_ROOTS};

use super::leaves::{positions, Leaves};
use super::random::Random;

/// The faults that `spoil` knows.
pub const FAULTS: u64 = 16;

/// Puts one fault into a valid list, and says what must come out. `None` where the list has no room for the fault.
pub fn spoil(r: &mut Random, fault: u64, roots: &mut u16, leaves: &mut Leaves) -> Option<Refusal> {
    let n = leaves.len();
    // The ends now and then, for their cases are the easiest to get wrong.
    let i = match r.below(8) {
        0 => 0,
        1 => n - 1,
        _ => r.below(n as u64) as usize,
    };
    let (number, place) = match fault {
        0..=3 => spoil_order(r, fault, leaves, i)?,
        4..=6 => spoil_length(r, fault, *roots, leaves),
        7..=11 => spoil_leaf(r, fault, *roots, leaves, i)?,
        12..=13 => spoil_relation(r, fault, leaves, i)?,
        _ => spoil_roots(r, fault, roots, leaves),
    };
    if leaves.len() > MOST_LEAVES {
        return Some(Refusal { number: 11, place: 0 });
    }
    Some(Refusal { number, place: place as u64 })
}

/// A leaf too many, too few or out of order, the one at `i`.
fn spoil_order(r: &mut Random, fault: u64, leaves: &mut Leaves, i: usize) -> Option<(u8, usize)> {
    let n = leaves.len();
    Some(match fault {
        // Cut.
        0 if n > 1 => {
            let length = 1 + r.below(n as u64 - 1) as usize;
            leaves.resize([length; 3]);
            (12, length)
        }
        // Doubled.
        1 => {
            leaves.insert(i, leaves.get(i));
            (12, i + 1)
        }
        // Dropped.
        2 if n > 1 => {
            leaves.remove(i);
            (12, i)
        }
        // Swapped with its neighbour.
        3 if i + 1 < n => {
            leaves.swap(i, i + 1);
            (12, i)
        }
        _ => return None,
    })
}

/// The columns' lengths.
fn spoil_length(r: &mut Random, fault: u64, roots: u16, leaves: &mut Leaves) -> (u8, usize) {
    let n = leaves.len();
    match fault {
        // A leaf after the last.
        4 => {
            let (extra, number) = r.pick(&[((roots, 0, 0), 12), ((0, 0, 0), 12), ((0, 22, 0), 1), ((roots, 2, 64), 5)]);
            leaves.push(extra);
            (number, n)
        }
        // Columns of unequal length.
        5 => {
            spoil_lengths(r, leaves);
            (11, 0)
        }
        // No leaf.
        _ => {
            leaves.resize([0; 3]);
            (11, 0)
        }
    }
}

/// The leaf at `i`: its root, level or position.
fn spoil_leaf(r: &mut Random, fault: u64, roots: u16, leaves: &mut Leaves, i: usize) -> Option<(u8, usize)> {
    let (root, level, position) = leaves.get(i);
    let limit = positions(level);
    Some(match fault {
        // Moved to another root.
        7 => {
            let other = r.pick(&[root.wrapping_add(1), root.wrapping_sub(1), roots, u16::MAX, root ^ 256]);
            leaves.root[i] = other;
            (12, i)
        }
        // Another level: it still starts there if it starts the root.
        8 => {
            let other = (level + 1 + r.below(HIGHEST_LEVEL as u64) as u8) % (HIGHEST_LEVEL + 1);
            leaves.level[i] = other;
            (if position < positions(other) { 12 } else { 5 }, if position == 0 { i + 1 } else { i })
        }
        // A level too high.
        9 => {
            leaves.level[i] = r.pick(&[22, 22, 23, 43, 64, 85, 128, 255, 255]);
            (1, i)
        }
        // Another position of the level.
        10 if limit > 1 => {
            let any = 1 + r.below(limit - 1);
            let step = r.pick(&[1, limit - 1, limit / 2, limit / 8, any]);
            leaves.position[i] = (position + step) % limit;
            (12, i)
        }
        // A position too high: also one that the shift to smallest cells would make right again.
        11 => {
            leaves.position[i] = r.pick(&[limit, limit, limit + position, 1 << 63 | position, u64::MAX, u64::MAX]);
            (5, i)
        }
        _ => return None,
    })
}

/// A child or the parent in the place of the leaf at `i`.
fn spoil_relation(r: &mut Random, fault: u64, leaves: &mut Leaves, i: usize) -> Option<(u8, usize)> {
    let (_, level, position) = leaves.get(i);
    Some(match fault {
        12 if level < HIGHEST_LEVEL => {
            let child = r.below(8);
            (leaves.level[i], leaves.position[i]) = (level + 1, 8 * position + child);
            (12, if child == 0 { i + 1 } else { i })
        }
        13 if level > 0 => {
            (leaves.level[i], leaves.position[i]) = (level - 1, position / 8);
            (12, if position % 8 == 0 { i + 1 } else { i })
        }
        _ => return None,
    })
}

/// Those that are chosen of the refusals 12, 5 and 1, at different leaves. Gives the first in the list.
pub fn spoil_leaves(r: &mut Random, chosen: [bool; 3], roots: u16, leaves: &mut Leaves) -> Option<(u8, usize)> {
    let mut first = None;
    // From the last leaf to the first.
    let mut end = leaves.len() as u64;
    let mut faults = [(chosen[0], 7), (chosen[1], 11), (chosen[2], 9)];
    faults.rotate_left(r.below(3) as usize);
    for (_, fault) in faults.into_iter().filter(|(chosen, _)| *chosen) {
        if end > 0 {
            let i = r.below(end) as usize;
            first = spoil_leaf(r, fault, roots, leaves, i);
            end = i as u64;
        }
    }
    first
}

/// Makes one column longer or shorter than the others.
pub fn spoil_lengths(r: &mut Random, leaves: &mut Leaves) {
    let n = leaves.len();
    let mut lengths = [n; 3];
    lengths[r.below(3) as usize] = r.pick(&[0, n - 1, n + 1, n / 2, 2 * n]);
    leaves.resize(lengths);
}

/// The number of roots.
fn spoil_roots(r: &mut Random, fault: u64, roots: &mut u16, leaves: &Leaves) -> (u8, usize) {
    let n = leaves.len();
    match fault {
        // Roots wrong by one.
        14 => {
            let (more, all) = (r.below(2) == 1, *roots);
            *roots = if more { all + 1 } else { all - 1 };
            match *roots {
                0 => (17, 0),
                _ if more => (12, n),
                less => (12, leaves.root.iter().position(|&root| root == less).expect("a leaf of the last root")),
            }
        }
        // Roots at their limits.
        _ => {
            *roots = r.pick(&[0, MOST_ROOTS, MOST_ROOTS + 1, u16::MAX]);
            if *roots == MOST_ROOTS {
                (12, n)
            } else {
                (17, 0)
            }
        }
    }
}
