//! Adaption: one mark a leaf, 0 keep, 1 refine, 2 merge. First all is checked and counted, then written.

use std::ops::Range;

use super::{list, HIGHEST};
use crate::{Answer, MOST_LEAVES};

const KEEP: u8 = 0;
const REFINE: u8 = 1;
const MERGE: u8 = 2;

/// Writes the adapted list at the front of the new columns. Gives how many leaves it has.
#[inline(never)]
#[allow(clippy::too_many_arguments)]
pub fn adapt(
    roots: u16,
    root: &[u16],
    level: &[u8],
    position: &[u64],
    marks: &[u8],
    new_root: &mut [u16],
    new_level: &mut [u8],
    new_position: &mut [u64],
) -> Answer<u64> {
    if list::outside(roots) {
        return Answer::refused(17);
    }
    let room = new_root.len();
    let even = marks.len() == root.len() && new_level.len() == room && new_position.len() == room;
    if !even || list::unequal(root, level, position) {
        return Answer::refused(11);
    }
    let mut refusal = list::uncovered(roots, root, level, position);
    if refusal == 0 {
        refusal = unmarkable(level, marks);
    }
    if refusal != 0 {
        return Answer::refused(refusal);
    }
    let old = Marked { root, level, position, marks };
    let result = old.result();
    if result > MOST_LEAVES {
        return Answer::refused(15);
    }
    if result > room {
        return Answer::refused((result as u64) << 8 | 14);
    }
    let (root, level, position) = (&mut new_root[..result], &mut new_level[..result], &mut new_position[..result]);
    old.write(New { root, level, position, at: 0 });
    Answer::accepted(result as u64)
}

/// The refusal of the first mark above 2, or else of the first leaf of the highest level marked 1, or 0. Each is looked
/// for without its place first, which goes many marks at a time.
#[inline(always)]
fn unmarkable(level: &[u8], marks: &[u8]) -> u64 {
    if marks.iter().fold(0, |most, &mark| mark.max(most)) > MERGE {
        return first(marks, |i| marks[i] > MERGE) << 8 | 13;
    }
    let deepest = |i: usize| (marks[i] == REFINE) & (level[i] == HIGHEST);
    if (0..marks.len()).fold(false, |any, i| any | deepest(i)) {
        return first(marks, deepest) << 8 | 7;
    }
    0
}

/// The place of the first fault of marks that have one.
#[cold]
fn first(marks: &[u8], fault: impl Fn(usize) -> bool) -> u64 {
    (0..marks.len()).find(|&i| fault(i)).expect("a fault") as u64
}

/// A valid list and its marks, which are good.
struct Marked<'a> {
    root: &'a [u16],
    level: &'a [u8],
    position: &'a [u64],
    marks: &'a [u8],
}

impl Marked<'_> {
    /// How many leaves the result has.
    #[inline(always)]
    fn result(&self) -> usize {
        // At most 128 in each sum, so that a byte holds it.
        let refined = |marks: &[u8]| marks.iter().map(|&mark| (mark == REFINE) as u8).sum::<u8>() as usize;
        let mut result = self.root.len() + 7 * self.marks.chunks(128).map(refined).sum::<usize>();
        let mut i = self.next_family(0);
        while i < self.root.len() {
            result -= 7;
            i = self.next_family(i + 8);
        }
        result
    }

    /// The first family from leaf `i` on that is to be merged, by its first leaf, or the number of leaves.
    #[inline(always)]
    fn next_family(&self, mut i: usize) -> usize {
        const ALL_MERGE: u64 = u64::from_le_bytes([MERGE; 8]);
        while let Some(eight) = self.marks.get(i..i + 8) {
            let eight = u64::from_le_bytes(eight.try_into().expect("eight marks"));
            let others = eight ^ ALL_MERGE;
            if eight & ALL_MERGE == 0 {
                // None of them is 2. A step of its own, for it need not wait for the marks.
                i += 8;
            } else if others != 0 {
                // Past the last of them that is not 2.
                i += 8 - others.leading_zeros() as usize / 8;
            } else if self.family(i) {
                return i;
            } else {
                i += 1;
            }
        }
        self.root.len()
    }

    /// In a valid list, eight leaves of one level are a family if the first is a first child.
    #[inline(always)]
    fn family(&self, i: usize) -> bool {
        let level = self.level[i];
        level > 0 && self.position[i].is_multiple_of(8) && self.level[i..i + 8] == [level; 8]
    }

    #[inline(always)]
    fn write(&self, mut new: New) {
        let mut i = 0;
        loop {
            let family = self.next_family(i);
            self.write_unmerged(i..family, &mut new);
            if family == self.root.len() {
                return;
            }
            new.push(self.root[family], self.level[family] - 1, self.position[family] / 8);
            i = family + 8;
        }
    }

    /// Writes leaves that are kept or refined.
    #[inline(always)]
    fn write_unmerged(&self, leaves: Range<usize>, new: &mut New) {
        let Range { start: mut i, end } = leaves;
        while i < end {
            let eights = self.marks[i..end].chunks_exact(8);
            let kept = 8 * eights.take_while(|&eight| eight == [KEEP; 8]).count();
            if kept > 0 {
                new.copy(self, i..i + kept);
                i += kept;
            } else {
                new.keep_or_refine(self.root[i], self.level[i], self.position[i], self.marks[i] == REFINE);
                i += 1;
            }
        }
    }
}

/// The new columns, cut to the result, and the first entry that is still to be written.
struct New<'a> {
    root: &'a mut [u16],
    level: &'a mut [u8],
    position: &'a mut [u64],
    at: usize,
}

impl New<'_> {
    #[inline(always)]
    fn push(&mut self, root: u16, level: u8, position: u64) {
        self.root[self.at] = root;
        self.level[self.at] = level;
        self.position[self.at] = position;
        self.at += 1;
    }

    /// Writes leaves as they are, all at once.
    #[inline(always)]
    fn copy(&mut self, old: &Marked, leaves: Range<usize>) {
        let entries = self.at..self.at + leaves.len();
        self.at = entries.end;
        self.root[entries.clone()].copy_from_slice(&old.root[leaves.clone()]);
        self.level[entries.clone()].copy_from_slice(&old.level[leaves.clone()]);
        self.position[entries].copy_from_slice(&old.position[leaves]);
    }

    /// Writes a leaf or its eight children. Eight entries in both cases, as long as there are so many: the leaves after
    /// a kept one overwrite seven of them, and a branch on a mark would cost more.
    #[inline(always)]
    fn keep_or_refine(&mut self, root: u16, level: u8, position: u64, refine: bool) {
        let eight = self.at..self.at + 8;
        if eight.end > self.root.len() {
            return self.push(root, level, position);
        }
        let first = if refine { 8 * position } else { position };
        self.root[eight.clone()].fill(root);
        self.level[eight.clone()].fill(level + refine as u8);
        for (child, entry) in self.position[eight].iter_mut().enumerate() {
            *entry = first + child as u64;
        }
        self.at += if refine { 8 } else { 1 };
    }
}
