//! Balance: leaves that follow one another in one root differ by at most one level.

use super::list;
use crate::Answer;

/// 1 if the list is balanced, else 0.
#[inline(never)]
pub fn balanced(roots: u16, root: &[u16], level: &[u8], position: &[u64]) -> Answer<u64> {
    let refusal = list::check(roots, root, level, position);
    if refusal != 0 {
        return Answer::refused(refusal);
    }
    let pairs = root.iter().zip(&root[1..]).zip(level.iter().zip(&level[1..]));
    // All pairs, for without a way out in between they go many at a time.
    let steep = pairs.fold(false, |any, ((r, s), (l, m))| any | ((r == s) & (l.abs_diff(*m) > 1)));
    Answer::accepted(!steep as u64)
}
