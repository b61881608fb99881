//! Shares: the leaves dealt out along the curve by their weights.

use super::list;

/// Writes the boundaries of the shares at the front of the column. Gives 0, or place * 256 + number.
#[inline(never)]
pub fn shares(
    roots: u16,
    shares: u16,
    root: &[u16],
    level: &[u8],
    position: &[u64],
    weights: &[u16],
    boundaries: &mut [u32],
) -> u64 {
    if list::outside(roots) || list::outside(shares) {
        return 17;
    }
    if weights.len() != root.len() || list::unequal(root, level, position) {
        return 11;
    }
    let refusal = list::uncovered(roots, root, level, position);
    if refusal != 0 {
        return refusal;
    }
    if weights.contains(&0) {
        let leaf = weights.iter().position(|&weight| weight == 0).expect("a weight of 0");
        return (leaf as u64) << 8 | 16;
    }
    let needed = shares as usize + 1;
    if boundaries.len() < needed {
        return (needed as u64) << 8 | 14;
    }
    deal(shares as u64, weights, &mut boundaries[..needed]);
    0
}

/// The sum of at most 65,536 weights, in half a word so that more of them are added at a time.
#[inline(always)]
fn sum(weights: &[u16]) -> u64 {
    weights.iter().map(|&weight| weight as u32).sum::<u32>() as u64
}

/// One walk over the leaves: a boundary lies before the first leaf with which the sum passes its limit.
#[inline(always)]
fn deal(shares: u64, weights: &[u16], boundaries: &mut [u32]) {
    let whole: u64 = weights.chunks(4_096).map(sum).sum();
    // The limit of boundary s: P * S <= s * W is S <= s * W / P, rounded down.
    let (mut s, mut limit) = (0, 0);
    let mut passed = 0;
    for (block, weights) in weights.chunks(16).enumerate() {
        let all = passed + sum(weights);
        if all <= limit {
            passed = all;
            continue;
        }
        for (i, &weight) in weights.iter().enumerate() {
            passed += weight as u64;
            while passed > limit {
                boundaries[s] = (16 * block + i) as u32;
                s += 1;
                limit = s as u64 * whole / shares;
            }
        }
    }
    // No sum passes the whole weight.
    boundaries[s] = weights.len() as u32;
}
