//! The list calls sentence by sentence from document 01, without a thought for time. The plain code is fast and is
//! compared with this, as the proved library is.

use gwerniloc::{Refusal, HIGHEST_LEVEL, MOST_LEAVES, MOST_ROOTS};

use super::calls::{Adaption, Sharing};
use super::leaves::{self, children, positions, Leaf, Leaves};

/// The refusal with a number, at a place.
pub fn refuse<T>(number: u8, place: usize) -> Result<T, Refusal> {
    Err(Refusal { number, place: place as u64 })
}

/// "a leaf of level l holds 8^(21-l) of them"
fn cells(level: u8) -> u128 {
    1 << (3 * (HIGHEST_LEVEL - level))
}

/// How many smallest cells lie before a leaf, those of the roots before its own included.
fn start((root, level, position): Leaf) -> u128 {
    root as u128 * cells(0) + position as u128 * cells(level)
}

/// "17, 11, then each leaf in turn 1, 5, 12": the roots first among the numbers, and whether marks, weights and lent
/// columns have their lengths.
fn list(numbers: &[u16], leaves: &Leaves, lengths_agree: bool) -> Result<(), Refusal> {
    if numbers.iter().any(|number| !(1..=MOST_ROOTS).contains(number)) {
        return refuse(17, 0);
    }
    let count = leaves.len();
    let equal = leaves.level.len() == count && leaves.position.len() == count;
    if !equal || !(1..=MOST_LEAVES).contains(&count) || !lengths_agree {
        return refuse(11, 0);
    }
    let mut end = 0;
    for i in 0..count {
        let (root, level, position) = leaves.get(i);
        if level > HIGHEST_LEVEL {
            return refuse(1, i);
        }
        if position >= positions(level) {
            return refuse(5, i);
        }
        if root >= numbers[0] || start((root, level, position)) != end {
            return refuse(12, i);
        }
        end += cells(level);
    }
    if end != numbers[0] as u128 * cells(0) {
        return refuse(12, count);
    }
    Ok(())
}

/// "Uniform start: K roots, all at one level." Refused by 17, 11, 1, 15, 14.
pub fn uniform(roots: u16, level: u8, lengths: [usize; 3]) -> Result<Leaves, Refusal> {
    // At level 255, the product is far above 2^128.
    let count = 8u128.saturating_pow(level as u32).saturating_mul(roots as u128);
    let refusals = [
        (!(1..=MOST_ROOTS).contains(&roots), 17),
        (lengths != [lengths[0]; 3], 11),
        (level > HIGHEST_LEVEL, 1),
        (count > MOST_LEAVES as u128, 15),
        ((lengths[0] as u128) < count, 14),
    ];
    match refusals.iter().find(|(applies, _)| *applies) {
        Some((_, 14)) => refuse(14, count as usize),
        Some(&(_, number)) => refuse(number, 0),
        None => Ok(leaves::uniform(roots, level)),
    }
}

pub fn check(roots: u16, leaves: &Leaves) -> Result<(), Refusal> {
    list(&[roots], leaves, true)
}

/// "any two leaves that follow one another in one root differ by at most one level"
pub fn balanced(roots: u16, leaves: &Leaves) -> Result<bool, Refusal> {
    check(roots, leaves)?;
    Ok((1..leaves.len()).all(|i| {
        let (one, other) = (leaves.get(i - 1), leaves.get(i));
        one.0 != other.0 || one.1.abs_diff(other.1) <= 1
    }))
}

/// The parent of the eight leaves from `i` on, if they are a family.
pub fn parent(leaves: &Leaves, i: usize) -> Option<Leaf> {
    let (root, level, position) = leaves.get(i);
    if level == 0 || i + 8 > leaves.len() {
        return None;
    }
    let parent = (root, level - 1, position / 8);
    children(parent).enumerate().all(|(child, leaf)| leaves.get(i + child) == leaf).then_some(parent)
}

/// "Eight consecutive leaves that are a family and all carry 2 give their parent."
fn merged(leaves: &Leaves, marks: &[u8], i: usize) -> Option<Leaf> {
    let all = marks.get(i..i + 8)?.iter().all(|&mark| mark == 2);
    if all {
        parent(leaves, i)
    } else {
        None
    }
}

/// The result of an adaption, if there is room for it, or the refusals but 14.
pub fn adapted(question: &Adaption) -> Result<Leaves, Refusal> {
    let Adaption { roots, leaves, marks, room } = question;
    list(&[*roots], leaves, marks.len() == leaves.len() && *room == [room[0]; 3])?;
    if let Some(i) = marks.iter().position(|&mark| mark > 2) {
        return refuse(13, i);
    }
    if let Some(i) = (0..marks.len()).find(|&i| marks[i] == 1 && leaves.level[i] == HIGHEST_LEVEL) {
        return refuse(7, i);
    }
    let mut result = Leaves::default();
    for i in 0..leaves.len() {
        // The family in which the leaf is merged, if any, may begin up to seven leaves before it.
        match (i.saturating_sub(7)..=i).find_map(|first| Some((first, merged(leaves, marks, first)?))) {
            Some((first, parent)) if first == i => result.push(parent),
            Some(_) => {}
            None if marks[i] == 1 => children(leaves.get(i)).for_each(|child| result.push(child)),
            None => result.push(leaves.get(i)),
        }
    }
    if result.len() > MOST_LEAVES {
        return refuse(15, 0);
    }
    Ok(result)
}

pub fn adapt(question: &Adaption) -> Result<Leaves, Refusal> {
    let result = adapted(question)?;
    if question.room[0] < result.len() {
        return refuse(14, result.len());
    }
    Ok(result)
}

/// "the largest leaf count j whose first j weights sum to S with P * S <= s * W"
pub fn shares(question: &Sharing) -> Result<Vec<u32>, Refusal> {
    let Sharing { roots, shares, leaves, weights, room } = question;
    list(&[*roots, *shares], leaves, weights.len() == leaves.len())?;
    if let Some(i) = weights.iter().position(|&weight| weight == 0) {
        return refuse(16, i);
    }
    let needed = *shares as usize + 1;
    if *room < needed {
        return refuse(14, needed);
    }
    let mut sums = vec![0];
    for &weight in weights {
        sums.push(sums[sums.len() - 1] + weight as u64);
    }
    let whole = sums[weights.len()];
    let fits = |s: u64, j: &usize| *shares as u64 * sums[*j] <= s * whole;
    let boundary = |s: u64| (0..=weights.len()).rev().find(|j| fits(s, j)).expect("no weight at all fits");
    Ok((0..=*shares as u64).map(|s| boundary(s) as u32).collect())
}
