//! Leaf lists: columns root, level and position, one entry a leaf.
//!
//! Each call is safe as those of the elements are: any values, each column read or written within its length, no
//! pointer kept.

use crate::{ffi, Refusal};

/// Whether the leaves in the columns are a valid list of the given number of roots: the first starts root 0, each later
/// one starts where the one before it ended (after the end of a root, at the start of the next), and the last ends the
/// last root.
///
/// Refuses: 17 roots outside 1 to 4,096; 11 columns of unequal length, no leaf, or more than 1,048,576; then each leaf
/// in turn, place = its index: 1 level above 21, 5 position not below 8^level, 12 it does not start there, which is any
/// leaf after the last root's end; last 12 for a list that ends early, place = its length.
pub fn check_list(roots: u16, root: &[u16], level: &[u8], position: &[u64]) -> Result<(), Refusal> {
    Refusal::from_c(unsafe {
        ffi::gw_list_check(
            roots,
            root.as_ptr(),
            root.len(),
            level.as_ptr(),
            level.len(),
            position.as_ptr(),
            position.len(),
        )
    })
}

/// A uniform start: writes the leaves of the given number of roots, all at one level, at the front of the columns, and
/// nothing behind them. Gives how many leaves, roots * 8^level. They are a valid list of these roots.
///
/// Refuses: 17 roots outside 1 to 4,096; 11 columns of unequal length; 1 level above 21; 15 more than 1,048,576 leaves;
/// 14 columns shorter than the leaves, place = how many entries they need. A refused start writes nothing.
pub fn uniform(
    roots: u16,
    level: u8,
    root: &mut [u16],
    leaf_level: &mut [u8],
    position: &mut [u64],
) -> Result<u64, Refusal> {
    let answer = unsafe {
        ffi::gw_list_uniform(
            roots,
            level,
            root.as_mut_ptr(),
            root.len(),
            leaf_level.as_mut_ptr(),
            leaf_level.len(),
            position.as_mut_ptr(),
            position.len(),
        )
    };
    answer.result()
}

/// Whether a valid list is balanced: any two leaves that follow one another in one root differ by at most one level.
///
/// Refuses as [`check_list`] does.
pub fn balanced(roots: u16, root: &[u16], level: &[u8], position: &[u64]) -> Result<bool, Refusal> {
    let answer = unsafe {
        ffi::gw_list_balanced(
            roots,
            root.as_ptr(),
            root.len(),
            level.as_ptr(),
            level.len(),
            position.as_ptr(),
            position.len(),
        )
    };
    answer.result().map(|yes| yes == 1)
}

/// Adaption: one mark a leaf, 0 keep, 1 refine, 2 merge. Writes the leaves of the result at the front of the new
/// columns, and nothing behind them. Gives how many. They are a valid list of the same roots.
///
/// A refined leaf gives its eight children. Eight consecutive leaves that are a family and all carry 2 give their
/// parent; any other leaf marked 2 is kept. New leaves aren't looked at again.
///
/// Refuses: 17 and 11 as [`check_list`] does, 11 also for marks of another length and for new columns of unequal
/// length; the leaves as [`check_list`] does; 13 the first mark above 2, place = its leaf; 7 the first leaf of level 21
/// marked 1, place = the leaf; 15 more than 1,048,576 leaves; 14 new columns shorter than the leaves, place = how many
/// entries they need. A refused adaption writes nothing.
#[allow(clippy::too_many_arguments)]
pub fn adapt(
    roots: u16,
    root: &[u16],
    level: &[u8],
    position: &[u64],
    marks: &[u8],
    new_root: &mut [u16],
    new_level: &mut [u8],
    new_position: &mut [u64],
) -> Result<u64, Refusal> {
    let answer = unsafe {
        ffi::gw_list_adapt(
            roots,
            root.as_ptr(),
            root.len(),
            level.as_ptr(),
            level.len(),
            position.as_ptr(),
            position.len(),
            marks.as_ptr(),
            marks.len(),
            new_root.as_mut_ptr(),
            new_root.len(),
            new_level.as_mut_ptr(),
            new_level.len(),
            new_position.as_mut_ptr(),
            new_position.len(),
        )
    };
    answer.result()
}

/// Shares: deals the leaves of a valid list out along the curve by their weights. Writes the boundaries, one more than
/// shares, at the front of the column, and nothing behind them. Share s runs from boundary s up to boundary s + 1 and
/// may hold no leaf.
///
/// With P shares and the whole weight W, boundary s is the largest leaf count j whose first j weights sum to S with
/// P * S <= s * W.
///
/// Refuses: 17 roots or shares outside 1 to 4,096; 11 as [`check_list`] does, also for weights of another length; the
/// leaves as [`check_list`] does; 16 the first weight 0, place = its leaf; 14 a column shorter than the boundaries,
/// place = how many they are. A refused call writes nothing.
pub fn shares(
    roots: u16,
    shares: u16,
    root: &[u16],
    level: &[u8],
    position: &[u64],
    weights: &[u16],
    boundaries: &mut [u32],
) -> Result<(), Refusal> {
    Refusal::from_c(unsafe {
        ffi::gw_list_shares(
            roots,
            shares,
            root.as_ptr(),
            root.len(),
            level.as_ptr(),
            level.len(),
            position.as_ptr(),
            position.len(),
            weights.as_ptr(),
            weights.len(),
            boundaries.as_mut_ptr(),
            boundaries.len(),
        )
    })
}
