//! The grid file. Reading checks the runs first, none of them leaf by leaf, and then writes their leaves.

use super::{list, HIGHEST};
use crate::{Answer, Size, MOST_LEAVES, MOST_ROOTS};

const TAG: [u8; 4] = [0x50, 0x47, 0x52, 0x31];

/// Writes the file of a list at the front of the bytes. Gives how many they are.
#[inline(never)]
pub fn write(roots: u16, root: &[u16], level: &[u8], position: &[u64], bytes: &mut [u8]) -> Answer<u64> {
    let refusal = list::check(roots, root, level, position);
    if refusal != 0 {
        return Answer::refused(refusal);
    }
    let (mut runs, mut size) = (0, 0);
    each_run(level, |_, count| {
        runs += 1;
        size += 1 + width(count);
    });
    size += TAG.len() + width(roots as u32) + width(runs);
    if bytes.len() < size {
        return Answer::refused((size as u64) << 8 | 14);
    }
    let bytes = &mut bytes[..size];
    bytes[..TAG.len()].copy_from_slice(&TAG);
    let mut at = put(bytes, TAG.len(), roots as u32);
    at = put(bytes, at, runs);
    each_run(level, |level, count| {
        bytes[at] = level;
        at = put(bytes, at + 1, count);
    });
    Answer::accepted(size as u64)
}

/// The runs of a list in order, each by its level and its leaf count. Eight levels at a time are compared with those
/// before them, and 64 where no run ended for so long.
#[inline(always)]
fn each_run(level: &[u8], mut run: impl FnMut(u8, u32)) {
    let eight = |i: usize| Some(u64::from_le_bytes(level.get(i..i + 8)?.try_into().expect("eight levels")));
    let (mut start, mut i) = (0, 1);
    while let Some(after) = eight(i) {
        let mut changes = after ^ eight(i - 1).expect("eight levels");
        while changes != 0 {
            let byte = changes.trailing_zeros() / 8;
            changes &= !0xff << (8 * byte);
            let end = i + byte as usize;
            run(level[start], (end - start) as u32);
            start = end;
        }
        i += 8;
        if i - start > 64 {
            let same = |many: &&[u8]| many.iter().fold(0, |any, &other| any | (other ^ level[start])) == 0;
            i += 64 * level[i..].chunks_exact(64).take_while(same).count();
        }
    }
    for end in i..level.len() {
        if level[end] != level[start] {
            run(level[start], (end - start) as u32);
            start = end;
        }
    }
    run(level[start], (level.len() - start) as u32);
}

/// How many bytes a number has.
#[inline(always)]
fn width(number: u32) -> usize {
    1 + (number >= 1 << 7) as usize + (number >= 1 << 14) as usize
}

/// Writes a number. Gives the offset of what follows it.
#[inline(always)]
fn put(bytes: &mut [u8], mut at: usize, mut number: u32) -> usize {
    while number >= 1 << 7 {
        bytes[at] = number as u8 | 1 << 7;
        number >>= 7;
        at += 1;
    }
    bytes[at] = number as u8;
    at + 1
}

/// Writes the leaves of a file at the front of the columns. Gives the roots and how many leaves.
#[inline(never)]
pub fn read(bytes: &[u8], root: &mut [u16], level: &mut [u8], position: &mut [u64]) -> Answer<Size> {
    let room = root.len();
    if level.len() != room || position.len() != room {
        return Answer::refused(11);
    }
    let checked = opening(bytes).and_then(|opening| Ok((opening, checked(bytes, &opening)?)));
    let (opening, leaves) = match checked {
        Ok(checked) => checked,
        Err(refusal) => return Answer::refused(refusal),
    };
    if leaves > room {
        return Answer::refused((leaves as u64) << 8 | 14);
    }
    let mut columns =
        Columns { root: &mut root[..leaves], level: &mut level[..leaves], position: &mut position[..leaves] };
    columns.fill(&bytes[opening.at..], opening.runs);
    Answer::accepted(Size { roots: opening.roots as u64, leaves: leaves as u64 })
}

fn refuse<T>(number: u64, at: usize) -> Result<T, u64> {
    Err((at as u64) << 8 | number)
}

/// The number at an offset, and the offset of what follows it.
#[inline(always)]
fn number(bytes: &[u8], at: usize) -> Result<(u32, usize), u64> {
    let mut number = 0;
    for i in 0..3 {
        let Some(&byte) = bytes.get(at + i) else { return refuse(19, at) };
        number |= (byte as u32 & 0x7f) << (7 * i);
        if byte >> 7 == 0 {
            return if byte == 0 && i > 0 { refuse(20, at) } else { Ok((number, at + i + 1)) };
        }
    }
    refuse(20, at)
}

/// What comes before the runs, and the offset of the first.
#[derive(Clone, Copy)]
struct Opening {
    roots: u32,
    runs: u32,
    at: usize,
}

fn opening(bytes: &[u8]) -> Result<Opening, u64> {
    if !bytes.starts_with(&TAG) {
        return refuse(18, 0);
    }
    let (roots, runs_at) = number(bytes, TAG.len())?;
    if roots == 0 || roots > MOST_ROOTS as u32 {
        return refuse(17, TAG.len());
    }
    let (runs, at) = number(bytes, runs_at)?;
    if runs == 0 || runs > MOST_LEAVES as u32 {
        return refuse(21, runs_at);
    }
    Ok(Opening { roots, runs, at })
}

/// How many leaves the runs have. The way through the roots is counted in smallest cells, those of all roots together.
#[inline(always)]
fn checked(bytes: &[u8], opening: &Opening) -> Result<usize, u64> {
    let all = (opening.roots as u128) << (3 * HIGHEST);
    let (mut end, mut leaves, mut before) = (0u128, 0, u32::MAX);
    let mut at = opening.at;
    for _ in 0..opening.runs {
        let (level, count_at) = number(bytes, at)?;
        if level > HIGHEST as u32 {
            return refuse(1, at);
        }
        if level == before {
            return refuse(21, at);
        }
        let (count, next) = number(bytes, count_at)?;
        leaves += count as usize;
        if count == 0 || leaves > MOST_LEAVES {
            return refuse(if count == 0 { 21 } else { 15 }, count_at);
        }
        let cells = 1u64 << (3 * (HIGHEST as u32 - level));
        // A root is a multiple of any leaf, so that the roots before this one play no part.
        let astray = end as u64 & (cells - 1) != 0;
        end += cells as u128 * count as u128;
        if astray || end > all {
            return refuse(12, at);
        }
        (before, at) = (level, next);
    }
    if end != all {
        return refuse(12, at);
    }
    if at != bytes.len() {
        return refuse(22, at);
    }
    Ok(leaves)
}

/// A number of a file that was checked. What follows it is left.
#[inline(always)]
fn take(bytes: &mut &[u8]) -> u32 {
    let (number, rest) = match **bytes {
        [a, ref rest @ ..] if a < 128 => (a as u32, rest),
        [a, b, ref rest @ ..] if b < 128 => (a as u32 & 127 | (b as u32) << 7, rest),
        [a, b, c, ref rest @ ..] => (a as u32 & 127 | (b as u32 & 127) << 7 | (c as u32) << 14, rest),
        _ => unreachable!("the file was checked"),
    };
    *bytes = rest;
    number
}

/// The columns, cut to the leaves of the file.
struct Columns<'a> {
    root: &'a mut [u16],
    level: &'a mut [u8],
    position: &'a mut [u64],
}

impl Columns<'_> {
    /// Writes the leaves of the runs, run by run and in each root by root.
    #[inline(always)]
    fn fill(&mut self, mut bytes: &[u8], runs: u32) {
        let (mut root, mut cell, mut at) = (0, 0u64, 0);
        for _ in 0..runs {
            let (level, mut left) = (take(&mut bytes) as u8, take(&mut bytes) as u64);
            let bits = 3 * (HIGHEST - level);
            let (mut position, end) = (cell >> bits, 1 << (3 * level));
            while left > 0 {
                let count = left.min(end - position);
                self.lay(at, count as usize, root, level, position);
                at += count as usize;
                left -= count;
                position += count;
                if position == end {
                    (root, position) = (root + 1, 0);
                }
            }
            cell = position << bits;
        }
    }

    /// Writes leaves of one level that follow one another in a root. Up to eight are written as eight where so many
    /// are still to come: the leaves after them overwrite what is too much, and a loop would cost more.
    #[inline(always)]
    fn lay(&mut self, at: usize, count: usize, root: u16, level: u8, position: u64) {
        let many = if count <= 8 && at + 8 <= self.root.len() { 8 } else { count };
        let entries = at..at + many;
        if many == 8 {
            self.root[entries.clone()].copy_from_slice(&[root; 8]);
            self.level[entries.clone()].copy_from_slice(&[level; 8]);
            let eight: [u64; 8] = std::array::from_fn(|i| position + i as u64);
            self.position[entries].copy_from_slice(&eight);
        } else {
            self.root[entries.clone()].fill(root);
            self.level[entries.clone()].fill(level);
            self.position[entries].iter_mut().zip(position..).for_each(|(entry, position)| *entry = position);
        }
    }
}
