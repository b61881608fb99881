//! Columns as they are lent to a call: between guard entries, and compared with what they held before it.

use std::fmt::Debug;
use std::hint::black_box;

use super::leaves::Leaves;

/// Entries in front of a lent column, and as many behind it, that no call may touch.
const GUARD: usize = 8;

/// What entry `i` of a column holds before the call. A narrow column takes the lowest bits.
pub type Filling = fn(usize) -> u64;

/// Values that no leaf of a valid list has, nor any boundary.
pub fn foreign(i: usize) -> u64 {
    let mix = (i as u64 + 1).wrapping_mul(0x9e37_79b9_7f4a_7c15);
    (mix ^ mix >> 32) | 1 << 63 | 1 << 31 | 1 << 15 | 1 << 7
}

/// Bits of f64 that no point has: -0, not a number of many kinds, infinity, a number far too large.
pub fn strange(i: usize) -> u64 {
    let digits = foreign(i) & ((1 << 52) - 1);
    match i % 4 {
        0 => 1 << 63,
        1 => 0x7ff << 52 | digits,
        2 => 0xfff << 52,
        _ => 0x7fe << 52 | digits,
    }
}

/// The filling that the sample asks for.
pub fn sampled(i: usize) -> u64 {
    (7 * i as u64 + 3) % 251
}

/// An entry of a column. Two are the same if their bits are, for f64 has a -0 that equals 0 and values that don't equal
/// themselves.
pub trait Entry: Copy + Debug {
    fn cut(word: u64) -> Self;
    fn bits(self) -> u64;
}

macro_rules! entries {
    ($($T:ty),+) => { $(impl Entry for $T {
        fn cut(word: u64) -> Self {
            word as $T
        }
        fn bits(self) -> u64 {
            self as u64
        }
    })+ };
}

entries!(u8, u16, u32, u64);

impl Entry for f64 {
    /// A small number as that number, which is what the sample asks for; any other word as bits.
    fn cut(word: u64) -> Self {
        if word < 1 << 32 {
            word as f64
        } else {
            f64::from_bits(word)
        }
    }
    fn bits(self) -> u64 {
        self.to_bits()
    }
}

/// Whether the entries are the same, bit for bit.
fn same<T: Entry>(one: &[T], other: impl Iterator<Item = T>) -> bool {
    one.iter().copied().map(T::bits).eq(other.map(T::bits))
}

pub struct Lent<T>(Vec<T>);

fn guard<T: Entry>() -> impl Iterator<Item = T> {
    (0..GUARD).map(|i| T::cut(foreign(i)))
}

impl<T: Entry> Lent<T> {
    pub fn holding(entries: &[T]) -> Self {
        Lent(guard().chain(entries.iter().copied()).chain(guard()).collect())
    }

    pub fn filled(length: usize, filling: Filling) -> Self {
        Lent(guard().chain((0..length).map(|i| T::cut(filling(i)))).chain(guard()).collect())
    }

    pub fn read(&self) -> &[T] {
        &self.0[GUARD..self.0.len() - GUARD]
    }

    pub fn write(&mut self) -> &mut [T] {
        let end = self.0.len() - GUARD;
        &mut self.0[GUARD..end]
    }

    /// The entries, after a call that must have kept the guards.
    fn after(&self) -> &[T] {
        // Hidden from the compiler, which might take it that a slice lent to be read never changes.
        let all = black_box(&self.0);
        let end = all.len() - GUARD;
        assert!(same(&all[..GUARD], guard()), "written in front of a column");
        assert!(same(&all[end..], guard()), "written behind a column");
        &all[GUARD..end]
    }

    /// The column still holds these entries.
    pub fn holds(&self, entries: &[T]) {
        assert!(same(self.after(), entries.iter().copied()), "a column lent to be read has changed");
    }

    /// So many entries at the front, which the call has written; all after them are still as they were filled.
    pub fn front(&self, count: usize, filling: Filling) -> Vec<T> {
        let after = self.after();
        assert!(count <= after.len(), "{count} entries have no room");
        let kept = (count..after.len()).map(|i| T::cut(filling(i)));
        assert!(same(&after[count..], kept), "written behind the result, or by a refused call");
        after[..count].to_vec()
    }
}

/// The columns of a list.
pub struct LentLeaves {
    pub root: Lent<u16>,
    pub level: Lent<u8>,
    pub position: Lent<u64>,
}

impl LentLeaves {
    pub fn holding(leaves: &Leaves) -> Self {
        LentLeaves {
            root: Lent::holding(&leaves.root),
            level: Lent::holding(&leaves.level),
            position: Lent::holding(&leaves.position),
        }
    }

    pub fn filled([roots, levels, positions]: [usize; 3], filling: Filling) -> Self {
        LentLeaves {
            root: Lent::filled(roots, filling),
            level: Lent::filled(levels, filling),
            position: Lent::filled(positions, filling),
        }
    }

    pub fn holds(&self, leaves: &Leaves) {
        self.root.holds(&leaves.root);
        self.level.holds(&leaves.level);
        self.position.holds(&leaves.position);
    }

    /// The leaves at the front, as [`Lent::front`] has them.
    pub fn front(&self, count: usize, filling: Filling) -> Leaves {
        Leaves {
            root: self.root.front(count, filling),
            level: self.level.front(count, filling),
            position: self.position.front(count, filling),
        }
    }
}
