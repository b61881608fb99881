//! The list calls, each asked of the proved library, of the plain code and of the naive definition, in this order.
//!
//! The lent columns are compared before and after: a call may write its result at the front of the columns lent for it,
//! and nothing else.

use gwerniloc::{plain, Refusal};

use super::leaves::Leaves;
use super::lent::{Filling, Lent, LentLeaves};
use super::naive;

/// The answers of the proved library, of the plain code and of the naive definition.
pub type Answers<T> = [Result<T, Refusal>; 3];

/// Lends a list that is only read.
fn lend<T>(leaves: &Leaves, call: impl Fn(&[u16], &[u8], &[u64]) -> T) -> T {
    let lent = LentLeaves::holding(leaves);
    let answer = call(lent.root.read(), lent.level.read(), lent.position.read());
    lent.holds(leaves);
    answer
}

pub fn check(roots: u16, leaves: &Leaves) -> Answers<()> {
    [
        lend(leaves, |root, level, position| gwerniloc::check_list(roots, root, level, position)),
        lend(leaves, |root, level, position| Refusal::from_c(plain::list::check(roots, root, level, position))),
        naive::check(roots, leaves),
    ]
}

pub fn balanced(roots: u16, leaves: &Leaves) -> Answers<bool> {
    let plain = |root: &[u16], level: &[u8], position: &[u64]| {
        plain::balance::balanced(roots, root, level, position).result().map(|yes| yes == 1)
    };
    [
        lend(leaves, |root, level, position| gwerniloc::balanced(roots, root, level, position)),
        lend(leaves, plain),
        naive::balanced(roots, leaves),
    ]
}

/// A uniform start in columns of these lengths.
pub fn uniform(roots: u16, level: u8, lengths: [usize; 3], filling: Filling) -> Answers<Leaves> {
    let start = |proved| {
        let mut lent = LentLeaves::filled(lengths, filling);
        let (root, leaf_level, position) = (lent.root.write(), lent.level.write(), lent.position.write());
        let answer = if proved {
            gwerniloc::uniform(roots, level, root, leaf_level, position)
        } else {
            plain::list::uniform(roots, level, root, leaf_level, position).result()
        };
        let written = lent.front(answer.map_or(0, |count| count as usize), filling);
        answer.map(|_| written)
    };
    [start(true), start(false), naive::uniform(roots, level, lengths)]
}

/// What an adaption is asked: a list, its marks and the lengths of the new columns.
#[derive(Clone, Debug)]
pub struct Adaption {
    pub roots: u16,
    pub leaves: Leaves,
    pub marks: Vec<u8>,
    pub room: [usize; 3],
}

impl Adaption {
    /// With room for any result.
    pub fn new(roots: u16, leaves: &Leaves, marks: Vec<u8>) -> Self {
        let room = [leaves.len() + 7 * marks.iter().filter(|&&mark| mark == 1).count(); 3];
        Adaption { roots, leaves: leaves.clone(), marks, room }
    }

    pub fn ask(&self, filling: Filling) -> Answers<Leaves> {
        [self.adapt(true, filling), self.adapt(false, filling), naive::adapt(self)]
    }

    fn adapt(&self, proved: bool, filling: Filling) -> Result<Leaves, Refusal> {
        let marks = Lent::holding(&self.marks);
        let mut new = LentLeaves::filled(self.room, filling);
        let (new_root, new_level, new_position) = (new.root.write(), new.level.write(), new.position.write());
        let old = LentLeaves::holding(&self.leaves);
        let (root, level, position) = (old.root.read(), old.level.read(), old.position.read());
        let (roots, mark) = (self.roots, marks.read());
        let answer = if proved {
            gwerniloc::adapt(roots, root, level, position, mark, new_root, new_level, new_position)
        } else {
            plain::adaption::adapt(roots, root, level, position, mark, new_root, new_level, new_position).result()
        };
        old.holds(&self.leaves);
        marks.holds(&self.marks);
        let written = new.front(answer.map_or(0, |count| count as usize), filling);
        answer.map(|_| written)
    }
}

/// What shares are asked: a list, its weights, how many shares, and the length of the column for the boundaries.
#[derive(Clone, Debug)]
pub struct Sharing {
    pub roots: u16,
    pub shares: u16,
    pub leaves: Leaves,
    pub weights: Vec<u16>,
    pub room: usize,
}

impl Sharing {
    pub fn ask(&self, filling: Filling) -> Answers<Vec<u32>> {
        [self.share(true, filling), self.share(false, filling), naive::shares(self)]
    }

    fn share(&self, proved: bool, filling: Filling) -> Result<Vec<u32>, Refusal> {
        let weights = Lent::holding(&self.weights);
        let mut lent = Lent::filled(self.room, filling);
        let boundaries = lent.write();
        let old = LentLeaves::holding(&self.leaves);
        let (root, level, position) = (old.root.read(), old.level.read(), old.position.read());
        let (roots, shares, weight) = (self.roots, self.shares, weights.read());
        let answer = if proved {
            gwerniloc::shares(roots, shares, root, level, position, weight, boundaries)
        } else {
            let refusal = plain::shares::shares(roots, shares, root, level, position, weight, boundaries);
            Refusal::from_c(refusal)
        };
        old.holds(&self.leaves);
        weights.holds(&self.weights);
        let written = lent.front(answer.map_or(0, |()| shares as usize + 1), filling);
        answer.map(|()| written)
    }
}
