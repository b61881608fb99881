//! Leaf lists as columns, and valid ones made.

use gwerniloc::HIGHEST_LEVEL;

use super::random::Random;

/// A leaf as root, level, position.
pub type Leaf = (u16, u8, u64);

#[derive(Clone, Debug, Default, PartialEq, Eq)]
pub struct Leaves {
    pub root: Vec<u16>,
    pub level: Vec<u8>,
    pub position: Vec<u64>,
}

impl Leaves {
    pub fn push(&mut self, (root, level, position): Leaf) {
        self.root.push(root);
        self.level.push(level);
        self.position.push(position);
    }

    pub fn len(&self) -> usize {
        self.root.len()
    }

    pub fn get(&self, i: usize) -> Leaf {
        (self.root[i], self.level[i], self.position[i])
    }

    pub fn insert(&mut self, i: usize, (root, level, position): Leaf) {
        self.root.insert(i, root);
        self.level.insert(i, level);
        self.position.insert(i, position);
    }

    pub fn remove(&mut self, i: usize) {
        self.root.remove(i);
        self.level.remove(i);
        self.position.remove(i);
    }

    pub fn swap(&mut self, i: usize, j: usize) {
        self.root.swap(i, j);
        self.level.swap(i, j);
        self.position.swap(i, j);
    }

    /// Cuts each column to its length, or continues it with 0.
    pub fn resize(&mut self, [roots, levels, positions]: [usize; 3]) {
        self.root.resize(roots, 0);
        self.level.resize(levels, 0);
        self.position.resize(positions, 0);
    }
}

impl FromIterator<Leaf> for Leaves {
    fn from_iter<I: IntoIterator<Item = Leaf>>(leaves: I) -> Self {
        let mut columns = Leaves::default();
        leaves.into_iter().for_each(|leaf| columns.push(leaf));
        columns
    }
}

/// The leaves of so many roots, all at one level.
pub fn uniform(roots: u16, level: u8) -> Leaves {
    (0..roots).flat_map(|root| (0..positions(level)).map(move |position| (root, level, position))).collect()
}

/// How many positions a level has, 8^level.
pub fn positions(level: u8) -> u64 {
    1 << (3 * level)
}

/// The eight children of a leaf, in order.
pub fn children((root, level, position): Leaf) -> impl Iterator<Item = Leaf> {
    (0..8).map(move |i| (root, level + 1, 8 * position + i))
}

/// A valid list by refining the roots at random, as long as there is room for eight more leaves in place of one.
pub fn refined(r: &mut Random, roots: u16, most: usize) -> Leaves {
    let mut leaves: Vec<Leaf> = (0..roots).map(|root| (root, 0, 0)).collect();
    // Some deep places: from a leaf down to a child, and again.
    for _ in 0..r.below(4) {
        let mut i = r.below(leaves.len() as u64) as usize;
        for _ in 0..r.below(HIGHEST_LEVEL as u64 + 1) {
            if leaves[i].1 < HIGHEST_LEVEL && leaves.len() + 7 <= most {
                leaves.splice(i..=i, children(leaves[i]));
                i += r.below(8) as usize;
            }
        }
    }
    // Passes that refine every leaf, or one in a few.
    while leaves.len() + 7 <= most {
        let one_in = r.pick(&[1, 2, 2, 3, 8, 50]);
        let mut room = most - leaves.len();
        let mut next = Vec::with_capacity(most);
        for leaf in leaves {
            if leaf.1 < HIGHEST_LEVEL && room >= 7 && r.below(one_in) == 0 {
                room -= 7;
                next.extend(children(leaf));
            } else {
                next.push(leaf);
            }
        }
        leaves = next;
    }
    leaves.into_iter().collect()
}

/// A valid list of the roots, of which one is refined down to the highest level, each time at one child.
pub fn deep(r: &mut Random, roots: u16) -> Leaves {
    let mut leaves: Vec<Leaf> = (0..roots).map(|root| (root, 0, 0)).collect();
    let mut i = r.below(roots as u64) as usize;
    for _ in 0..HIGHEST_LEVEL {
        leaves.splice(i..=i, children(leaves[i]));
        i += r.below(8) as usize;
    }
    leaves.into_iter().collect()
}
