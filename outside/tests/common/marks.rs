//! Marks for adaption, in many ways.

use gwerniloc::HIGHEST_LEVEL;

use super::leaves::Leaves;
use super::naive;
use super::random::Random;

/// The ways of `Random::marks`.
pub const WAYS: u64 = 11;

impl Random {
    /// Marks for a list, in one of many ways.
    pub fn marks(&mut self, way: u64, leaves: &Leaves) -> Vec<u8> {
        let n = leaves.len();
        let mut marks = match way {
            // All keep, all refine, all merge.
            0..=2 => vec![way as u8; n],
            // Any mixture, and mixtures of mostly one.
            3 => (0..n).map(|_| self.below(3) as u8).collect(),
            4 => (0..n).map(|_| if self.below(16) == 0 { self.below(2) as u8 } else { 2 }).collect(),
            5 => (0..n).map(|_| (self.below(50) == 0) as u8).collect(),
            6 => self.stretches(n),
            7 | 8 => self.families(leaves),
            // All merge, but for one that is not.
            _ => {
                let mut marks = vec![2; n];
                marks[self.below(n as u64) as usize] = if way == 9 { self.below(2) as u8 } else { 3 };
                marks
            }
        };
        if way == 10 {
            // Marks too high.
            for _ in 0..self.below(3) {
                marks[self.below(n as u64) as usize] = 3 + self.below(253) as u8;
            }
        } else if self.below(8) > 0 {
            // No mark 1 where there are no children, or 7 would be met too often.
            for (mark, &level) in marks.iter_mut().zip(&leaves.level) {
                if level == HIGHEST_LEVEL && *mark == 1 {
                    *mark = self.pick(&[0, 2]);
                }
            }
        }
        marks
    }

    /// The same mark many times, then another.
    fn stretches(&mut self, n: usize) -> Vec<u8> {
        let mut marks = Vec::new();
        while marks.len() < n {
            let length = marks.len() + 1 + self.below(40) as usize;
            marks.resize(length.min(n), self.below(3) as u8);
        }
        marks
    }

    /// Families to be merged, each other one with a mark off; any marks between them.
    fn families(&mut self, leaves: &Leaves) -> Vec<u8> {
        let mut marks = Vec::new();
        while marks.len() < leaves.len() {
            let i = marks.len();
            if leaves.get(i).2.is_multiple_of(8) && naive::parent(leaves, i).is_some() {
                marks.resize(i + 8, 2);
                if self.below(2) == 0 {
                    marks[i + self.below(8) as usize] = self.below(2) as u8;
                }
            } else {
                marks.push(self.pick(&[0, 1, 2, 2, 2, 2]));
            }
        }
        marks
    }
}
