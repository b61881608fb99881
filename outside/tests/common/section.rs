//! Corner points for a section, asked of the proved library, of the plain code and of the ticket, in this order.
//!
//! The lent columns are compared before and after: the positions stay, and the other three are written by an accepted
//! call alone.

use gwerniloc::{corner_points, plain, Refusal, Root, HIGHEST_LEVEL};

use super::calls::Answers;
use super::lent::{Entry, Filling, Lent};
use super::naive::refuse;
use super::points::exact;

/// What is asked of a section; `room` has the lengths of the columns lent for the points.
#[derive(Clone, Debug)]
pub struct Section {
    pub level: u8,
    pub positions: Vec<u64>,
    pub corner: u8,
    pub root: Root,
    pub room: [usize; 3],
}

/// The three columns, as bits.
pub type Points = [Vec<u64>; 3];

type Column<'a> = &'a mut [f64];
type Call = fn(u8, &[u64], u8, Root, Column, Column, Column) -> Result<(), Refusal>;

fn at_once(
    level: u8,
    positions: &[u64],
    corner: u8,
    root: Root,
    x: Column,
    y: Column,
    z: Column,
) -> Result<(), Refusal> {
    Refusal::from_c(plain::section::corner_points(level, positions, corner, root, x, y, z))
}

fn walking(
    level: u8,
    positions: &[u64],
    corner: u8,
    root: Root,
    x: Column,
    y: Column,
    z: Column,
) -> Result<(), Refusal> {
    Refusal::from_c(plain::section::corner_points_walking(level, positions, corner, root, x, y, z))
}

impl Section {
    /// With columns of the positions' length.
    pub fn new(level: u8, positions: Vec<u64>, corner: u8, root: Root) -> Self {
        let room = [positions.len(); 3];
        Section { level, positions, corner, root, room }
    }

    /// The answers of the proved library, of the plain code, whose two ways agree, and of the ticket.
    pub fn ask(&self, filling: Filling) -> Answers<Points> {
        let plain = self.points(at_once, filling);
        assert_eq!(self.points(walking, filling), plain, "the two ways of the plain code: {self:?}");
        [self.points(corner_points, filling), plain, self.naive()]
    }

    fn points(&self, call: Call, filling: Filling) -> Result<Points, Refusal> {
        let lent = Lent::holding(&self.positions);
        let [mut x, mut y, mut z] = self.room.map(|length| Lent::<f64>::filled(length, filling));
        let (level, positions, corner, root) = (self.level, lent.read(), self.corner, self.root);
        let answer = call(level, positions, corner, root, x.write(), y.write(), z.write());
        lent.holds(&self.positions);
        let count = answer.map_or(0, |()| self.positions.len());
        let written = [x, y, z].map(|column| column.front(count, filling).into_iter().map(f64::bits).collect());
        answer.map(|()| written)
    }

    /// The ticket, sentence by sentence: "Refusals: 11, 1, 5, 8, 24."
    fn naive(&self) -> Result<Points, Refusal> {
        let Section { level, positions, corner, root, room } = self;
        // "columns of different lengths are refused first"
        if room.iter().any(|&length| length != positions.len()) {
            return refuse(11, 0);
        }
        if *level > HIGHEST_LEVEL {
            return refuse(1, 0);
        }
        // "Every position is checked before the corner number", "the place of a 5 is the first bad index"
        let limit = 8u128.pow(*level as u32);
        if let Some(i) = (0..positions.len()).find(|&i| positions[i] as u128 >= limit) {
            return refuse(5, i);
        }
        if *corner > 5 {
            return refuse(8, 0);
        }
        let numbers = root.corners.iter().flat_map(|v| [v.x, v.y, v.z]);
        if numbers.into_iter().any(|v| !(-512..=512).contains(&v)) {
            return refuse(24, 0);
        }
        // "The result equals the single calls one by one."
        let points: Vec<[u64; 3]> = positions.iter().map(|&p| exact(*level, p, *corner, *root)).collect();
        Ok([0, 1, 2].map(|i| points.iter().map(|point| point[i]).collect()))
    }
}
