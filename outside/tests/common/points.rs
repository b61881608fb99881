//! Corner points by exact arithmetic in 128-bit whole numbers, and roots and places at random.

use gwerniloc::{Corner, Point, Root, HIGHEST_LEVEL};

use super::random::Random;

/// The bits, so that -0 and +0 differ.
pub fn bits(p: Point) -> [u64; 3] {
    [p.x, p.y, p.z].map(f64::to_bits)
}

/// The children of a triangle by its type, each as x step, y step, type.
const CHILDREN: [[(u64, u64, usize); 4]; 2] =
    [[(0, 0, 0), (1, 0, 0), (1, 0, 1), (1, 1, 0)], [(0, 0, 1), (0, 1, 0), (0, 1, 1), (1, 1, 1)]];

/// A local corner from the digits of a position, the highest first: a step is half the parent's side.
fn local(level: u8, position: u64, corner: u8) -> [i128; 3] {
    let [mut x, mut y, mut z, mut kind] = [0, 0, 0, 0];
    let mut side = 1u64 << HIGHEST_LEVEL;
    for l in (0..level).rev() {
        let digit = (position >> (3 * l) & 7) as usize;
        let step = CHILDREN[kind as usize][digit % 4];
        side /= 2;
        x += step.0 * side;
        y += step.1 * side;
        z += digit as u64 / 4 * side;
        kind = step.2 as u64;
    }
    let (far_x, far_y) = match (kind, corner % 3) {
        (_, 0) => (0, 0),
        (0, 1) => (side, 0),
        (_, 1) => (0, side),
        _ => (side, side),
    };
    [x + far_x, y + far_y, z + if corner < 3 { 0 } else { side }].map(i128::from)
}

/// The f64 that is q / 2^42, made of its sign, its exponent and its digits.
fn quotient(q: i128) -> u64 {
    if q == 0 {
        return 0;
    }
    let size = q.unsigned_abs();
    let highest = size.ilog2();
    assert!(highest < 53, "every digit has its place");
    let digits = (size << (52 - highest)) as u64 & ((1 << 52) - 1);
    (if q < 0 { 1 << 63 } else { 0 }) | ((highest as u64 + 1023 - 42) << 52) | digits
}

/// The mean of the six corners, each with its weight: the paper's Q in another form.
pub fn exact(level: u8, position: u64, corner: u8, root: Root) -> [u64; 3] {
    let [x, y, z] = local(level, position, corner);
    let edge = 1 << HIGHEST_LEVEL;
    let weights = [(edge - x) * (edge - z), (x - y) * (edge - z), y * (edge - z), (edge - x) * z, (x - y) * z, y * z];
    let mean = |of: fn(Corner) -> i64| {
        let q = weights.iter().zip(root.corners).map(|(w, v)| w * of(v) as i128).sum::<i128>();
        assert!(q.abs() <= 1 << 51, "the bound on Q");
        quotient(q)
    };
    [mean(|v| v.x), mean(|v| v.y), mean(|v| v.z)]
}

impl Random {
    fn number(&mut self) -> i64 {
        match self.below(8) {
            0 => 512,
            1 => -512,
            2 => 0,
            3 => self.below(5) as i64 - 2,
            _ => self.below(1_025) as i64 - 512,
        }
    }

    /// Six corners with numbers from -512 to 512, the ends and small numbers among them.
    pub fn root(&mut self) -> Root {
        Root { corners: [0; 6].map(|_| Corner { x: self.number(), y: self.number(), z: self.number() }) }
    }

    /// Puts one of the eighteen numbers outside -512 to 512.
    pub fn spoil_root(&mut self, root: &mut Root) {
        let v = self.pick(&[513, -513, i64::MIN, i64::MAX, 1 << 62]);
        let at = &mut root.corners[self.below(6) as usize];
        match self.below(3) {
            0 => at.x = v,
            1 => at.y = v,
            _ => at.z = v,
        }
    }

    /// A level and one of its positions.
    pub fn place(&mut self) -> (u8, u64) {
        let level = self.below(HIGHEST_LEVEL as u64 + 1) as u8;
        let last = (1u64 << (3 * level)) - 1;
        let position = match self.below(8) {
            0 => 0,
            1 => last,
            _ => self.next() & last,
        };
        (level, position)
    }
}
