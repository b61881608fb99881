//! What the tests need of a shape, once for all three: every call asked of the proved library and of the plain code.

// Each test file has this module for itself and uses a part of it.
#![allow(dead_code)]

use std::cmp::Ordering;
use std::fmt::Debug;
use std::hint::black_box;

use gwerniloc::{plain, Line, Prism, Refusal, Triangle};

pub mod calls;
pub mod faults;
pub mod files;
pub mod leaves;
pub mod lent;
pub mod marks;
pub mod naive;
pub mod orders;
pub mod points;
pub mod random;
pub mod sample;
pub mod section;
pub mod tally;

/// The answers of the proved library and of the plain code, in this order.
pub type Both<T> = [Result<T, Refusal>; 2];

/// Elements as columns. A line uses `level` and `x` alone, a triangle all but `z`.
#[derive(Clone, Debug, Default, PartialEq, Eq)]
pub struct Columns {
    pub level: Vec<u8>,
    pub x: Vec<u32>,
    pub y: Vec<u32>,
    pub z: Vec<u32>,
    pub kind: Vec<u8>,
}

impl Columns {
    pub fn push(&mut self, [level, x, y, z, kind]: [u32; 5]) {
        self.level.push(level as u8);
        self.x.push(x);
        self.y.push(y);
        self.z.push(z);
        self.kind.push(kind as u8);
    }

    /// Cuts a column of the list level, x, y, z, kind, or continues it with 0.
    pub fn resize(&mut self, column: usize, length: usize) {
        match column {
            0 => self.level.resize(length, 0),
            1 => self.x.resize(length, 0),
            2 => self.y.resize(length, 0),
            3 => self.z.resize(length, 0),
            _ => self.kind.resize(length, 0),
        }
    }
}

pub trait Shape: Copy + Eq + Debug {
    const CHILDREN: u8;
    const FACES: u8;
    const CORNERS: u8;
    /// The word in the vectors, before the underscore.
    const WORD: &'static str;
    /// Which of level, x, y, z, kind the shape has.
    const FIELDS: &'static [usize];

    /// As level, x, y, z, kind, with 0 where the shape has no such field.
    fn fields(self) -> [u32; 5];
    fn from_fields(fields: [u32; 5]) -> Self;

    fn at(level: u8, position: u64) -> Both<Self>;
    fn position(self) -> Both<u64>;
    fn parent(self) -> Both<Self>;
    fn child(self, number: u8) -> Both<Self>;
    fn successor(self) -> Both<Self>;
    fn first_descendant(self, level: u8) -> Both<Self>;
    fn last_descendant(self, level: u8) -> Both<Self>;
    fn neighbour(self, face: u8) -> Both<Self>;
    fn compare(self, other: Self) -> Both<Ordering>;
    /// Also sees to it that the lent columns are as they were.
    fn family(columns: &Columns) -> Both<bool>;

    /// The number of elements of a level.
    fn count(level: u8) -> u64 {
        (Self::CHILDREN as u64).pow(level as u32)
    }
}

/// The answer that both gave.
#[track_caller]
pub fn agreed<T: PartialEq + Debug>([proved, plain]: Both<T>) -> Result<T, Refusal> {
    assert_eq!(proved, plain, "the proved library (left) and the plain code (right) differ");
    proved
}

/// The refusal with a number, at place 0.
pub fn refused<T>(number: u8) -> Result<T, Refusal> {
    Err(Refusal { number, place: 0 })
}

macro_rules! shape {
    ($Shape:ident, $module:ident, $word:literal, $fields:expr,
     |$e:ident| $to:expr, |$f:ident| $from:expr, |$c:ident| ($($column:expr),+)) => {
        impl Shape for $Shape {
            const CHILDREN: u8 = $Shape::CHILDREN;
            const FACES: u8 = $Shape::FACES;
            const CORNERS: u8 = $Shape::CORNERS;
            const WORD: &'static str = $word;
            const FIELDS: &'static [usize] = &$fields;

            fn fields(self) -> [u32; 5] {
                let $e = self;
                $to
            }
            fn from_fields($f: [u32; 5]) -> Self {
                $from
            }
            fn at(level: u8, position: u64) -> Both<Self> {
                [$Shape::at(level, position), plain::$module::at(level, position).result()]
            }
            fn position(self) -> Both<u64> {
                [$Shape::position(self), plain::$module::position(self).result()]
            }
            fn parent(self) -> Both<Self> {
                [$Shape::parent(self), plain::$module::parent(self).result()]
            }
            fn child(self, number: u8) -> Both<Self> {
                [$Shape::child(self, number), plain::$module::child(self, number).result()]
            }
            fn successor(self) -> Both<Self> {
                [$Shape::successor(self), plain::$module::successor(self).result()]
            }
            fn first_descendant(self, level: u8) -> Both<Self> {
                [$Shape::first_descendant(self, level), plain::$module::first_descendant(self, level).result()]
            }
            fn last_descendant(self, level: u8) -> Both<Self> {
                [$Shape::last_descendant(self, level), plain::$module::last_descendant(self, level).result()]
            }
            fn neighbour(self, face: u8) -> Both<Self> {
                [$Shape::neighbour(self, face), plain::$module::neighbour(self, face).result()]
            }
            fn compare(self, other: Self) -> Both<Ordering> {
                let plain = plain::$module::compare(self, other).result();
                [$Shape::compare(self, other), plain.map(|sign| sign.cmp(&0))]
            }
            fn family(columns: &Columns) -> Both<bool> {
                let kept = columns.clone();
                let $c = black_box(columns);
                let proved = $Shape::family($($column),+);
                // Hidden from the compiler, which might take it that shared slices never change.
                assert_eq!(black_box(columns), &kept, "the lent columns have changed");
                [proved, plain::$module::family($($column),+).result().map(|yes| yes == 1)]
            }
        }
    };
}

shape!(Line, line, "line", [0, 1], |e| [e.level as u32, e.x, 0, 0, 0], |f| Line { x: f[1], level: f[0] as u8 }, |c| (
    &c.x, &c.level
));
shape!(
    Triangle,
    triangle,
    "tri",
    [0, 1, 2, 4],
    |e| [e.level as u32, e.x, e.y, 0, e.kind as u32],
    |f| Triangle { x: f[1], y: f[2], level: f[0] as u8, kind: f[4] as u8 },
    |c| (&c.x, &c.y, &c.level, &c.kind)
);
shape!(
    Prism,
    prism,
    "prism",
    [0, 1, 2, 3, 4],
    |e| [e.level as u32, e.x, e.y, e.z, e.kind as u32],
    |f| Prism { x: f[1], y: f[2], z: f[3], level: f[0] as u8, kind: f[4] as u8 },
    |c| (&c.x, &c.y, &c.z, &c.level, &c.kind)
);
