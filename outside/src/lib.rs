//! Lines, triangles and triangular prisms of levels 0 to 21 along a curve, and lists of leaves over many root prisms:
//! safe calls to the proved library.
//!
//! Every call takes any values. It gives its one result, or one numbered [`Refusal`]; the first that applies in the
//! order named at the call. The checks of an element come first and are the same everywhere: 1 level above 21,
//! 2 anchor 2^21 or more or no multiple of the side, 3 type above 1, 4 outside the root. A line has only 1 and 2.
//!
//! [`plain`] has the same calls once more, unproved. It is the second opinion of the tests and the yardstick of the
//! benchmark; programs use the methods of the three types, [`corner_point`], [`corner_points`], [`check_list`],
//! [`uniform`], [`adapt`], [`balanced`], [`shares`], [`write_file`], [`read_file`], [`order`] and [`convert`].

#![warn(missing_docs)]

use std::cmp::Ordering;

mod answer;
mod ffi;
mod files;
mod lists;
mod orders;
pub mod plain;
mod points;

pub use answer::{Answer, Refusal};
pub use files::{read_file, write_file, Size};
pub use lists::{adapt, balanced, check_list, shares, uniform};
pub use orders::{convert, order, LONGEST_LINE, LONGEST_OUTPUT};
pub use points::{corner_point, corner_points, Corner, Point, Root};

/// The highest level of all three shapes.
pub const HIGHEST_LEVEL: u8 = 21;

/// The most leaves that a list may have.
pub const MOST_LEAVES: usize = 1_048_576;

/// The most roots that a list may have, and the most shares.
pub const MOST_ROOTS: u16 = 4_096;

/// A line from `x` to `x` plus its side, 2^(21 - level).
#[derive(Clone, Copy, Debug, Default, PartialEq, Eq, Hash)]
#[repr(C)]
pub struct Line {
    /// Anchor.
    pub x: u32,
    /// Level, 0 to 21.
    pub level: u8,
}

/// A triangle with anchor `(x, y)` and side h = 2^(21 - level). Type 0 has the corners (x, y), (x+h, y), (x+h, y+h);
/// type 1 has (x, y), (x, y+h), (x+h, y+h).
#[derive(Clone, Copy, Debug, Default, PartialEq, Eq, Hash)]
#[repr(C)]
pub struct Triangle {
    /// Anchor, first coordinate.
    pub x: u32,
    /// Anchor, second coordinate.
    pub y: u32,
    /// Level, 0 to 21.
    pub level: u8,
    /// Type, 0 or 1.
    pub kind: u8,
}

/// A triangle times the line from `z` to `z` plus the side. Corners 0 to 2 are the triangle's at the lower end of the
/// line, 3 to 5 at the upper.
#[derive(Clone, Copy, Debug, Default, PartialEq, Eq, Hash)]
#[repr(C)]
pub struct Prism {
    /// Anchor, first coordinate.
    pub x: u32,
    /// Anchor, second coordinate.
    pub y: u32,
    /// Anchor, third coordinate.
    pub z: u32,
    /// Level, 0 to 21.
    pub level: u8,
    /// Type, 0 or 1.
    pub kind: u8,
}

/// The constants and the nine calls that read alike for all shapes. Only the names in C differ; `family` is written
/// out below, since each shape has its own columns.
///
/// Each call is safe because the library takes any values and keeps no pointer.
macro_rules! calls {
    ($Shape:ident, $children:literal children, $faces:literal faces, $corners:literal corners, $at:ident, $position:ident,
     $parent:ident, $child:ident, $successor:ident, $first:ident, $last:ident, $neighbour:ident, $compare:ident) => {
        impl $Shape {
            /// How many children an element has.
            pub const CHILDREN: u8 = $children;
            /// How many faces an element has.
            pub const FACES: u8 = $faces;
            /// How many corners an element has.
            pub const CORNERS: u8 = $corners;

            /// The element at a position of a level. Refuses: 1 level above 21; 5 position not below children^level.
            #[inline]
            pub fn at(level: u8, position: u64) -> Result<Self, Refusal> {
                unsafe { ffi::$at(level, position) }.result()
            }

            /// The position among all elements of the level, from 0. Refuses: the element's checks.
            #[inline]
            pub fn position(self) -> Result<u64, Refusal> {
                unsafe { ffi::$position(self) }.result()
            }

            /// The parent. Refuses: the element's checks; 6 level 0.
            #[inline]
            pub fn parent(self) -> Result<Self, Refusal> {
                unsafe { ffi::$parent(self) }.result()
            }

            /// The child with a number. Refuses: the element's checks; 7 level 21; 8 number too large.
            #[inline]
            pub fn child(self, number: u8) -> Result<Self, Refusal> {
                unsafe { ffi::$child(self, number) }.result()
            }

            /// The next element of the same level. Refuses: the element's checks; 9 the last of its level.
            #[inline]
            pub fn successor(self) -> Result<Self, Refusal> {
                unsafe { ffi::$successor(self) }.result()
            }

            /// The first descendant at a level. Refuses: the element's checks; 1 that level above 21; 6 that level
            /// smaller than the element's own.
            #[inline]
            pub fn first_descendant(self, level: u8) -> Result<Self, Refusal> {
                unsafe { ffi::$first(self, level) }.result()
            }

            /// The last descendant at a level. Refuses as [`Self::first_descendant`] does.
            #[inline]
            pub fn last_descendant(self, level: u8) -> Result<Self, Refusal> {
                unsafe { ffi::$last(self, level) }.result()
            }

            /// The element of the same level across a face. Refuses: the element's checks; 8 face too large;
            /// 10 neighbour outside the root.
            #[inline]
            pub fn neighbour(self, face: u8) -> Result<Self, Refusal> {
                unsafe { ffi::$neighbour(self, face) }.result()
            }

            /// The order of two: by the positions of their first descendants at level 21, then by level. Refuses: the
            /// checks of `self` with place 0, then those of `other` with place 1.
            #[inline]
            pub fn compare(self, other: Self) -> Result<Ordering, Refusal> {
                unsafe { ffi::$compare(self, other) }.result().map(|sign| sign.cmp(&0))
            }
        }
    };
}

calls!(
    Line, 2 children, 2 faces, 2 corners,
    gw_line_at, gw_line_position, gw_line_parent, gw_line_child, gw_line_successor,
    gw_line_first_descendant, gw_line_last_descendant, gw_line_neighbour, gw_line_compare
);
calls!(
    Triangle, 4 children, 3 faces, 3 corners,
    gw_triangle_at, gw_triangle_position, gw_triangle_parent, gw_triangle_child, gw_triangle_successor,
    gw_triangle_first_descendant, gw_triangle_last_descendant, gw_triangle_neighbour, gw_triangle_compare
);
calls!(
    Prism, 8 children, 5 faces, 6 corners,
    gw_prism_at, gw_prism_position, gw_prism_parent, gw_prism_child, gw_prism_successor,
    gw_prism_first_descendant, gw_prism_last_descendant, gw_prism_neighbour, gw_prism_compare
);

impl Line {
    /// Whether the lines in the columns are the two children of one parent, in order. Any other count, or none, is no.
    /// Refuses: 11 columns of unequal length; then each line in turn, place = its index.
    pub fn family(x: &[u32], level: &[u8]) -> Result<bool, Refusal> {
        let answer = unsafe { ffi::gw_line_family(x.as_ptr(), x.len(), level.as_ptr(), level.len()) };
        answer.result().map(|yes| yes == 1)
    }
}

impl Triangle {
    /// Whether the triangles in the columns are the four children of one parent, in order. Any other count, or none,
    /// is no. Refuses: 11 columns of unequal length; then each triangle in turn, place = its index.
    pub fn family(x: &[u32], y: &[u32], level: &[u8], kind: &[u8]) -> Result<bool, Refusal> {
        let answer = unsafe {
            ffi::gw_triangle_family(
                x.as_ptr(),
                x.len(),
                y.as_ptr(),
                y.len(),
                level.as_ptr(),
                level.len(),
                kind.as_ptr(),
                kind.len(),
            )
        };
        answer.result().map(|yes| yes == 1)
    }
}

impl Prism {
    /// Whether the prisms in the columns are the eight children of one parent, in order. Any other count, or none,
    /// is no. Refuses: 11 columns of unequal length; then each prism in turn, place = its index.
    pub fn family(x: &[u32], y: &[u32], z: &[u32], level: &[u8], kind: &[u8]) -> Result<bool, Refusal> {
        let answer = unsafe {
            ffi::gw_prism_family(
                x.as_ptr(),
                x.len(),
                y.as_ptr(),
                y.len(),
                z.as_ptr(),
                z.len(),
                level.as_ptr(),
                level.len(),
                kind.as_ptr(),
                kind.len(),
            )
        };
        answer.result().map(|yes| yes == 1)
    }
}
