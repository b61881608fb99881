//! Corner points: where a corner of an element lies in space, and the same corner of many elements.

use crate::{ffi, Refusal};

/// One of a root's six corners: three whole numbers from -512 to 512.
#[derive(Clone, Copy, Debug, Default, PartialEq, Eq, Hash)]
#[repr(C)]
pub struct Corner {
    /// First coordinate.
    pub x: i64,
    /// Second coordinate.
    pub y: i64,
    /// Third coordinate.
    pub z: i64,
}

/// Where a root lies in space: its six corners, 0 to 2 of z = 0, 3 to 5 of z = 2^21. Flat and folded roots are allowed.
#[derive(Clone, Copy, Debug, Default, PartialEq, Eq, Hash)]
#[repr(C)]
pub struct Root {
    /// The corners by number.
    pub corners: [Corner; 6],
}

/// A point in space. Each coordinate has exactly its value; zero is +0.
#[derive(Clone, Copy, Debug, Default, PartialEq)]
#[repr(C)]
pub struct Point {
    /// First coordinate.
    pub x: f64,
    /// Second coordinate.
    pub y: f64,
    /// Third coordinate.
    pub z: f64,
}

/// The point of a corner, 0 to 5, of the prism at a position of a level, in a root with the given corners: exactly
/// Q / 2^42 in each coordinate, with Q = 2^21 T0 + (T1 - T0) X + (T2 - T1) Y and Tj = 2^21 vj + (v(j+3) - vj) Z for the
/// corner's local (X, Y, Z). The same local corner gives the same point, whatever the level.
///
/// Refuses: 1 level above 21; 5 position not below 8^level; 8 corner too large; 24 a root's corner outside -512 to 512.
#[inline]
pub fn corner_point(level: u8, position: u64, corner: u8, root: Root) -> Result<Point, Refusal> {
    // Safe as the calls of the elements are: any values, and no pointer.
    unsafe { ffi::gw_corner_point(level, position, corner, root) }.result()
}

/// Corner points for a whole section: the points of one corner, 0 to 5, at the given positions of one level, in a root
/// with the given corners. Entry i of the three columns is bit for bit the point of [`corner_point`] at position i. Any
/// number of positions will do, also none.
///
/// Refuses: 11 columns not all of one length; 1 level above 21; 5 a position not below 8^level, place = index of the
/// first; 8 corner too large; 24 a root's corner outside -512 to 512. A refused call writes nothing.
pub fn corner_points(
    level: u8,
    positions: &[u64],
    corner: u8,
    root: Root,
    x: &mut [f64],
    y: &mut [f64],
    z: &mut [f64],
) -> Result<(), Refusal> {
    // Safe as the list calls are: any values, each column read or written within its length, and no pointer kept.
    Refusal::from_c(unsafe {
        ffi::gw_corner_points(
            level,
            positions.as_ptr(),
            positions.len(),
            corner,
            root,
            x.as_mut_ptr(),
            x.len(),
            y.as_mut_ptr(),
            y.len(),
            z.as_mut_ptr(),
            z.len(),
        )
    })
}
