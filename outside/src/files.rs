//! The grid file: a leaf list as bytes.
//!
//! Each call is safe as those of the lists are.

use crate::{ffi, Refusal};

/// How large a grid is.
#[derive(Clone, Copy, Debug, Default, PartialEq, Eq)]
#[repr(C)]
pub struct Size {
    /// How many roots it has.
    pub roots: u64,
    /// How many leaves it has.
    pub leaves: u64,
}

/// Writes the file of a valid list of the given number of roots at the front of the bytes, and nothing behind it. Gives
/// how many bytes. A list has one file.
///
/// Refuses: as [`crate::check_list`] does; 14 too few bytes, place = how many the file needs. A refused call writes
/// nothing.
pub fn write_file(roots: u16, root: &[u16], level: &[u8], position: &[u64], bytes: &mut [u8]) -> Result<u64, Refusal> {
    let answer = unsafe {
        ffi::gw_file_write(
            roots,
            root.as_ptr(),
            root.len(),
            level.as_ptr(),
            level.len(),
            position.as_ptr(),
            position.len(),
            bytes.as_mut_ptr(),
            bytes.len(),
        )
    };
    answer.result()
}

/// Reads a file: writes its leaves at the front of the columns, and nothing behind them. Gives how many roots and
/// leaves. They are a valid list of these roots, and the file is the one that [`write_file`] writes.
///
/// Refuses: 11 columns of unequal length; then the first fault in the order of the bytes, place = offset of the first
/// byte of the number at fault: 18 first four bytes missing or different; 19 the file ends inside or before a number;
/// 20 a number not in its shortest form or too long; 17 roots outside 1 to 4,096; 21 runs outside 1 to 1,048,576; for a
/// level 1 above 21, 21 the level of the run before; for a count 21 none, 15 more than 1,048,576 leaves; 12, at the
/// run's level, a leaf of the run can't start where the one before it ended or lies past the last root; after the last
/// run 12 it doesn't end the last root, 22 bytes are left; last 14 columns shorter than the leaves, place = how many
/// entries they need. A refused call writes nothing.
pub fn read_file(bytes: &[u8], root: &mut [u16], level: &mut [u8], position: &mut [u64]) -> Result<Size, Refusal> {
    let answer = unsafe {
        ffi::gw_file_read(
            bytes.as_ptr(),
            bytes.len(),
            root.as_mut_ptr(),
            root.len(),
            level.as_mut_ptr(),
            level.len(),
            position.as_mut_ptr(),
            position.len(),
        )
    };
    answer.result()
}
