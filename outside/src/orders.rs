//! The calls of the order program and of the converter: from the bytes of the input to the bytes that are printed.

use crate::{Answer, Refusal};

/// A buffer of so many bytes is never too short for [`order`].
pub const LONGEST_OUTPUT: usize = 86_212;

/// A buffer of so many bytes is never too short for [`convert`].
pub const LONGEST_LINE: usize = 45;

extern "C" {
    fn gw_order(input: *const u8, inputs: usize, out: *mut u8, outs: usize) -> Answer<u64>;
    fn gw_convert(input: *const u8, inputs: usize, out: *mut u8, outs: usize) -> Answer<u64>;
}

/// What the order program prints on an input, at the front of `out`, and nothing behind it; gives how many bytes. A line
/// that the program refuses is answered like any other: with the bytes of its one line of refusal.
///
/// Refuses: 14 `out` shorter than the output, place = how many bytes it needs. A refused call writes nothing.
pub fn order(input: &[u8], out: &mut [u8]) -> Result<u64, Refusal> {
    // SAFETY: each slice is read or written within its length, and no pointer is kept.
    unsafe { gw_order(input.as_ptr(), input.len(), out.as_mut_ptr(), out.len()) }.result()
}

/// What the converter prints on an input, at the front of `out`, and nothing behind it; gives how many bytes. A stored
/// order line with an empty field seven, which meant 2, gets the 2; one with a filled field seven stays as it is. A line
/// that was refused already when an empty field seven meant 2 is answered with its line of refusal.
///
/// Refuses: 14 `out` shorter than the output, place = how many bytes it needs. A refused call writes nothing.
pub fn convert(input: &[u8], out: &mut [u8]) -> Result<u64, Refusal> {
    // SAFETY: each slice is read or written within its length, and no pointer is kept.
    unsafe { gw_convert(input.as_ptr(), input.len(), out.as_mut_ptr(), out.len()) }.result()
}

#[cfg(test)]
mod tests {
    use super::*;

    /// The safe calls drop the value of a refused one, which must be 0; each length is that of its own bytes.
    #[test]
    fn raw_answers() {
        let line = b"1042;7;3;1;4;3;\n\n";
        let mut out = [7; 20];
        let (input, bytes) = (line.as_ptr(), out.as_mut_ptr());
        let order = |length, room| unsafe { gw_order(input, length, bytes, room) };
        let convert = |length, room| unsafe { gw_convert(input, length, bytes, room) };
        let refused = |size: u64| Answer { refusal: size << 8 | 14, value: 0 };
        assert_eq!([order(0, 0), order(16, 18), order(17, 18)], [refused(19); 3]);
        assert_eq!([convert(0, 18), convert(15, 0), convert(17, 18)], [refused(19); 3]);
        assert_eq!([convert(16, 0), convert(16, 16)], [refused(17); 2]);
        assert_eq!(out, [7; 20]);
        let (input, bytes) = (line.as_ptr(), out.as_mut_ptr());
        assert_eq!(unsafe { gw_order(input, 16, bytes, 20) }, Answer { refusal: 0, value: 19 });
        assert_eq!(out, *b"refused 23 field 7\n\x07");
        let bytes = out.as_mut_ptr();
        assert_eq!(unsafe { gw_convert(input, 16, bytes, 17) }, Answer { refusal: 0, value: 17 });
        assert_eq!(out, *b"1042;7;3;1;4;3;2\n7\n\x07");
    }
}
