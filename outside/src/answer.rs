//! How a call answers in C, and how it answers in Rust.

use std::fmt;

/// Why a call was refused: a number of the table in `gwerniloc.h`, and a place. The place is 0, except that
/// `compare` and `family` give the index of the element at fault, a section that of the position, the list calls that
/// of the leaf, reading a file the offset of the number, and refusal 14 how many entries or bytes are needed.
#[derive(Clone, Copy, Debug, PartialEq, Eq, Hash)]
pub struct Refusal {
    /// The number, 1 to 24.
    pub number: u8,
    /// The place.
    pub place: u64,
}

impl Refusal {
    /// What a refusal of C says: 0 is accepted, anything else is place * 256 + number.
    #[inline]
    pub fn from_c(refusal: u64) -> Result<(), Self> {
        if refusal == 0 {
            return Ok(());
        }
        Err(Refusal { number: (refusal & 255) as u8, place: refusal >> 8 })
    }
}

impl fmt::Display for Refusal {
    fn fmt(&self, f: &mut fmt::Formatter<'_>) -> fmt::Result {
        write!(f, "refused {} place {}", self.number, self.place)
    }
}

impl std::error::Error for Refusal {}

/// An answer as C returns it: `refusal` is 0, or place * 256 + number and then `value` is all zeros.
#[derive(Clone, Copy, Debug, PartialEq, Eq)]
#[repr(C)]
pub struct Answer<T> {
    /// 0 when accepted.
    pub refusal: u64,
    /// The result.
    pub value: T,
}

impl<T: Default> Answer<T> {
    /// The answer of an accepted call.
    #[inline]
    pub fn accepted(value: T) -> Self {
        Answer { refusal: 0, value }
    }

    /// The answer of a refused call.
    #[inline]
    pub fn refused(refusal: u64) -> Self {
        Answer { refusal, value: T::default() }
    }

    /// The same answer as a `Result`.
    #[inline]
    pub fn result(self) -> Result<T, Refusal> {
        Refusal::from_c(self.refusal).map(|()| self.value)
    }
}
