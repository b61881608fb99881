//! Words and decimal numbers, written into text of a known length.

/// Eight digits 0 as text.
const ZEROS: u64 = 0x3030_3030_3030_3030;

/// How many digits a number below 10^9 has.
#[inline(always)]
pub fn width(number: u32) -> usize {
    let powers = [10, 100, 1_000, 10_000, 100_000, 1_000_000, 10_000_000, 100_000_000];
    1 + powers.iter().filter(|&&power| number >= power).count()
}

/// The eight digits of a number below 10^8, the highest in the lowest byte: cut in two, in four, in eight, each part at
/// once.
#[inline(always)]
fn digits(number: u32) -> u64 {
    let number = number as u64;
    let fours = (number / 10_000) | ((number % 10_000) << 32);
    let hundreds = (fours * 10_486) >> 20 & 0x0000_007f_0000_007f;
    let twos = hundreds | (fours - 100 * hundreds) << 16;
    let tens = (twos * 103) >> 10 & 0x000f_000f_000f_000f;
    tens | (twos - 10 * tens) << 8
}

/// Text that is written from the front to the end.
pub struct Writer<'a> {
    text: &'a mut [u8],
    at: usize,
}

impl<'a> Writer<'a> {
    #[inline(always)]
    pub fn new(text: &'a mut [u8]) -> Self {
        Writer { text, at: 0 }
    }

    /// How many bytes are written.
    #[inline(always)]
    pub fn length(&self) -> usize {
        self.at
    }

    /// Writes the first bytes of a block; or all of it where there is room, for what follows is yet to be written.
    #[inline(always)]
    pub fn put<const N: usize>(&mut self, block: [u8; N], length: usize) {
        match self.text.get_mut(self.at..self.at + N) {
            Some(room) => room.copy_from_slice(&block),
            None => self.text[self.at..self.at + length].copy_from_slice(&block[..length]),
        }
        self.at += length;
    }

    /// Writes a number below 10^8.
    #[inline(always)]
    pub fn number(&mut self, number: u32) {
        let digits = digits(number);
        let zeros = digits.trailing_zeros().min(56) / 8;
        let text = (digits + ZEROS) >> (8 * zeros);
        self.put(text.to_le_bytes(), 8 - zeros as usize);
    }

    /// Writes a number below 10^9, which may have a ninth digit.
    #[inline(always)]
    pub fn long_number(&mut self, number: u32) {
        if number < 100_000_000 {
            return self.number(number);
        }
        self.put([b'0' + (number / 100_000_000) as u8], 1);
        let text = digits(number % 100_000_000) + ZEROS;
        self.put(text.to_le_bytes(), 8);
    }
}
