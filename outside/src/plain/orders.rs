//! The order line and the converter of stored ones. One pass over the bytes decides, and as the length of the output is
//! worked out beforehand, one pass writes it.

use super::text::{width, Writer};
use crate::{Answer, HIGHEST_LEVEL, MOST_LEAVES, MOST_ROOTS};

/// The level that an empty field seven meant.
const MEANT: u32 = 2;

/// A refusal that is printed: its number and its field.
type Fault = (u8, u8);

/// The fields of a line without a fault.
struct Form {
    ids: [u32; 3],
    roots: u32,
    shares: u32,
    level: u32,
    leaves: u32,
    /// Where field seven begins.
    seven: usize,
}

/// A line that is read from left to right.
struct Reader<'a> {
    input: &'a [u8],
    /// The offset behind the last field.
    at: usize,
}

impl Reader<'_> {
    /// Steps over the semicolon in front of a field.
    #[inline(always)]
    fn open(&mut self, place: u8) -> Result<(), Fault> {
        if self.input.get(self.at) != Some(&b';') {
            return Err((23, place));
        }
        self.at += 1;
        Ok(())
    }

    /// Whether the line or the field ends here.
    #[inline(always)]
    fn ends(&self) -> bool {
        matches!(self.input.get(self.at), None | Some(b';' | b'\n'))
    }

    /// The number here: 1 to 9 digits up to the end of the field, the first not 0 unless it is the only one.
    #[inline(always)]
    fn number(&mut self, place: u8) -> Result<u32, Fault> {
        let rest = &self.input[self.at..];
        let (mut number, mut length) = (0, 0);
        for &byte in rest.iter().take(9) {
            let digit = byte.wrapping_sub(b'0');
            if digit > 9 {
                break;
            }
            number = 10 * number + digit as u32;
            length += 1;
        }
        self.at += length;
        if length == 0 || length > 1 && rest[0] == b'0' || !self.ends() {
            return Err((23, place));
        }
        Ok(number)
    }

    #[inline(always)]
    fn field(&mut self, place: u8) -> Result<u32, Fault> {
        self.open(place)?;
        self.number(place)
    }

    /// A number of roots or shares.
    #[inline(always)]
    fn count(&mut self, place: u8) -> Result<u32, Fault> {
        let count = self.field(place)?;
        if count.wrapping_sub(1) < MOST_ROOTS as u32 {
            Ok(count)
        } else {
            Err((17, place))
        }
    }
}

/// Reads a line. An empty field seven means `empty`, or is refused if that is nothing.
#[inline(always)]
fn read(input: &[u8], empty: Option<u32>) -> Result<Form, Fault> {
    let mut line = Reader { input, at: 0 };
    let ids = [line.number(1)?, line.field(2)?, line.field(3)?];
    let roots = line.count(4)?;
    let highest = line.field(5)?;
    if highest > HIGHEST_LEVEL as u32 {
        return Err((1, 5));
    }
    let shares = line.count(6)?;
    line.open(7)?;
    let seven = line.at;
    let level = match empty {
        Some(level) if line.ends() => level,
        _ => line.number(7)?,
    };
    if level > highest {
        return Err((23, 7));
    }
    // 4,096 roots have 2^33 leaves at level 7, and one has too many.
    let leaves = if level < 7 { roots << (3 * level) } else { u32::MAX };
    if leaves > MOST_LEAVES as u32 {
        return Err((15, 7));
    }
    if line.at + 1 != input.len() || input[line.at] != b'\n' {
        return Err((23, 8));
    }
    Ok(Form { ids, roots, shares, level, leaves, seven })
}

/// The answer of a call whose output has no room.
#[inline(always)]
fn no_room(size: usize) -> Answer<u64> {
    Answer::refused((size as u64) << 8 | 14)
}

/// Writes a line of refusal.
#[inline(always)]
fn refusal((number, field): Fault, out: &mut [u8]) -> Answer<u64> {
    let mut text = *b"refused 23 field 7\n";
    // The only number of one digit.
    let text = if number == 1 {
        &b"refused 1 field 5\n"[..]
    } else {
        (text[8], text[9], text[17]) = (b'0' + number / 10, b'0' + number % 10, b'0' + field);
        &text
    };
    let Some(front) = out.get_mut(..text.len()) else { return no_room(text.len()) };
    front.copy_from_slice(text);
    Answer::accepted(text.len() as u64)
}

/// What the converter prints on an input, at the front of `out`. Gives how many bytes.
#[inline(never)]
pub fn convert(input: &[u8], out: &mut [u8]) -> Answer<u64> {
    let seven = match read(input, Some(MEANT)) {
        Ok(form) => form.seven,
        Err(fault) => return refusal(fault, out),
    };
    let empty = input[seven] == b'\n';
    let size = input.len() + empty as usize;
    let Some(line) = out.get_mut(..size) else { return no_room(size) };
    if empty {
        line[..seven].copy_from_slice(&input[..seven]);
        line[seven..].copy_from_slice(&[b'0' + MEANT as u8, b'\n']);
    } else {
        line.copy_from_slice(input);
    }
    Answer::accepted(size as u64)
}

/// What the order program prints on an input, at the front of `out`. Gives how many bytes.
#[inline(never)]
pub fn order(input: &[u8], out: &mut [u8]) -> Answer<u64> {
    let form = match read(input, None) {
        Ok(form) => form,
        Err(fault) => return refusal(fault, out),
    };
    let size = form.opening_size() + form.rows_size();
    let Some(text) = out.get_mut(..size) else { return no_room(size) };
    let mut text = Writer::new(text);
    form.print_opening(&mut text);
    form.print_rows(&mut text);
    Answer::accepted(size as u64)
}

impl Form {
    /// The length of the first line: seven words with their spaces, and the number behind each.
    #[inline(always)]
    fn opening_size(&self) -> usize {
        let [order, site, model] = self.ids.map(width);
        let rest = [self.roots, self.level, self.leaves, self.shares].map(width);
        50 + order + site + model + rest.iter().sum::<usize>()
    }

    /// The length of all further lines. Share s begins at leaf sN / P rounded down, and r of the P shares, r the rest of
    /// N / P, have a leaf more than the others.
    #[inline(always)]
    fn rows_size(&self) -> usize {
        let (leaves, shares) = (self.leaves, self.shares);
        let (least, more) = (leaves / shares, leaves % shares);
        let mut size = 5 * shares + (shares - more) * width(least) as u32 + more * width(least + 1) as u32;
        // Shares, and first leaves, of one more digit; 4,096 times a million is below 2^32.
        for power in [10, 100, 1_000, 10_000, 100_000, 1_000_000] {
            if power >= leaves.max(shares) {
                break;
            }
            size += shares.saturating_sub(power) + shares.saturating_sub((power * shares).div_ceil(leaves));
        }
        size as usize
    }

    #[inline(always)]
    fn print_opening(&self, text: &mut Writer) {
        let [order, site, model] = self.ids;
        text.put(*b"order ", 6);
        text.long_number(order);
        text.put(*b" site ", 6);
        text.long_number(site);
        text.put(*b" model ", 7);
        text.long_number(model);
        text.put(*b" roots ", 7);
        text.number(self.roots);
        text.put(*b" level ", 7);
        text.number(self.level);
        text.put(*b" leaves ", 8);
        text.number(self.leaves);
        text.put(*b" shares ", 8);
        text.number(self.shares);
        text.put(*b"\n", 1);
    }

    /// Prints all lines after the first. A share has one of two leaf counts, which are made into text once.
    #[inline(always)]
    fn print_rows(&self, text: &mut Writer) {
        let (least, more) = (self.leaves / self.shares, self.leaves % self.shares);
        let counts = [least, least + 1].map(|count| {
            let mut end = [0; 16];
            let mut text = Writer::new(&mut end);
            text.put(*b" ", 1);
            text.number(count);
            text.put(*b"\n", 1);
            (count, text.length(), end)
        });
        let (mut first, mut rest) = (0, 0);
        for share in 0..self.shares {
            text.number(share);
            text.put(*b" ", 1);
            text.number(first);
            rest += more;
            let full = rest >= self.shares;
            rest -= if full { self.shares } else { 0 };
            let (count, length, end) = counts[full as usize];
            text.put(end, length);
            first += count;
        }
    }
}
