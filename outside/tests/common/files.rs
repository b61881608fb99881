//! The calls of the grid file, asked of the proved library, of the plain code and of a reader and a writer that go leaf
//! by leaf, in this order. The lent memory is compared before and after.

use gwerniloc::{plain, Refusal, Size, HIGHEST_LEVEL, MOST_LEAVES, MOST_ROOTS};

use super::calls::Answers;
use super::leaves::Leaves;
use super::lent::{Filling, Lent, LentLeaves};
use super::naive;

/// A grid that was read: its roots and its leaves.
pub type Grid = (u64, Leaves);

/// The file of a list, written into so many bytes.
pub fn write(roots: u16, leaves: &Leaves, room: usize, filling: Filling) -> Answers<Vec<u8>> {
    let ask = |proved| {
        let mut lent = Lent::filled(room, filling);
        let bytes = lent.write();
        let list = LentLeaves::holding(leaves);
        let (root, level, position) = (list.root.read(), list.level.read(), list.position.read());
        let answer = if proved {
            gwerniloc::write_file(roots, root, level, position, bytes)
        } else {
            plain::file::write(roots, root, level, position, bytes).result()
        };
        list.holds(leaves);
        let written = lent.front(answer.map_or(0, |count| count as usize), filling);
        answer.map(|_| written)
    };
    [ask(true), ask(false), written(roots, leaves, room)]
}

/// The list in a file, read into columns of these lengths.
pub fn read(file: &[u8], lengths: [usize; 3], filling: Filling) -> Answers<Grid> {
    let ask = |proved| {
        let mut lent = LentLeaves::filled(lengths, filling);
        let (root, level, position) = (lent.root.write(), lent.level.write(), lent.position.write());
        let bytes = Lent::holding(file);
        let answer = if proved {
            gwerniloc::read_file(bytes.read(), root, level, position)
        } else {
            plain::file::read(bytes.read(), root, level, position).result()
        };
        bytes.holds(file);
        let Size { leaves, .. } = answer.unwrap_or_default();
        let written = lent.front(leaves as usize, filling);
        answer.map(|size| (size.roots, written))
    };
    [ask(true), ask(false), grid(file, lengths)]
}

fn refuse<T>(number: u8, place: usize) -> Result<T, Refusal> {
    Err(Refusal { number, place: place as u64 })
}

/// "groups of seven bits, lowest group first, top bit set on all but the last byte, shortest form"
fn digits(mut number: usize) -> Vec<u8> {
    let mut groups = vec![(number % 128) as u8];
    while number >= 128 {
        number /= 128;
        groups.push((number % 128) as u8);
    }
    let last = groups.len() - 1;
    groups[..last].iter_mut().for_each(|group| *group += 128);
    groups
}

/// A file with these numbers after the tag.
pub fn file(numbers: impl IntoIterator<Item = usize>) -> Vec<u8> {
    b"PGR1".iter().copied().chain(numbers.into_iter().flat_map(digits)).collect()
}

/// "List calls: 17, 11, then each leaf in turn 1, 5, 12", last 14; "then K, then the number of runs R, then R pairs"
fn written(roots: u16, leaves: &Leaves, room: usize) -> Result<Vec<u8>, Refusal> {
    naive::check(roots, leaves)?;
    let mut runs: Vec<(u8, usize)> = Vec::new();
    for &level in &leaves.level {
        match runs.last_mut() {
            Some((before, count)) if *before == level => *count += 1,
            _ => runs.push((level, 1)),
        }
    }
    let pairs = runs.iter().flat_map(|&(level, count)| [level as usize, count]);
    let file = file([roots as usize, runs.len()].into_iter().chain(pairs));
    if room < file.len() {
        return refuse(14, file.len());
    }
    Ok(file)
}

/// A file and how far it was read.
struct Reader<'a> {
    bytes: &'a [u8],
    at: usize,
}

impl Reader<'_> {
    /// The number that comes next, and its offset. 19 and 20 are told by its bytes up to the first without the top bit.
    fn number(&mut self) -> Result<(usize, usize), Refusal> {
        let (at, rest) = (self.at, &self.bytes[self.at..]);
        let last = rest.iter().take(3).position(|&byte| byte < 128);
        let Some(last) = last else { return refuse(if rest.len() < 3 { 19 } else { 20 }, at) };
        let groups = &rest[..=last];
        let number = groups.iter().rev().fold(0, |number, &byte| number * 128 + byte as usize % 128);
        if digits(number) != groups {
            return refuse(20, at);
        }
        self.at += groups.len();
        Ok((number, at))
    }

    /// The leaves of the next run, one after the other: `due` is the root and the smallest cell where one must start.
    fn run(&mut self, roots: usize, due: &mut (usize, u64), leaves: &mut Leaves) -> Result<(), Refusal> {
        let (level, level_at) = self.number()?;
        if level > HIGHEST_LEVEL as usize {
            return refuse(1, level_at);
        }
        let level = level as u8;
        if leaves.level.last() == Some(&level) {
            return refuse(21, level_at);
        }
        let (count, count_at) = self.number()?;
        if count == 0 {
            return refuse(21, count_at);
        }
        if leaves.len() + count > MOST_LEAVES {
            return refuse(15, count_at);
        }
        let cells = 8u64.pow((HIGHEST_LEVEL - level) as u32);
        for _ in 0..count {
            let (root, cell) = *due;
            if root >= roots || cell % cells != 0 {
                return refuse(12, level_at);
            }
            leaves.push((root as u16, level, cell / cells));
            let end = cell + cells;
            *due = if end == 8u64.pow(HIGHEST_LEVEL as u32) { (root + 1, 0) } else { (root, end) };
        }
        Ok(())
    }
}

/// "11 on the columns, then byte order .. After the last run 12 and then 22 .., last 14"
fn grid(bytes: &[u8], lengths: [usize; 3]) -> Result<Grid, Refusal> {
    if lengths != [lengths[0]; 3] {
        return refuse(11, 0);
    }
    if bytes.get(..4) != Some(&[0x50, 0x47, 0x52, 0x31]) {
        return refuse(18, 0);
    }
    let mut reader = Reader { bytes, at: 4 };
    let (roots, roots_at) = reader.number()?;
    if !(1..=MOST_ROOTS as usize).contains(&roots) {
        return refuse(17, roots_at);
    }
    let (runs, runs_at) = reader.number()?;
    if !(1..=MOST_LEAVES).contains(&runs) {
        return refuse(21, runs_at);
    }
    let (mut due, mut leaves) = ((0, 0), Leaves::default());
    for _ in 0..runs {
        reader.run(roots, &mut due, &mut leaves)?;
    }
    if due != (roots, 0) {
        return refuse(12, reader.at);
    }
    if reader.at < bytes.len() {
        return refuse(22, reader.at);
    }
    if lengths[0] < leaves.len() {
        return refuse(14, leaves.len());
    }
    Ok((roots as u64, leaves))
}
