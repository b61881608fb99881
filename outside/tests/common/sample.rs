//! The outside sample, made by a model in another language: `data/base.txt` and `data/requests.txt` have a call a line.

use std::str::{FromStr, SplitWhitespace};

use gwerniloc::{Corner, Refusal, Root};

use super::leaves::Leaves;

/// A field that the parameter's type cannot hold: the line cannot be run.
pub struct Skip;

/// The fields of a line, handed out from left to right.
pub struct Fields<'a>(SplitWhitespace<'a>);

impl Fields<'_> {
    pub fn next<T: FromStr>(&mut self) -> Result<T, Skip> {
        let word = self.0.next().expect("one more field");
        word.parse().map_err(|_| Skip)
    }

    /// The lengths of the three columns of a list.
    pub fn lengths(&mut self) -> Result<[usize; 3], Skip> {
        Ok([self.next()?, self.next()?, self.next()?])
    }

    /// The eighteen numbers of a root, corner by corner.
    pub fn root(&mut self) -> Result<Root, Skip> {
        let mut root = Root::default();
        for v in &mut root.corners {
            *v = Corner { x: self.next()?, y: self.next()?, z: self.next()? };
        }
        Ok(root)
    }

    /// The lengths of the three columns, the number of segments, the segments as root, level, position, count: so many
    /// leaves, each next one a position further, after the last position of a level at the start of the next root.
    pub fn leaves(&mut self) -> Result<Leaves, Skip> {
        let lengths = self.lengths()?;
        let segments: usize = self.next()?;
        let mut leaves = Leaves::default();
        for _ in 0..segments {
            let (mut root, level, mut position) = (self.next::<u16>()?, self.next::<u8>()?, self.next::<u64>()?);
            let count: usize = self.next()?;
            for i in 0..count {
                leaves.push((root, level, position));
                if i + 1 == count {
                    break;
                }
                position += 1;
                if position == 8u64.pow(level as u32) {
                    root = root.checked_add(1).ok_or(Skip)?;
                    position = 0;
                }
            }
        }
        leaves.resize(lengths);
        Ok(leaves)
    }

    /// Marks or weights: 0 and pairs of a value and how often it follows, or 1 and what a generator of numbers needs.
    pub fn values<T: TryFrom<u64> + Copy>(&mut self) -> Result<Vec<T>, Skip> {
        let mut values = Vec::new();
        let mut push = |value: u64, count: usize| {
            let value = T::try_from(value).map_err(|_| Skip)?;
            values.resize(values.len() + count, value);
            Ok(())
        };
        if self.next::<u8>()? == 0 {
            for _ in 0..self.next::<usize>()? {
                push(self.next()?, self.next()?)?;
            }
        } else {
            let (count, mut state): (usize, u64) = (self.next()?, self.next()?);
            let (modulus, add): (u64, u64) = (self.next()?, self.next()?);
            for _ in 0..count {
                state = state * 48_271 % 2_147_483_647;
                push(add + state % modulus, 1)?;
            }
        }
        Ok(values)
    }
}

/// Leaves in the words of the sample: how many, the number of segments, then each as `Fields::leaves` reads it.
pub fn segments(leaves: &Leaves) -> Vec<i128> {
    let mut all: Vec<[i128; 4]> = Vec::new();
    let mut due = None;
    for i in 0..leaves.len() {
        let (root, level, position) = leaves.get(i);
        match all.last_mut() {
            Some(segment) if due == Some((root as u32, level, position)) => segment[3] += 1,
            _ => all.push([root as i128, level as i128, position as i128, 1]),
        }
        let last = position + 1 == 1 << (3 * level);
        due = Some(if last { (root as u32 + 1, level, 0) } else { (root as u32, level, position + 1) });
    }
    [leaves.len() as i128, all.len() as i128].into_iter().chain(all.into_iter().flatten()).collect()
}

/// An answer in the words of the sample.
pub fn words<T>(answer: &Result<T, Refusal>, value: impl Fn(&T) -> Vec<i128>) -> String {
    match answer {
        Ok(v) => value(v).iter().fold("ok".to_string(), |line, word| format!("{line} {word}")),
        Err(refusal) => format!("refused {} {}", refusal.number, refusal.place),
    }
}

/// The answers to a line, of the proved library, of the plain code and, for lists, of the naive definition; none where
/// the test has no such call.
pub type Lines = Result<Option<Vec<String>>, Skip>;

/// Puts the lines of base.txt that `call` knows. Says how many ran and how many a parameter's type cannot hold.
pub fn run(kind: &str, call: impl Fn(&str, &mut Fields) -> Lines) -> [usize; 2] {
    run_file("base.txt", kind, call)
}

/// The same of a file of the sample.
pub fn run_file(file: &str, kind: &str, call: impl Fn(&str, &mut Fields) -> Lines) -> [usize; 2] {
    let path = format!("{}/data/{file}", env!("CARGO_MANIFEST_DIR"));
    let text = std::fs::read_to_string(&path).expect(&path);
    let [mut ran, mut skipped] = [0; 2];
    let mut faults = Vec::new();
    for (number, line) in text.lines().enumerate() {
        let Some((question, expected)) = line.split_once(" = ") else { continue };
        let mut fields = Fields(question.split_whitespace());
        let Some(op) = fields.0.next() else { continue };
        match call(op, &mut fields) {
            Ok(None) => continue,
            Ok(Some(answers)) => {
                assert!(fields.0.next().is_none(), "a field too many in line {}", number + 1);
                ran += 1;
                if answers.iter().any(|answer| answer != expected) {
                    faults.push(format!("line {}: {line}\n  {}", number + 1, answers.join("\n  ")));
                }
            }
            Err(Skip) => skipped += 1,
        }
    }
    println!("{ran} {kind} lines ran, {skipped} skipped, {} disagreed", faults.len());
    assert!(faults.is_empty(), "{} disagreed:\n{}", faults.len(), faults.join("\n"));
    [ran, skipped]
}
