//! The order line: a plain parser that shares nothing with the proved one, what the order program and the converter print
//! by it, their calls and the programs themselves, and lines at random.

use std::io::Write;
use std::path::PathBuf;
use std::process::{Command, Stdio};

use gwerniloc::{plain, Refusal};

use super::lent::{foreign, Lent};
use super::random::Random;

/// The order or the refusal: order, site, model, roots, level used, leaves, shares; or number and field.
pub type Decision = Result<[u64; 7], (u8, usize)>;

/// What an empty field seven means.
pub type Empty = Option<u64>;

/// "Field seven may be empty and then means 2"
pub const OLD: Empty = Some(2);

/// "An empty initial level is refused, whatever the template says."
pub const NEW: Empty = None;

/// A field's number: 1 to 9 digits, no leading zero except 0 itself.
fn number(field: &[u8]) -> Option<u64> {
    let text = std::str::from_utf8(field).ok()?;
    let value: u64 = text.parse().ok()?;
    (text.len() <= 9 && value.to_string() == text).then_some(value)
}

/// The plain parser: the line is cut off at its LF, cut at its semicolons, and then looked at from left to right.
pub fn decide(input: &[u8], empty: Empty) -> Decision {
    let end = input.iter().position(|&b| b == b'\n');
    let fields: Vec<&[u8]> = input[..end.unwrap_or(input.len())].split(|&b| b == b';').collect();
    let mut numbers = [0; 7];
    for (i, place) in (1..=7).enumerate() {
        let field = *fields.get(i).ok_or((23, place))?;
        let meant = if place == 7 && field.is_empty() { empty } else { number(field) };
        numbers[i] = meant.ok_or((23, place))?;
        match place {
            4 | 6 if !(1..=4096).contains(&numbers[i]) => return Err((17, place)),
            5 if numbers[i] > 21 => return Err((1, place)),
            7 if numbers[i] > numbers[4] => return Err((23, place)),
            7 if (numbers[3] as u128) << (3 * numbers[i]) > 1 << 20 => return Err((15, place)),
            _ => {}
        }
    }
    if fields.len() > 7 || end != Some(input.len().wrapping_sub(1)) {
        return Err((23, 8));
    }
    let [order, site, model, roots, _, shares, level] = numbers;
    Ok([order, site, model, roots, level, roots << (3 * level), shares])
}

/// What the order program prints. The boundaries are found as document 01 words them, by counting up to the largest j
/// with P·j <= s·N.
pub fn ordered(decision: &Decision) -> Vec<u8> {
    let [order, site, model, roots, level, leaves, shares] = match decision {
        Ok(numbers) => *numbers,
        Err((number, field)) => return format!("refused {number} field {field}\n").into_bytes(),
    };
    let mut text = format!(
        "order {order} site {site} model {model} roots {roots} level {level} leaves {leaves} shares {shares}\n"
    );
    let mut boundary = 0;
    for s in 0..shares {
        let first = boundary;
        while shares * (boundary + 1) <= (s + 1) * leaves {
            boundary += 1;
        }
        text += &format!("{s} {first} {}\n", boundary - first);
    }
    text.into_bytes()
}

/// What the converter prints.
pub fn converted(input: &[u8]) -> Vec<u8> {
    let old = decide(input, OLD);
    if old.is_err() {
        // "prints the old refusal for a line the old program refused"
        return ordered(&old);
    }
    let text = String::from_utf8(input.to_vec()).expect("digits, semicolons and an LF");
    match text.strip_suffix(";\n") {
        // "leave it empty and mean 2"
        Some(six) => format!("{six};2\n").into_bytes(),
        // "leaving filled ones untouched"
        None => input.to_vec(),
    }
}

/// A call from an input to an output in lent bytes; gives the length of the output.
pub type Call = fn(&[u8], &mut [u8]) -> Result<u64, Refusal>;

/// The proved call and the plain one.
pub const ORDER: [Call; 2] = [gwerniloc::order, |input, out| plain::orders::order(input, out).result()];

/// The proved call and the plain one.
pub const CONVERT: [Call; 2] = [gwerniloc::convert, |input, out| plain::orders::convert(input, out).result()];

/// What a call writes into so many bytes. All other bytes stay as they were, and if it refuses all of them.
pub fn answer(call: Call, input: &[u8], room: usize) -> Result<Vec<u8>, Refusal> {
    let (given, mut lent) = (Lent::holding(input), Lent::<u8>::filled(room, foreign));
    let answer = call(given.read(), lent.write());
    given.holds(input);
    let written = lent.front(answer.map_or(0, |count| count as usize), foreign);
    answer.map(|_| written)
}

/// Both calls have this output for an input: with so many bytes to spare, with just enough, with one too few and with none.
#[track_caller]
pub fn agree(calls: [Call; 2], input: &[u8], output: &[u8], spare: usize) {
    let needed = output.len();
    for call in calls {
        for room in [needed + spare, needed, needed - 1, 0] {
            let refusal = Refusal { number: 14, place: needed as u64 };
            let expected = if room < needed { Err(refusal) } else { Ok(output.to_vec()) };
            assert_eq!(answer(call, input, room), expected, "{room} bytes for {:?}", String::from_utf8_lossy(input));
        }
    }
}

/// What a program prints on an input; it says nothing else, and ends well. It stands where `tools/build` lays it.
pub fn printed(name: &str, input: &[u8]) -> Vec<u8> {
    let root = PathBuf::from(env!("CARGO_MANIFEST_DIR")).join("..");
    let program = root.join("target/bin").join(name);
    assert!(program.is_file(), "{} is missing; make it with `tools/build {name}`", program.display());
    let mut child = Command::new(program)
        .stdin(Stdio::piped())
        .stdout(Stdio::piped())
        .stderr(Stdio::piped())
        .spawn()
        .expect("the program starts");
    // It need not read all of a long input.
    let _ = child.stdin.take().expect("a pipe").write_all(input);
    let output = child.wait_with_output().expect("the program ends");
    assert!(output.status.success() && output.stderr.is_empty());
    output.stdout
}

/// The samples' lines of an operation that prints: input and output. `order` is the old program, `t2_order` the new one.
pub fn sample(op: &str) -> Vec<(Vec<u8>, Vec<u8>)> {
    let bytes = |hex: &str| -> Vec<u8> {
        let digits = hex.trim_matches('-').as_bytes();
        digits.chunks(2).map(|two| u8::from_str_radix(std::str::from_utf8(two).unwrap(), 16).unwrap()).collect()
    };
    let lines = include_str!("../../data/base.txt").lines().chain(include_str!("../../data/requests.txt").lines());
    let lines = lines.filter_map(|line| line.split_once(" = prints "));
    let lines = lines.filter_map(|(question, output)| Some((question.strip_prefix(op)?.strip_prefix(' ')?, output)));
    lines.map(|(input, output)| (bytes(input), bytes(output))).collect()
}

const IDS: [&str; 6] = ["0", "7", "1042", "999999999", "100000000", "4294967"];
const ROOTS: [&str; 9] = ["1", "2", "3", "4", "5", "16", "4095", "4096", "4097"];
const HIGHEST: [&str; 7] = ["0", "1", "2", "4", "6", "21", "22"];
const SHARES: [&str; 8] = ["1", "2", "3", "7", "9", "17", "4096", "0"];
const LEVELS: [&str; 9] = ["", "0", "1", "2", "3", "5", "6", "7", "21"];
/// What a mutation may put into a line.
const BYTES: &[u8] = b"0123456789;;;\n\n\r -+x\0\x2f\x3a\xff.";

impl Random {
    /// Six plausible fields, each with its semicolon.
    pub fn six_fields(&mut self) -> String {
        let ids = [(); 3].map(|()| self.pick(&IDS));
        // Many shares make a long output, so there are few of them.
        let shares = self.below(SHARES.len() as u64) as usize;
        let shares = if SHARES[shares] == "4096" && self.below(20) != 0 { "5" } else { SHARES[shares] };
        format!("{};{};{};{shares};", ids.join(";"), self.pick(&ROOTS), self.pick(&HIGHEST))
    }

    /// A line of plausible fields.
    pub fn line(&mut self) -> Vec<u8> {
        format!("{}{}\n", self.six_fields(), self.pick(&LEVELS)).into_bytes()
    }

    /// The line with a byte put in, taken out, changed or doubled, or cut off or continued.
    pub fn mutate(&mut self, line: &mut Vec<u8>) {
        let at = self.below(line.len() as u64 + 1) as usize;
        match self.below(7) {
            0 | 1 => line.insert(at, self.pick(BYTES)),
            2 if at < line.len() => drop(line.remove(at)),
            3 if at < line.len() => line[at] = self.pick(BYTES),
            4 if at < line.len() => line.insert(at, line[at]),
            5 => line.truncate(at),
            _ => line.extend((0..self.below(80)).map(|i| if i % 3 == 0 { b';' } else { b'1' })),
        }
    }

    /// So many bytes without sense.
    pub fn bytes(&mut self, count: usize) -> Vec<u8> {
        (0..count).map(|_| self.pick(BYTES)).collect()
    }

    /// Some bytes without sense.
    pub fn noise(&mut self) -> Vec<u8> {
        let count = self.below(90) as usize;
        self.bytes(count)
    }

    /// The input with what follows its first 71 bytes cut off, and replaced by LFs and by bytes without sense.
    pub fn beyond_71(&mut self, input: &[u8]) -> [Vec<u8>; 3] {
        let first = &input[..input.len().min(71)];
        let more = input.len() - first.len();
        let noise = self.bytes(more);
        [vec![], vec![b'\n'; more], noise].map(|rest| [first, &rest].concat())
    }
}
