//! Compares the grid file of the proved library, read and written, with the plain code and with a reader and a writer
//! that go leaf by leaf: the answer, the result, and every lent byte and entry beside it. First the lines of the outside
//! sample, then files of random grids, whole and damaged, and files made of numbers at their limits.

mod common;

use common::faults::{spoil, FAULTS};
use common::files::{file, read, write, Grid};
use common::leaves::{children, deep, positions, refined, uniform, Leaves};
use common::lent::{foreign, sampled};
use common::random::Random;
use common::sample::{run, segments, words, Fields, Lines, Skip};
use common::tally::Tally;
use gwerniloc::{Refusal, MOST_LEAVES, MOST_ROOTS};

/// The answers that reading a file can have, but 11.
const NUMBERS: [usize; 11] = [0, 1, 12, 14, 15, 17, 18, 19, 20, 21, 22];

fn bytes(fields: &mut Fields) -> Result<Vec<u8>, Skip> {
    let hex: String = fields.next()?;
    let hex = hex.trim_start_matches('-');
    Ok((0..hex.len()).step_by(2).map(|i| u8::from_str_radix(&hex[i..i + 2], 16).expect("hex digits")).collect())
}

fn read_line(fields: &mut Fields) -> Lines {
    let answers = read(&bytes(fields)?, fields.lengths()?, sampled);
    let grid = |(roots, leaves): &Grid| [vec![*roots as i128], segments(leaves)].concat();
    Ok(Some(answers.iter().map(|answer| words(answer, grid)).collect()))
}

fn write_line(fields: &mut Fields) -> Lines {
    let answers = write(fields.next()?, &fields.leaves()?, fields.next()?, sampled);
    let hex = |file: &Vec<u8>| file.iter().map(|byte| format!("{byte:02x}")).collect::<String>();
    let line = |answer: &Result<Vec<u8>, Refusal>| match answer {
        Ok(file) => format!("ok {} {}", file.len(), hex(file)),
        refused => words(refused, |_| vec![]),
    };
    Ok(Some(answers.iter().map(line).collect()))
}

#[test]
fn the_read_lines_of_the_sample() {
    let counts = run("read", |op, fields| if op == "read" { read_line(fields) } else { Ok(None) });
    assert_eq!(counts, [508, 0], "every read line of base.txt runs");
}

#[test]
fn the_write_lines_of_the_sample() {
    let counts = run("write", |op, fields| if op == "write" { write_line(fields) } else { Ok(None) });
    assert_eq!(counts, [222, 0], "every write line of base.txt runs");
}

/// All three readers agree, and what they accept is written as the same bytes.
fn ask(tally: &mut Tally, file: &[u8], room: usize) -> Result<Grid, Refusal> {
    let answer = tally.count(read(file, [room; 3], foreign), &file);
    if let Ok((roots, leaves)) = &answer {
        for written in write(*roots as u16, leaves, file.len(), foreign) {
            assert!(written.as_deref() == Ok(file), "{file:?} is written as {written:?}");
        }
    }
    answer
}

/// The file of a valid list, which is read as the same list.
fn written(tally: &mut Tally, roots: u16, leaves: &Leaves) -> Vec<u8> {
    // No run is longer than its leaves, and no number has more than three bytes.
    let room = 10 + 6 * leaves.len();
    let file = tally.count(write(roots, leaves, room, foreign), &roots).expect("a valid list");
    let answer = ask(tally, &file, leaves.len());
    assert!(answer == Ok((roots as u64, leaves.clone())), "the list of {file:?}");
    file
}

/// A small random grid and its file.
fn grid(tally: &mut Tally, r: &mut Random) -> (Leaves, Vec<u8>) {
    let roots = 1 + r.pick(&[0, 0, 1, 3, 20, 200]) * r.below(2) as u16;
    let most = roots as usize + r.below(150) as usize;
    let leaves = if r.below(8) == 0 { deep(r, roots) } else { refined(r, roots, most) };
    let file = written(tally, roots, &leaves);
    (leaves, file)
}

/// Reads the files of so many grids, each damaged in all the ways that `damage` gives, mostly with room for the grid.
fn damaged(seed: u64, grids: usize, damage: impl Fn(&mut Random, &[u8]) -> Vec<Vec<u8>>) -> Tally {
    let (mut r, mut whole, mut tally) = (Random(seed), Tally::default(), Tally::default());
    for _ in 0..grids {
        let (leaves, file) = grid(&mut whole, &mut r);
        for spoilt in damage(&mut r, &file) {
            let room = r.pick(&[leaves.len(), leaves.len(), leaves.len() + 9, 2 * leaves.len(), 0]);
            let _ = ask(&mut tally, &spoilt, room);
        }
    }
    whole.covers("files of random grids, written and read,", &[0], 2 * grids as u64);
    assert!(tally.total() >= 50_000, "{} files", tally.total());
    tally
}

#[test]
fn cut_at_every_length() {
    let tally = damaged(41, 2_000, |_, file| (0..file.len()).map(|end| file[..end].to_vec()).collect());
    tally.covers("files cut at every length", &[18, 19], 5_000);
}

#[test]
fn every_bit_flipped() {
    let tally = damaged(42, 600, |_, file| {
        let flipped = |bit: usize| {
            let mut file = file.to_vec();
            file[bit / 8] ^= 1 << (bit % 8);
            file
        };
        (0..8 * file.len()).map(flipped).collect()
    });
    tally.covers("files with a bit flipped", &[1, 12, 17, 18, 19, 20, 21], 200);
}

#[test]
fn bytes_inserted() {
    let tally = damaged(43, 600, |r, file| {
        let mut files = Vec::new();
        for at in 0..=file.len() {
            let any = r.next() as u8;
            for inserted in [&[any][..], &[0], &[0x80], &[r.below(22) as u8, any & 127]] {
                files.push([&file[..at], inserted, &file[at..]].concat());
            }
        }
        files
    });
    tally.covers("files with bytes inserted", &[1, 12, 17, 18, 19, 20, 21, 22], 200);
}

#[test]
fn bytes_removed() {
    let tally = damaged(44, 1_000, |r, file| {
        let mut files = Vec::new();
        for at in 0..file.len() {
            let more = at + 1 + r.below((file.len() - at) as u64) as usize;
            files.extend([at + 1, (at + 2).min(file.len()), more].map(|end| [&file[..at], &file[end..]].concat()));
        }
        files
    });
    tally.covers("files with bytes removed", &[0, 1, 12, 17, 18, 19, 20, 21], 1);
}

#[test]
fn bytes_repeated() {
    let tally = damaged(45, 1_000, |r, file| {
        let mut files = Vec::new();
        for at in 0..file.len() {
            let more = at + 1 + r.below((file.len() - at) as u64) as usize;
            files.extend([at + 1, (at + 2).min(file.len()), more].map(|end| [&file[..end], &file[at..]].concat()));
        }
        files
    });
    tally.covers("files with bytes repeated", &[1, 12, 17, 18, 19, 20, 21, 22], 50);
}

/// Several of the damages one after the other.
#[test]
fn damaged_twice() {
    let tally = damaged(46, 1_000, |r, file| {
        let once = |r: &mut Random, mut file: Vec<u8>| {
            let at = r.below(file.len() as u64 + 1) as usize;
            match r.below(4) {
                0 if at < file.len() => file[at] ^= 1 << r.below(8),
                1 if at < file.len() => drop(file.remove(at)),
                2 => file.truncate(at.max(file.len() / 2)),
                _ => file.insert(at, r.next() as u8),
            }
            file
        };
        (0..60).map(|_| (0..2 + r.below(3)).fold(file.to_vec(), |file, _| once(r, file))).collect()
    });
    tally.covers("files damaged more than once", &NUMBERS, 1);
}

/// A number, now and then at a limit.
fn limit(r: &mut Random, usual: usize) -> usize {
    let any = r.below(1 << 22) as usize;
    let limits = [0, 1, 7, 8, 9, 127, 128, 4_095, 4_096, 4_097, 16_383, 16_384, 1 << 18, MOST_LEAVES - 8];
    match r.below(12) {
        0 => any,
        1 => r.pick(&limits),
        2 => r.pick(&[MOST_LEAVES - 1, MOST_LEAVES, MOST_LEAVES + 1, (1 << 21) - 1, 1 << 21]),
        _ => usual,
    }
}

/// Files that no writer made: numbers of all sizes, and runs that mostly fit.
#[test]
fn numbers_at_the_limits() {
    let (mut r, mut tally) = (Random(47), Tally::default());
    for _ in 0..60_000 {
        let roots = 1 + r.below(3) as usize;
        let runs = 1 + r.below(4) as usize;
        let mut numbers = vec![limit(&mut r, roots), limit(&mut r, runs)];
        for _ in 0..runs {
            let level = r.pick(&[0, 0, 1, 1, 2, 2, 3, 6, 20, 21, 22]);
            let usual = r.pick(&[1, 2, 4, 7, 8, 8, 14, 16, 56, 64, roots, 8 * roots]);
            numbers.extend([level, limit(&mut r, usual)]);
        }
        numbers.truncate(numbers.len() - r.pick(&[0, 0, 0, 0, 0, 1]));
        let mut file = file(numbers);
        file.extend(&[r.next() as u8; 3][..r.pick(&[0, 0, 0, 0, 1, 3])]);
        let room = r.pick(&[0, 8, 100, 5_000]);
        let _ = ask(&mut tally, &file, room);
    }
    tally.covers("files of numbers", &[0, 1, 12, 14, 15, 17, 19, 20, 21, 22], 50);
}

/// Every choice of up to five bytes of these after the tag, and one root with any two bytes as its run.
#[test]
fn every_short_file() {
    let mut tally = Tally::default();
    let limits = [0, 1, 2, 8, 21, 22, 32, 64, 127, 128, 129, 160, 255];
    for length in 0..=5u32 {
        for choice in 0..limits.len().pow(length) {
            let tail = (0..length).map(|i| limits[choice / limits.len().pow(i) % limits.len()]);
            let file: Vec<u8> = b"PGR1".iter().copied().chain(tail).collect();
            let _ = ask(&mut tally, &file, 64);
        }
    }
    for run in 0..=u16::MAX {
        let [level, count] = run.to_be_bytes();
        let _ = ask(&mut tally, &[b"PGR1".as_slice(), &[1, 1, level, count]].concat(), 64);
    }
    tally.covers("short files", &[0, 1, 12, 14, 17, 19, 20, 21, 22], 1);
}

/// Columns of no entry, one too few, as many as needed, more; and of unequal length, which comes before all else.
#[test]
fn rooms() {
    let (mut r, mut tally) = (Random(48), Tally::default());
    for _ in 0..1_500 {
        let (leaves, mut file) = grid(&mut tally, &mut r);
        let n = leaves.len();
        for room in [0, n - 1, n, n + 1, n + 50] {
            let answer = ask(&mut tally, &file, room).map(|_| ());
            let expected = if room < n { Err(Refusal { number: 14, place: n as u64 }) } else { Ok(()) };
            assert_eq!(answer, expected, "room {room} for {n} leaves");
        }
        if r.below(2) == 0 {
            file.truncate(r.below(file.len() as u64) as usize);
        }
        for odd in 0..3 {
            for other in [0, n - 1, n + 1] {
                let mut lengths = [n; 3];
                lengths[odd] = other;
                let expected = Err(Refusal { number: 11, place: 0 });
                tally.expect(read(&file, lengths, foreign), expected, &(lengths, &file));
            }
        }
    }
    tally.covers("files in columns of all lengths", &[0, 11, 14], 2_000);
}

/// Writing into no byte, one too few, as many as needed, more; and lists with each fault of the list check.
#[test]
fn lists_written() {
    let (mut r, mut tally) = (Random(49), Tally::default());
    for _ in 0..3_000 {
        let roots = 1 + r.below(30) as u16;
        let most = roots as usize + r.below(300) as usize;
        let leaves = refined(&mut r, roots, most);
        let file = written(&mut tally, roots, &leaves);
        for room in [0, 4, file.len() - 1, file.len(), file.len() + 1, file.len() + 40] {
            let short = Refusal { number: 14, place: file.len() as u64 };
            let expected = if room < file.len() { Err(short) } else { Ok(file.clone()) };
            tally.expect(write(roots, &leaves, room, foreign), expected, &(roots, &leaves, room));
        }
        for fault in 0..FAULTS {
            let (mut roots, mut spoilt) = (roots, leaves.clone());
            let Some(refusal) = spoil(&mut r, fault, &mut roots, &mut spoilt) else { continue };
            let room = r.pick(&[0, file.len(), 2 * file.len()]);
            tally.expect(write(roots, &spoilt, room, foreign), Err(refusal), &(fault, roots, &spoilt));
        }
    }
    tally.covers("lists written", &[0, 1, 5, 11, 12, 14, 17], 2_000);
}

/// The leaves of so many roots at one level, every second of them refined: runs of 1 and 8.
fn half_refined(roots: u16, level: u8) -> Leaves {
    let mut leaves = Leaves::default();
    for root in 0..roots {
        for position in 0..positions(level) {
            match position % 2 {
                0 => leaves.push((root, level, position)),
                _ => children((root, level, position)).for_each(|child| leaves.push(child)),
            }
        }
    }
    leaves
}

/// As many leaves as may be, or nearly, in one run and in very many; whole, cut and with a bit flipped.
#[test]
fn large_files() {
    let (mut r, mut tally) = (Random(50), Tally::default());
    let random = refined(&mut r, 7, MOST_LEAVES);
    let grids = [(4, uniform(4, 6)), (7, half_refined(7, 5)), (7, random), (MOST_ROOTS, uniform(MOST_ROOTS, 2))];
    for (roots, leaves) in grids {
        let file = written(&mut tally, roots, &leaves);
        for _ in 0..8 {
            let (at, bit) = (r.below(file.len() as u64) as usize, r.below(8));
            let mut spoilt = file.clone();
            spoilt[at] ^= 1 << bit;
            let _ = ask(&mut tally, &spoilt, leaves.len());
            let _ = ask(&mut tally, &file[..at], leaves.len());
        }
    }
    println!("{} large files", tally.total());
    assert!(tally.times(0) >= 8);
}
