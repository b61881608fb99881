//! Compares the corner points for a section of the proved library with the plain code, the ticket and the single calls,
//! bit for bit: the refusal, the points, and every lent entry beside them.

mod common;

use common::leaves::positions;
use common::lent::{sampled, strange};
use common::points::bits;
use common::random::Random;
use common::sample::{run_file, Fields, Lines};
use common::section::{Points, Section};
use common::tally::Tally;
use gwerniloc::{corner_point, Refusal, HIGHEST_LEVEL, MOST_LEAVES};

/// All three agree, and so do the single calls: at each position of an accepted section, and with the number of a refusal
/// but 11 where its place is, or at position 0 where there is none. Gives how many points these were.
fn ask(tally: &mut Tally, question: &Section) -> Result<usize, Refusal> {
    let answer = tally.count(question.ask(strange), question);
    let Section { level, corner, root, .. } = *question;
    let single = |position| corner_point(level, position, corner, root).map(bits);
    match &answer {
        Ok([x, y, z]) => {
            for (i, &position) in question.positions.iter().enumerate() {
                assert_eq!(single(position), Ok([x[i], y[i], z[i]]), "index {i}: {level} {position} {corner} {root:?}");
            }
        }
        Err(Refusal { number: 11, .. }) => {}
        Err(Refusal { number, place }) => {
            let position = question.positions.get(*place as usize).copied().unwrap_or(0);
            assert_eq!(single(position), Err(Refusal { number: *number, place: 0 }), "{question:?}");
        }
    }
    answer.map(|[x, ..]| x.len())
}

/// The refusal with a number, at a place.
fn refused(number: u8, place: usize) -> Result<usize, Refusal> {
    Err(Refusal { number, place: place as u64 })
}

/// The ways of `Random::positions`.
const WAYS: u64 = 8;

impl Random {
    /// So many positions of a level, which come round to its start again if it has fewer.
    fn positions(&mut self, way: u64, level: u8, count: usize) -> Vec<u64> {
        let (limit, count) = (positions(level), count as u64);
        let (first, second) = (self.below(limit), self.below(limit));
        let on = |i: u64| (first + i) % limit;
        let mut position = |i: u64| match way {
            // In order: from anywhere, up to the last, and back.
            0 => on(i),
            1 => (limit - (count - i) % limit) % limit,
            2 => on(count - i),
            // Each three times; two by turns; the children of one parent in any order.
            3 => on(i / 3),
            4 => [first, second][i as usize % 2],
            5 => first / 8 * 8 + self.below(limit.min(8)),
            // Every seventh; anywhere.
            6 => on(7 * i),
            _ => self.below(limit),
        };
        (0..count).map(&mut position).collect()
    }

    /// A position that a level doesn't have: the next after the last, the greatest, or a good one with a bit set.
    fn beyond(&mut self, level: u8) -> u64 {
        let limit = positions(level);
        let good = self.below(limit);
        self.pick(&[limit, limit, limit + good, 1 << 63 | good, u64::MAX])
    }

    fn section(&mut self, way: u64, level: u8, count: usize) -> Section {
        Section::new(level, self.positions(way, level, count), self.below(6) as u8, self.root())
    }
}

/// How many positions have another parent than the one before them, and how many the same.
fn parents(positions: &[u64]) -> [usize; 2] {
    let other = positions.windows(2).filter(|pair| pair[0] / 8 != pair[1] / 8).count();
    [other, positions.len().saturating_sub(1) - other]
}

#[test]
fn every_level_in_every_way() {
    let (mut r, mut tally) = (Random(41), Tally::default());
    let (mut points, mut other, mut same) = (0, 0, 0);
    for level in 0..=HIGHEST_LEVEL {
        for way in 0..WAYS {
            for round in 0..50 {
                let count = if round < 40 { round } else { r.below(1_000) as usize };
                let question = r.section(way, level, count);
                assert_eq!(ask(&mut tally, &question), Ok(count));
                let [changes, stays] = parents(&question.positions);
                (points, other, same) = (points + count, other + changes, same + stays);
            }
        }
    }
    println!("{points} points, {other} of another parent than the last, {same} of the same");
    assert!(points > 900_000 && other > 300_000 && same > 300_000);
    tally.covers("sections", &[0], 22 * WAYS * 50);
}

/// Every position of the levels up to 4, for every corner, once on and once back.
#[test]
fn whole_levels() {
    let (mut r, mut tally) = (Random(42), Tally::default());
    for level in 0..=4 {
        for corner in 0..6 {
            let mut question = Section::new(level, (0..positions(level)).collect(), corner, r.root());
            assert_eq!(ask(&mut tally, &question), Ok(1 << (3 * level)));
            question.positions.reverse();
            assert_eq!(ask(&mut tally, &question), Ok(1 << (3 * level)));
        }
    }
    tally.covers("whole levels", &[0], 5 * 6 * 2);
}

/// As many as the drawing desk has; and with the last of them bad.
#[test]
fn a_hundred_thousand() {
    let (mut r, mut tally) = (Random(43), Tally::default());
    for level in [6, 13, HIGHEST_LEVEL] {
        for way in 0..WAYS {
            let mut question = r.section(way, level, 100_000);
            assert_eq!(ask(&mut tally, &question), Ok(100_000));
            question.positions[99_999] = r.beyond(level);
            assert_eq!(ask(&mut tally, &question), refused(5, 99_999));
        }
    }
    tally.covers("sections of 100,000", &[0, 5], 3 * WAYS);
}

/// There is no upper limit: more positions than a list may have leaves.
#[test]
fn more_than_a_list_has() {
    let (mut r, mut tally) = (Random(51), Tally::default());
    let count = MOST_LEAVES + 1;
    let mut question = r.section(0, HIGHEST_LEVEL, count);
    assert_eq!(ask(&mut tally, &question), Ok(count));
    question.positions[count - 1] = r.beyond(HIGHEST_LEVEL);
    assert_eq!(ask(&mut tally, &question), refused(5, count - 1));
}

/// Every level and every corner number there is, for no position, a good one and a bad one, in a good root and a bad.
#[test]
fn every_level_and_corner_number() {
    let (mut r, mut tally) = (Random(44), Tally::default());
    for choice in 0..6 {
        for level in 0..=255 {
            let any = [r.below(positions(level.min(HIGHEST_LEVEL))), r.beyond(level.min(HIGHEST_LEVEL))];
            let positions = [vec![], vec![any[0]], vec![any[1]]][choice / 2].clone();
            for corner in 0..=255 {
                let mut question = Section::new(level, positions.clone(), corner, r.root());
                if choice % 2 == 1 {
                    r.spoil_root(&mut question.root);
                }
                let _ = ask(&mut tally, &question);
            }
        }
    }
    // Two of three kinds of positions are good.
    let times = [0, 1, 5, 8, 24].map(|number| tally.times(number));
    assert_eq!(times, [2 * 22 * 6, 6 * 234 * 256, 2 * 22 * 256, 4 * 22 * 250, 2 * 22 * 6]);
    assert_eq!(tally.total(), 6 * 256 * 256);
}

/// The lengths of the positions and of the three columns, each a choice of two lengths, but not all the same; or all
/// four different.
fn unequal(n: usize, k: usize) -> impl Iterator<Item = [usize; 4]> {
    let choice = move |choice: usize| [0, 1, 2, 3].map(|column| if choice >> column & 1 == 1 { k } else { n });
    (1..15).map(choice).chain([[n, k, n + k + 1, 2 * (n + k) + 2], [n + k + 1, 2 * (n + k) + 2, k, n]])
}

/// Columns of every choice of two lengths, and all four different, with no other fault and with all.
#[test]
fn columns_of_unequal_length() {
    let (mut r, mut tally) = (Random(45), Tally::default());
    for n in [0usize, 1, 2, 7, 8, 15, 16, 17, 33, 1_000] {
        let lengths = [n + 1, n + 16, 2 * n + 1, n.saturating_sub(1), n / 2, 0];
        for length in lengths.into_iter().filter(|&length| length != n) {
            for [positions, room @ ..] in unequal(n, length) {
                let mut question = r.section(7, HIGHEST_LEVEL, positions);
                question.room = room;
                assert_eq!(ask(&mut tally, &question), refused(11, 0));
                question.positions.fill(u64::MAX);
                (question.level, question.corner) = (22, 6);
                r.spoil_root(&mut question.root);
                assert_eq!(ask(&mut tally, &question), refused(11, 0));
            }
        }
    }
    tally.covers("unequal columns", &[11], 2 * 16 * (3 + 9 * 6));
}

/// Two bad positions, at every two indexes, with all else good and with the later faults.
#[test]
fn the_first_bad_position() {
    let (mut r, mut tally) = (Random(46), Tally::default());
    for level in 0..=HIGHEST_LEVEL {
        for n in [1, 2, 3, 16, 17, 40] {
            for (i, j) in (0..n).flat_map(|i| (i..n).map(move |j| (i, j))) {
                let mut question = r.section(7, level, n);
                (question.positions[i], question.positions[j]) = (r.beyond(level), r.beyond(level));
                assert_eq!(ask(&mut tally, &question), refused(5, i));
                question.corner = 6 + r.below(250) as u8;
                r.spoil_root(&mut question.root);
                assert_eq!(ask(&mut tally, &question), refused(5, i));
            }
        }
    }
    tally.covers("bad positions", &[5], 2 * 22 * (1 + 3 + 6 + 136 + 153 + 820));
}

/// Each of the root's numbers at the ends and past them.
#[test]
fn every_number_of_the_root() {
    let (mut r, mut tally) = (Random(47), Tally::default());
    for number in 0..18 {
        for (v, good) in [(512, true), (-512, true), (513, false), (-513, false), (i64::MIN, false), (i64::MAX, false)]
        {
            for count in [0, 1, 20] {
                let mut question = r.section(7, HIGHEST_LEVEL, count);
                let at = &mut question.root.corners[number / 3];
                *[&mut at.x, &mut at.y, &mut at.z][number % 3] = v;
                assert_eq!(ask(&mut tally, &question), if good { Ok(count) } else { refused(24, 0) });
            }
        }
    }
    assert_eq!([0, 24].map(|number| tally.times(number)), [18 * 2 * 3, 18 * 4 * 3]);
}

/// A question with the chosen ones of five faults, and what must come out: the first of them in the ticket's order.
fn several(r: &mut Random, chosen: impl Fn(usize) -> bool) -> (Section, Result<usize, Refusal>) {
    let (way, level, n) = (r.below(WAYS), r.below(22) as u8, 1 + r.below(50) as usize);
    let mut question = r.section(way, level, n);
    let mut expected = Ok(n);
    // From the last in order to the first.
    if chosen(0) {
        r.spoil_root(&mut question.root);
        expected = refused(24, 0);
    }
    if chosen(1) {
        question.corner = 6 + r.below(250) as u8;
        expected = refused(8, 0);
    }
    if chosen(2) {
        let bad: Vec<usize> = (0..=r.below(4)).map(|_| r.below(n as u64) as usize).collect();
        bad.iter().for_each(|&i| question.positions[i] = r.beyond(level));
        expected = refused(5, *bad.iter().min().expect("at least one"));
    }
    if chosen(3) {
        question.level = 22 + r.below(234) as u8;
        expected = refused(1, 0);
    }
    if chosen(4) {
        let length = r.pick(&[0, n - 1, n + 1, 2 * n]);
        match r.below(4) as usize {
            0 => question.positions.resize(length, 0),
            column => question.room[column - 1] = length,
        }
        expected = refused(11, 0);
    }
    (question, expected)
}

/// Every choice of the faults, many times over: the first in order wins.
#[test]
fn several_faults_at_once() {
    let (mut r, mut tally) = (Random(48), Tally::default());
    for choice in (0..1_000 << 5).map(|choice| choice % 32) {
        let (question, expected) = several(&mut r, |fault| choice >> fault & 1 == 1);
        assert_eq!(ask(&mut tally, &question), expected, "choice {choice:b}: {question:?}");
    }
    let times = [0, 24, 8, 5, 1, 11].map(|number| tally.times(number));
    assert_eq!(times, [1_000, 1_000, 2_000, 4_000, 8_000, 16_000]);
}

/// The answers to a section line: level, corner, a root, the positions, the lengths of the columns; then the number of
/// points, and of each the bits of three f64.
fn section_line(fields: &mut Fields) -> Lines {
    let (level, corner, root) = (fields.next()?, fields.next()?, fields.root()?);
    let count: usize = fields.next()?;
    let positions = (0..count).map(|_| fields.next()).collect::<Result<_, _>>()?;
    let question = Section { level, positions, corner, root, room: fields.lengths()? };
    let words = |answer: &Result<Points, Refusal>| match answer {
        Ok([x, y, z]) => (0..x.len())
            .fold(format!("ok {}", x.len()), |line, i| format!("{line} {:016x} {:016x} {:016x}", x[i], y[i], z[i])),
        Err(refusal) => format!("refused {} {}", refusal.number, refusal.place),
    };
    Ok(Some(question.ask(sampled).iter().map(words).collect()))
}

#[test]
fn the_section_lines_of_the_sample() {
    let line = |op: &str, fields: &mut Fields| if op == "t1_section" { section_line(fields) } else { Ok(None) };
    assert_eq!(run_file("requests.txt", "section", line), [87, 0], "every section line of requests.txt runs");
}
