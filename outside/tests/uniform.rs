//! Compares the uniform start of the proved library with the plain code and the naive definition: the answer, and every
//! entry of the columns, also behind the leaves and after a refusal.

mod common;

use common::calls::{check, uniform};
use common::lent::foreign;
use common::tally::Tally;
use gwerniloc::{MOST_LEAVES, MOST_ROOTS};

/// The longest columns lent for more leaves than a list may have.
const LONGEST: u128 = 1 << 21;

/// How many leaves the start would have. At level 255, the product is far above 2^128.
fn leaves(roots: u16, level: u8) -> u128 {
    8u128.saturating_pow(level as u32).saturating_mul(roots as u128)
}

/// All three do the same, and the leaves that they write are a valid list.
fn count(tally: &mut Tally, roots: u16, level: u8, lengths: [usize; 3]) {
    let question = (roots, level, lengths);
    if let Ok(written) = tally.count(uniform(roots, level, lengths, foreign), &question) {
        assert_eq!(check(roots, &written), [Ok(()); 3], "{question:?}: the list check");
    }
}

/// Room for the leaves, one entry less, one more, none; then columns of unequal length, with each the odd one.
fn rooms(tally: &mut Tally, roots: u16, level: u8) {
    let all = leaves(roots, level);
    let exact = if all > LONGEST { 1_000 } else { all as usize };
    for room in [exact, exact.saturating_sub(1), exact + 1, 0] {
        count(tally, roots, level, [room; 3]);
    }
    for odd in 0..3 {
        for other in [exact + 1, exact.saturating_sub(1), 0] {
            let mut lengths = [exact; 3];
            lengths[odd] = other;
            count(tally, roots, level, lengths);
        }
    }
    count(tally, roots, level, [exact, exact + 1, exact + 2]);
}

#[test]
fn every_level() {
    let mut tally = Tally::default();
    for roots in [0, 1, 2, 7, MOST_ROOTS - 1, MOST_ROOTS, MOST_ROOTS + 1, u16::MAX] {
        for level in 0..=255 {
            rooms(&mut tally, roots, level);
        }
    }
    tally.covers("starts at every level", &[0, 1, 11, 14, 15, 17], 50);
}

/// As many leaves as may be, and a root more or less.
#[test]
fn the_most_leaves() {
    let mut tally = Tally::default();
    for (roots, level) in [(4, 6), (32, 5), (256, 4), (2_048, 3)] {
        assert_eq!(leaves(roots, level), MOST_LEAVES as u128);
        for roots in roots - 1..=roots + 1 {
            for room in [0, MOST_LEAVES - 1, MOST_LEAVES, MOST_LEAVES + 1, 2 * MOST_LEAVES] {
                count(&mut tally, roots, level, [room; 3]);
            }
        }
    }
    tally.covers("starts of the most leaves", &[0, 14, 15], 1);
    // With a root less, all but the columns of no entry have room; of the most leaves, three of five.
    assert_eq!([0, 14, 15].map(|number| tally.times(number)), [4 * (4 + 3), 4 * (1 + 2), 4 * 5]);
}

/// Every number of roots, where it is allowed with just the room for the leaves of level 0.
#[test]
fn every_number_of_roots() {
    let mut tally = Tally::default();
    for roots in 0..=u16::MAX {
        let room = if roots <= MOST_ROOTS { roots as usize } else { 9 };
        count(&mut tally, roots, 0, [room; 3]);
    }
    tally.covers("numbers of roots", &[0, 17], 1);
    assert_eq!([0, 17].map(|number| tally.times(number)), [4_096, 65_536 - 4_096]);
}
