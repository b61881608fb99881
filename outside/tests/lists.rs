//! Compares the list check of the proved library with the plain code and the naive definition, and all with what must
//! come out: on uniform lists and on random refinements, whole and with one fault each; then on lists with several
//! faults at once.

mod common;

use common::calls::check;
use common::faults::{spoil, FAULTS};
use common::leaves::{positions, refined, uniform, Leaves};
use common::random::Random;
use common::tally::Tally;
use gwerniloc::{Refusal, MOST_LEAVES, MOST_ROOTS};

/// The answers that a list can have.
const NUMBERS: [usize; 6] = [0, 1, 5, 11, 12, 17];

/// A valid list is accepted, and refused with each of the faults.
fn whole_and_spoilt(tally: &mut Tally, r: &mut Random, roots: u16, leaves: &Leaves) {
    tally.expect(check(roots, leaves), Ok(()), &(roots, leaves));
    for fault in 0..FAULTS {
        let (mut roots, mut spoilt) = (roots, leaves.clone());
        if let Some(refusal) = spoil(r, fault, &mut roots, &mut spoilt) {
            tally.expect(check(roots, &spoilt), Err(refusal), &(fault, roots, &spoilt));
        }
    }
}

#[test]
fn small_lists() {
    let (mut r, mut tally) = (Random(4), Tally::default());
    for roots in 1..=50 {
        for level in 0..=2 {
            whole_and_spoilt(&mut tally, &mut r, roots, &uniform(roots, level));
        }
    }
    for _ in 0..12_000 {
        let roots = 1 + r.below(50) as u16;
        let most = roots as usize + r.below(400) as usize;
        let leaves = refined(&mut r, roots, most);
        whole_and_spoilt(&mut tally, &mut r, roots, &leaves);
    }
    tally.covers("small lists", &NUMBERS, 5_000);
}

#[test]
fn large_lists() {
    let (mut r, mut tally) = (Random(5), Tally::default());
    for (roots, level) in [(4, 6), (32, 5), (1, 6), (50, 4), (2_048, 3), (4_095, 2)] {
        whole_and_spoilt(&mut tally, &mut r, roots, &uniform(roots, level));
    }
    // A list of so many roots has so many leaves, plus 7 for each that was refined: 4 and 46 reach the limit.
    for (roots, most) in [(1, 70_000), (4, MOST_LEAVES), (7, MOST_LEAVES), (46, MOST_LEAVES), (50, 300_000)] {
        let leaves = refined(&mut r, roots, most);
        assert_eq!(leaves.len(), most - (most - roots as usize) % 7);
        whole_and_spoilt(&mut tally, &mut r, roots, &leaves);
    }
    tally.covers("large lists", &NUMBERS, 5);
}

#[test]
fn lists_at_the_limits() {
    let mut tally = Tally::default();
    let mut count = |roots, leaves: &Leaves, expected, what| tally.expect(check(roots, leaves), expected, &what);
    let refused = |number, place| Err(Refusal { number, place });
    // As many leaves as may be; one more, though it would be valid; one more that would not be.
    let mut leaves = uniform(4, 6);
    assert_eq!(leaves.len(), MOST_LEAVES);
    count(4, &leaves, Ok(()), "the most leaves");
    leaves.push((4, 0, 0));
    count(5, &leaves, refused(11, 0), "a leaf too many");
    leaves.level[0] = 22;
    count(4, &leaves, refused(11, 0), "a leaf too many");
    count(0, &leaves, refused(17, 0), "no root and a leaf too many");
    // As many roots as may be, one more, one less.
    for level in 0..=2 {
        let leaves = uniform(MOST_ROOTS, level);
        let last = leaves.len() as u64 - positions(level);
        count(MOST_ROOTS, &leaves, Ok(()), "the most roots");
        count(MOST_ROOTS + 1, &leaves, refused(17, 0), "a root too many");
        count(MOST_ROOTS - 1, &leaves, refused(12, last), "a root too few");
        count(MOST_ROOTS + 1, &uniform(MOST_ROOTS + 1, level), refused(17, 0), "a root too many");
    }
    // 17 comes before 11.
    count(MOST_ROOTS + 1, &Leaves { root: vec![0], ..Leaves::default() }, refused(17, 0), "unequal");
}

/// All lists of up to three leaves of a few values: only those of whole roots are valid.
#[test]
fn every_short_list() {
    let mut tally = Tally::default();
    let mut leaves = vec![None];
    for root in 0..3 {
        for level in [0, 1, 22] {
            leaves.extend([0, 1, 8].map(|position| Some((root, level, position))));
        }
    }
    for &a in &leaves {
        for &b in &leaves {
            for &c in &leaves {
                let list: Leaves = [a, b, c].into_iter().flatten().collect();
                for roots in 0..=4 {
                    let _ = tally.count(check(roots, &list), &(roots, &list));
                }
            }
        }
    }
    // A list of one root is met three times, one of two roots as well, with the missing leaves at each place.
    assert_eq!(tally.times(0), 3 + 3 + 1);
}

/// Several values of a valid list replaced by others, so that the first of many faults must be found.
#[test]
fn many_faults() {
    let (mut r, mut tally) = (Random(6), Tally::default());
    for _ in 0..60_000 {
        let mut roots = 1 + r.below(4) as u16;
        let mut leaves = refined(&mut r, roots, 60);
        for _ in 0..r.below(4) {
            let i = r.below(leaves.len() as u64) as usize;
            let any = r.next() >> r.below(64);
            match r.below(3) {
                0 => leaves.root[i] = r.pick(&[0, 1, roots - 1, roots, u16::MAX]),
                1 => leaves.level[i] = r.pick(&[0, 1, 2, 3, 20, 21, 22, 255]),
                _ => leaves.position[i] = r.pick(&[0, 1, 7, 8, 63, 64, 1 << 63, u64::MAX, any]),
            }
        }
        if r.below(8) == 0 {
            leaves.resize([0; 3].map(|_| r.below(3) as usize + 60));
        }
        if r.below(8) == 0 {
            roots = r.pick(&[0, roots + 1, MOST_ROOTS, MOST_ROOTS + 1]);
        }
        let _ = tally.count(check(roots, &leaves), &(roots, &leaves));
    }
    tally.covers("lists with many faults", &NUMBERS, 1_000);
}
