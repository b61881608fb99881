//! What an adaption refuses, and in which order: lists with faults, several faults at once, results at the limit.

mod common;

use common::calls::Adaption;
use common::faults::{spoil, spoil_leaves, spoil_lengths, FAULTS};
use common::leaves::{deep, refined, uniform, Leaves};
use common::lent::foreign;
use common::marks::WAYS;
use common::random::Random;
use common::tally::Tally;
use gwerniloc::{Refusal, HIGHEST_LEVEL, MOST_LEAVES, MOST_ROOTS};

fn refused<T>(number: u8, place: usize) -> Result<T, Refusal> {
    Err(Refusal { number, place: place as u64 })
}

/// Each fault of the list check is the fault of an adaption too, whatever the marks and the room.
#[test]
fn spoilt_lists() {
    let (mut r, mut tally) = (Random(21), Tally::default());
    for round in 0..2_010 {
        let roots = 1 + r.below(20) as u16;
        // A few large ones among them.
        let most = if round % 200 == 0 { 300_000 } else { roots as usize + r.below(400) as usize };
        let leaves = refined(&mut r, roots, most);
        for fault in 0..FAULTS {
            let (mut roots, mut spoilt) = (roots, leaves.clone());
            let Some(refusal) = spoil(&mut r, fault, &mut roots, &mut spoilt) else { continue };
            let marks = (0..spoilt.len()).map(|_| r.below(4) as u8).collect();
            let question = Adaption { roots, leaves: spoilt, marks, room: [r.below(700) as usize; 3] };
            tally.expect(question.ask(foreign), Err(refusal), &(fault, &question));
        }
    }
    tally.covers("adaptions of spoilt lists", &[1, 5, 11, 12, 17], 1_000);
}

/// The faults of `several`: so many of room, marks and leaves, and so many in all.
const INNER: usize = 6;
const ALL: usize = 11;

/// A question with the chosen ones of many faults, and what must come out: the first of them in the paper's order.
fn several(r: &mut Random, chosen: impl Fn(usize) -> bool) -> (Adaption, Result<(), Refusal>) {
    let roots = 1 + r.below(5) as u16;
    let leaves = deep(r, roots);
    let n = leaves.len() as u64;
    let deepest: Vec<usize> = (0..leaves.len()).filter(|&i| leaves.level[i] == HIGHEST_LEVEL).collect();
    let marks = leaves.level.iter().map(|&level| (level < HIGHEST_LEVEL && r.below(2) == 1) as u8).collect();
    let mut question = Adaption::new(roots, &leaves, marks);
    let mut refusals = Vec::new();
    // From the last in order to the first.
    if chosen(0) {
        let needed = question.room[0];
        question.room = [r.below(needed as u64) as usize; 3];
        refusals.push((14, needed));
    }
    if chosen(1) {
        let i = r.pick(&deepest);
        question.marks[i] = 1;
        refusals.push((7, i));
    }
    if chosen(2) {
        let [i, j] = [0; 2].map(|_| r.below(n) as usize);
        question.marks[i] = r.pick(&[3, 4, 128]);
        question.marks[j] = r.pick(&[3, 130, 255]);
        refusals.push((13, i.min(j)));
    }
    refusals.extend(spoil_leaves(r, [chosen(3), chosen(4), chosen(5)], roots, &mut question.leaves));
    refusals.extend(several_lengths(r, chosen, &mut question));
    let expected = refusals.last().map_or(Ok(()), |&(number, place)| refused(number, place));
    (question, expected)
}

/// 11 for the new columns, the marks, the columns of the list, and no leaf at all; 17.
fn several_lengths(r: &mut Random, chosen: impl Fn(usize) -> bool, question: &mut Adaption) -> Option<(u8, usize)> {
    let n = question.leaves.len();
    if chosen(6) {
        question.room[r.below(3) as usize] += 1;
    }
    if chosen(7) {
        question.marks.resize(r.pick(&[0, n - 1, n + 1, 2 * n]), 0);
    }
    if chosen(8) {
        spoil_lengths(r, &mut question.leaves);
    }
    if chosen(9) {
        question.leaves = Leaves::default();
        question.marks = vec![];
    }
    if chosen(10) {
        question.roots = r.pick(&[0, MOST_ROOTS + 1, u16::MAX]);
        return Some((17, 0));
    }
    (6..10).any(chosen).then_some((11, 0))
}

/// Every choice of the faults, some times over: the first in order wins.
#[test]
fn several_faults_at_once() {
    let (mut r, mut tally) = (Random(22), Tally::default());
    // The inner ones alone more often, for the others hide them.
    for choice in (0..4 << ALL).chain((0..128 << INNER).map(|choice| choice % (1 << INNER))) {
        let (question, expected) = several(&mut r, |fault| choice >> fault & 1 == 1);
        let answer = tally.adapt(&question).map(|_| ());
        assert_eq!(answer, expected, "choice {choice:b}: {question:?}");
    }
    tally.covers("choices of faults", &[0, 1, 5, 7, 11, 12, 13, 14, 17], 100);
}

/// Every mark on one leaf of a family that is else to be merged; and on the deepest leaves.
#[test]
fn every_mark() {
    let (mut r, mut tally) = (Random(24), Tally::default());
    for mark in 0..=255 {
        for i in 0..8 {
            let mut marks = vec![2; 8];
            marks[i] = mark;
            let answer = tally.adapt(&Adaption::new(1, &uniform(1, 1), marks)).map(|result| result.len());
            assert_eq!(answer, [Ok(8), Ok(15), Ok(1)].get(mark as usize).copied().unwrap_or(refused(13, i)));
        }
        let leaves = deep(&mut r, 3);
        let first = leaves.level.iter().position(|&level| level == HIGHEST_LEVEL).expect("a leaf of level 21");
        let mut marks = vec![0; leaves.len()];
        marks[first..first + 8].fill(mark);
        let answer = tally.adapt(&Adaption::new(3, &leaves, marks)).map(|result| result.len());
        let n = leaves.len();
        assert_eq!(
            answer,
            [Ok(n), refused(7, first), Ok(n - 7)].get(mark as usize).copied().unwrap_or(refused(13, first))
        );
    }
    tally.covers("marks", &[0, 7, 13], 1);
}

/// Marks with so many leaves refined and so many families merged, of a list of one level.
fn some(refine: usize, merge: usize, n: usize) -> Vec<u8> {
    let mut marks = vec![0; n];
    marks[n - refine..].fill(1);
    marks[..8 * merge].fill(2);
    marks
}

/// Results of exactly 1,048,576 leaves, and a leaf refined more or a family merged less; 15 comes before 14.
#[test]
fn results_at_the_limit() {
    let mut tally = Tally::default();
    let (most, fifth) = (uniform(4, 6), uniform(4, 5));
    // With the first family as its parent: 1,048,576 - 7 leaves, and the next family begins at leaf 1.
    let mut less: Leaves = (7..MOST_LEAVES).map(|i| most.get(i)).collect();
    (less.level[0], less.position[0]) = (5, 0);
    let mut shifted = some(2, 1, less.len());
    shifted[..9].rotate_right(1);
    let mut limit = |roots, leaves: &Leaves, marks: Vec<u8>, length: usize| {
        for room in [0, length - 1, length] {
            let room = [room.min(MOST_LEAVES + 9); 3];
            let answer = tally.adapt(&Adaption { room, ..Adaption::new(roots, leaves, marks.clone()) });
            let expected = match length {
                _ if length > MOST_LEAVES => refused(15, 0),
                _ if room[0] < length => refused(14, length),
                _ => Ok(length),
            };
            assert_eq!(answer.map(|result| result.len()), expected, "{} leaves, {length} after", leaves.len());
        }
    };
    for (refine, merge) in [(0, 0), (1, 0), (1, 1), (2, 1), (100, 100), (101, 100), (100, 101), (MOST_LEAVES, 0)] {
        limit(4, &most, some(refine, merge, MOST_LEAVES), MOST_LEAVES + 7 * refine - 7 * merge);
    }
    limit(4, &less, some(1, 0, less.len()), MOST_LEAVES);
    limit(4, &less, some(2, 0, less.len()), MOST_LEAVES + 7);
    limit(4, &less, shifted, MOST_LEAVES);
    limit(4, &fifth, vec![1; fifth.len()], MOST_LEAVES);
    limit(5, &uniform(5, 5), vec![1; 5 << 15], 5 << 18);
    tally.covers("results at the limit", &[0, 14, 15], 1);
    assert_eq!([0, 14, 15].map(|number| tally.times(number)), [7, 2 * 7, 3 * 6]);
}

/// As many roots as may be, one more, none; with marks of every way.
#[test]
fn roots_at_the_limit() {
    let (mut r, mut tally) = (Random(23), Tally::default());
    for way in 0..WAYS {
        for (roots, k) in
            [(MOST_ROOTS, MOST_ROOTS), (MOST_ROOTS + 1, MOST_ROOTS + 1), (1, 0), (MOST_ROOTS, MOST_ROOTS + 1)]
        {
            let leaves = uniform(roots, r.below(2) as u8);
            let question = Adaption::new(k, &leaves, r.marks(way, &leaves));
            let answer = tally.adapt(&question);
            assert_eq!(answer == refused(17, 0), k == 0 || k > MOST_ROOTS);
        }
    }
    tally.covers("numbers of roots", &[0, 13, 17], 1);
}
