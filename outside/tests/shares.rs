//! Compares the shares of the proved library with the plain code and the naive definition: the refusal, the boundaries,
//! and every lent entry beside them.

mod common;

use common::calls::Sharing;
use common::faults::{spoil, spoil_leaves, spoil_lengths, FAULTS};
use common::leaves::{refined, uniform, Leaves};
use common::lent::foreign;
use common::random::Random;
use common::tally::Tally;
use gwerniloc::{Refusal, MOST_LEAVES, MOST_ROOTS};

/// The ways of `Random::weights` without and with a weight 0.
const WAYS: u64 = 8;
const ALL_WAYS: u64 = 10;

impl Random {
    fn weights(&mut self, way: u64, n: usize) -> Vec<u16> {
        let equal = 1 + self.below(65_535) as u16;
        let mut weights: Vec<u16> = match way {
            0 => vec![1; n],
            1 => vec![65_535; n],
            2 => vec![equal; n],
            3 => (0..n).map(|_| 1 + self.below(65_535) as u16).collect(),
            4 => (0..n).map(|_| 1 + self.below(3) as u16).collect(),
            5 => (0..n).map(|i| if i % 2 == 0 { 1 } else { 65_535 }).collect(),
            // Heavier and heavier, up to the heaviest.
            6 => (0..n).map(|i| 1 + (i * 65_534 / n.max(2)) as u16).collect(),
            _ => vec![1; n],
        };
        // One weight alone: the heaviest, or 0; or some of 0.
        let alone = self.below(n as u64) as usize;
        match way {
            7 => weights[alone] = 65_535,
            8 => weights[alone] = 0,
            9 => (0..3).for_each(|_| weights[self.below(n as u64) as usize] = 0),
            _ => {}
        }
        weights
    }

    fn shares(&mut self) -> u16 {
        let any = 1 + self.below(64) as u16;
        self.pick(&[1, 2, 3, 16, 4_096, any, any, any])
    }
}

/// What demand 3 says of shares, over accepted boundaries: they run along the curve without gaps, and P times a share's
/// weight differs from the whole weight by less than P times the heaviest.
fn fair(question: &Sharing, boundaries: &[u32]) {
    let weights = &question.weights;
    let whole: u64 = weights.iter().map(|&weight| weight as u64).sum();
    let heaviest = weights.iter().max().copied().expect("a weight") as u64;
    let p = question.shares as u64;
    assert_eq!((boundaries[0], boundaries[p as usize]), (0, weights.len() as u32));
    for pair in boundaries.windows(2) {
        let share = &weights[pair[0] as usize..pair[1] as usize];
        let weight: u64 = share.iter().map(|&weight| weight as u64).sum();
        assert!((p * weight).abs_diff(whole) < p * heaviest, "share {pair:?} of {question:?}");
    }
}

/// All three agree, and boundaries are fair.
fn ask(tally: &mut Tally, question: &Sharing) -> Result<Vec<u32>, Refusal> {
    let answer = tally.count(question.ask(foreign), question);
    if let Ok(boundaries) = &answer {
        fair(question, boundaries);
    }
    answer
}

fn sharing(roots: u16, shares: u16, leaves: &Leaves, weights: Vec<u16>) -> Sharing {
    Sharing { roots, shares, leaves: leaves.clone(), weights, room: shares as usize + 1 }
}

/// "Weights 1, 1, 1, 5 on four roots, P=2: boundaries 0, 3, 4."
#[test]
fn the_marked_example() {
    let question = sharing(4, 2, &uniform(4, 0), vec![1, 1, 1, 5]);
    assert_eq!(ask(&mut Tally::default(), &question), Ok(vec![0, 3, 4]));
}

/// Every choice of weights 1, 2, 3 and 65,535 on up to six roots, for up to nine shares.
#[test]
fn every_choice_of_weights() {
    let mut tally = Tally::default();
    for roots in 1..=6 {
        for choice in 0..1 << (2 * roots) {
            let weights: Vec<u16> = (0..roots).map(|i| [1, 2, 3, 65_535][choice >> (2 * i) & 3]).collect();
            for shares in 1..=9 {
                let _ = ask(&mut tally, &sharing(roots, shares, &uniform(roots, 0), weights.clone()));
            }
        }
    }
    tally.covers("choices of weights", &[0], 9 * (4 + 16 + 64 + 256 + 1_024 + 4_096));
}

/// "With equal weights this is the thesis's formula 27": boundary s is s n / P, rounded down.
#[test]
fn equal_weights() {
    let mut tally = Tally::default();
    for (roots, level) in [(1, 0), (1, 1), (3, 1), (1, 3), (4, 6)] {
        let leaves = uniform(roots, level);
        let n = leaves.len() as u64;
        for shares in [1, 2, 3, 7, 16, 511, 512, 513, 4_095, MOST_ROOTS] {
            if n > 1_000 && shares > 16 {
                continue;
            }
            for weight in [1, 2, 1_000, 65_535] {
                let expected = (0..=shares as u64).map(|s| (s * n / shares as u64) as u32).collect();
                let question = sharing(roots, shares, &leaves, vec![weight; n as usize]);
                assert_eq!(ask(&mut tally, &question), Ok(expected), "{n} leaves, {shares} shares of {weight}");
            }
        }
    }
    tally.covers("equal weights", &[0], 4 * (4 * 10 + 5));
}

#[test]
fn small_lists() {
    let (mut r, mut tally) = (Random(31), Tally::default());
    for _ in 0..4_000 {
        let roots = 1 + r.below(20) as u16;
        let most = roots as usize + r.below(400) as usize;
        let leaves = refined(&mut r, roots, most);
        for way in 0..ALL_WAYS {
            let mut question = sharing(roots, r.shares(), &leaves, r.weights(way, leaves.len()));
            let needed = question.room;
            question.room = r.pick(&[needed, needed, needed + 1, needed + 60, needed - 1, 0]);
            let _ = ask(&mut tally, &question);
        }
    }
    tally.covers("small sharings", &[0, 14, 16], 5_000);
}

#[test]
fn large_lists() {
    let (mut r, mut tally) = (Random(32), Tally::default());
    for (roots, most) in [(4, MOST_LEAVES), (4_096, MOST_LEAVES), (1, 300_000)] {
        let leaves = refined(&mut r, roots, most);
        for way in 0..ALL_WAYS {
            let shares = r.pick(&[1, 2, 16]);
            let _ = ask(&mut tally, &sharing(roots, shares, &leaves, r.weights(way, leaves.len())));
        }
    }
    tally.covers("large sharings", &[0, 16], 3 * (ALL_WAYS - WAYS));
    // Trying every leaf count for every boundary takes its time here.
    let leaves = uniform(4, 6);
    let question = sharing(4, MOST_ROOTS, &leaves, r.weights(3, leaves.len()));
    assert_eq!(ask(&mut tally, &question).map(|boundaries| boundaries.len()), Ok(4_097));
}

/// Each fault of the list check is a fault here too, whatever the weights and the room.
#[test]
fn spoilt_lists() {
    let (mut r, mut tally) = (Random(33), Tally::default());
    for round in 0..2_010 {
        let roots = 1 + r.below(20) as u16;
        let most = if round % 200 == 0 { 300_000 } else { roots as usize + r.below(400) as usize };
        let leaves = refined(&mut r, roots, most);
        for fault in 0..FAULTS {
            let (mut roots, mut spoilt) = (roots, leaves.clone());
            let Some(refusal) = spoil(&mut r, fault, &mut roots, &mut spoilt) else { continue };
            let weights = (0..spoilt.len()).map(|_| r.below(4) as u16).collect();
            let question = Sharing { roots, shares: r.shares(), leaves: spoilt, weights, room: r.below(70) as usize };
            tally.expect(question.ask(foreign), Err(refusal), &(fault, &question));
        }
    }
    tally.covers("sharings of spoilt lists", &[1, 5, 11, 12, 17], 1_000);
}

/// A question with the chosen ones of nine faults, and what must come out: the first of them in the paper's order.
fn several(r: &mut Random, chosen: impl Fn(usize) -> bool) -> (Sharing, Result<(), Refusal>) {
    let roots = 2 + r.below(5) as u16;
    let leaves = refined(r, roots, 60);
    let n = leaves.len();
    let mut question = sharing(roots, r.shares(), &leaves, r.weights(3, n));
    let mut refusals = Vec::new();
    // From the last in order to the first.
    if chosen(0) {
        refusals.push((14, question.room));
        question.room = r.below(question.room as u64) as usize;
    }
    if chosen(1) {
        let [i, j] = [0; 2].map(|_| r.below(n as u64) as usize);
        (question.weights[i], question.weights[j]) = (0, 0);
        refusals.push((16, i.min(j)));
    }
    refusals.extend(spoil_leaves(r, [chosen(2), chosen(3), chosen(4)], roots, &mut question.leaves));
    if chosen(5) {
        question.weights.resize(r.pick(&[0, n - 1, n + 1, 2 * n]), 1);
        refusals.push((11, 0));
    }
    if chosen(6) {
        spoil_lengths(r, &mut question.leaves);
        refusals.push((11, 0));
    }
    for (fault, number) in [(7, &mut question.shares), (8, &mut question.roots)] {
        if chosen(fault) {
            *number = r.pick(&[0, MOST_ROOTS + 1, u16::MAX]);
            refusals.push((17, 0));
        }
    }
    let refused = |&(number, place): &(u8, usize)| Err(Refusal { number, place: place as u64 });
    (question, refusals.last().map_or(Ok(()), refused))
}

/// Every choice of the faults, some times over: the first in order wins.
#[test]
fn several_faults_at_once() {
    let (mut r, mut tally) = (Random(34), Tally::default());
    // Those of room, weights and leaves alone more often, for the others hide them.
    for choice in (0..8 << 9).chain((0..256 << 5).map(|choice| choice % 32)) {
        let (question, expected) = several(&mut r, |fault| choice >> fault & 1 == 1);
        let answer = ask(&mut tally, &question).map(|_| ());
        assert_eq!(answer, expected, "choice {choice:b}: {question:?}");
    }
    tally.covers("choices of faults", &[0, 1, 5, 11, 12, 14, 16, 17], 100);
}

/// As many roots and shares as may be, one more, none.
#[test]
fn numbers_at_the_limit() {
    let mut tally = Tally::default();
    let limits = [0, 1, MOST_ROOTS - 1, MOST_ROOTS, MOST_ROOTS + 1, u16::MAX];
    for roots in limits {
        let count = roots.clamp(1, MOST_ROOTS + 1);
        let leaves = uniform(count, 0);
        for shares in limits {
            let question = sharing(roots, shares, &leaves, vec![7; count as usize]);
            let answer = ask(&mut tally, &question);
            let good = [roots, shares].iter().all(|number| (1..=MOST_ROOTS).contains(number));
            assert_eq!(answer.is_ok(), good, "{roots} roots, {shares} shares");
        }
    }
    tally.covers("numbers at the limit", &[0, 17], 9);
}
