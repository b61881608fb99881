//! Compares the balance of the proved library with the plain code and the naive definition, and all with what must come
//! out of lists made balanced or not.

mod common;

use common::calls::balanced;
use common::faults::{spoil, FAULTS};
use common::leaves::{children, deep, refined, uniform, Leaf, Leaves};
use common::random::Random;
use common::tally::Tally;
use gwerniloc::{Refusal, HIGHEST_LEVEL, MOST_LEAVES, MOST_ROOTS};

/// How often the answer was no, and how often yes.
#[derive(Default)]
struct Asked {
    tally: Tally,
    answers: [u64; 2],
}

impl Asked {
    fn ask(&mut self, roots: u16, leaves: &Leaves) -> Result<bool, Refusal> {
        let answer = self.tally.count(balanced(roots, leaves), &(roots, leaves));
        if let Ok(yes) = answer {
            self.answers[yes as usize] += 1;
        }
        answer
    }
}

/// Leaves refined as long as there are two in a row of one root that differ by more than a level.
fn graded(leaves: &Leaves) -> Leaves {
    let mut all: Vec<Leaf> = (0..leaves.len()).map(|i| leaves.get(i)).collect();
    loop {
        let steep = |leaf: Leaf, other: Option<&Leaf>| other.is_some_and(|o| o.0 == leaf.0 && o.1 > leaf.1 + 1);
        let refine = |i: usize| steep(all[i], all.get(i + 1)) || i > 0 && steep(all[i], all.get(i - 1));
        if !(0..all.len()).any(refine) {
            return all.into_iter().collect();
        }
        let finer = |i: usize| if refine(i) { children(all[i]).collect() } else { vec![all[i]] };
        all = (0..all.len()).flat_map(finer).collect();
    }
}

/// A leaf refined twice, so that it is two levels finer than before at one of its ends.
fn refined_twice(leaves: &Leaves, i: usize, last: bool) -> Leaves {
    let mut all: Vec<Leaf> = (0..leaves.len()).map(|i| leaves.get(i)).collect();
    let place = if last { i + 7 } else { i };
    all.splice(i..=i, children(all[i]));
    all.splice(place..=place, children(all[place]));
    all.into_iter().collect()
}

/// Levels that differ by one, in one root and over two.
#[test]
fn simple_lists() {
    let mut asked = Asked::default();
    let list = |leaves: Vec<Leaf>| leaves.into_iter().collect::<Leaves>();
    for roots in [1, 2, MOST_ROOTS] {
        assert_eq!(asked.ask(roots, &uniform(roots, 2)), Ok(true));
    }
    // A root that is whole beside one of level 5: they differ, but not in one root.
    let fine = |root| (0..1 << 15).map(move |position| (root, 5, position));
    assert_eq!(asked.ask(2, &list([(0, 0, 0)].into_iter().chain(fine(1)).collect())), Ok(true));
    assert_eq!(asked.ask(2, &list(fine(0).chain([(1, 0, 0)]).collect())), Ok(true));
    // Each leaf of a level refined twice, at either end: steep where a neighbour in its root is at that end.
    for i in 0..16 {
        for last in [false, true] {
            let leaves = refined_twice(&uniform(2, 1), i, last);
            let at_the_end = if last { i % 8 == 7 } else { i % 8 == 0 };
            assert_eq!(asked.ask(2, &leaves), Ok(at_the_end), "leaf {i}");
        }
    }
    asked.tally.covers("simple lists", &[0], 37);
}

#[test]
fn small_lists() {
    let (mut r, mut asked) = (Random(41), Asked::default());
    for _ in 0..10_000 {
        let roots = 1 + r.below(20) as u16;
        let most = roots as usize + r.below(300) as usize;
        let leaves = if r.below(8) == 0 { deep(&mut r, roots) } else { refined(&mut r, roots, most) };
        let _ = asked.ask(roots, &leaves);
        let even = graded(&leaves);
        assert_eq!(asked.ask(roots, &even), Ok(true), "{even:?}");
        let i = r.below(even.len() as u64) as usize;
        if even.level[i] + 2 <= HIGHEST_LEVEL {
            let _ = asked.ask(roots, &refined_twice(&even, i, r.below(2) == 1));
        }
    }
    asked.tally.covers("small lists", &[0], 20_000);
    assert!(asked.answers.iter().all(|&times| times > 5_000), "no and yes: {:?}", asked.answers);
}

/// Large lists, whole and with one steep place: near the start, near the end, anywhere.
#[test]
fn large_lists() {
    let (mut r, mut asked) = (Random(42), Asked::default());
    let marks = |roots: u16, r: &mut Random| {
        let five = uniform(roots, 5);
        let finer = |i: usize| if r.below(2) == 0 { children(five.get(i)).collect() } else { vec![five.get(i)] };
        (0..five.len()).flat_map(finer).collect::<Leaves>()
    };
    for (roots, leaves) in [(4, uniform(4, 6)), (MOST_ROOTS, uniform(MOST_ROOTS, 2)), (7, marks(7, &mut r))] {
        assert_eq!(asked.ask(roots, &leaves), Ok(true));
        let n = leaves.len();
        for i in [0, 1, n - 2, n - 1, r.below(n as u64) as usize, r.below(n as u64) as usize] {
            for last in [false, true] {
                let mut steep = refined_twice(&leaves, i, last);
                if steep.len() > MOST_LEAVES {
                    assert_eq!(asked.ask(roots, &steep), Err(Refusal { number: 11, place: 0 }));
                    // The same without the last roots.
                    let end = steep.root.iter().position(|&root| root == roots - 1).expect("the last root");
                    steep.resize([end; 3]);
                    let _ = asked.ask(roots - 1, &steep);
                } else {
                    let _ = asked.ask(roots, &steep);
                }
            }
        }
    }
    for (roots, most) in [(1, MOST_LEAVES), (4_096, MOST_LEAVES), (9, 500_000)] {
        let _ = asked.ask(roots, &refined(&mut r, roots, most));
    }
    asked.tally.covers("large lists", &[0, 11], 12);
    assert!(asked.answers.iter().all(|&times| times > 5), "no and yes: {:?}", asked.answers);
}

/// Each fault of the list check is a fault here too, for balanced lists and for others.
#[test]
fn spoilt_lists() {
    let (mut r, mut tally) = (Random(43), Tally::default());
    for round in 0..4_020 {
        let roots = 1 + r.below(20) as u16;
        let most = if round % 400 == 0 { 300_000 } else { roots as usize + r.below(400) as usize };
        let mut leaves = refined(&mut r, roots, most);
        if round % 3 == 0 {
            leaves = graded(&leaves);
        }
        for fault in 0..FAULTS {
            let (mut roots, mut spoilt) = (roots, leaves.clone());
            let Some(refusal) = spoil(&mut r, fault, &mut roots, &mut spoilt) else { continue };
            tally.expect(balanced(roots, &spoilt), Err(refusal), &(fault, roots, &spoilt));
        }
    }
    tally.covers("spoilt lists", &[1, 5, 11, 12, 17], 1_000);
}

/// Several values of a list replaced by others, so that the first of many faults must be found.
#[test]
fn many_faults() {
    let (mut r, mut asked) = (Random(44), Asked::default());
    for _ in 0..40_000 {
        let mut roots = 1 + r.below(4) as u16;
        let mut leaves = refined(&mut r, roots, 60);
        for _ in 0..r.below(4) {
            let i = r.below(leaves.len() as u64) as usize;
            match r.below(3) {
                0 => leaves.root[i] = r.pick(&[0, 1, roots, u16::MAX]),
                1 => leaves.level[i] = r.pick(&[0, 1, 2, 21, 22, 255]),
                _ => leaves.position[i] = r.pick(&[0, 1, 7, 8, 64, 1 << 63, u64::MAX]),
            }
        }
        if r.below(8) == 0 {
            leaves.resize([0; 3].map(|_| r.below(3) as usize + 60));
        }
        if r.below(8) == 0 {
            roots = r.pick(&[0, roots + 1, MOST_ROOTS, MOST_ROOTS + 1]);
        }
        let _ = asked.ask(roots, &leaves);
    }
    asked.tally.covers("lists with many faults", &[0, 1, 5, 11, 12, 17], 1_000);
}
