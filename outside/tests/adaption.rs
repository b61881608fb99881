//! Compares the adaption of the proved library with the plain code and the naive definition: the answer, the result,
//! and every lent entry beside it.

mod common;

use common::calls::Adaption;
use common::leaves::{deep, refined, uniform, Leaves};
use common::marks::WAYS;
use common::naive;
use common::random::Random;
use common::tally::Tally;
use gwerniloc::{HIGHEST_LEVEL, MOST_LEAVES};

/// The result where all three agree and accept.
fn adapted(roots: u16, leaves: &Leaves, marks: Vec<u8>) -> Leaves {
    Tally::default().adapt(&Adaption::new(roots, leaves, marks)).expect("an adaption")
}

/// "Uniform K=1, level 1 .. Refining leaf 2 .. All marked 2 next: the first file again."
#[test]
fn the_marked_example() {
    let first = uniform(1, 1);
    let second = adapted(1, &first, vec![0, 0, 1, 0, 0, 0, 0, 0]);
    assert_eq!(second.root, [0; 15]);
    assert_eq!(second.level, [1, 1, 2, 2, 2, 2, 2, 2, 2, 2, 1, 1, 1, 1, 1]);
    assert_eq!(second.position, [0, 1, 16, 17, 18, 19, 20, 21, 22, 23, 3, 4, 5, 6, 7]);
    assert_eq!(adapted(1, &second, vec![2; 15]), first);
}

/// "Eight neighbours of one level need not be a family", "new leaves aren't looked at again", and leaves of level 0
/// have no parent.
#[test]
fn families_alone_are_merged() {
    let mut marks = vec![0; 64];
    marks[3..19].fill(2);
    let result = adapted(1, &uniform(1, 2), marks);
    assert_eq!((result.len(), result.get(8)), (64 - 7, (0, 1, 1)));
    assert_eq!(adapted(1, &uniform(1, 2), vec![2; 64]), uniform(1, 1));
    for roots in [1, 8, 4_096] {
        assert_eq!(adapted(roots, &uniform(roots, 0), vec![2; roots as usize]), uniform(roots, 0));
        assert_eq!(adapted(roots, &uniform(roots, 1), vec![2; 8 * roots as usize]), uniform(roots, 0));
    }
}

/// All marks on the children of a root, alone and with a whole root before or after them; then, on lists of 15, all
/// marks of 0 and 2 and all of 1 and 2.
#[test]
fn every_choice_of_marks() {
    let mut tally = Tally::default();
    for refine in [vec![1], vec![0, 1], vec![1, 0]] {
        let roots = refine.len() as u16;
        let leaves = adapted(roots, &uniform(roots, 0), refine);
        for choice in 0..3u32.pow(leaves.len() as u32) {
            let marks = (0..leaves.len()).map(|i| (choice / 3u32.pow(i as u32) % 3) as u8).collect();
            tally.adapt(&Adaption::new(roots, &leaves, marks)).expect("an adaption");
        }
    }
    for refine in 0..8 {
        let leaves = adapted(1, &uniform(1, 1), (0..8).map(|i| (i == refine) as u8).collect());
        for choice in 0..1 << 16 {
            let other = (choice >> 15) as u8;
            let marks = (0..15).map(|i| if choice >> i & 1 == 0 { 2 } else { other }).collect();
            tally.adapt(&Adaption::new(1, &leaves, marks)).expect("an adaption");
        }
    }
    tally.covers("choices of marks", &[0], 6_561 + 2 * 19_683 + 8 * 65_536);
}

/// Just enough room, one entry less, one more, many more, none; then one column longer or shorter than the others.
fn rooms(r: &mut Random, needed: usize) -> [[usize; 3]; 6] {
    let mut unequal = [needed; 3];
    unequal[r.below(3) as usize] = r.pick(&[0, needed - 1, needed + 1, 2 * needed]);
    let [exact, less, more, many, none] = [needed, needed - 1, needed + 1, needed + 60, 0].map(|room| [room; 3]);
    [exact, less, more, many, none, unequal]
}

#[test]
fn small_lists() {
    let (mut r, mut tally) = (Random(11), Tally::default());
    for _ in 0..1_000 {
        let roots = 1 + r.below(20) as u16;
        let most = roots as usize + r.below(600) as usize;
        let leaves = if r.below(4) == 0 { deep(&mut r, roots) } else { refined(&mut r, roots, most) };
        for way in 0..WAYS {
            let mut question = Adaption::new(roots, &leaves, r.marks(way, &leaves));
            let needed = naive::adapted(&question).map_or(9, |result| result.len());
            for room in rooms(&mut r, needed) {
                question.room = room;
                let _ = tally.adapt(&question);
            }
        }
    }
    tally.covers("small adaptions", &[0, 7, 11, 13, 14], 500);
}

#[test]
fn large_lists() {
    let (mut r, mut tally) = (Random(12), Tally::default());
    let mut lists = vec![(4, uniform(4, 6)), (4_096, uniform(4_096, 2))];
    for (roots, most) in [(1, MOST_LEAVES), (7, 600_000), (4_096, MOST_LEAVES), (50, 130_000)] {
        lists.push((roots, refined(&mut r, roots, most)));
    }
    for (roots, leaves) in lists {
        for way in 0..WAYS {
            let question = Adaption::new(roots, &leaves, r.marks(way, &leaves));
            let _ = tally.adapt(&question);
        }
    }
    tally.covers("large adaptions", &[0, 7, 13, 15], 1);
}

/// Refining all and then merging all gives the first list.
#[test]
fn there_and_back() {
    let mut r = Random(13);
    let mut lists = 0;
    while lists < 300 {
        let most = r.pick(&[1, 8, 50, 700, 5_000]);
        let roots = 1 + r.below(most.min(9)) as u16;
        let leaves = refined(&mut r, roots, most as usize);
        if !leaves.level.contains(&HIGHEST_LEVEL) {
            let finer = adapted(roots, &leaves, vec![1; leaves.len()]);
            assert_eq!(finer.len(), 8 * leaves.len());
            assert_eq!(adapted(roots, &finer, vec![2; finer.len()]), leaves, "{roots} roots");
            lists += 1;
        }
    }
}
