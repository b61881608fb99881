//! Nanoseconds a leaf of the list calls and of the grid file.

use std::hint::black_box;
use std::time::Instant;

use gwerniloc::{plain, Refusal};

use crate::Random;

const CALLS: usize = 120;

/// A leaf list in columns.
#[derive(Clone, Default, PartialEq)]
struct Leaves {
    root: Vec<u16>,
    level: Vec<u8>,
    position: Vec<u64>,
}

impl Leaves {
    /// The leaves of some roots, all at one level, but those that `refine` picks replaced by their eight children.
    fn new(roots: u16, level: u8, mut refine: impl FnMut() -> bool) -> Self {
        let mut leaves = Leaves::default();
        for root in 0..roots {
            for position in 0..1 << (3 * level) {
                if refine() {
                    (0..8).for_each(|i| leaves.push(root, level + 1, 8 * position + i));
                } else {
                    leaves.push(root, level, position);
                }
            }
        }
        leaves
    }

    fn push(&mut self, root: u16, level: u8, position: u64) {
        self.root.push(root);
        self.level.push(level);
        self.position.push(position);
    }

    fn len(&self) -> usize {
        self.root.len()
    }
}

/// Columns lent for a result, the same for both sides.
#[derive(Clone, PartialEq)]
struct Lent {
    new: Leaves,
    boundaries: Vec<u32>,
    bytes: Vec<u8>,
}

/// Seconds for one call.
#[inline(never)]
fn time(lent: &mut Lent, call: &impl Fn(&mut Lent) -> Result<u64, Refusal>) -> f64 {
    let lent = black_box(lent);
    let start = Instant::now();
    black_box(call(lent)).expect("an accepted call");
    start.elapsed().as_secs_f64()
}

/// Best of the calls, proved and plain in turn, printed as one row. The answer of a call that makes a list is its
/// number of leaves, and if these are more than those of the list given, the time is that of one of them.
fn row(
    name: &str,
    count: usize,
    lent: &mut Lent,
    proved: impl Fn(&mut Lent) -> Result<u64, Refusal>,
    plain: impl Fn(&mut Lent) -> Result<u64, Refusal>,
) {
    let before = lent.clone();
    let answer = proved(lent);
    let written = std::mem::replace(lent, before);
    let differ = plain(lent) != answer || *lent != written;
    let remark = if differ { "  ANSWERS DIFFER" } else { "" };
    let mut best = [f64::INFINITY; 2];
    for _ in 0..CALLS {
        best[0] = best[0].min(time(lent, &proved));
        best[1] = best[1].min(time(lent, &plain));
    }
    let answer = answer.expect("an accepted call") as usize;
    let [proved, plain] = best.map(|seconds| seconds * 1e9 / count.max(answer) as f64);
    println!("{name:<44} {count:>9} {answer:>9} {proved:>9.3} {plain:>9.3} {:>7.2}{remark}", proved / plain);
}

fn check(name: &str, roots: u16, leaves: &Leaves, lent: &mut Lent) {
    let Leaves { root, level, position } = leaves;
    row(
        &format!("list check, {name}"),
        leaves.len(),
        lent,
        |_| gwerniloc::check_list(roots, root, level, position).map(|()| 0),
        |_| Refusal::from_c(plain::list::check(roots, root, level, position)).map(|()| 0),
    );
}

fn balanced(name: &str, roots: u16, leaves: &Leaves, lent: &mut Lent) {
    let Leaves { root, level, position } = leaves;
    row(
        &format!("balanced, {name}"),
        leaves.len(),
        lent,
        |_| gwerniloc::balanced(roots, root, level, position).map(|yes| yes as u64),
        |_| plain::balance::balanced(roots, root, level, position).result(),
    );
}

fn uniform(roots: u16, level: u8, lent: &mut Lent) {
    row(
        &format!("uniform start, level {level}"),
        0,
        lent,
        |Lent { new, .. }| gwerniloc::uniform(roots, level, &mut new.root, &mut new.level, &mut new.position),
        |Lent { new, .. }| {
            plain::list::uniform(roots, level, &mut new.root, &mut new.level, &mut new.position).result()
        },
    );
}

fn adapt(name: &str, roots: u16, leaves: &Leaves, marks: &[u8], lent: &mut Lent) {
    let Leaves { root, level, position } = leaves;
    row(
        &format!("adaption, {name}"),
        leaves.len(),
        lent,
        |Lent { new: Leaves { root: new_root, level: new_level, position: new_position }, .. }| {
            gwerniloc::adapt(roots, root, level, position, marks, new_root, new_level, new_position)
        },
        |Lent { new: Leaves { root: new_root, level: new_level, position: new_position }, .. }| {
            plain::adaption::adapt(roots, root, level, position, marks, new_root, new_level, new_position).result()
        },
    );
}

fn shares(p: u16, roots: u16, leaves: &Leaves, weights: &[u16], lent: &mut Lent) {
    let Leaves { root, level, position } = leaves;
    row(
        &format!("shares, {p} of them, random weights"),
        leaves.len(),
        lent,
        |Lent { boundaries, .. }| gwerniloc::shares(roots, p, root, level, position, weights, boundaries).map(|()| 0),
        |Lent { boundaries, .. }| {
            let refusal = plain::shares::shares(roots, p, root, level, position, weights, boundaries);
            Refusal::from_c(refusal).map(|()| 0)
        },
    );
}

/// Saves a list into lent bytes, and loads it again.
fn file(name: &str, roots: u16, leaves: &Leaves, lent: &mut Lent) {
    let Leaves { root, level, position } = leaves;
    let count = leaves.len();
    // The answer of saving is the length of the file, and never more than the leaves.
    row(
        &format!("saving, {name}"),
        count,
        lent,
        |Lent { bytes, .. }| gwerniloc::write_file(roots, root, level, position, bytes),
        |Lent { bytes, .. }| plain::file::write(roots, root, level, position, bytes).result(),
    );
    let mut file = vec![0; 10 + 6 * count];
    let size = gwerniloc::write_file(roots, root, level, position, &mut file).expect("a valid list");
    file.truncate(size as usize);
    row(
        &format!("loading, {name}"),
        count,
        lent,
        |Lent { new, .. }| {
            gwerniloc::read_file(&file, &mut new.root, &mut new.level, &mut new.position).map(|size| size.leaves)
        },
        |Lent { new, .. }| {
            let answer = plain::file::read(&file, &mut new.root, &mut new.level, &mut new.position);
            answer.result().map(|size| size.leaves)
        },
    );
}

fn files(sixth: &Leaves, mixed: &Leaves, lent: &mut Lent) {
    file("all of level 6", 4, sixth, lent);
    let mut second = false;
    let half = Leaves::new(7, 5, || {
        second = !second;
        !second
    });
    file("every second of level 5 refined", 7, &half, lent);
    file("levels 5 and 6 at random", 7, mixed, lent);
}

/// The three columns copied, which is what an adaption that keeps all leaves does after its checks.
fn copy(leaves: &Leaves, lent: &mut Lent) {
    let copy = |lent: &mut Lent| {
        lent.new.root.copy_from_slice(&leaves.root);
        lent.new.level.copy_from_slice(&leaves.level);
        lent.new.position.copy_from_slice(&leaves.position);
        Ok(0)
    };
    let best = (0..CALLS).map(|_| time(lent, &copy)).fold(f64::INFINITY, f64::min);
    let count = leaves.len();
    println!("{:<44} {count:>9} {count:>9} {:>9} {:>9.3}", "copying three columns", "", best * 1e9 / count as f64);
}

fn adaptions(random: &mut Random, sixth: &Leaves, lent: &mut Lent) {
    let mut marks = |count: usize, mark: fn(u64) -> u8| (0..count).map(|_| mark(random.next())).collect::<Vec<u8>>();
    adapt("all keep, level 6", 4, sixth, &vec![0; sixth.len()], lent);
    let fifth = Leaves::new(4, 5, || false);
    adapt("all refine, level 5", 4, &fifth, &vec![1; fifth.len()], lent);
    adapt("all merge, level 6", 4, sixth, &vec![2; sixth.len()], lent);
    let families = marks(sixth.len() / 8, |any| 2 * (any % 2) as u8);
    let families: Vec<u8> = families.iter().flat_map(|&mark| [mark; 8]).collect();
    adapt("half of the families merge, level 6", 4, sixth, &families, lent);

    let fifth = Leaves::new(7, 5, || false);
    let half = marks(fifth.len(), |any| (any % 2) as u8);
    adapt("half refine, level 5", 7, &fifth, &half, lent);
    let few = marks(fifth.len(), |any| (any % 100 == 0) as u8);
    adapt("one in a hundred refine, level 5", 7, &fifth, &few, lent);
    let thirds = marks(fifth.len(), |any| (any % 3) as u8);
    adapt("marks 0, 1, 2 at random, level 5", 7, &fifth, &thirds, lent);
}

pub fn rows(random: &mut Random) {
    println!(
        "Nanoseconds a leaf of the list given, or of the list made if it has more; best of {CALLS} calls in turn."
    );
    println!("{:<44} {:>9} {:>9} {:>9} {:>9} {:>7}", "call", "leaves", "answer", "proved", "plain", "ratio");
    let sixth = Leaves::new(4, 6, || false);
    let mixed = Leaves::new(7, 5, || random.next() & 1 == 1);
    let lent = &mut Lent { new: sixth.clone(), boundaries: vec![0; 4_097], bytes: vec![0; sixth.len()] };
    copy(&sixth, lent);
    uniform(4, 6, lent);
    check("all of level 6", 4, &sixth, lent);
    check("levels 5 and 6 at random", 7, &mixed, lent);
    balanced("all of level 6", 4, &sixth, lent);
    balanced("levels 5 and 6 at random", 7, &mixed, lent);
    let weights: Vec<u16> = (0..sixth.len()).map(|_| 1 + (random.next() % 65_535) as u16).collect();
    shares(16, 4, &sixth, &weights, lent);
    shares(4_096, 4, &sixth, &weights, lent);
    adaptions(random, &sixth, lent);
    files(&sixth, &mixed, lent);
}
