//! Compares every call of the proved library with the plain code on more than a million random inputs a shape: valid
//! elements, damaged ones, and families in every state of disorder.

mod common;

use std::fmt::Debug;

use common::random::Random;
use common::{Both, Columns, Shape};
use gwerniloc::{Line, Prism, Refusal, Triangle, HIGHEST_LEVEL};

const ROUNDS: u64 = 120_000;

/// Child, face and level numbers on both sides of every limit.
const NUMBERS: [u8; 14] = [0, 1, 2, 3, 4, 5, 6, 7, 8, 9, 21, 22, 23, 255];

impl Random {
    fn level(&mut self) -> u8 {
        self.below(HIGHEST_LEVEL as u64 + 1) as u8
    }

    /// A level to ask for: mostly a good one.
    fn asked(&mut self) -> u8 {
        if self.below(3) == 0 {
            return self.pick(&NUMBERS);
        }
        self.level()
    }

    /// A position below the limit: anywhere, the first, the last, or just before a long carry.
    fn position(&mut self, limit: u64) -> u64 {
        match self.below(8) {
            0 => 0,
            1 => limit - 1,
            2 => (self.next() | ((1 << self.below(64)) - 1)) & (limit - 1),
            _ => self.below(limit),
        }
    }

    /// A position to ask for: also at the limit and far beyond.
    fn asked_position(&mut self, limit: u64) -> u64 {
        match self.below(6) {
            0 => (limit + self.below(3)) - 1,
            1 => self.next() >> self.below(64),
            2 => self.pick(&[limit << 1, 1 << 63, u64::MAX - 1, u64::MAX]),
            _ => self.position(limit),
        }
    }

    fn valid<S: Shape>(&mut self) -> S {
        let level = self.level();
        self.valid_at(level)
    }

    fn valid_at<S: Shape>(&mut self, level: u8) -> S {
        made(level, self.position(S::count(level)))
    }

    /// An element with one to three faults, of which some may happen to do no harm.
    fn damaged<S: Shape>(&mut self) -> S {
        let mut fields = self.valid::<S>().fields();
        for _ in 0..=self.below(3) {
            self.damage::<S>(&mut fields);
        }
        S::from_fields(fields)
    }

    fn damage<S: Shape>(&mut self, fields: &mut [u32; 5]) {
        let field = self.pick(S::FIELDS);
        let coordinate = self.pick(&S::FIELDS[1..]).min(3);
        let side = 1u32 << (21 - fields[0].min(21));
        match self.below(10) {
            0 => fields[field] ^= 1 << self.below(if field == 0 || field == 4 { 8 } else { 32 }),
            1 => fields[coordinate] = fields[coordinate].wrapping_add(self.below(side as u64) as u32),
            2 => fields[coordinate] = self.pick(&[1 << 21, (1 << 21) - side, u32::MAX, u32::MAX - side + 1, 1 << 31]),
            3 => fields[coordinate] = self.next() as u32,
            4 => fields[0] = self.pick(&[22, 23, 255]),
            5 => fields[0] = self.next() as u8 as u32,
            6 => fields[4] = self.pick(&[2, 255]),
            7 => fields[4] ^= 1,
            8 => fields.swap(1, 2),
            _ => fields[2] = fields[1].wrapping_add(self.pick(&[0, side])),
        }
    }

    fn element<S: Shape>(&mut self) -> S {
        if self.below(4) == 0 {
            return self.damaged();
        }
        self.valid()
    }

    /// An element near another, so that the order of the two is not decided at once.
    fn relative<S: Shape>(&mut self, e: S) -> S {
        let [answer, _] = match self.below(7) {
            0 => e.first_descendant(self.asked()),
            1 => e.last_descendant(self.asked()),
            2 => e.parent(),
            3 => e.successor(),
            4 => e.child(self.below(S::CHILDREN as u64) as u8),
            5 => return self.element(),
            _ => return e,
        };
        answer.unwrap_or(e)
    }

    /// The children of one parent, whole or spoilt in one of many ways.
    fn family<S: Shape>(&mut self) -> Columns {
        let n = S::CHILDREN as u64;
        let level = 1 + self.below(21) as u8;
        let parent = self.position(S::count(level - 1));
        let sibling = |i: u64| made::<S>(level, n * parent + i);
        let mut elements: Vec<S> = (0..n).map(sibling).collect();
        let at = self.below(n) as usize;
        let mut uneven = false;
        match self.below(14) {
            0 => {
                // As many in a row, mostly from the middle of one family into the next.
                let start = self.below(S::count(level) - n + 1);
                elements = (0..n).map(|i| made(level, start + i)).collect();
            }
            1 => elements[at] = self.valid(),
            2 => elements[at] = self.valid_at(level),
            3 => elements[at] = sibling(self.below(n)),
            4 => drop(elements.remove(at)),
            5 => elements.insert(at, self.element()),
            6 => elements.clear(),
            7 => uneven = true,
            8 => elements[at] = self.damaged(),
            9 => elements[at] = self.relative(elements[at]),
            10 => elements.swap(at, 0),
            11 => elements = vec![made(0, 0); n as usize],
            12 => {
                elements.extend(elements.clone());
                elements[at + n as usize] = self.element();
            }
            _ => {}
        }
        let mut columns = Columns::default();
        elements.iter().for_each(|e| columns.push(e.fields()));
        if uneven {
            columns.resize(self.pick(S::FIELDS), self.below(2 * n) as usize);
        }
        columns
    }
}

fn made<S: Shape>(level: u8, position: u64) -> S {
    S::at(level, position)[0].expect("a position of the level")
}

/// How often a call was accepted (at 0) and how often refused with each number.
#[derive(Default)]
struct Tally([u64; 12]);

impl Tally {
    fn count<T: PartialEq + Debug>(&mut self, input: impl Debug, [proved, plain]: Both<T>) -> Result<T, Refusal> {
        assert!(proved == plain, "{input:?}\n  proved: {proved:?}\n  plain:  {plain:?}");
        self.0[proved.as_ref().map_or_else(|refusal| refusal.number as usize, |_| 0)] += 1;
        proved
    }

    /// Every refusal that the call can give was met, and no other. The two numbers of types are no line's.
    fn covers<S: Shape>(&self, call: &str, own: &[usize]) {
        let typed = S::FIELDS.contains(&4);
        for (number, &times) in self.0.iter().enumerate() {
            let expected = number == 0 || own.contains(&number) && (typed || number != 3 && number != 4);
            assert_eq!(times >= 100, expected, "{}_{call}: {number} was met {times} times", S::WORD);
            assert!(expected || times == 0, "{}_{call} gave {number}", S::WORD);
        }
    }
}

fn compare_all<S: Shape>(seed: u64) {
    let mut r = Random(seed);
    let mut tallies: [Tally; 10] = Default::default();
    let [at, position, parent, child, successor, first, last, neighbour, compare, family] = &mut tallies;
    let mut families = 0;
    for _ in 0..ROUNDS {
        let level = r.asked();
        let place = r.asked_position(S::count(level.min(HIGHEST_LEVEL)));
        let _ = at.count(("at", level, place), S::at(level, place));

        let e: S = r.element();
        let _ = position.count(("position", e), e.position());
        let _ = parent.count(("parent", e), e.parent());
        let _ = successor.count(("successor", e), e.successor());
        let number = r.pick(&NUMBERS);
        let _ = child.count(("child", e, number), e.child(number));
        let number = r.pick(&NUMBERS);
        let _ = neighbour.count(("neighbour", e, number), e.neighbour(number));
        let _ = first.count(("first_descendant", e, level), e.first_descendant(level));
        let _ = last.count(("last_descendant", e, level), e.last_descendant(level));
        let f = r.relative(e);
        let _ = compare.count(("compare", e, f), e.compare(f));

        let columns = r.family::<S>();
        let yes = family.count(("family", &columns), S::family(&columns));
        families += (yes == Ok(true)) as u64;
    }
    at.covers::<S>("at", &[1, 5]);
    position.covers::<S>("position", &[1, 2, 3, 4]);
    parent.covers::<S>("parent", &[1, 2, 3, 4, 6]);
    child.covers::<S>("child", &[1, 2, 3, 4, 7, 8]);
    successor.covers::<S>("successor", &[1, 2, 3, 4, 9]);
    first.covers::<S>("first_descendant", &[1, 2, 3, 4, 6]);
    last.covers::<S>("last_descendant", &[1, 2, 3, 4, 6]);
    neighbour.covers::<S>("neighbour", &[1, 2, 3, 4, 8, 10]);
    compare.covers::<S>("compare", &[1, 2, 3, 4]);
    family.covers::<S>("family", &[1, 2, 3, 4, 11]);
    assert!(families >= 1_000 && family.0[0] - families >= 1_000, "{families} of {} were families", family.0[0]);
    println!("{}: {} inputs agreed, {families} true families", S::WORD, tallies.iter().flat_map(|t| t.0).sum::<u64>());
}

#[test]
fn lines() {
    compare_all::<Line>(1);
}

#[test]
fn triangles() {
    compare_all::<Triangle>(2);
}

#[test]
fn prisms() {
    compare_all::<Prism>(3);
}
