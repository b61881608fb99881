//! Nanoseconds a call on one element.

use std::hint::black_box;
use std::time::Instant;

use gwerniloc::{plain, Line, Prism, Refusal, Triangle};

use crate::Random;

pub const INPUTS: usize = 4_096;
/// Passes over the inputs between two looks at the clock.
const ROUNDS: usize = 16;
const REPETITIONS: usize = 15;

/// What the sum takes of an answer. One field is enough, for the call cannot know which; and fields that lie together
/// would be read as one word, which waits for the call's separate stores.
pub trait Fold {
    fn fold(self) -> u64;
}

impl Fold for u64 {
    #[inline(always)]
    fn fold(self) -> u64 {
        self
    }
}

impl Fold for Line {
    #[inline(always)]
    fn fold(self) -> u64 {
        self.x as u64
    }
}

impl Fold for Triangle {
    #[inline(always)]
    fn fold(self) -> u64 {
        self.x as u64
    }
}

impl Fold for Prism {
    #[inline(always)]
    fn fold(self) -> u64 {
        self.x as u64
    }
}

impl<T: Fold> Fold for Result<T, Refusal> {
    #[inline(always)]
    fn fold(self) -> u64 {
        match self {
            Ok(value) => value.fold(),
            Err(refusal) => refusal.number as u64,
        }
    }
}

/// Seconds for all rounds over the inputs.
#[inline(never)]
fn time<I: Copy, A: Fold>(inputs: &[I], call: impl Fn(I) -> A) -> f64 {
    let inputs = black_box(inputs);
    let mut sum = 0u64;
    let start = Instant::now();
    for _ in 0..ROUNDS {
        for &input in inputs {
            sum = sum.wrapping_add(call(input).fold());
        }
    }
    black_box(sum);
    start.elapsed().as_secs_f64()
}

/// Best of the repetitions, proved and plain in turn, printed as one row.
pub fn row<I: Copy, A: Fold + PartialEq>(
    name: &str,
    level: u8,
    inputs: &[I],
    proved: impl Fn(I) -> A,
    plain: impl Fn(I) -> A,
) {
    let mut best = [f64::INFINITY; 2];
    for _ in 0..REPETITIONS {
        best[0] = best[0].min(time(inputs, &proved));
        best[1] = best[1].min(time(inputs, &plain));
    }
    let differ = inputs.iter().filter(|&&input| proved(input) != plain(input)).count();
    let remark = if differ == 0 { String::new() } else { format!("  {differ} ANSWERS DIFFER") };
    let [proved, plain] = best.map(|seconds| seconds * 1e9 / (ROUNDS * INPUTS) as f64);
    println!("{name:<32} {level:>5} {proved:>9.2} {plain:>9.2} {:>7.2}{remark}", proved / plain);
}

/// The rows of a shape at a level.
macro_rules! bench {
    ($Shape:ident, $module:ident, $level:expr, $random:expr) => {
        let count = ($Shape::CHILDREN as u64).pow($level as u32);
        let positions: Vec<u64> = (0..INPUTS).map(|_| $random.next() % count).collect();
        let elements: Vec<$Shape> = positions.iter().map(|&p| $Shape::at($level, p).expect("a position")).collect();
        let faces: Vec<($Shape, u8)> =
            elements.iter().map(|&e| (e, ($random.next() % $Shape::FACES as u64) as u8)).collect();
        let name = |call: &str| format!("{} {call}", stringify!($module));
        row(
            &name("position to element"),
            $level,
            &positions,
            |p| $Shape::at($level, p),
            |p| plain::$module::at($level, p).result(),
        );
        row(
            &name("element to position"),
            $level,
            &elements,
            |e| e.position(),
            |e| plain::$module::position(e).result(),
        );
        row(
            &name("face neighbour"),
            $level,
            &faces,
            |(e, face)| e.neighbour(face),
            |(e, face)| plain::$module::neighbour(e, face).result(),
        );
    };
}

pub fn rows(random: &mut Random) {
    println!("Nanoseconds a call: the proved library against plain Rust (a loop over the levels), both -O3.");
    println!(
        "{INPUTS} random inputs, {ROUNDS} passes, best of {REPETITIONS} repetitions in turn; ratio = proved / plain."
    );
    println!("{:<32} {:>5} {:>9} {:>9} {:>7}", "call", "level", "proved", "plain", "ratio");
    for level in [6, 21] {
        bench!(Prism, prism, level, random);
    }
    for level in [6, 21] {
        bench!(Triangle, triangle, level, random);
    }
    for level in [6, 21] {
        bench!(Line, line, level, random);
    }
}
