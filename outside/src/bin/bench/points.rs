//! Nanoseconds a corner point.

use std::hint::black_box;
use std::time::Instant;

use gwerniloc::{corner_point, plain, Corner, Point, Prism, Root};

use crate::elements::{row, Fold, INPUTS};
use crate::Random;

/// Calls in a chain, and how often a chain is run.
const CHAIN: u64 = 2_000;
const CHAINS: usize = 200;

impl Fold for Point {
    #[inline(always)]
    fn fold(self) -> u64 {
        self.x.to_bits()
    }
}

/// Six corners with numbers from -512 to 512.
pub fn root(random: &mut Random) -> Root {
    let mut number = || (random.next() % 1_025) as i64 - 512;
    Root { corners: std::array::from_fn(|_| Corner { x: number(), y: number(), z: number() }) }
}

/// Seconds for calls of which each has its position from the answer before it, so that no two overlap.
#[inline(never)]
fn chain(call: &impl Fn(u64) -> u64) -> f64 {
    let mut number = black_box(1u64);
    let start = Instant::now();
    for _ in 0..CHAIN {
        number = number.wrapping_mul(6_364_136_223_846_793_005).wrapping_add(call(number >> 1));
    }
    black_box(number);
    start.elapsed().as_secs_f64()
}

/// Best of the chains at level 21, proved and plain in turn, printed as one row.
fn chained(name: &str, proved: impl Fn(u64) -> u64, plain: impl Fn(u64) -> u64) {
    let mut best = [f64::INFINITY; 2];
    for _ in 0..CHAINS {
        best[0] = best[0].min(chain(&proved));
        best[1] = best[1].min(chain(&plain));
    }
    let [proved, plain] = best.map(|seconds| seconds * 1e9 / CHAIN as f64);
    println!("{name:<32} {:>5} {proved:>9.2} {plain:>9.2} {:>7.2}", 21, proved / plain);
}

pub fn rows(random: &mut Random) {
    for level in [6, 21] {
        let count = (Prism::CHILDREN as u64).pow(level as u32);
        let root = root(random);
        let inputs: Vec<(u64, u8)> =
            (0..INPUTS).map(|_| (random.next() % count, (random.next() % Prism::CORNERS as u64) as u8)).collect();
        row(
            "corner point",
            level,
            &inputs,
            |(position, corner)| corner_point(level, position, corner, root),
            |(position, corner)| plain::point::corner_point(level, position, corner, root).result(),
        );
    }
    let root = root(random);
    chained(
        "position to element, in a chain",
        |position| Prism::at(21, position).fold(),
        |position| plain::prism::at(21, position).result().fold(),
    );
    chained(
        "corner point, in a chain",
        |position| corner_point(21, position, (position % 6) as u8, root).fold(),
        |position| plain::point::corner_point(21, position, (position % 6) as u8, root).result().fold(),
    );
}
