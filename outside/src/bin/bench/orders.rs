//! Nanoseconds an order line, printed and converted.

use std::hint::black_box;
use std::time::Instant;

use gwerniloc::{plain, Refusal, LONGEST_OUTPUT};

use crate::Random;

const REPETITIONS: usize = 40;

/// From a line to so many bytes at the front of a buffer.
type Call = fn(&[u8], &mut [u8]) -> Result<u64, Refusal>;

const ORDER: [Call; 2] = [gwerniloc::order, |input, out| plain::orders::order(input, out).result()];
const CONVERT: [Call; 2] = [gwerniloc::convert, |input, out| plain::orders::convert(input, out).result()];

/// Seconds for all rounds over the lines.
#[inline(never)]
fn time(lines: &[String], rounds: usize, out: &mut [u8], call: Call) -> f64 {
    let (lines, out, call) = (black_box(lines), black_box(out), black_box(call));
    let start = Instant::now();
    for _ in 0..rounds {
        for line in lines {
            black_box(call(line.as_bytes(), out)).expect("enough room");
        }
    }
    start.elapsed().as_secs_f64()
}

/// Best of the repetitions, proved and plain in turn, printed as one row.
fn row(name: &str, lines: &[String], rounds: usize, calls: [Call; 2]) {
    let out = &mut vec![0; LONGEST_OUTPUT];
    let mut printed = |line: &String, call: Call| {
        out.fill(0);
        (call(line.as_bytes(), out), out.clone())
    };
    let differ = lines.iter().filter(|line| printed(line, calls[0]) != printed(line, calls[1])).count();
    let remark = if differ == 0 { String::new() } else { format!("  {differ} ANSWERS DIFFER") };
    let mut best = [f64::INFINITY; 2];
    for _ in 0..REPETITIONS {
        for (best, call) in best.iter_mut().zip(calls) {
            *best = best.min(time(lines, rounds, out, call));
        }
    }
    let [proved, plain] = best.map(|seconds| seconds * 1e9 / (rounds * lines.len()) as f64);
    println!("{name:<44} {proved:>9.1} {plain:>9.1} {:>7.2}{remark}", proved / plain);
}

/// So many lines with random order, site, model and roots, and the same last three fields.
fn lines(random: &mut Random, count: usize, most_roots: u64, rest: &str) -> Vec<String> {
    let mut line = || {
        let [order, site, model] = [1_000_000_000, 100_000, 1_000].map(|limit| random.next() % limit);
        format!("{order};{site};{model};{};{rest}\n", 1 + random.next() % most_roots)
    };
    (0..count).map(|_| line()).collect()
}

pub fn rows(random: &mut Random) {
    println!("Nanoseconds a line; best of {REPETITIONS} repetitions in turn.");
    println!("{:<44} {:>9} {:>9} {:>7}", "call", "proved", "plain", "ratio");
    row("order, 3 shares", &lines(random, 512, 256, "21;3;4"), 8, ORDER);
    row("order, 4,096 shares", &lines(random, 16, 256, "21;4096;4"), 1, ORDER);
    row("convert, field seven filled", &lines(random, 512, 256, "21;16;4"), 32, CONVERT);
    row("convert, field seven empty", &lines(random, 512, 256, "21;16;"), 32, CONVERT);
    row("convert, refused: 2 above the highest level", &lines(random, 512, 256, "1;16;"), 32, CONVERT);
}
