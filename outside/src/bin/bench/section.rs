//! Nanoseconds a point of a section: the proved call, plain Rust that walks as it does, plain Rust that takes all levels
//! at once, and the same points by single calls.

use std::hint::black_box;
use std::time::Instant;

use gwerniloc::{corner_point, corner_points, plain, Prism, Refusal, Root};

use crate::points::root;
use crate::Random;

const POSITIONS: usize = 100_000;
const CALLS: usize = 100;

/// What is asked of one section.
struct Section {
    level: u8,
    positions: Vec<u64>,
    corner: u8,
    root: Root,
}

/// The columns lent for the points, the same for all.
type Columns = [Vec<f64>; 3];

fn proved(section: &Section, [x, y, z]: &mut Columns) -> Result<(), Refusal> {
    corner_points(section.level, &section.positions, section.corner, section.root, x, y, z)
}

fn walking(section: &Section, [x, y, z]: &mut Columns) -> Result<(), Refusal> {
    let Section { level, positions, corner, root } = section;
    Refusal::from_c(plain::section::corner_points_walking(*level, positions, *corner, *root, x, y, z))
}

fn at_once(section: &Section, [x, y, z]: &mut Columns) -> Result<(), Refusal> {
    let Section { level, positions, corner, root } = section;
    Refusal::from_c(plain::section::corner_points(*level, positions, *corner, *root, x, y, z))
}

/// The proved corner point, called once a position.
fn single(section: &Section, [x, y, z]: &mut Columns) -> Result<(), Refusal> {
    let points = x.iter_mut().zip(y).zip(z);
    for (&position, ((x, y), z)) in section.positions.iter().zip(points) {
        let point = corner_point(section.level, position, section.corner, section.root)?;
        (*x, *y, *z) = (point.x, point.y, point.z);
    }
    Ok(())
}

type Call = fn(&Section, &mut Columns) -> Result<(), Refusal>;

/// Seconds for one section.
#[inline(never)]
fn time(section: &Section, columns: &mut Columns, call: Call) -> f64 {
    let (section, columns) = (black_box(section), black_box(columns));
    let start = Instant::now();
    black_box(call(section, columns)).expect("an accepted call");
    start.elapsed().as_secs_f64()
}

/// Best of the calls, in turn, printed as one row.
fn row(name: &str, section: &Section, columns: &mut Columns) {
    let calls: [Call; 4] = [proved, walking, at_once, single];
    let written = calls.map(|call| {
        columns.iter_mut().for_each(|column| column.fill(f64::NAN));
        call(section, columns).map(|()| columns.clone())
    });
    let differ = written.iter().any(|columns| columns.is_err() || *columns != written[0]);
    let remark = if differ { "  ANSWERS DIFFER" } else { "" };
    let mut best = [f64::INFINITY; 4];
    for _ in 0..CALLS {
        for (best, call) in best.iter_mut().zip(calls) {
            *best = best.min(time(section, columns, call));
        }
    }
    let [proved, walking, at_once, single] = best.map(|seconds| seconds * 1e9 / POSITIONS as f64);
    let level = section.level;
    // To the faster of the two plain ones.
    let ratio = proved / walking.min(at_once);
    println!("{name:<32} {level:>5} {proved:>9.2} {walking:>9.2} {at_once:>9.2} {ratio:>7.2} {single:>9.2}{remark}");
}

pub fn rows(random: &mut Random) {
    println!(
        "Nanoseconds a point of {POSITIONS} positions; best of {CALLS} calls in turn; single = a proved call for each."
    );
    println!(
        "{:<32} {:>5} {:>9} {:>9} {:>9} {:>7} {:>9}",
        "call", "level", "proved", "walking", "at once", "ratio", "single"
    );
    let columns = &mut [0; 3].map(|_| vec![0.0; POSITIONS]);
    for level in [6, 21] {
        let count = (Prism::CHILDREN as u64).pow(level as u32);
        let first = random.next() % (count - POSITIONS as u64);
        let mut section = Section {
            level,
            positions: (first..).take(POSITIONS).collect(),
            corner: (random.next() % Prism::CORNERS as u64) as u8,
            root: root(random),
        };
        row("section, in order", &section, columns);
        section.positions.fill_with(|| random.next() % count);
        row("section, at random", &section, columns);
    }
}
