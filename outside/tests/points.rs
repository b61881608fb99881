//! Corner points: the lines of the outside sample, and random points against exact arithmetic in 128-bit whole numbers, bit for
//! bit.

mod common;

use common::points::{bits, exact};
use common::random::Random;
use common::refused;
use common::sample::{run, Fields, Lines, Skip};
use gwerniloc::{corner_point, plain, Prism, Refusal, Root, HIGHEST_LEVEL};

type Answer = Result<[u64; 3], Refusal>;

/// The answers of the proved library and of the plain code.
fn ask(level: u8, position: u64, corner: u8, root: Root) -> [Answer; 2] {
    let plain = plain::point::corner_point(level, position, corner, root);
    [corner_point(level, position, corner, root).map(bits), plain.result().map(bits)]
}

#[test]
fn a_million_random_points() {
    let random = &mut Random(5);
    let (mut zeros, mut negative) = (0, 0);
    for _ in 0..1_000_000 {
        let (level, position) = random.place();
        let (corner, root) = (random.below(6) as u8, random.root());
        let expected = exact(level, position, corner, root);
        assert_eq!(ask(level, position, corner, root), [Ok(expected); 2], "{level} {position} {corner} {root:?}");
        zeros += expected.iter().filter(|&&bits| bits == 0).count();
        negative += expected.iter().filter(|&&bits| bits >> 63 == 1).count();
    }
    // Enough of what a careless sign would spoil.
    assert!(zeros > 10_000 && negative > 1_000_000, "{zeros} zeros, {negative} negative");
}

#[test]
fn damaged_calls_in_the_order_of_the_tests() {
    let random = &mut Random(6);
    for _ in 0..200_000 {
        let (mut level, mut position) = random.place();
        let (mut corner, mut root) = (random.below(6) as u8, random.root());
        let mut number = 0;
        // From the last test to the first, so that the first that applies is known at the end.
        if random.below(2) == 0 {
            random.spoil_root(&mut root);
            number = 24;
        }
        if random.below(3) == 0 {
            corner = random.pick(&[6, 7, 8, 9, 255]);
            number = 8;
        }
        if random.below(3) == 0 {
            let count = 1u64 << (3 * level);
            position = random.pick(&[count, count + 1, u64::MAX]);
            number = 5;
        }
        if random.below(3) == 0 {
            level = random.pick(&[22, 23, 64, 255]);
            number = 1;
        }
        let expected = if number == 0 { Ok(exact(level, position, corner, root)) } else { refused(number) };
        assert_eq!(ask(level, position, corner, root), [expected; 2], "{level} {position} {corner} {root:?}");
    }
}

#[test]
fn the_corners_of_the_root_are_its_own() {
    let random = &mut Random(7);
    for _ in 0..1_000 {
        let root = random.root();
        for (i, v) in root.corners.into_iter().enumerate() {
            let own = [v.x, v.y, v.z].map(|n| (n as f64).to_bits());
            assert_eq!(ask(0, 0, i as u8, root), [Ok(own); 2]);
        }
    }
}

/// A corner that parent and child share has one point: the first corner of child 0, the last of child 7, and so on down.
#[test]
fn one_point_for_one_local_corner() {
    let random = &mut Random(8);
    for _ in 0..20_000 {
        let (level, position) = random.place();
        let root = random.root();
        for deeper in level + 1..=HIGHEST_LEVEL {
            let levels = 3 * (deeper - level);
            let e = Prism::at(level, position).expect("a position");
            let first = Prism::at(deeper, position << levels).expect("a position");
            assert_eq!((first.x, first.y, first.z), (e.x, e.y, e.z), "the same anchor");
            assert_eq!(ask(level, position, 0, root), ask(deeper, position << levels, 0, root));
            let last = ((position + 1) << levels).wrapping_sub(1);
            assert_eq!(ask(level, position, 5, root), ask(deeper, last, 5, root));
        }
    }
}

/// The answers to a point line: level, position, corner, eighteen numbers; then the bits of three f64.
fn point(fields: &mut Fields) -> Lines {
    let (level, position, corner) = (fields.next()?, fields.next()?, fields.next()?);
    let root = fields.root()?;
    let words = |answer: &Answer| match answer {
        Ok([x, y, z]) => format!("ok {x:016x} {y:016x} {z:016x}"),
        Err(refusal) => format!("refused {} {}", refusal.number, refusal.place),
    };
    Ok::<_, Skip>(Some(ask(level, position, corner, root).iter().map(words).collect()))
}

#[test]
fn the_point_lines_of_the_sample() {
    let counts = run("point", |op, fields| if op == "point" { point(fields) } else { Ok(None) });
    assert_eq!(counts, [226, 0], "every point line of base.txt runs");
}
