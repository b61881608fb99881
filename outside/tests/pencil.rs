//! docs/PENCIL.md: its rule gives the library's numbers, types and positions, and its example is the library's. The rule
//! stands here in binary digits and without a table, as the page says it.

mod common;

use common::random::Random;
use gwerniloc::{Prism, Triangle, HIGHEST_LEVEL};

const PAGE: &str = include_str!("../../docs/PENCIL.md");

// What the page says of a wrong anchor, what steps 2 to 4 say to write, and what the end tells.
const WRONG: &str = "Where something is left over, or a quotient needs more digits, the anchor is wrong.";
const NUMBER: &str = "the triangle's number is 0 when neither the digit of x nor that of y is set, 3 when both are, \
    and otherwise 1 plus the type;";
const PRISM_NUMBER: &str = "the prism's number is that, and 4 more when the digit of z is set;";
const ABOVE: &str =
    "the type above, which is the type of the next row, is the same type when the digits of x and y agree, \
    and otherwise the digit of y.";
const LEVELS: &str =
    "from the prism's own level, with its own type, to level 1. At each level look at the digits of that level:";
const ENDS: &str = "It is 0 when the prism lies in the root, and 1 when it does not:";
const POSITION: &str =
    "the prism's numbers are its digits in base 8, that of level 1 first. Begin with 0, and for each number \
    from level 1 on take 8 times what you have and add the number.";
const HEAD: &str =
    "| Level | Digit of x | Digit of y | Digit of z | Type | Triangle's number | Prism's number | Type above |";

/// A row: level, digits of x, y and z, type, triangle's number, prism's number, type above.
type Row = [u8; 8];

/// A coordinate in sides of a level.
fn sides(coordinate: u32, level: u8) -> u32 {
    coordinate / (1 << (HIGHEST_LEVEL - level))
}

/// A coordinate in binary, with as many digits as the level says.
fn binary(coordinate: u32, level: u8) -> String {
    let width = level as usize;
    let all = format!("{:0width$b}", sides(coordinate, level));
    all[all.len() - width..].to_string()
}

/// By [`NUMBER`].
fn number(x: bool, y: bool, kind: u8) -> u8 {
    match (x, y) {
        (false, false) => 0,
        (true, true) => 3,
        _ => 1 + kind,
    }
}

/// By [`ABOVE`].
fn above(x: bool, y: bool, kind: u8) -> u8 {
    if x == y {
        kind
    } else {
        y as u8
    }
}

/// The rows of a prism's page, by [`LEVELS`] and [`PRISM_NUMBER`].
fn page(e: Prism) -> Vec<Row> {
    let [x, y, z] = [e.x, e.y, e.z].map(|coordinate| binary(coordinate, e.level));
    let set = |digits: &str, level: u8| digits.as_bytes()[level as usize - 1] == b'1';
    let mut kind = e.kind;
    let mut rows = Vec::new();
    for level in (1..=e.level).rev() {
        let [x, y, z] = [&x, &y, &z].map(|digits| set(digits, level));
        let triangle = number(x, y, kind);
        let prism = triangle + if z { 4 } else { 0 };
        let next = above(x, y, kind);
        rows.push([level, x as u8, y as u8, z as u8, kind, triangle, prism, next]);
        kind = next;
    }
    rows
}

/// By [`POSITION`].
fn position(rows: &[Row]) -> u64 {
    rows.iter().rev().fold(0, |sum, row| 8 * sum + row[6] as u64)
}

/// Each row against the library's own ancestors, down and up, and the whole against its position.
fn agrees(e: Prism) {
    let rows = page(e);
    assert_eq!(Ok(position(&rows)), e.position(), "{e:?}");
    let mut here = e;
    for &[level, .., kind, triangle, prism, above] in &rows {
        assert_eq!([here.level, here.kind], [level, kind], "{e:?}");
        let parent = here.parent().expect("a parent");
        assert_eq!(parent.child(prism), Ok(here), "{e:?} at level {level}");
        let [plan, whole] = [here, parent].map(|e| Triangle { x: e.x, y: e.y, level: e.level, kind: e.kind });
        assert_eq!(whole.child(triangle), Ok(plan), "{e:?} at level {level}");
        assert_eq!(plan.parent(), Ok(whole), "{e:?} at level {level}");
        assert_eq!(plan.position().map(|p| p % 4), Ok(triangle as u64), "{e:?} at level {level}");
        assert_eq!(parent.kind, above, "{e:?} at level {level}");
        here = parent;
    }
    assert_eq!(here, Prism::default(), "the root, of type 0");
}

#[test]
fn every_prism_of_the_first_levels() {
    for level in 0..=5 {
        for position in 0..8u64.pow(level as u32) {
            agrees(Prism::at(level, position).expect("a position"));
        }
    }
}

#[test]
fn random_prisms_of_every_level() {
    let mut random = Random(0x7065_6e63_696c);
    for _ in 0..5_000 {
        for level in 0..=HIGHEST_LEVEL {
            let position = random.below(8u64.pow(level as u32));
            agrees(Prism::at(level, position).expect("a position"));
        }
    }
}

/// By [`ENDS`], every x, y and type of a level's grid, one z each: the page ends with type 0 for those that the library accepts,
/// and with type 1 for the others, which it refuses as outside the root.
#[test]
fn the_type_above_level_1_tells() {
    for level in 0..=6 {
        let side = 1 << (HIGHEST_LEVEL - level);
        let mut inside = 0;
        for x in 0..1 << level {
            for y in 0..1 << level {
                for kind in 0..2 {
                    let e = Prism { x: x * side, y: y * side, z: (x ^ y) * side, level, kind };
                    let ends = page(e).last().map_or(kind, |row| row[7]);
                    let refusal = e.position().err().map(|refusal| refusal.number);
                    assert_eq!(refusal, [None, Some(4)][ends as usize], "{e:?}");
                    inside += u64::from(refusal.is_none());
                }
            }
        }
        assert_eq!(inside, 4u64.pow(level as u32));
    }
}

/// By [`WRONG`]: refusal 2, in whichever coordinate. At level 21 the last two are right, and are not refused by 2.
#[test]
fn a_wrong_anchor() {
    let mut random = Random(0x616e_6368_6f72);
    for level in 0..=HIGHEST_LEVEL {
        let side = 1 << (HIGHEST_LEVEL - level);
        let e = Prism::at(level, random.below(8u64.pow(level as u32))).expect("a position");
        for wrong in [1 << HIGHEST_LEVEL, (1 << HIGHEST_LEVEL) + side, side - 1, side / 2 + side] {
            let right = wrong < 1 << HIGHEST_LEVEL && wrong % side == 0;
            for anchor in [[wrong, e.y, e.z], [e.x, wrong, e.z], [e.x, e.y, wrong]] {
                let [x, y, z] = anchor;
                let answer = Prism { x, y, z, ..e }.position();
                assert_eq!(answer.is_err_and(|refusal| refusal.number == 2), !right, "{anchor:?} at level {level}");
            }
        }
    }
}

/// The numbers in a piece of text, in order; commas may part their digits by threes.
fn numbers(text: &str) -> Vec<u64> {
    let apart = text.replace(", ", " ").replace(',', "");
    apart
        .split(|c: char| !c.is_ascii_digit())
        .filter(|part| !part.is_empty())
        .map(|part| part.parse().expect("digits"))
        .collect()
}

/// A row as the table writes it, with its sums.
fn written([level, x, y, z, kind, triangle, prism, above]: Row) -> String {
    let sum = if x == y { triangle.to_string() } else { format!("1 + {kind} = {triangle}") };
    let more = if z == 0 { prism.to_string() } else { format!("4 + {triangle} = {prism}") };
    format!("| {level} | {x} | {y} | {z} | {kind} | {sum} | {more} | {above} |")
}

/// The one line of the example that begins like this.
fn line<'a>(example: &'a str, begins: &str) -> &'a str {
    let mut lines = example.lines().filter(|line| line.starts_with(begins));
    let found = lines.next().expect("a line");
    assert_eq!(lines.next(), None, "two lines begin with {begins}");
    found
}

#[test]
fn the_rule_on_the_page() {
    for said in [WRONG, LEVELS, NUMBER, PRISM_NUMBER, ABOVE, ENDS, POSITION] {
        assert!(PAGE.contains(said), "not on the page: {said}");
    }
    let sides = numbers(PAGE.lines().find(|line| line.contains("halved once for each level")).expect("the sides"));
    assert_eq!(sides[..8], [1, 1 << 21, 1 << 20, 1, 1 << 19, 2, 1 << 18, 3], "the edge, then side and level");
}

#[test]
fn the_example_on_the_page() {
    let example = PAGE.split("## An example").nth(1).expect("the example").split("\n## ").next().expect("its text");
    let given = numbers(line(example, "Level 3,"));
    let [level, x, y, z, kind, said] = given[..] else { panic!("level, anchor, type, position") };
    let e = Prism { x: x as u32, y: y as u32, z: z as u32, level: level as u8, kind: kind as u8 };
    agrees(e);
    assert_eq!(Prism::at(e.level, said), Ok(e));

    let [u, v, w] = [e.x, e.y, e.z].map(|coordinate| sides(coordinate, e.level));
    let [x, y, z] = [e.x, e.y, e.z].map(|coordinate| binary(coordinate, e.level));
    let digits = format!("the anchor is {u}, {v} and {w}; in binary x = {x}, y = {y}, z = {z}.");
    assert!(line(example, "In sides of 262,144").ends_with(&digits), "{digits}");

    let rows = page(e);
    let table: Vec<&str> = example.lines().filter(|line| line.starts_with('|')).collect();
    assert_eq!(table[0], HEAD);
    assert_eq!(table[2..], rows.iter().map(|&row| written(row)).collect::<Vec<_>>());

    let [c, b, a] = [0, 1, 2].map(|i| rows[i][6]);
    let ends = format!("The type above level 1 is {}: the prism lies in the root.", rows[2][7]);
    let sum = format!("The position is ({a} · 8 + {b}) · 8 + {c} = {},", position(&rows));
    assert_eq!(line(example, "The type above"), format!("{ends} {sum} as the report says."));
}
