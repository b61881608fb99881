//! Whole answers of C, with what the safe calls drop; and lengths that belong to one column each.

use super::*;
use crate::plain;

mod points;

const LEVELS: [u8; 7] = [0, 1, 2, 20, 21, 22, 255];
const COORDINATES: [u32; 6] = [0, 1, 1 << 20, (1 << 21) - 1, 1 << 21, u32::MAX];
const NUMBERS: [u8; 9] = [0, 1, 2, 3, 4, 7, 8, 22, 255];

/// The safe calls drop the value of a refused one, which must be zeros.
macro_rules! raw_answers {
    ($test:ident, $module:ident, $elements:expr, $at:ident, $position:ident, $parent:ident, $child:ident,
     $successor:ident, $first:ident, $last:ident, $neighbour:ident, $compare:ident) => {
        #[test]
        fn $test() {
            use plain::$module as plain;
            for level in LEVELS {
                for position in [0, 1, 1 << 21, u64::MAX] {
                    assert_eq!(unsafe { $at(level, position) }, plain::at(level, position));
                }
            }
            let elements = $elements;
            for (i, &e) in elements.iter().enumerate() {
                assert_eq!(unsafe { $position(e) }, plain::position(e));
                assert_eq!(unsafe { $parent(e) }, plain::parent(e));
                assert_eq!(unsafe { $successor(e) }, plain::successor(e));
                for n in NUMBERS {
                    assert_eq!(unsafe { $child(e, n) }, plain::child(e, n));
                    assert_eq!(unsafe { $first(e, n) }, plain::first_descendant(e, n));
                    assert_eq!(unsafe { $last(e, n) }, plain::last_descendant(e, n));
                    assert_eq!(unsafe { $neighbour(e, n) }, plain::neighbour(e, n));
                }
                let f = elements[i * 7 % elements.len()];
                assert_eq!(unsafe { $compare(e, f) }, plain::compare(e, f));
                assert_eq!(unsafe { $compare(f, e) }, plain::compare(f, e));
            }
        }
    };
}

/// Every choice of the values above.
fn values() -> Vec<Prism> {
    let mut all = Vec::new();
    for level in LEVELS {
        for x in COORDINATES {
            for y in COORDINATES {
                for z in COORDINATES {
                    all.extend([0, 1, 2, 255].map(|kind| Prism { x, y, z, level, kind }));
                }
            }
        }
    }
    all
}

raw_answers!(
    lines,
    line,
    values().iter().map(|p| Line { x: p.x, level: p.level }).collect::<Vec<_>>(),
    gw_line_at,
    gw_line_position,
    gw_line_parent,
    gw_line_child,
    gw_line_successor,
    gw_line_first_descendant,
    gw_line_last_descendant,
    gw_line_neighbour,
    gw_line_compare
);
raw_answers!(
    triangles,
    triangle,
    values().iter().map(|p| Triangle { x: p.x, y: p.y, level: p.level, kind: p.kind }).collect::<Vec<_>>(),
    gw_triangle_at,
    gw_triangle_position,
    gw_triangle_parent,
    gw_triangle_child,
    gw_triangle_successor,
    gw_triangle_first_descendant,
    gw_triangle_last_descendant,
    gw_triangle_neighbour,
    gw_triangle_compare
);
raw_answers!(
    prisms,
    prism,
    values(),
    gw_prism_at,
    gw_prism_position,
    gw_prism_parent,
    gw_prism_child,
    gw_prism_successor,
    gw_prism_first_descendant,
    gw_prism_last_descendant,
    gw_prism_neighbour,
    gw_prism_compare
);

/// A refused family has value 0 too, and so has one of no elements.
#[test]
fn families() {
    let (level, x) = ([22], [0]);
    let family = |levels, xs| unsafe { gw_line_family(x.as_ptr(), xs, level.as_ptr(), levels) };
    assert_eq!(family(0, 0), Answer { refusal: 0, value: 0 });
    assert_eq!(family(1, 0), Answer { refusal: 11, value: 0 });
    assert_eq!(family(1, 1), Answer { refusal: 1, value: 0 });
}

/// A refusal of a list in one word, and lengths that are taken from their own column.
#[test]
fn lists() {
    let (root, level, position) = ([0, 1, 2], [0, 0, 22], [0, 0, 0]);
    let check = |k, roots, levels, positions| unsafe {
        gw_list_check(k, root.as_ptr(), roots, level.as_ptr(), levels, position.as_ptr(), positions)
    };
    assert_eq!(check(2, 2, 2, 2), 0);
    assert_eq!(check(3, 3, 3, 3), 2 << 8 | 1);
    assert_eq!(check(3, 2, 2, 2), 2 << 8 | 12);
    assert_eq!([check(2, 1, 2, 2), check(2, 2, 1, 2), check(2, 2, 2, 1), check(2, 0, 0, 0)], [11; 4]);
    assert_eq!([check(0, 2, 2, 2), check(4_097, 0, 1, 2)], [17; 2]);
}

/// A refused uniform start has value 0, and writes nothing; lengths are taken from their own column.
#[test]
fn uniform_starts() {
    let (mut root, mut level, mut position) = ([7; 9], [7; 9], [7; 9]);
    let mut start = |k, at, roots, levels, positions| {
        let (root, level, position) = (root.as_mut_ptr(), level.as_mut_ptr(), position.as_mut_ptr());
        unsafe { gw_list_uniform(k, at, root, roots, level, levels, position, positions) }
    };
    let refused = |refusal| Answer { refusal, value: 0 };
    assert_eq!([start(0, 22, 0, 0, 1), start(4_097, 7, 0, 1, 0)], [refused(17); 2]);
    assert_eq!([start(1, 22, 8, 9, 9), start(1, 22, 9, 8, 9), start(1, 7, 9, 9, 8)], [refused(11); 3]);
    assert_eq!([start(1, 22, 0, 0, 0), start(4_096, 255, 9, 9, 9)], [refused(1); 2]);
    assert_eq!([start(1, 7, 0, 0, 0), start(4_096, 21, 9, 9, 9)], [refused(15); 2]);
    assert_eq!([start(1, 1, 0, 0, 0), start(1, 1, 7, 7, 7)], [refused(8 << 8 | 14); 2]);
    assert_eq!((root, level, position), ([7; 9], [7; 9], [7; 9]));
    let mut start = |k, at, n| unsafe {
        gw_list_uniform(k, at, root.as_mut_ptr(), n, level.as_mut_ptr(), n, position.as_mut_ptr(), n)
    };
    assert_eq!(start(1, 1, 9), Answer { refusal: 0, value: 8 });
    assert_eq!(root, [0, 0, 0, 0, 0, 0, 0, 0, 7]);
    assert_eq!(level, [1, 1, 1, 1, 1, 1, 1, 1, 7]);
    assert_eq!(position, [0, 1, 2, 3, 4, 5, 6, 7, 7]);
}

/// Yes is 1 and no is 0, and a refused question has value 0 too.
#[test]
fn balance() {
    let root = [0; 22];
    let ask = |k, [roots, levels, positions]: [usize; 3], level: &[u8; 22], position: &[u64; 22]| unsafe {
        gw_list_balanced(k, root.as_ptr(), roots, level.as_ptr(), levels, position.as_ptr(), positions)
    };
    // The last of eight leaves refined, and of the new ones the last, or the first.
    let last = [1, 1, 1, 1, 1, 1, 1, 2, 2, 2, 2, 2, 2, 2, 3, 3, 3, 3, 3, 3, 3, 3];
    let last_at = [0, 1, 2, 3, 4, 5, 6, 56, 57, 58, 59, 60, 61, 62, 504, 505, 506, 507, 508, 509, 510, 511];
    let first = [1, 1, 1, 1, 1, 1, 1, 3, 3, 3, 3, 3, 3, 3, 3, 2, 2, 2, 2, 2, 2, 2];
    let first_at = [0, 1, 2, 3, 4, 5, 6, 448, 449, 450, 451, 452, 453, 454, 455, 57, 58, 59, 60, 61, 62, 63];
    assert_eq!(ask(1, [22; 3], &last, &last_at), Answer { refusal: 0, value: 1 });
    assert_eq!(ask(1, [22; 3], &first, &first_at), Answer { refusal: 0, value: 0 });
    let refused = |refusal| Answer { refusal, value: 0 };
    assert_eq!([ask(0, [22; 3], &last, &last_at), ask(4_097, [0, 1, 2], &last, &last_at)], [refused(17); 2]);
    for lengths in [[21, 22, 22], [22, 21, 22], [22, 22, 21], [0; 3]] {
        assert_eq!(ask(1, lengths, &last, &last_at), refused(11), "{lengths:?}");
    }
    assert_eq!(ask(1, [21; 3], &last, &last_at), refused(21 << 8 | 12));
    assert_eq!(ask(1, [22; 3], &last, &first_at), refused(7 << 8 | 5));
}

type New = ([u16; 10], [u8; 10], [u64; 10]);

/// An adaption with these lengths of root, level, position, marks and the new columns.
fn adapted(k: u16, old: (&[u16], &[u8], &[u64], &[u8]), lengths: [usize; 7], new: &mut New) -> Answer<u64> {
    unsafe {
        gw_list_adapt(
            k,
            old.0.as_ptr(),
            lengths[0],
            old.1.as_ptr(),
            lengths[1],
            old.2.as_ptr(),
            lengths[2],
            old.3.as_ptr(),
            lengths[3],
            new.0.as_mut_ptr(),
            lengths[4],
            new.1.as_mut_ptr(),
            lengths[5],
            new.2.as_mut_ptr(),
            lengths[6],
        )
    }
}

/// A refused adaption has value 0, and writes nothing.
#[test]
fn adaptions() {
    let mut new = ([7; 10], [7; 10], [7; 10]);
    // Two roots, and a leaf too many where all three are lent.
    let mut adapt = |k, lengths, marks: [u8; 3]| adapted(k, (&[0, 1, 1], &[0; 3], &[0; 3], &marks), lengths, &mut new);
    let refused = |refusal| Answer { refusal, value: 0 };
    assert_eq!([adapt(0, [2; 7], [3; 3]), adapt(4_097, [0, 1, 2, 3, 2, 1, 0], [3; 3])], [refused(17); 2]);
    for odd in 0..7 {
        let mut lengths = [2, 2, 2, 2, 9, 9, 9];
        lengths[odd] -= 1;
        assert_eq!(adapt(2, lengths, [3; 3]), refused(11), "column {odd}");
    }
    assert_eq!(adapt(2, [3, 3, 3, 3, 9, 9, 9], [3; 3]), refused(2 << 8 | 12));
    assert_eq!(adapt(2, [2, 2, 2, 2, 9, 9, 9], [0, 3, 3]), refused(1 << 8 | 13));
    assert_eq!(adapt(2, [2, 2, 2, 2, 8, 8, 8], [0, 1, 3]), refused(9 << 8 | 14));
    assert_eq!(new, ([7; 10], [7; 10], [7; 10]));
    let last = adapted(2, (&[0, 1], &[0; 2], &[0; 2], &[2, 1]), [2, 2, 2, 2, 10, 10, 10], &mut new);
    assert_eq!(last, Answer { refusal: 0, value: 9 });
    assert_eq!(new.0, [0, 1, 1, 1, 1, 1, 1, 1, 1, 7]);
    assert_eq!(new.1, [0, 1, 1, 1, 1, 1, 1, 1, 1, 7]);
    assert_eq!(new.2, [0, 0, 1, 2, 3, 4, 5, 6, 7, 7]);
}

/// So has one whose result would be too long: the most leaves, of which one is to be refined.
#[test]
fn adaption_past_the_limit() {
    const MOST: usize = crate::MOST_LEAVES;
    let (mut root, mut level, mut position) = (vec![0; MOST], vec![0; MOST], vec![0; MOST]);
    assert_eq!(plain::list::uniform(4, 6, &mut root, &mut level, &mut position).value, MOST as u64);
    let (mut marks, mut new) = (vec![0; MOST], ([7; 10], [7; 10], [7; 10]));
    marks[MOST - 1] = 1;
    let answer = adapted(4, (&root, &level, &position, &marks), [MOST, MOST, MOST, MOST, 10, 10, 10], &mut new);
    assert_eq!(answer, Answer { refusal: 15, value: 0 });
    assert_eq!(new, ([7; 10], [7; 10], [7; 10]));
}

/// A refusal of shares in one word.
#[test]
fn shares() {
    let (root, level, position, weight) = ([0, 1, 2, 3, 3], [0; 5], [0; 5], [1, 1, 1, 5, 0]);
    let mut boundary = [7; 4];
    let mut shares = |k, p, [roots, levels, positions, weights, boundaries]: [usize; 5]| unsafe {
        let (root, level, position) = (root.as_ptr(), level.as_ptr(), position.as_ptr());
        let (weight, boundary) = (weight.as_ptr(), boundary.as_mut_ptr());
        gw_list_shares(k, p, root, roots, level, levels, position, positions, weight, weights, boundary, boundaries)
    };
    assert_eq!(
        [shares(0, 2, [0; 5]), shares(4_097, 2, [4; 5]), shares(4, 0, [4; 5]), shares(4, 4_097, [1; 5])],
        [17; 4]
    );
    for lengths in [[3, 4, 4, 4, 4], [4, 3, 4, 4, 4], [4, 4, 3, 4, 4], [4, 4, 4, 3, 4], [0, 0, 0, 0, 4]] {
        assert_eq!(shares(4, 2, lengths), 11, "{lengths:?}");
    }
    assert_eq!(shares(4, 2, [5, 5, 5, 5, 4]), 4 << 8 | 12);
    assert_eq!([shares(4, 2, [4, 4, 4, 4, 2]), shares(4, 4_096, [4; 5])], [3 << 8 | 14, 4_097 << 8 | 14]);
    assert_eq!(shares(4, 2, [4; 5]), 0);
    assert_eq!(boundary, [0, 3, 4, 7]);
    let zero = unsafe {
        let (root, level, position) = (root.as_ptr(), level.as_ptr(), position.as_ptr());
        gw_list_shares(4, 2, root, 4, level, 4, position, 4, weight[1..].as_ptr(), 4, boundary.as_mut_ptr(), 2)
    };
    assert_eq!(zero, 3 << 8 | 16);
}

/// A refused file has length 0, and writes nothing; lengths are taken from their own column.
#[test]
fn files_written() {
    let (root, level, position, mut bytes) = ([0, 1, 2], [0, 0, 22], [0, 0, 0], [7; 9]);
    let mut write = |k, [roots, levels, positions, length]: [usize; 4]| unsafe {
        let (root, level, position) = (root.as_ptr(), level.as_ptr(), position.as_ptr());
        gw_file_write(k, root, roots, level, levels, position, positions, bytes.as_mut_ptr(), length)
    };
    let refused = |refusal| Answer { refusal, value: 0 };
    assert_eq!([write(0, [2, 2, 2, 9]), write(4_097, [0, 1, 2, 0])], [refused(17); 2]);
    for lengths in [[1, 2, 2, 9], [2, 1, 2, 9], [2, 2, 1, 9], [0, 0, 0, 9]] {
        assert_eq!(write(2, lengths), refused(11), "{lengths:?}");
    }
    assert_eq!([write(3, [3, 3, 3, 9]), write(3, [2, 2, 2, 9])], [refused(2 << 8 | 1), refused(2 << 8 | 12)]);
    assert_eq!([write(2, [2, 2, 2, 0]), write(2, [2, 2, 2, 7])], [refused(8 << 8 | 14); 2]);
    assert_eq!(bytes, [7; 9]);
    let last =
        unsafe { gw_file_write(2, root.as_ptr(), 2, level.as_ptr(), 2, position.as_ptr(), 2, bytes.as_mut_ptr(), 9) };
    assert_eq!(last, Answer { refusal: 0, value: 8 });
    assert_eq!(bytes, [0x50, 0x47, 0x52, 0x31, 2, 1, 0, 2, 7]);
}

/// A refused reading has no roots and no leaves, and writes nothing; lengths are taken from their own column.
#[test]
fn files_read() {
    let file = [0x50, 0x47, 0x52, 0x31, 2, 2, 0, 1, 1, 8, 7];
    let (mut root, mut level, mut position) = ([7; 10], [7; 10], [7; 10]);
    let mut read = |length, [roots, levels, positions]: [usize; 3]| {
        let (root, level, position) = (root.as_mut_ptr(), level.as_mut_ptr(), position.as_mut_ptr());
        unsafe { gw_file_read(file.as_ptr(), length, root, roots, level, levels, position, positions) }
    };
    let refused = |refusal| Answer { refusal, value: Size { roots: 0, leaves: 0 } };
    for lengths in [[9, 10, 10], [10, 9, 10], [10, 10, 9]] {
        assert_eq!([read(10, lengths), read(0, lengths)], [refused(11); 2], "{lengths:?}");
    }
    assert_eq!([read(0, [0; 3]), read(3, [10; 3])], [refused(18); 2]);
    assert_eq!([read(4, [0; 3]), read(9, [10; 3])], [refused(4 << 8 | 19), refused(9 << 8 | 19)]);
    assert_eq!([read(11, [0; 3]), read(11, [10; 3])], [refused(10 << 8 | 22); 2]);
    assert_eq!([read(10, [0; 3]), read(10, [8; 3])], [refused(9 << 8 | 14); 2]);
    assert_eq!((root, level, position), ([7; 10], [7; 10], [7; 10]));
    let (root_at, level_at, position_at) = (root.as_mut_ptr(), level.as_mut_ptr(), position.as_mut_ptr());
    let last = unsafe { gw_file_read(file.as_ptr(), 10, root_at, 10, level_at, 10, position_at, 10) };
    assert_eq!(last, Answer { refusal: 0, value: Size { roots: 2, leaves: 9 } });
    assert_eq!(root, [0, 1, 1, 1, 1, 1, 1, 1, 1, 7]);
    assert_eq!(level, [0, 1, 1, 1, 1, 1, 1, 1, 1, 7]);
    assert_eq!(position, [0, 0, 1, 2, 3, 4, 5, 6, 7, 7]);
}
