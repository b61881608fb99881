//! Every element of the first levels, by the rules themselves: positions count the elements once, the successor chain
//! is the order of the positions, neighbours share their face and lead back, children are a family.

mod common;

use std::cmp::Ordering;

use common::{agreed, refused, Columns, Shape};
use gwerniloc::{Line, Prism, Triangle};

/// The corners in their order, as x, y, z.
fn corners<S: Shape>(e: S) -> Vec<[u32; 3]> {
    let [level, x, y, z, kind] = e.fields();
    let h = 1 << (21 - level);
    if !S::FIELDS.contains(&4) {
        return vec![[x, 0, 0], [x + h, 0, 0]];
    }
    let middle = if kind == 0 { [x + h, y] } else { [x, y + h] };
    let triangle = [[x, y], middle, [x + h, y + h]];
    let heights = if S::FIELDS.contains(&3) { vec![z, z + h] } else { vec![z] };
    heights.iter().flat_map(|&z| triangle.map(|[x, y]| [x, y, z])).collect()
}

/// The corners of one face: for triangles, and for the upright faces of prisms, all but the opposite ones.
fn face_corners<S: Shape>(e: S, face: u8) -> Vec<[u32; 3]> {
    let on_face = |i: usize| match (S::CORNERS, face) {
        (2, _) => i == face as usize,
        (_, 3) => i < 3,
        (_, 4) => i >= 3,
        _ => i % 3 != face as usize,
    };
    corners(e).into_iter().enumerate().filter(|&(i, _)| on_face(i)).map(|(_, corner)| corner).collect()
}

/// The face of the neighbour that leads back.
fn back<S: Shape>(face: u8) -> u8 {
    match (S::FACES, face) {
        (2, _) => 1 - face,
        (_, 0..=2) => 2 - face,
        _ => 7 - face,
    }
}

fn neighbours<S: Shape>(all: &[S]) {
    for &e in all {
        for face in 0..S::FACES {
            let shared = face_corners(e, face);
            let shares = |f: &S| *f != e && shared.iter().all(|corner| corners(*f).contains(corner));
            let expected = all.iter().copied().find(shares);
            assert_eq!(agreed(e.neighbour(face)), expected.map_or(refused(10), Ok), "{e:?} face {face}");
            if let Some(f) = expected {
                assert_eq!(agreed(f.neighbour(back::<S>(face))), Ok(e), "{f:?} back over face {face}");
            }
        }
        assert_eq!(agreed(e.neighbour(S::FACES)), refused(8));
    }
}

/// All anchors on the grid of a level, with both types: exactly the listed elements are accepted.
fn nothing_else_is_valid<S: Shape>(level: u8, all: &[S]) {
    let reach = |field: usize, many: u32| if S::FIELDS.contains(&field) { many } else { 1 };
    let grid = |field: usize| (0..reach(field, 1 << level)).map(|i| i << (21 - level));
    let mut accepted = 0;
    for x in grid(1) {
        for y in grid(2) {
            for z in grid(3) {
                for kind in 0..reach(4, 2) {
                    let e = S::from_fields([level as u32, x, y, z, kind]);
                    match agreed(e.position()) {
                        Ok(position) => {
                            assert_eq!(all[position as usize], e);
                            accepted += 1;
                        }
                        answer => assert_eq!(answer, refused(4), "{e:?}"),
                    }
                }
            }
        }
    }
    assert_eq!(accepted, all.len());
}

fn family_of<S: Shape>(elements: &[S]) -> bool {
    let mut columns = Columns::default();
    elements.iter().for_each(|e| columns.push(e.fields()));
    agreed(S::family(&columns)).expect("valid elements")
}

fn one_level<S: Shape>(level: u8, top: u8) -> Vec<S> {
    let n = S::CHILDREN as u64;
    let all: Vec<S> = (0..S::count(level)).map(|p| agreed(S::at(level, p)).unwrap()).collect();
    assert_eq!(agreed(S::at(level, S::count(level))), refused(5));
    for (p, &e) in all.iter().enumerate() {
        assert_eq!(corners(e).len(), S::CORNERS as usize);
        assert_eq!(agreed(e.position()), Ok(p as u64));
        assert_eq!(agreed(e.successor()), all.get(p + 1).map_or(refused(9), |&f| Ok(f)));
        let children: Vec<S> = (0..n as u8).map(|i| agreed(e.child(i)).unwrap()).collect();
        assert!(family_of(&children));
        for (i, &child) in children.iter().enumerate() {
            assert_eq!(agreed(child.position()), Ok(n * p as u64 + i as u64));
            assert_eq!(agreed(child.parent()), Ok(e));
        }
        for below in level..=top {
            let cells = S::count(below - level);
            assert_eq!(agreed(e.first_descendant(below)), agreed(S::at(below, p as u64 * cells)));
            assert_eq!(agreed(e.last_descendant(below)), agreed(S::at(below, (p as u64 + 1) * cells - 1)));
        }
    }
    for (start, row) in all.windows(n as usize).enumerate() {
        assert_eq!(family_of(row), (start as u64).is_multiple_of(n), "level {level} from {start}");
    }
    nothing_else_is_valid(level, &all);
    neighbours(&all);
    all
}

/// The first elements of all levels in one row, by first descendant and then by level, against every pair.
fn order_of_two<S: Shape>(levels: &[Vec<S>]) {
    let mut row: Vec<(u64, usize, S)> = Vec::new();
    for (level, all) in levels.iter().enumerate() {
        let cells = S::count(21 - level as u8);
        row.extend(all.iter().enumerate().map(|(p, &e)| (p as u64 * cells, level, e)));
    }
    row.sort_by_key(|&(start, level, _)| (start, level));
    for (i, a) in row.iter().enumerate() {
        for (j, b) in row.iter().enumerate() {
            let expected: Ordering = i.cmp(&j);
            assert_eq!(agreed(a.2.compare(b.2)), Ok(expected), "{a:?} {b:?}");
        }
    }
}

fn first_levels<S: Shape>(top: u8) {
    let levels: Vec<Vec<S>> = (0..=top).map(|level| one_level(level, top)).collect();
    assert_eq!(agreed(levels[0][0].parent()), refused(6));
    order_of_two(&levels);
}

#[test]
fn lines() {
    first_levels::<Line>(4);
}

#[test]
fn triangles() {
    first_levels::<Triangle>(4);
}

#[test]
fn prisms() {
    first_levels::<Prism>(3);
}
