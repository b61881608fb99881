//! Single corner points and those of a section.

use super::super::*;
use crate::Corner;

/// A refused point has zeros of plus sign for its value; the corners go over in their order.
#[test]
fn points() {
    let mut root = Root::default();
    let point = |level, position, corner, root| {
        let answer: Answer<Point> = unsafe { gw_corner_point(level, position, corner, root) };
        (answer.refusal, [answer.value.x, answer.value.y, answer.value.z].map(f64::to_bits))
    };
    for (i, v) in root.corners.iter_mut().enumerate() {
        *v = Corner { x: i as i64, y: -(i as i64), z: 100 + i as i64 };
    }
    for i in 0..6 {
        let own = [i as f64, 0.0 - i as f64, 100.0 + i as f64].map(f64::to_bits);
        assert_eq!(point(0, 0, i, root), (0, own));
    }
    assert_eq!(point(22, 0, 0, root), (1, [0; 3]));
    assert_eq!(point(1, 8, 0, root), (5, [0; 3]));
    assert_eq!(point(1, 7, 6, root), (8, [0; 3]));
    root.corners[5].z = -513;
    assert_eq!(point(1, 7, 5, root), (24, [0; 3]));
}

/// A refusal of a section in one word, with which nothing is written; lengths that are taken from their own column.
#[test]
fn sections() {
    let plan = [(0, 0), (100, 0), (100, 100)];
    let corners = [0, 1, 2, 3, 4, 5].map(|i| Corner { x: plan[i % 3].0, y: plan[i % 3].1, z: i as i64 / 3 * 40 });
    let (root, mut far) = (Root { corners }, Root { corners });
    far.corners[0].x = 513;
    let (position, mut x, mut y, mut z) = ([6, 7, 8, 9], [-0.0; 4], [-0.0; 4], [-0.0; 4]);
    let mut section = |level, positions, corner, root, [xs, ys, zs]: [usize; 3]| unsafe {
        let (position, x, y, z) = (position.as_ptr(), x.as_mut_ptr(), y.as_mut_ptr(), z.as_mut_ptr());
        gw_corner_points(level, position, positions, corner, root, x, xs, y, ys, z, zs)
    };
    for lengths in [[1, 2, 2], [2, 1, 2], [2, 2, 1], [3, 3, 3], [0, 0, 0]] {
        assert_eq!([section(22, 2, 6, far, lengths), section(1, 2, 1, root, lengths)], [11; 2], "{lengths:?}");
    }
    assert_eq!([section(22, 4, 6, far, [4; 3]), section(22, 0, 1, root, [0; 3])], [1; 2]);
    assert_eq!([section(1, 4, 6, far, [4; 3]), section(1, 3, 1, root, [3; 3])], [2 << 8 | 5; 2]);
    assert_eq!([section(1, 2, 6, far, [2; 3]), section(1, 0, 6, root, [0; 3])], [8; 2]);
    assert_eq!([section(1, 2, 1, far, [2; 3]), section(1, 0, 1, far, [0; 3])], [24; 2]);
    assert_eq!(section(1, 0, 1, root, [0; 3]), 0);
    assert_eq!([x, y, z].map(|column| column.map(f64::to_bits)), [[1 << 63; 4]; 3]);
    let (x_at, y_at, z_at) = (x.as_mut_ptr(), y.as_mut_ptr(), z.as_mut_ptr());
    let last = unsafe { gw_corner_points(1, position.as_ptr(), 2, 1, root, x_at, 2, y_at, 2, z_at, 2) };
    assert_eq!(last, 0);
    let expected = [[50.0, 100.0, -0.0, -0.0], [50.0, 50.0, -0.0, -0.0], [20.0, 20.0, -0.0, -0.0]];
    assert_eq!([x, y, z].map(|column| column.map(f64::to_bits)), expected.map(|column| column.map(f64::to_bits)));
}
