//! Corner points in 64-bit numbers and one product each.

use super::{prism, EDGE, HIGHEST};
use crate::{Answer, Corner, Point, Root};

/// 2^-42: an exact factor.
const SHRINK: f64 = 1.0 / (1u64 << 42) as f64;

/// In sides from the anchor, by type and corner of the triangle.
static STEP: [[(u32, u32); 3]; 2] = [[(0, 0), (1, 0), (1, 1)], [(0, 0), (0, 1), (1, 1)]];

/// Whether a corner of a root is refused.
#[inline(always)]
pub(super) fn far(corner: &Corner) -> bool {
    // Unsigned, one comparison tells both ends.
    [corner.x, corner.y, corner.z].into_iter().any(|v| v.wrapping_add(512) as u64 > 1_024)
}

/// The point of a corner of the prism at a position of a level.
#[inline(never)]
pub extern "C" fn corner_point(level: u8, position: u64, corner: u8, root: Root) -> Answer<Point> {
    if level > HIGHEST {
        return Answer::refused(1);
    }
    if position >> (3 * level) != 0 {
        return Answer::refused(5);
    }
    if corner > 5 {
        return Answer::refused(8);
    }
    if root.corners.iter().any(far) {
        return Answer::refused(24);
    }
    let e = prism::placed(level, position);
    let h = EDGE >> level;
    let (top, number) = if corner > 2 { (h, corner - 3) } else { (0, corner) };
    let (step_x, step_y) = STEP[e.kind as usize & 1][number as usize];
    let x = (e.x + step_x * h) as i64;
    let y = (e.y + step_y * h) as i64;
    let z = (e.z + top) as i64;
    let at = |of: fn(&Corner) -> i64| {
        let t: [i64; 3] = std::array::from_fn(|j| {
            let (low, high) = (of(&root.corners[j]), of(&root.corners[j + 3]));
            (low << HIGHEST) + (high - low) * z
        });
        let q = (t[0] << HIGHEST) + (t[1] - t[0]) * x + (t[2] - t[1]) * y;
        q as f64 * SHRINK
    };
    Answer::accepted(Point { x: at(|c| c.x), y: at(|c| c.y), z: at(|c| c.z) })
}
