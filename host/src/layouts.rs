//! Layouts to look at and to try programs on: the drawn examples and a clock tree.
use crate::rects::{Rect, Solid};

/// The first solid of the drawn examples.
pub const A: Solid = solid(0, 0, 10, 10, 1);
/// The second one, with a gap between them.
pub const B: Solid = solid(20, 0, 30, 10, 2);
/// The third one, above both.
pub const C: Solid = solid(5, 15, 25, 20, 3);

/// The nets of the clock tree.
const TRUNK: i32 = 1;
const FIRST_BRANCH: i32 = 2;

/// Measures of the clock tree, in cells.
const BRANCHES: i32 = 24;
const BRANCH_PITCH: i32 = 120;
const BRANCH_HEIGHT: i32 = 12;
const BRANCH_LENGTH: i32 = 1_180;
const TRUNK_HALF: i32 = 20;
const STRAP_WIDTH: i32 = 8;
const STRAP_PITCH: i32 = 150;

const fn solid(left: i32, bottom: i32, right: i32, top: i32, label: i32) -> Solid {
    Solid { rect: Rect { left, bottom, right, top }, label }
}

/// A trunk, branches that leave it at both sides, and straps that hang from and stand on the branches: one net label
/// for the trunk and one for each branch with its straps. Nothing overlaps; metal of one net abuts.
pub fn clock_tree() -> Vec<Solid> {
    let height = BRANCHES * BRANCH_PITCH;
    let mut layout = vec![solid(-TRUNK_HALF, 0, TRUNK_HALF, height, TRUNK)];
    for branch in 0..BRANCHES {
        let bottom = branch * BRANCH_PITCH + (BRANCH_PITCH - BRANCH_HEIGHT) / 2;
        // The branches in the middle are the longest, so that the tree has a crown.
        let from_middle = (2 * branch + 1 - BRANCHES).abs();
        let length = BRANCH_LENGTH - from_middle * 20;
        for side in [-1, 1] {
            add_branch(&mut layout, side, bottom, length, FIRST_BRANCH + branch % 5);
        }
    }
    layout
}

fn add_branch(layout: &mut Vec<Solid>, side: i32, bottom: i32, length: i32, label: i32) {
    let top = bottom + BRANCH_HEIGHT;
    let at = |from: i32, to: i32, bottom: i32, top: i32| {
        let (near, far) = (side * (TRUNK_HALF + from), side * (TRUNK_HALF + to));
        solid(near.min(far), bottom, near.max(far), top, label)
    };
    layout.push(at(0, length, bottom, top));
    let straps = length / STRAP_PITCH;
    for strap in 0..straps {
        let from = (strap + 1) * STRAP_PITCH - STRAP_WIDTH;
        let reach = 14 + 10 * (strap % 4);
        let (low, high) = if strap % 2 == 0 { (top, top + reach) } else { (bottom - reach, bottom) };
        layout.push(at(from, from + STRAP_WIDTH, low, high));
    }
}
