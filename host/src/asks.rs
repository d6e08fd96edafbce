//! Random questions about a picture: mostly at the edges of its tiles and at the plane's rim, sometimes such as every
//! call refuses.
use crate::random::Random;
use crate::rects::{Rect, Solid, Tile};
use crate::words::EDGE;

/// Numbers at which a program may take one cell too many or too few.
const RIM: [i32; 11] = [i32::MIN, -EDGE - 1, -EDGE, -EDGE + 1, -1, 0, 1, EDGE - 1, EDGE, EDGE + 1, i32::MAX];

/// Window sides of every sign and size.
const STEPS: [i32; 8] = [i32::MIN, -EDGE, -1, 0, 1, 2, EDGE, i32::MAX];

/// Tries to find a free rectangle before one inside a single space tile is taken.
const TRIES: usize = 6;

/// A cell, one in eight outside the plane or at its rim.
pub fn cell(tiles: &[Tile], random: &mut Random) -> (i32, i32) {
    match random.below(8) {
        0 => (random.pick(&RIM), random.pick(&RIM)),
        1 => (random.between(-EDGE, EDGE - 1), random.between(-EDGE, EDGE - 1)),
        _ => (near_edge(tiles, true, random), near_edge(tiles, false, random)),
    }
}

/// A column, or a row, on or beside an edge of some tile; mostly one of the plane.
fn near_edge(tiles: &[Tile], column: bool, random: &mut Random) -> i32 {
    let Some(Tile { rect, .. }) = random.pick_some(tiles) else { return random.pick(&RIM) };
    let (low, high) = if column { (rect.left, rect.right) } else { (rect.bottom, rect.top) };
    let near = random.pick(&[low, high]).wrapping_add(random.pick(&[-1, -1, 0, 0, 0, 1]));
    if random.one_in(16) {
        return near;
    }
    near.clamp(-EDGE, EDGE - 1)
}

/// Two lines that tiles end at, or lines beside them; mostly apart and inside the plane.
fn lines(tiles: &[Tile], column: bool, random: &mut Random) -> (i32, i32) {
    let mut line = || if random.one_in(40) { random.pick(&RIM) } else { near_edge(tiles, column, random) };
    let (one, other) = (line(), line());
    let (low, high) = (one.min(other), one.max(other));
    let to_the_rim = high == EDGE - 1 && random.one_in(2);
    if to_the_rim || (low == high && !random.one_in(8)) {
        return (low, high.wrapping_add(1));
    }
    (low, high)
}

/// An area: most have cells and lie in the plane.
pub fn area(tiles: &[Tile], random: &mut Random) -> Rect {
    match random.below(16) {
        0 => Rect::PLANE,
        1 => wrong_area(tiles, random),
        2 | 3 => thin_area(tiles, random),
        4 => random.pick_some(tiles).map_or(Rect::PLANE, |tile| tile.rect),
        _ => proper_area(tiles, random),
    }
}

fn proper_area(tiles: &[Tile], random: &mut Random) -> Rect {
    let (left, right) = lines(tiles, true, random);
    let (bottom, top) = lines(tiles, false, random);
    Rect::new(left, bottom, right, top)
}

/// Empty, turned round, beyond the plane, or anything at all.
fn wrong_area(tiles: &[Tile], random: &mut Random) -> Rect {
    let Rect { left, bottom, right, top } = proper_area(tiles, random);
    match random.below(5) {
        0 => Rect::new(left, bottom, left, top),
        1 => Rect::new(left, bottom, right, bottom),
        2 => Rect::new(right, bottom, left, top),
        3 => Rect::new(left, top, right, bottom),
        _ => Rect::new(random.pick(&RIM), random.pick(&RIM), random.pick(&RIM), random.pick(&RIM)),
    }
}

/// One column, one row or one cell.
fn thin_area(tiles: &[Tile], random: &mut Random) -> Rect {
    let (x, y) = cell(tiles, random);
    let column = Rect { left: x, right: x.wrapping_add(1), ..proper_area(tiles, random) };
    match random.below(3) {
        0 => column,
        1 => Rect { bottom: y, top: y.wrapping_add(1), ..proper_area(tiles, random) },
        _ => Rect { bottom: y, top: y.wrapping_add(1), ..column },
    }
}

/// An area, and the width and height of its windows: most divide it, into a few or into more than any list takes.
pub fn windows(tiles: &[Tile], random: &mut Random) -> (Rect, i32, i32) {
    let area = if random.one_in(16) { Rect::PLANE } else { area(tiles, random) };
    if !area.keeps_limits() || random.one_in(10) {
        return (area, random.pick(&STEPS), random.pick(&STEPS));
    }
    let (right, width) = divided(area.left, area.right, random);
    let (top, height) = divided(area.bottom, area.top, random);
    (Rect { right, top, ..area }, width, height)
}

/// The higher of two lines, and a window's side: the line is mostly moved so that the windows end there.
fn divided(low: i32, high: i32, random: &mut Random) -> (i32, i32) {
    let side = high - low;
    match random.below(24) {
        0 => (high, random.pick(&STEPS)),
        1 => (high, side + random.pick(&[-1, 1, side])),
        2 => (high, 1),
        _ => {
            let parts = random.between(1, side.min(9));
            (low + side / parts * parts, side / parts)
        }
    }
}

/// A solid to create: about half of them can be.
pub fn solid(tiles: &[Tile], random: &mut Random) -> Solid {
    let rect = if random.one_in(4) { area(tiles, random) } else { free_rect(tiles, random) };
    Solid { rect, label: label(random) }
}

fn free_rect(tiles: &[Tile], random: &mut Random) -> Rect {
    let proposals = (0..TRIES).map(|_| proper_area(tiles, random));
    let is_free =
        |rect: &Rect| rect.keeps_limits() && !tiles.iter().any(|tile| tile.is_solid() && tile.rect.shares_cell(rect));
    let found = proposals.filter(is_free).max_by_key(|rect| i64::from(rect.top) - i64::from(rect.bottom));
    found.unwrap_or_else(|| inside_a_space(tiles, random))
}

/// A part of one space tile that mostly ends where the tile ends.
fn inside_a_space(tiles: &[Tile], random: &mut Random) -> Rect {
    let spaces: Vec<Rect> = tiles.iter().filter(|tile| !tile.is_solid()).map(|tile| tile.rect).collect();
    let Some(mut rect) = random.pick_some(&spaces) else { return area(tiles, random) };
    for column in [true, false] {
        let (low, high) = if column { (rect.left, rect.right) } else { (rect.bottom, rect.top) };
        let (start, end) = part(low, high, random);
        if column {
            (rect.left, rect.right) = (start, end);
        } else {
            (rect.bottom, rect.top) = (start, end);
        }
    }
    rect
}

fn part(low: i32, high: i32, random: &mut Random) -> (i32, i32) {
    let start = if random.one_in(2) { low } else { random.between(low, high.min(low + 6) - 1) };
    let end = if random.one_in(2) { high } else { random.between(start + 1, high.min(start + 9)) };
    (start, end)
}

/// A label, one in ten below 1.
pub fn label(random: &mut Random) -> i32 {
    if random.one_in(10) {
        return random.pick(&[0, -1, i32::MIN]);
    }
    random.pick(&[1, 1, 2, 3, 258, i32::MAX])
}

/// A hint: a record, or a number that names none.
pub fn hint(records: usize, random: &mut Random) -> i32 {
    let count = records as i32;
    match random.below(4) {
        0 => random.pick(&[i32::MIN, -count, -1, 0, 1, count - 1, count, count + 1, 10 * count, i32::MAX]),
        1 => random.word(),
        _ => random.between(0, count),
    }
}

/// A side, one in eight none.
pub fn side(random: &mut Random) -> i32 {
    if random.one_in(8) {
        return random.pick(&[i32::MIN, -4, -1, 4, 5, 256, i32::MAX]);
    }
    random.between(0, 3)
}

/// The length of a list for an answer of so many entries.
pub fn room(needed: usize, random: &mut Random) -> usize {
    match random.below(8) {
        0 => 0,
        1 | 2 => needed.saturating_sub(1),
        3 => random.below(needed + 1),
        4 | 5 => needed,
        6 => needed + 1,
        _ => needed + random.below(40),
    }
}
