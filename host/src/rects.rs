//! The rectangle-list program: a picture is a list of solids and nothing else. Tiles, stitches and soundness are
//! worked out from the list by their definitions; no stitch is ever followed.
use crate::calls::{number, Answer};
use crate::words::*;
use std::fmt;

/// The cells with left <= x < right and bottom <= y < top.
#[derive(Clone, Copy, Debug, PartialEq, Eq, PartialOrd, Ord)]
pub struct Rect {
    /// The first column.
    pub left: i32,
    /// The first row.
    pub bottom: i32,
    /// The column after the last.
    pub right: i32,
    /// The row after the last.
    pub top: i32,
}

impl Rect {
    /// The whole plane.
    pub const PLANE: Rect = Rect { left: -EDGE, bottom: -EDGE, right: EDGE, top: EDGE };

    /// The rectangle with these edges, which may be none at all.
    pub const fn new(left: i32, bottom: i32, right: i32, top: i32) -> Rect {
        Rect { left, bottom, right, top }
    }

    /// Whether a solid may be this: some cells, all of them in the plane.
    pub fn keeps_limits(&self) -> bool {
        -EDGE <= self.left
            && self.left < self.right
            && self.right <= EDGE
            && -EDGE <= self.bottom
            && self.bottom < self.top
            && self.top <= EDGE
    }

    /// Whether the cell lies in the rectangle.
    pub fn holds(&self, (x, y): (i32, i32)) -> bool {
        self.left <= x && x < self.right && self.bottom <= y && y < self.top
    }

    /// Whether some cell lies in both.
    pub fn shares_cell(&self, other: &Rect) -> bool {
        self.left < other.right && other.left < self.right && self.bottom < other.top && other.bottom < self.top
    }

    /// The cells that lie in both, if there are any.
    pub fn common(&self, other: &Rect) -> Option<Rect> {
        let both = Rect {
            left: self.left.max(other.left),
            bottom: self.bottom.max(other.bottom),
            right: self.right.min(other.right),
            top: self.top.min(other.top),
        };
        self.shares_cell(other).then_some(both)
    }

    /// How many cells a rectangle in the plane has.
    pub fn cells(&self) -> u64 {
        (self.right - self.left) as u64 * (self.top - self.bottom) as u64
    }

    /// The windows of this width and height, row by row from the top and each row from left to right; nothing where
    /// they do not divide the rectangle, or it is no part of the plane.
    pub fn windows(self, width: i32, height: i32) -> Option<impl ExactSizeIterator<Item = Rect>> {
        let divides = |step: i32, low: i32, high: i32| step >= 1 && (high - low) % step == 0;
        let Rect { left, bottom, right, top } = self;
        if !self.keeps_limits() || !divides(width, left, right) || !divides(height, bottom, top) {
            return None;
        }
        let (columns, rows) = (((right - left) / width) as usize, ((top - bottom) / height) as usize);
        Some((0..columns * rows).map(move |number| {
            let (row, column) = (number / columns, number % columns);
            let (left, top) = (left + column as i32 * width, top - row as i32 * height);
            Rect::new(left, top - height, left + width, top)
        }))
    }

    /// The cells that the stitches tr, rt, bl and lb are about, in this order.
    pub fn stitch_cells(&self) -> [(i32, i32); 4] {
        [
            (self.right, self.top - 1),
            (self.right - 1, self.top),
            (self.left - 1, self.bottom),
            (self.left, self.bottom - 1),
        ]
    }
}

/// Left, bottom, right, top.
impl fmt::Display for Rect {
    fn fmt(&self, out: &mut fmt::Formatter) -> fmt::Result {
        write!(out, "{} {} {} {}", self.left, self.bottom, self.right, self.top)
    }
}

/// A piece of metal.
#[derive(Clone, Copy, Debug, PartialEq, Eq, PartialOrd, Ord)]
pub struct Solid {
    /// Its cells.
    pub rect: Rect,
    /// Its net, 1 or more.
    pub label: i32,
}

/// A solid or a space tile; space has label 0.
#[derive(Clone, Copy, Debug, PartialEq, Eq, PartialOrd, Ord)]
pub struct Tile {
    /// Its cells.
    pub rect: Rect,
    /// Space or solid, as a record says it.
    pub kind: i32,
    /// A solid's label, or 0.
    pub label: i32,
}

impl Tile {
    /// A space tile.
    pub fn space(rect: Rect) -> Tile {
        Tile { rect, kind: SPACE, label: 0 }
    }

    /// A solid as a tile.
    pub fn solid(rect: Rect, label: i32) -> Tile {
        Tile { rect, kind: SOLID, label }
    }

    /// Whether the tile is a solid.
    pub fn is_solid(&self) -> bool {
        self.kind == SOLID
    }

    /// What a record says of its tile, its stitches left out.
    pub fn of_record(record: &Record) -> Tile {
        let rect = Rect::new(record[LEFT], record[BOTTOM], record[RIGHT], record[TOP]);
        Tile { rect, kind: record[KIND], label: record[LABEL] }
    }
}

/// The lister's line, without its end: kind, label, left, bottom, right, top.
///
/// ```
/// use ushanderi_host::{Rect, Tile};
///
/// assert_eq!(Tile::solid(Rect::new(0, 0, 10, 10), 1).to_string(), "solid 1 0 0 10 10");
/// ```
impl fmt::Display for Tile {
    fn fmt(&self, out: &mut fmt::Formatter) -> fmt::Result {
        let kind = if self.is_solid() { "solid" } else { "space" };
        write!(out, "{kind} {} {}", self.label, self.rect)
    }
}

/// All tiles of the picture: its solids, then the space between them.
pub fn tiles(solids: &[Solid]) -> Vec<Tile> {
    let held = solids.iter().map(|solid| Tile::solid(solid.rect, solid.label));
    held.chain(space_tiles(solids).into_iter().map(Tile::space)).collect()
}

/// The free runs of all rows, each joined with the equal runs of the rows that directly follow it.
fn space_tiles(solids: &[Solid]) -> Vec<Rect> {
    let mut left_to_right: Vec<Rect> = solids.iter().map(|solid| solid.rect).collect();
    left_to_right.sort_by_key(|rect| rect.left);
    let mut finished = Vec::new();
    let mut growing: Vec<Rect> = Vec::new();
    for band in row_edges(solids).windows(2) {
        let (bottom, top) = (band[0], band[1]);
        let mut here = Vec::new();
        for (left, right) in free_runs(&left_to_right, bottom) {
            match growing.iter().position(|below| (below.left, below.right) == (left, right)) {
                Some(place) => here.push(Rect { top, ..growing.swap_remove(place) }),
                None => here.push(Rect { left, bottom, right, top }),
            }
        }
        finished.append(&mut growing);
        growing = here;
    }
    finished.append(&mut growing);
    finished
}

/// The rows between two neighbouring edges look alike, so one row stands for all of them.
fn row_edges(solids: &[Solid]) -> Vec<i32> {
    let mut edges = vec![-EDGE, EDGE];
    edges.extend(solids.iter().flat_map(|solid| [solid.rect.bottom, solid.rect.top]));
    edges.sort_unstable();
    edges.dedup();
    edges
}

/// The longest stretches of the row that no solid holds, as (left, right).
fn free_runs(left_to_right: &[Rect], row: i32) -> Vec<(i32, i32)> {
    let mut runs = Vec::new();
    let mut from = -EDGE;
    for rect in left_to_right.iter().filter(|rect| rect.bottom <= row && row < rect.top) {
        if from < rect.left {
            runs.push((from, rect.left));
        }
        from = rect.right;
    }
    if from < EDGE {
        runs.push((from, EDGE));
    }
    runs
}

/// The number of the tile that holds the cell.
pub fn holder(tiles: &[Tile], cell: (i32, i32)) -> Option<usize> {
    tiles.iter().position(|tile| tile.rect.holds(cell))
}

/// The tiles that tr, rt, bl and lb of the tile name.
pub fn stitches(tiles: &[Tile], tile: &Tile) -> [Option<usize>; 4] {
    tile.rect.stitch_cells().map(|cell| holder(tiles, cell))
}

/// What the check has to answer.
pub fn check(words: &[i32]) -> Answer {
    if !size_is_right(words.len()) {
        return Answer::refused(number::SIZE);
    }
    match sound_by_meaning(words) {
        Some(solids) => Answer::done(solids),
        None => Answer::refused(number::UNSOUND),
    }
}

/// The number of solids, if a table of right size is sound. The only set of solids it can be sound for is that of its
/// records of kind solid, so the definition is tried with that set.
pub fn sound_by_meaning(words: &[i32]) -> Option<usize> {
    let table = records(words);
    let (free, used): (Vec<&Record>, Vec<&Record>) = table.iter().partition(|record| record[KIND] == FREE);
    if free.iter().any(|record| record.iter().any(|&word| word != 0)) {
        return None;
    }
    let mut found: Vec<Tile> = used.iter().map(|record| Tile::of_record(record)).collect();
    let solids = solids_of(words);
    if !is_a_picture(&solids, most_solids(table.len())) {
        return None;
    }
    let mut wanted = tiles(&solids);
    wanted.sort_unstable();
    found.sort_unstable();
    if found != wanted || !used.iter().all(|record| stitches_are_right(table, record)) {
        return None;
    }
    Some(solids.len())
}

/// The records of kind solid, in the table's order.
pub fn solids_of(words: &[i32]) -> Vec<Solid> {
    let solid = records(words).iter().filter(|record| record[KIND] == SOLID).map(Tile::of_record);
    solid.map(|Tile { rect, label, .. }| Solid { rect, label }).collect()
}

/// Not more solids than allowed, each within the limits, no cell held twice.
fn is_a_picture(solids: &[Solid], most: usize) -> bool {
    let apart = |(place, one): (usize, &Solid)| solids[..place].iter().all(|other| !one.rect.shares_cell(&other.rect));
    solids.len() <= most
        && solids.iter().all(|solid| solid.rect.keeps_limits() && solid.label >= 1)
        && solids.iter().enumerate().all(apart)
}

fn stitches_are_right(table: &[Record], record: &Record) -> bool {
    let cells = Tile::of_record(record).rect.stitch_cells();
    STITCHES.iter().zip(cells).all(|(&stitch, cell)| names_holder(table, record[stitch], cell))
}

fn names_holder(table: &[Record], stitch: i32, cell: (i32, i32)) -> bool {
    if !in_plane(cell.0, cell.1) {
        return stitch == NO_TILE;
    }
    let named = usize::try_from(stitch).ok().and_then(|place| table.get(place));
    named.is_some_and(|record| record[KIND] != FREE && Tile::of_record(record).rect.holds(cell))
}
