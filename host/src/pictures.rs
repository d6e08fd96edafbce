//! Random pictures of several styles, chosen for the places where tile programs slip: abutting sides, shared corners,
//! strips that merge, the plane's rim.
use crate::random::Random;
use crate::rects::{Rect, Solid};
use crate::words::EDGE;

/// A sort of picture.
#[derive(Clone, Copy, Debug, PartialEq, Eq)]
pub enum Style {
    /// A few solids of any size.
    FewBig,
    /// Solids of up to five cells a side, crowded.
    ManySmall,
    /// All edges on a few lines.
    FewLines,
    /// Rows of equal cells, some missing.
    EqualRows,
    /// Solids at the plane's rim.
    Rim,
    /// Lines of one cell's width.
    OneCellWide,
    /// A chessboard.
    Corners,
    /// A sheet cut into pieces, some missing.
    CutSheet,
    /// The plane cut into pieces, no space left.
    CutPlane,
    /// One solid on all cells.
    WholePlane,
}

/// All of them.
pub const STYLES: [Style; 10] = [
    Style::FewBig,
    Style::ManySmall,
    Style::FewLines,
    Style::EqualRows,
    Style::Rim,
    Style::OneCellWide,
    Style::Corners,
    Style::CutSheet,
    Style::CutPlane,
    Style::WholePlane,
];

/// A picture of at most so many solids.
pub fn picture(style: Style, most: usize, random: &mut Random) -> Vec<Solid> {
    let rects = match style {
        Style::FewBig => scatter(most.min(6), random, big),
        Style::ManySmall => small(most, 5, 5, random),
        Style::FewLines => on_few_lines(most, random),
        Style::EqualRows => equal_rows(most, random),
        Style::Rim => scatter(most, random, at_rim),
        Style::OneCellWide => one_cell_wide(most, random),
        Style::Corners => corners(most, random),
        Style::CutSheet => cut_sheet(most, random),
        Style::CutPlane => cut(Rect::PLANE, most, random),
        Style::WholePlane => vec![Rect::PLANE; most.min(1)],
    };
    labelled(rects, random)
}

/// Exactly so many solids, of sides up to 200, in a square of the side given: a workload like a small layout.
pub fn workload(solids: usize, side: i32, random: &mut Random) -> Vec<Solid> {
    let mut rects = Vec::new();
    while rects.len() < solids {
        let (left, bottom) = (random.between(0, side - 200), random.between(0, side - 200));
        add_if_free(
            &mut rects,
            Rect::new(left, bottom, left + random.between(1, 200), bottom + random.between(1, 200)),
        );
    }
    labelled(rects, random)
}

fn labelled(rects: Vec<Rect>, random: &mut Random) -> Vec<Solid> {
    let labels = [1, 1, 2, 3, i32::MAX];
    rects.into_iter().map(|rect| Solid { rect, label: random.pick(&labels) }).collect()
}

fn add_if_free(rects: &mut Vec<Rect>, rect: Rect) {
    if rect.keeps_limits() && rects.iter().all(|other| !other.shares_cell(&rect)) {
        rects.push(rect);
    }
}

/// Proposes rectangles and keeps those that are free; dense styles end with fewer than asked for.
fn scatter(most: usize, random: &mut Random, mut propose: impl FnMut(&mut Random) -> Rect) -> Vec<Rect> {
    let mut rects = Vec::new();
    for _ in 0..8 * most {
        let rect = propose(random);
        if rects.len() < most {
            add_if_free(&mut rects, rect);
        }
    }
    rects
}

fn ordered(one: i32, other: i32) -> (i32, i32) {
    (one.min(other), one.max(other))
}

fn big(random: &mut Random) -> Rect {
    let (left, right) = ordered(random.between(-EDGE, EDGE), random.between(-EDGE, EDGE));
    let (bottom, top) = ordered(random.between(-EDGE, EDGE), random.between(-EDGE, EDGE));
    Rect::new(left, bottom, right, top)
}

/// The side of a square that about so many small solids fill to a good part.
fn crowded_side(solids: usize) -> i32 {
    3 * (solids as f64).sqrt() as i32 + 4
}

fn small(most: usize, widest: i32, highest: i32, random: &mut Random) -> Vec<Rect> {
    let side = crowded_side(most);
    let (x, y) = (random.between(-EDGE, EDGE - side - widest), random.between(-EDGE, EDGE - side - highest));
    scatter(most, random, |random| {
        let (left, bottom) = (x + random.between(0, side), y + random.between(0, side));
        Rect::new(left, bottom, left + random.between(1, widest), bottom + random.between(1, highest))
    })
}

fn one_cell_wide(most: usize, random: &mut Random) -> Vec<Rect> {
    let long = random.between(1, 9);
    let (widest, highest) = if random.one_in(2) { (1, long) } else { (long, 1) };
    small(most, widest, highest, random)
}

/// All edges on a handful of lines, so that sides abut and spans are equal again and again.
fn on_few_lines(most: usize, random: &mut Random) -> Vec<Rect> {
    let count = (most as f64).sqrt() as i32 + 4;
    let mut lines: Vec<i32> = (0..count).map(|line| line * 10).collect();
    if random.one_in(3) {
        lines.extend([-EDGE, EDGE]);
    }
    scatter(most, random, |random| {
        let (left, right) = ordered(random.pick(&lines), random.pick(&lines));
        let (bottom, top) = ordered(random.pick(&lines), random.pick(&lines));
        Rect::new(left, bottom, right, top)
    })
}

fn at_rim(random: &mut Random) -> Rect {
    let lines = [-EDGE, -EDGE + 1, -EDGE + 2, -7, 0, 1, 9, EDGE - 2, EDGE - 1, EDGE];
    let (left, right) = ordered(random.pick(&lines), random.pick(&lines));
    let (bottom, top) = ordered(random.pick(&lines), random.pick(&lines));
    Rect::new(left, bottom, right, top)
}

/// Rows of one height, with or without a gap between them, and cells in the same columns of every row.
fn equal_rows(most: usize, random: &mut Random) -> Vec<Rect> {
    let columns = random.between(1, (most as f64).sqrt() as i32 + 2);
    let (height, pitch) = (random.between(1, 12), random.between(0, 2));
    let (width, step) = (random.between(1, 12), random.between(0, 1));
    let missing = random.between(2, 12) as usize;
    let mut rects = Vec::new();
    for place in 0..2 * most as i32 {
        let (left, bottom) = (place % columns * (width + step), place / columns * (height + pitch));
        if rects.len() < most && !random.one_in(missing) {
            rects.push(Rect::new(left, bottom, left + width, bottom + height));
        }
    }
    rects
}

/// Squares of a chessboard: solids that meet at corners only, and space tiles likewise.
fn corners(most: usize, random: &mut Random) -> Vec<Rect> {
    let columns = random.between(1, (most as f64).sqrt() as i32 + 2);
    let side = random.between(1, 5);
    let square = |place: i32| {
        let (row, column) = (place / columns, 2 * (place % columns) + place / columns % 2);
        Rect::new(column * side, row * side, (column + 1) * side, (row + 1) * side)
    };
    (0..most as i32).map(square).collect()
}

fn cut_sheet(most: usize, random: &mut Random) -> Vec<Rect> {
    let side = crowded_side(most) * 3;
    let (left, bottom) = (random.between(-EDGE, EDGE - side), random.between(-EDGE, EDGE - side));
    let mut pieces = cut(Rect::new(left, bottom, left + side, bottom + side), most, random);
    let missing = random.between(1, 6) as usize;
    pieces.retain(|_| !random.one_in(missing + 1));
    pieces
}

/// The rectangle cut into pieces, one cut after the other, each through one piece.
fn cut(whole: Rect, most: usize, random: &mut Random) -> Vec<Rect> {
    if most == 0 {
        return Vec::new();
    }
    let mut pieces = vec![whole];
    for _ in 1..most {
        let place = random.below(pieces.len());
        let piece = pieces[place];
        if let Some((one, other)) = halves(piece, random.one_in(2), random) {
            pieces[place] = one;
            pieces.push(other);
        }
    }
    pieces
}

/// The rectangle cut in two at a random row, or at a random column.
pub fn halves(rect: Rect, at_row: bool, random: &mut Random) -> Option<(Rect, Rect)> {
    let (low, high) = if at_row { (rect.bottom, rect.top) } else { (rect.left, rect.right) };
    if high - low < 2 {
        return None;
    }
    let line = random.between(low + 1, high - 1);
    if at_row {
        return Some((Rect { top: line, ..rect }, Rect { bottom: line, ..rect }));
    }
    Some((Rect { right: line, ..rect }, Rect { left: line, ..rect }))
}
