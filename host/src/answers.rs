//! The rectangle-list program's answers to the calls on a sound table, from its solids or from the tiles that
//! [`crate::rects::tiles`] makes of them. A record is told by its tile, so that answers can be compared whatever
//! records a table has used; a refusal is told by its number.
use crate::calls::{number, DensityReport};
use crate::density::Density;
use crate::rects::{holder, Rect, Solid, Tile};
use crate::words::in_plane;

/// How many bytes one solid takes in a saved layout.
pub const SAVED_BYTES: usize = 20;

/// The sides of a tile by their numbers.
const RIGHT_SIDE: i32 = 0;
const LEFT_SIDE: i32 = 1;
const TOP_SIDE: i32 = 2;
const BOTTOM_SIDE: i32 = 3;

/// A solid that is in the way, and the cell where it is met.
#[derive(Clone, Copy, Debug, PartialEq, Eq)]
pub struct MetSolid {
    /// The solid.
    pub solid: Solid,
    /// The area's first occupied cell in reading order, which the solid holds.
    pub cell: (i32, i32),
}

/// A refused create, and what is in the way, if something is.
#[derive(Debug, PartialEq, Eq)]
pub struct Refused {
    /// The refusal.
    pub number: i32,
    /// What the area search gives.
    pub met: Option<MetSolid>,
}

/// A refused load: the refusal's number, and the index of the record that was refused.
#[derive(Debug, PartialEq, Eq)]
pub struct RefusedLoad {
    /// The refusal.
    pub number: i32,
    /// Counted from 0; 0 too where no record was looked at.
    pub index: usize,
}

/// The tile that holds the cell.
pub fn find(tiles: &[Tile], cell: (i32, i32)) -> Result<Tile, i32> {
    if !in_plane(cell.0, cell.1) {
        return Err(number::POINT);
    }
    let place = holder(tiles, cell).expect("the tiles cover the plane");
    Ok(tiles[place])
}

/// The tiles along one side of the tile that holds the cell, in the side's order.
pub fn neighbours(tiles: &[Tile], cell: (i32, i32), side: i32) -> Result<Vec<Tile>, i32> {
    let rect = find(tiles, cell)?.rect;
    if !(RIGHT_SIDE..=BOTTOM_SIDE).contains(&side) {
        return Err(number::SIDE);
    }
    let mut found = tiles.to_vec();
    found.retain(|tile| touches(&rect, &tile.rect, side));
    found.sort_by_key(|tile| match side {
        RIGHT_SIDE => -tile.rect.top,
        LEFT_SIDE => tile.rect.bottom,
        TOP_SIDE => -tile.rect.right,
        _ => tile.rect.left,
    });
    Ok(found)
}

/// A shared corner is no shared side.
fn touches(rect: &Rect, other: &Rect, side: i32) -> bool {
    let rows_meet = rect.bottom < other.top && other.bottom < rect.top;
    let columns_meet = rect.left < other.right && other.left < rect.right;
    match side {
        RIGHT_SIDE => other.left == rect.right && rows_meet,
        LEFT_SIDE => other.right == rect.left && rows_meet,
        TOP_SIDE => other.bottom == rect.top && columns_meet,
        _ => other.top == rect.bottom && columns_meet,
    }
}

/// The solid that holds the area's first occupied cell in reading order, and that cell.
pub fn search(solids: &[Solid], area: &Rect) -> Result<Option<MetSolid>, i32> {
    if !area.keeps_limits() {
        return Err(number::RECT);
    }
    let inside = solids.iter().filter(|solid| solid.rect.shares_cell(area));
    let first_cell = |solid: &Solid| (solid.rect.left.max(area.left), solid.rect.top.min(area.top) - 1);
    let met = inside.map(|solid| MetSolid { solid: *solid, cell: first_cell(solid) });
    Ok(met.min_by_key(|&MetSolid { cell: (x, y), .. }| (-y, x)))
}

/// The tiles that share a cell with the area, in directed order.
pub fn enumerate(tiles: &[Tile], area: &Rect) -> Result<Vec<Tile>, i32> {
    if !area.keeps_limits() {
        return Err(number::RECT);
    }
    let mut inside = tiles.to_vec();
    inside.retain(|tile| tile.rect.shares_cell(area));
    inside.sort_by_key(|tile| -tile.rect.top);
    let hangs_under: Vec<Option<usize>> = inside.iter().map(|tile| parent(&inside, tile, area)).collect();
    let mut listed = Vec::new();
    list_under(None, &inside, &hangs_under, &mut listed);
    Ok(listed)
}

/// Nothing for a root.
fn parent(inside: &[Tile], tile: &Tile, area: &Rect) -> Option<usize> {
    if tile.rect.left <= area.left {
        return None;
    }
    let cell = (tile.rect.left - 1, tile.rect.bottom.max(area.bottom));
    Some(holder(inside, cell).expect("the cell lies in the area"))
}

fn list_under(parent: Option<usize>, inside: &[Tile], hangs_under: &[Option<usize>], listed: &mut Vec<Tile>) {
    for (place, tile) in inside.iter().enumerate().filter(|&(place, _)| hangs_under[place] == parent) {
        listed.push(*tile);
        list_under(Some(place), inside, hangs_under, listed);
    }
}

/// The density report to a list of so many places, and the shares that it writes.
pub fn density(solids: &[Solid], area: Rect, width: i32, height: i32, room: usize) -> (DensityReport, Vec<f64>) {
    if !area.keeps_limits() {
        return (DensityReport::refused(number::RECT), Vec::new());
    }
    let Some(windows) = area.windows(width, height) else {
        return (DensityReport::refused(number::STEP), Vec::new());
    };
    if windows.len() > room {
        return (DensityReport::short(windows.len()), Vec::new());
    }
    let share = |covered: u64| Density::of(covered, width as u64 * height as u64).share();
    let counts: Vec<u64> = windows.map(|window| covered_cells(solids, &window)).collect();
    let (lowest, highest) = counts.iter().fold((u64::MAX, 0), |(low, high), &count| (low.min(count), high.max(count)));
    let report = DensityReport {
        number: number::DONE,
        value: counts.len() as i64,
        lowest: share(lowest),
        highest: share(highest),
        covered: covered_cells(solids, &area) as i64,
    };
    (report, counts.into_iter().map(share).collect())
}

/// No cell is held twice, so each solid counts for itself.
fn covered_cells(solids: &[Solid], area: &Rect) -> u64 {
    solids.iter().filter_map(|solid| solid.rect.common(area)).map(|part| part.cells()).sum()
}

/// Adds the solid to the picture, of which the table takes at most so many.
pub fn create(solids: &mut Vec<Solid>, most: usize, solid: Solid) -> Result<(), Refused> {
    let refused = |number| Refused { number, met: None };
    let met = match search(solids, &solid.rect) {
        Err(number) => return Err(refused(number)),
        Ok(met) => met,
    };
    if solid.label < 1 {
        return Err(refused(number::LABEL));
    }
    if met.is_some() {
        return Err(Refused { number: number::OCCUPIED, met });
    }
    if solids.len() == most {
        return Err(refused(number::FULL));
    }
    solids.push(solid);
    Ok(())
}

/// Takes the solid at the cell out of the picture; its label.
pub fn delete(solids: &mut Vec<Solid>, cell: (i32, i32)) -> Result<i32, i32> {
    if !in_plane(cell.0, cell.1) {
        return Err(number::POINT);
    }
    let Some(place) = solids.iter().position(|solid| solid.rect.holds(cell)) else {
        return Err(number::SPACE);
    };
    Ok(solids.remove(place).label)
}

/// The saved layout: highest top first, ties by smaller left.
pub fn save(solids: &[Solid]) -> Vec<u8> {
    let mut ordered = solids.to_vec();
    ordered.sort_by_key(|solid| (-solid.rect.top, solid.rect.left));
    let words = ordered.iter().flat_map(|&Solid { rect, label }| [rect.left, rect.bottom, rect.right, rect.top, label]);
    words.flat_map(i32::to_le_bytes).collect()
}

/// The solids of a saved layout, of which the table takes at most so many.
pub fn load(bytes: &[u8], most: usize) -> Result<Vec<Solid>, RefusedLoad> {
    if !bytes.len().is_multiple_of(SAVED_BYTES) {
        return Err(RefusedLoad { number: number::FILE, index: 0 });
    }
    let mut solids = Vec::new();
    for (index, record) in bytes.chunks_exact(SAVED_BYTES).enumerate() {
        create(&mut solids, most, saved_solid(record))
            .map_err(|refused| RefusedLoad { number: refused.number, index })?;
    }
    Ok(solids)
}

fn saved_solid(record: &[u8]) -> Solid {
    let word = |place: usize| i32::from_le_bytes(std::array::from_fn(|byte| record[4 * place + byte]));
    Solid { rect: Rect::new(word(0), word(1), word(2), word(3)), label: word(4) }
}
