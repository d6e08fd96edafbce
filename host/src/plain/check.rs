//! The soundness check in linear time: each test looks at one record, or walks along one side of it.
use crate::words::*;

const PLANE_AREA: u64 = 1 << 50;

/// The number of solids, if the table is sound.
pub fn solids_if_sound(table: &[Record]) -> Option<usize> {
    let mut area = 0;
    let mut solids = 0;
    for record in table {
        if !is_well_formed(record) || !(record[KIND] == FREE || stitches_are_right(table, record)) {
            return None;
        }
        area += area_of(record);
        solids += usize::from(record[KIND] == SOLID);
    }
    if solids > most_solids(table.len()) || area != PLANE_AREA {
        return None;
    }
    let used = || table.iter().filter(|record| record[KIND] != FREE);
    // The walks below follow stitches without a test, so all stitches are tested before the first walk.
    let sound = left_column_is_held(table)
        && used().all(|record| right_side_is_right(table, record) && !has_its_like_above(table, record));
    sound.then_some(solids)
}

fn is_well_formed(record: &Record) -> bool {
    let &[left, bottom, right, top, .., kind, label] = record;
    let in_limits = -EDGE <= left && left < right && right <= EDGE && -EDGE <= bottom && bottom < top && top <= EDGE;
    match kind {
        FREE => record.iter().all(|&word| word == 0),
        SPACE => in_limits && label == 0,
        SOLID => in_limits && label >= 1,
        _ => false,
    }
}

fn area_of(record: &Record) -> u64 {
    (record[RIGHT] - record[LEFT]) as u64 * (record[TOP] - record[BOTTOM]) as u64
}

/// A free record is empty, so it holds nothing.
fn holds(record: &Record, x: i32, y: i32) -> bool {
    record[LEFT] <= x && x < record[RIGHT] && record[BOTTOM] <= y && y < record[TOP]
}

fn stitches_are_right(table: &[Record], record: &Record) -> bool {
    let &[left, bottom, right, top, tr, rt, bl, lb, ..] = record;
    names_holder(table, tr, right, top - 1)
        && names_holder(table, rt, right - 1, top)
        && names_holder(table, bl, left - 1, bottom)
        && names_holder(table, lb, left, bottom - 1)
}

/// The stitch's bits, read without a sign, number a record only if it is one. Where all records are well formed, one that
/// holds the cell is used, and the cell is of the plane.
fn names_holder(table: &[Record], stitch: i32, x: i32, y: i32) -> bool {
    match table.get(stitch as u32 as usize) {
        Some(record) => holds(record, x, y),
        None => stitch == NO_TILE && !in_plane(x, y),
    }
}

/// From the tile in the plane's upper left corner down to the plane's bottom, every tile begins at the left edge.
fn left_column_is_held(table: &[Record]) -> bool {
    let Some(mut tile) = table.iter().find(|record| holds(record, -EDGE, EDGE - 1)) else {
        return false;
    };
    while tile[LEFT] == -EDGE {
        if tile[BOTTOM] == -EDGE {
            return true;
        }
        tile = &table[tile[LB] as usize];
    }
    false
}

/// All along the right side stand tiles that begin there, and space meets no space.
fn right_side_is_right(table: &[Record], record: &Record) -> bool {
    let side = record[RIGHT];
    if side == EDGE {
        return true;
    }
    let mut beside = &table[record[TR] as usize];
    loop {
        if beside[LEFT] != side || (record[KIND] == SPACE && beside[KIND] == SPACE) {
            return false;
        }
        if beside[BOTTOM] <= record[BOTTOM] {
            return true;
        }
        beside = &table[beside[LB] as usize];
    }
}

fn has_its_like_above(table: &[Record], record: &Record) -> bool {
    if record[KIND] != SPACE || record[RT] == NO_TILE {
        return false;
    }
    let above = &table[record[RT] as usize];
    above[KIND] == SPACE && above[LEFT] == record[LEFT] && above[RIGHT] == record[RIGHT]
}
