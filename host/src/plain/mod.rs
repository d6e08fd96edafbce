//! The server's calls as ordinary safe Rust, by the same methods: the proved code is timed against it. The functions
//! here have the signatures of [`crate::calls`]; the inner work, on tables known to be sound, is in the submodules.
pub mod check;
pub mod density;
pub mod edit;
pub mod saved;
pub mod seek;

use crate::calls::{number, Answer, DensityReport, MetAnswer};
use crate::rects::Rect;
use crate::words::*;
use seek::{Seen, Walk};

/// Makes the table an empty plane.
pub fn fresh(words: &mut [i32]) -> Answer {
    if !size_is_right(words.len()) {
        return Answer::refused(number::SIZE);
    }
    edit::wipe_all(records_mut(words));
    Answer::done(0)
}

/// Whether the table is sound; value: the number of solids.
pub fn check(words: &[i32]) -> Answer {
    match sound(words) {
        Ok((_, solids)) => Answer::done(solids),
        Err(refusal) => refusal,
    }
}

/// The records and the number of solids, or the refusal of a table that no call works on.
fn sound(words: &[i32]) -> Result<(&[Record], usize), Answer> {
    if !size_is_right(words.len()) {
        return Err(Answer::refused(number::SIZE));
    }
    let table = records(words);
    let solids = check::solids_if_sound(table).ok_or(Answer::refused(number::UNSOUND))?;
    Ok((table, solids))
}

fn sound_cell(words: &[i32], x: i32, y: i32) -> Result<&[Record], Answer> {
    let (table, _) = sound(words)?;
    if in_plane(x, y) {
        Ok(table)
    } else {
        Err(Answer::refused(number::POINT))
    }
}

fn sound_area<'a>(words: &'a [i32], area: &Rect) -> Result<(&'a [Record], usize), Answer> {
    let (table, solids) = sound(words)?;
    if area.keeps_limits() {
        Ok((table, solids))
    } else {
        Err(Answer::refused(number::RECT))
    }
}

/// The record that holds the cell.
pub fn find(words: &[i32], x: i32, y: i32, hint: i32) -> Answer {
    match sound_cell(words, x, y) {
        Ok(table) => Answer::done(seek::find(table, seek::start(table, hint), x, y)),
        Err(refusal) => refusal,
    }
}

/// Lists the tiles along one side of the tile that holds the cell; value: how many.
pub fn neighbours(words: &[i32], x: i32, y: i32, side: i32, list: &mut [i32]) -> Answer {
    let table = match sound_cell(words, x, y) {
        Ok(table) => table,
        Err(refusal) => return refusal,
    };
    let Some(side) = seek::SIDES.get(side as usize) else {
        return Answer::refused(number::SIDE);
    };
    let tile = seek::find(table, seek::start(table, NO_TILE), x, y);
    fill(list, &seek::Along { table, tile, side })
}

/// The solid that holds the area's first occupied cell, and that cell; value -1 if the area is free.
pub fn search(words: &[i32], left: i32, bottom: i32, right: i32, top: i32) -> MetAnswer {
    let area = Rect { left, bottom, right, top };
    match sound_area(words, &area) {
        Ok((table, _)) => match seek::search(table, seek::start(table, NO_TILE), &area) {
            Seen::Solid(solid, cell) => MetAnswer::with_cell(Answer::done(solid), cell),
            Seen::Nothing(_) => MetAnswer::without_cell(Answer { number: number::DONE, value: NO_TILE }),
        },
        Err(refusal) => MetAnswer::without_cell(refusal),
    }
}

/// Lists the tiles that share a cell with the area, in directed order; value: how many.
pub fn enumerate(words: &[i32], left: i32, bottom: i32, right: i32, top: i32, list: &mut [i32]) -> Answer {
    let area = Rect { left, bottom, right, top };
    match sound_area(words, &area) {
        Ok((table, _)) => list_area(list, &seek::Listing { table, from: seek::start(table, NO_TILE), area }),
        Err(refusal) => refusal,
    }
}

/// Counts what a walk meets before the list is written, so that a list that is too short keeps what it held.
pub fn fill(list: &mut [i32], walk: &impl Walk) -> Answer {
    let mut count = 0;
    walk.each(|_| count += 1);
    if list.len() < count {
        return Answer::with(number::SHORT, count);
    }
    write(list, walk)
}

/// The same for an area, whose tiles are at most the records: they are counted only where the list is shorter.
pub fn list_area(list: &mut [i32], walk: &seek::Listing) -> Answer {
    if list.len() < walk.table.len() {
        return fill(list, walk);
    }
    write(list, walk)
}

fn write(list: &mut [i32], walk: &impl Walk) -> Answer {
    let mut count = 0;
    walk.each(|record| {
        list[count] = record as i32;
        count += 1;
    });
    Answer::done(count)
}

/// Writes how much of each window of the area is metal; value: how many windows.
pub fn density(words: &[i32], area: Rect, width: i32, height: i32, shares: &mut [f64]) -> DensityReport {
    let table = match sound_area(words, &area) {
        Ok((table, _)) => table,
        Err(refusal) => return DensityReport::refused(refusal.number),
    };
    let Some(windows) = area.windows(width, height).map(|windows| windows.len()) else {
        return DensityReport::refused(number::STEP);
    };
    match shares.get_mut(..windows) {
        Some(shares) => density::write(table, seek::start(table, NO_TILE), &area, width, height, shares),
        None => DensityReport::short(windows),
    }
}

/// Adds a solid; value: its record. Where one is in the way, what search answers: the record in value, and the cell.
pub fn create(words: &mut [i32], left: i32, bottom: i32, right: i32, top: i32, label: i32) -> MetAnswer {
    let rect = Rect { left, bottom, right, top };
    let solids = match sound(words) {
        Ok((_, solids)) => solids,
        Err(refusal) => return MetAnswer::without_cell(refusal),
    };
    let table = records_mut(words);
    let from = seek::start(table, NO_TILE);
    edit::Editor::new(table).create_if_allowed(from, solids, &rect, label)
}

/// Removes the solid that holds the cell; value: its label.
pub fn delete(words: &mut [i32], x: i32, y: i32) -> Answer {
    let place = match sound_cell(words, x, y) {
        Ok(table) => seek::find(table, seek::start(table, NO_TILE), x, y),
        Err(refusal) => return refusal,
    };
    let table = records_mut(words);
    let label = table[place][LABEL];
    if table[place][KIND] != SOLID {
        return Answer::refused(number::SPACE);
    }
    edit::Editor::new(table).delete(place);
    Answer { number: number::DONE, value: label }
}

/// Writes the solids as a saved layout; value: how many bytes.
pub fn save(words: &[i32], bytes: &mut [u8]) -> Answer {
    let (table, solids) = match sound(words) {
        Ok(sound) => sound,
        Err(refusal) => return refusal,
    };
    let count = solids * saved::SAVED_BYTES;
    if bytes.len() < count {
        return Answer::with(number::SHORT, count);
    }
    saved::write(table, &mut bytes[..count]);
    Answer::done(count)
}

/// Makes the table the plane of a saved layout; value: the number of its records, or the first refused one's index. No
/// answer has a cell.
pub fn load(words: &mut [i32], bytes: &[u8]) -> MetAnswer {
    if !size_is_right(words.len()) {
        return MetAnswer::refused(number::SIZE);
    }
    if !bytes.len().is_multiple_of(saved::SAVED_BYTES) {
        return MetAnswer::refused(number::FILE);
    }
    saved::read(records_mut(words), bytes)
}
