//! The server's C names, each behind a safe function. Nothing compares these declarations with the archive but the
//! comparison runs, so they follow ushanderi.h word for word.
use crate::rects::Rect;

/// The numbers an answer may have.
pub mod number {
    /// None of the refusals holds.
    pub const DONE: i32 = 0;
    /// The words are no whole records, or too few or too many of them.
    pub const SIZE: i32 = 1;
    /// The table is not sound.
    pub const UNSOUND: i32 = 2;
    /// The cell is outside the plane.
    pub const POINT: i32 = 3;
    /// The rectangle is empty, turned round or reaches out of the plane.
    pub const RECT: i32 = 4;
    /// The label is below 1.
    pub const LABEL: i32 = 5;
    /// Some solid shares a cell with the rectangle.
    pub const OCCUPIED: i32 = 6;
    /// As many solids as the table takes are present.
    pub const FULL: i32 = 7;
    /// The cell is held by space.
    pub const SPACE: i32 = 8;
    /// The side is not 0 to 3.
    pub const SIDE: i32 = 9;
    /// The lent list is shorter than needed.
    pub const SHORT: i32 = 10;
    /// The saved bytes are no whole records.
    pub const FILE: i32 = 11;
    /// No record of the table is free.
    pub const ROOM: i32 = 12;
    /// A window's side is below 1, or does not divide the area's.
    pub const STEP: i32 = 13;

    /// The names by their numbers.
    pub const NAMES: [&str; 14] = [
        "DONE", "SIZE", "UNSOUND", "POINT", "RECT", "LABEL", "OCCUPIED", "FULL", "SPACE", "SIDE", "SHORT", "FILE",
        "ROOM", "STEP",
    ];
}

/// What a call answers: a number of the list above, and a value.
#[repr(C)]
#[derive(Clone, Copy, Debug, PartialEq, Eq)]
pub struct Answer {
    /// One of [`number`]'s.
    pub number: i32,
    /// What it means is the call's own; 0 with most refusals.
    pub value: i32,
}

impl Answer {
    /// The answer of a call that is not refused.
    pub fn done(value: usize) -> Answer {
        Answer::with(number::DONE, value)
    }

    /// A refusal that says nothing but its number.
    pub fn refused(number: i32) -> Answer {
        Answer { number, value: 0 }
    }

    /// An answer of any number with a count or a place.
    pub fn with(number: i32, value: usize) -> Answer {
        Answer { number, value: i32::try_from(value).expect("a value fits its word") }
    }
}

/// What an answer carries that has no cell.
pub const NO_CELL: (i32, i32) = (0, 0);

/// What search, create and load answer: number and value as in an [`Answer`], and the cell where a solid was met.
#[repr(C)]
#[derive(Clone, Copy, Debug, PartialEq, Eq)]
pub struct MetAnswer {
    /// One of [`number`]'s.
    pub number: i32,
    /// What it means is the call's own; 0 with most refusals.
    pub value: i32,
    /// The column of the first occupied cell, a cell of the searched area or of the rectangle to draw; 0 where the
    /// answer has no such cell. As the plane has a column 0, number and value tell whether there is one.
    pub x: i32,
    /// The row of that cell, or 0.
    pub y: i32,
}

impl MetAnswer {
    /// An answer with the cell that was met.
    pub fn with_cell(Answer { number, value }: Answer, (x, y): (i32, i32)) -> MetAnswer {
        MetAnswer { number, value, x, y }
    }

    /// An answer that has no cell.
    pub fn without_cell(answer: Answer) -> MetAnswer {
        MetAnswer::with_cell(answer, NO_CELL)
    }

    /// A refusal that says nothing but its number.
    pub fn refused(number: i32) -> MetAnswer {
        MetAnswer::without_cell(Answer::refused(number))
    }

    /// The cell, or [`NO_CELL`].
    pub fn cell(self) -> (i32, i32) {
        (self.x, self.y)
    }
}

/// What the density report answers.
#[repr(C)]
#[derive(Clone, Copy, Debug)]
pub struct DensityReport {
    /// One of [`number`]'s.
    pub number: i32,
    /// The number of windows, also where the list is too short for them; 0 with other refusals.
    pub value: i64,
    /// The share of the window with the fewest covered cells; 0.0 with a refusal, as the next.
    pub lowest: f64,
    /// The share of the window with the most.
    pub highest: f64,
    /// The covered cells of all windows; 0 with a refusal.
    pub covered: i64,
}

impl DensityReport {
    /// A refusal that says nothing but its number.
    pub fn refused(number: i32) -> DensityReport {
        DensityReport { number, value: 0, lowest: 0.0, highest: 0.0, covered: 0 }
    }

    /// The refusal of a list that is shorter than the number of windows.
    pub fn short(windows: usize) -> DensityReport {
        DensityReport { value: windows as i64, ..DensityReport::refused(number::SHORT) }
    }
}

/// The same in every bit, so that -0.0 is not taken for 0.0.
impl PartialEq for DensityReport {
    fn eq(&self, other: &DensityReport) -> bool {
        let bits = |report: &DensityReport| (report.lowest.to_bits(), report.highest.to_bits());
        let whole = |report: &DensityReport| (report.number, report.value, report.covered);
        whole(self) == whole(other) && bits(self) == bits(other)
    }
}

#[repr(C)]
struct Part {
    at: usize,
    len: usize,
}

extern "C" {
    fn ush_fresh(table: *mut i32, words: usize) -> Answer;
    fn ush_check(table: *const i32, words: usize) -> Answer;
    fn ush_find(table: *const i32, words: usize, x: i32, y: i32, hint: i32) -> Answer;
    fn ush_view(table: *const i32, words: usize, record: i32) -> Part;
    #[rustfmt::skip]
    fn ush_neighbours(
        table: *const i32,
        words: usize,
        x: i32,
        y: i32,
        side: i32,
        list: *mut i32,
        room: usize,
    ) -> Answer;
    fn ush_search(table: *const i32, words: usize, left: i32, bottom: i32, right: i32, top: i32) -> MetAnswer;
    #[rustfmt::skip]
    fn ush_enumerate(
        table: *const i32,
        words: usize,
        left: i32,
        bottom: i32,
        right: i32,
        top: i32,
        list: *mut i32,
        room: usize,
    ) -> Answer;
    #[rustfmt::skip]
    fn ush_density(
        table: *const i32,
        words: usize,
        left: i32,
        bottom: i32,
        right: i32,
        top: i32,
        width: i32,
        height: i32,
        shares: *mut f64,
        room: usize,
    ) -> DensityReport;
    fn ush_create(table: *mut i32, words: usize, left: i32, bottom: i32, right: i32, top: i32, label: i32)
        -> MetAnswer;
    fn ush_delete(table: *mut i32, words: usize, x: i32, y: i32) -> Answer;
    fn ush_save(table: *const i32, words: usize, bytes: *mut u8, room: usize) -> Answer;
    fn ush_load(table: *mut i32, words: usize, bytes: *const u8, count: usize) -> MetAnswer;
}

// Why the blocks below are safe: the server asks nothing of the numbers it gets, reads and writes inside the slices
// only, keeps no pointer, and a Rust slice's pointer is aligned and not null even where the slice is empty. Two slices
// of one call do not overlap, because at least one of them is lent mutably.

/// Makes the table an empty plane.
pub fn fresh(table: &mut [i32]) -> Answer {
    unsafe { ush_fresh(table.as_mut_ptr(), table.len()) }
}

/// Whether the table is sound; value: the number of solids.
pub fn check(table: &[i32]) -> Answer {
    unsafe { ush_check(table.as_ptr(), table.len()) }
}

/// The record that holds the cell; the hint may be any number.
pub fn find(table: &[i32], x: i32, y: i32, hint: i32) -> Answer {
    unsafe { ush_find(table.as_ptr(), table.len(), x, y, hint) }
}

/// The record's ten words in the caller's own slice, or an empty part of it.
pub fn view(table: &[i32], record: i32) -> &[i32] {
    let part = unsafe { ush_view(table.as_ptr(), table.len(), record) };
    if part.len == 0 {
        return &table[..0];
    }
    table.get(part.at..part.at + part.len).expect("view names a part of the lent table")
}

/// Lists the tiles along one side of the tile that holds the cell; value: how many.
pub fn neighbours(table: &[i32], x: i32, y: i32, side: i32, list: &mut [i32]) -> Answer {
    unsafe { ush_neighbours(table.as_ptr(), table.len(), x, y, side, list.as_mut_ptr(), list.len()) }
}

/// The solid that holds the area's first occupied cell, and that cell; value -1 if the area is free.
pub fn search(table: &[i32], left: i32, bottom: i32, right: i32, top: i32) -> MetAnswer {
    unsafe { ush_search(table.as_ptr(), table.len(), left, bottom, right, top) }
}

/// Lists the tiles that share a cell with the area, in directed order; value: how many.
pub fn enumerate(table: &[i32], left: i32, bottom: i32, right: i32, top: i32, list: &mut [i32]) -> Answer {
    unsafe { ush_enumerate(table.as_ptr(), table.len(), left, bottom, right, top, list.as_mut_ptr(), list.len()) }
}

/// Writes how much of each window of the area is metal; value: how many windows.
pub fn density(table: &[i32], area: Rect, width: i32, height: i32, shares: &mut [f64]) -> DensityReport {
    let Rect { left, bottom, right, top } = area;
    let (words, room) = (table.len(), shares.len());
    unsafe { ush_density(table.as_ptr(), words, left, bottom, right, top, width, height, shares.as_mut_ptr(), room) }
}

/// Adds a solid; value: its record. Where one is in the way, what search answers: the record in value, and the cell.
pub fn create(table: &mut [i32], left: i32, bottom: i32, right: i32, top: i32, label: i32) -> MetAnswer {
    unsafe { ush_create(table.as_mut_ptr(), table.len(), left, bottom, right, top, label) }
}

/// Removes the solid that holds the cell; value: its label.
pub fn delete(table: &mut [i32], x: i32, y: i32) -> Answer {
    unsafe { ush_delete(table.as_mut_ptr(), table.len(), x, y) }
}

/// Writes the solids as a saved layout; value: how many bytes.
pub fn save(table: &[i32], bytes: &mut [u8]) -> Answer {
    unsafe { ush_save(table.as_ptr(), table.len(), bytes.as_mut_ptr(), bytes.len()) }
}

/// Makes the table the plane of a saved layout; value: the number of its records, or the first refused one's index. No
/// answer has a cell.
pub fn load(table: &mut [i32], bytes: &[u8]) -> MetAnswer {
    unsafe { ush_load(table.as_mut_ptr(), table.len(), bytes.as_ptr(), bytes.len()) }
}
