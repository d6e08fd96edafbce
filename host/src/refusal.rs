//! The server's refusals as Rust errors.
use crate::calls::{number, Answer, DensityReport, MetAnswer, NO_CELL};
use std::error::Error;
use std::fmt;

/// Why a call was refused.
///
/// ```
/// use ushanderi_host::calls::{self, Answer};
/// use ushanderi_host::Refusal;
///
/// let answer = calls::check(&[0; 190]);
/// assert_eq!(answer, Answer { number: 1, value: 0 });
/// assert_eq!(answer.result(), Err(Refusal::Size));
/// assert_eq!(Refusal::Short { needed: 5 }.to_string(), "the list is shorter than the 5 entries needed");
/// let blocked = Refusal::Occupied { by: 3, cell: (9, 3) };
/// assert_eq!(blocked.to_string(), "the solid in record 3 is in the way at (9, 3)");
/// ```
#[derive(Clone, Copy, Debug, PartialEq, Eq)]
pub enum Refusal {
    /// The words are no whole records, or fewer than 20 or more than 4,016 of them.
    Size,
    /// The table is not sound.
    Unsound,
    /// The cell is outside the plane.
    Point,
    /// The rectangle is empty, turned round or reaches out of the plane.
    Rect,
    /// The label is below 1.
    Label,
    /// Some solid shares a cell with the rectangle.
    Occupied {
        /// The record of the solid that an area search gives.
        by: usize,
        /// The cell that it gives: the first one of the rectangle that is occupied.
        cell: (i32, i32),
    },
    /// As many solids as the table takes are present.
    Full,
    /// The cell is held by space.
    Space,
    /// The side is none of the four.
    Side,
    /// The lent list is too short.
    Short {
        /// The length that would do.
        needed: usize,
    },
    /// The saved bytes are no whole records.
    File,
    /// No record of the table is free.
    Room,
    /// A window's side is below 1, or does not divide the area's.
    Step,
}

impl fmt::Display for Refusal {
    fn fmt(&self, out: &mut fmt::Formatter) -> fmt::Result {
        match self {
            Refusal::Size => write!(out, "a table has 20 to 4,016 whole records"),
            Refusal::Unsound => write!(out, "the table is not sound"),
            Refusal::Point => write!(out, "the cell is outside the plane"),
            Refusal::Rect => write!(out, "the rectangle is empty, turned round or reaches out of the plane"),
            Refusal::Label => write!(out, "a label is 1 or more"),
            Refusal::Occupied { by, cell: (x, y) } => {
                write!(out, "the solid in record {by} is in the way at ({x}, {y})")
            }
            Refusal::Full => write!(out, "the table takes no further solid"),
            Refusal::Space => write!(out, "the cell is held by space"),
            Refusal::Side => write!(out, "the side is none of the four"),
            Refusal::Short { needed } => write!(out, "the list is shorter than the {needed} entries needed"),
            Refusal::File => write!(out, "the saved bytes are no whole records"),
            Refusal::Room => write!(out, "no record of the table is free"),
            Refusal::Step => write!(out, "a window's sides are 1 or more and divide the area's"),
        }
    }
}

impl Error for Refusal {}

impl Answer {
    /// The value of an answer that is no refusal. The only refusal with a cell comes as a [`MetAnswer`].
    pub fn result(self) -> Result<i32, Refusal> {
        MetAnswer::without_cell(self).result()
    }
}

impl MetAnswer {
    /// The value of an answer that is no refusal.
    pub fn result(self) -> Result<i32, Refusal> {
        refusal(self.number, self.value.into(), self.cell()).map_or(Ok(self.value), Err)
    }

    /// The same for a load, whose refusals tell which record was refused.
    pub fn load_result(self) -> Result<usize, LoadRefusal> {
        let index = self.value as usize;
        let bad = |why| Err(LoadRefusal::Record { index, why });
        match self.number {
            number::RECT => bad(BadRecord::Rect),
            number::LABEL => bad(BadRecord::Label),
            number::OCCUPIED => bad(BadRecord::Occupied),
            number::FULL => bad(BadRecord::Full),
            _ => self.result().map(|count| count as usize).map_err(LoadRefusal::Nothing),
        }
    }
}

impl DensityReport {
    /// The report, if it is no refusal.
    pub fn result(self) -> Result<DensityReport, Refusal> {
        refusal(self.number, self.value, NO_CELL).map_or(Ok(self), Err)
    }
}

/// The refusal of this number, value and cell, if the number is one's.
fn refusal(number: i32, value: i64, cell: (i32, i32)) -> Option<Refusal> {
    let refusal = match number {
        number::DONE => return None,
        number::SIZE => Refusal::Size,
        number::UNSOUND => Refusal::Unsound,
        number::POINT => Refusal::Point,
        number::RECT => Refusal::Rect,
        number::LABEL => Refusal::Label,
        number::OCCUPIED => Refusal::Occupied { by: value as usize, cell },
        number::FULL => Refusal::Full,
        number::SPACE => Refusal::Space,
        number::SIDE => Refusal::Side,
        number::SHORT => Refusal::Short { needed: value as usize },
        number::FILE => Refusal::File,
        number::ROOM => Refusal::Room,
        number::STEP => Refusal::Step,
        other => panic!("{other} is no number of an answer"),
    };
    Some(refusal)
}

/// Why a saved layout was not loaded.
#[derive(Clone, Copy, Debug, PartialEq, Eq)]
pub enum LoadRefusal {
    /// The load did not begin, and the table is as it was.
    Nothing(Refusal),
    /// A record was refused, and the table is an empty plane.
    Record {
        /// Which one, counted from 0.
        index: usize,
        /// What is wrong with it.
        why: BadRecord,
    },
}

/// What is wrong with a record of a saved layout.
#[derive(Clone, Copy, Debug, PartialEq, Eq)]
pub enum BadRecord {
    /// The rectangle is empty, turned round or reaches out of the plane.
    Rect,
    /// The label is below 1.
    Label,
    /// An earlier record shares a cell with it.
    Occupied,
    /// The earlier records are as many as the table takes.
    Full,
}

impl fmt::Display for LoadRefusal {
    fn fmt(&self, out: &mut fmt::Formatter) -> fmt::Result {
        match self {
            LoadRefusal::Nothing(refusal) => refusal.fmt(out),
            LoadRefusal::Record { index, why } => {
                let what = match why {
                    BadRecord::Rect => "has no proper rectangle",
                    BadRecord::Label => "has a label below 1",
                    BadRecord::Occupied => "overlaps an earlier one",
                    BadRecord::Full => "is one more than the table takes",
                };
                write!(out, "saved record {index} {what}")
            }
        }
    }
}

impl Error for LoadRefusal {}
