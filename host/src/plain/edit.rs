//! Create and delete on a sound table: tiles are split, joined and painted, and every cut-off piece is mended at once.
use super::seek::{self, Seen};
use crate::calls::{number, Answer, MetAnswer};
use crate::rects::Rect;
use crate::words::*;

/// Makes the records an empty plane.
pub fn wipe_all(table: &mut [Record]) {
    table.fill([0; RECORD_WORDS]);
    table[0] = [-EDGE, -EDGE, EDGE, EDGE, NO_TILE, NO_TILE, NO_TILE, NO_TILE, SPACE, 0];
}

/// A direction to cut in, as the words that a split or a join reads and writes: at a row as named, at a column with
/// the two axes exchanged.
struct Axis {
    low: usize,
    high: usize,
    span_from: usize,
    /// The stitches at the high corner: to the side, and onwards over the high edge.
    high_side: usize,
    high_on: usize,
    /// The stitches at the low corner: to the side, and onwards over the low edge.
    low_side: usize,
    low_on: usize,
}

const ROWS: Axis =
    Axis { low: BOTTOM, high: TOP, span_from: LEFT, high_side: TR, high_on: RT, low_side: BL, low_on: LB };

const COLUMNS: Axis =
    Axis { low: LEFT, high: RIGHT, span_from: BOTTOM, high_side: RT, high_on: TR, low_side: LB, low_on: BL };

/// A sound table under edit, the records that the edit freed, and where a free one was last seen, so that no search begins
/// at the first each time.
pub struct Editor<'a> {
    table: &'a mut [Record],
    freed: Vec<usize>,
    next_free: usize,
}

impl<'a> Editor<'a> {
    /// Begins to edit a sound table.
    pub fn new(table: &'a mut [Record]) -> Editor<'a> {
        Editor { table, freed: Vec::new(), next_free: 0 }
    }

    /// Adds a solid to a table with so many, unless a rule forbids it. Looks for its place from a tile on.
    pub fn create_if_allowed(&mut self, from: usize, solids: usize, rect: &Rect, label: i32) -> MetAnswer {
        if !rect.keeps_limits() {
            return MetAnswer::refused(number::RECT);
        }
        if label < 1 {
            return MetAnswer::refused(number::LABEL);
        }
        let last = match seek::search(self.table, from, rect) {
            Seen::Solid(blocker, cell) => return MetAnswer::with_cell(Answer::with(number::OCCUPIED, blocker), cell),
            Seen::Nothing(last) => last,
        };
        if solids >= most_solids(self.table.len()) {
            return MetAnswer::refused(number::FULL);
        }
        MetAnswer::without_cell(Answer::done(self.create(last, rect, label)))
    }

    /// Adds a solid where the area is free and the table has room: it grows upwards, one strip at a time, so that what is
    /// done keeps its record.
    pub fn create(&mut self, from: usize, rect: &Rect, label: i32) -> usize {
        let solid = self.take_strip(from, rect, rect.bottom, label);
        while self.table[solid][TOP] < rect.top {
            let above = self.take_strip(solid, rect, self.table[solid][TOP], label);
            self.join(solid, above, solid, &ROWS);
        }
        solid
    }

    /// Paints the strip over the row, and gives back to space what lies outside the rectangle.
    fn take_strip(&mut self, from: usize, rect: &Rect, bottom: i32, label: i32) -> usize {
        let strip = seek::find(self.table, from, rect.left, bottom);
        let top = self.table[strip][TOP].min(rect.top);
        self.paint(strip, SOLID, label);
        let strip = self.carve(strip, bottom, top, &ROWS);
        self.carve(strip, rect.left, rect.right, &COLUMNS)
    }

    /// Removes a solid: it shrinks downwards from its top, one slab at a time, so that what is left keeps its record.
    pub fn delete(&mut self, solid: usize) {
        let mut last = solid;
        loop {
            let [left, bottom, _, top, ..] = self.table[solid];
            let from = if self.table[last][KIND] == FREE { solid } else { last };
            let before = (left > -EDGE).then(|| seek::find(self.table, from, left - 1, top - 1));
            let after = usize::try_from(self.table[solid][TR]).ok();
            let bottoms = [before, after].into_iter().flatten().map(|beside| self.table[beside][BOTTOM]);
            let stop = bottoms.fold(bottom, i32::max);
            let cut = bottom < stop;
            let at_the_cut = before.map_or(NO_TILE, |tile| tile as i32);
            let slab = if cut { self.split_at(solid, stop, at_the_cut, &ROWS) } else { solid };
            for beside in [before, after].into_iter().flatten() {
                self.take_in(slab, beside);
            }
            self.open_up(slab);
            if !cut {
                return;
            }
            last = before.unwrap_or(solid);
        }
    }

    /// A space tile beside the slab is cut to the slab's rows and becomes part of it.
    fn take_in(&mut self, slab: usize, beside: usize) {
        if self.table[beside][KIND] != SPACE {
            return;
        }
        let [_, bottom, right, top, ..] = self.table[slab];
        self.paint(beside, SOLID, self.table[slab][LABEL]);
        let piece = self.carve(beside, bottom, top, &ROWS);
        if self.table[piece][LEFT] == right {
            self.join(slab, piece, slab, &COLUMNS);
        } else {
            self.join(piece, slab, slab, &COLUMNS);
        }
    }

    fn paint(&mut self, tile: usize, kind: i32, label: i32) {
        self.table[tile][KIND] = kind;
        self.table[tile][LABEL] = label;
    }

    /// Cuts a solid to the lines given; what is cut off becomes space. The record that stays.
    fn carve(&mut self, tile: usize, low: i32, high: i32, axis: &Axis) -> usize {
        if self.table[tile][axis.high] > high {
            let beyond = self.split(tile, high, axis);
            self.open_up(beyond);
        }
        if self.table[tile][axis.low] == low {
            return tile;
        }
        let kept = self.split(tile, low, axis);
        self.open_up(tile);
        kept
    }

    /// Makes a piece space, and one with the space of equal span right above and right below it, whose records stay.
    fn open_up(&mut self, piece: usize) {
        self.paint(piece, SPACE, 0);
        let above = self.its_like(piece, RT);
        if let Some(above) = above {
            self.join(piece, above, above, &ROWS);
        }
        let piece = above.unwrap_or(piece);
        if let Some(below) = self.its_like(piece, LB) {
            self.join(below, piece, below, &ROWS);
        }
    }

    fn its_like(&self, piece: usize, stitch: usize) -> Option<usize> {
        let named = usize::try_from(self.table[piece][stitch]).ok()?;
        let (one, other) = (&self.table[piece], &self.table[named]);
        (other[KIND] == SPACE && other[LEFT] == one[LEFT] && other[RIGHT] == one[RIGHT]).then_some(named)
    }

    /// One that this edit freed, or else the next.
    fn free_record(&mut self) -> usize {
        if let Some(freed) = self.freed.pop() {
            return freed;
        }
        let count = self.table.len();
        let turns = (self.next_free..count).chain(0..self.next_free);
        let free = |&place: &usize| self.table[place][KIND] == FREE;
        self.next_free = turns.into_iter().find(free).expect("a sound table keeps a free record");
        self.next_free
    }

    /// Cuts a tile in two at a line; the higher part gets a free record, which is the answer.
    fn split(&mut self, tile: usize, line: i32, axis: &Axis) -> usize {
        let mut beside = self.table[tile][axis.low_side];
        while beside >= 0 && self.table[beside as usize][axis.high] <= line {
            beside = self.table[beside as usize][axis.high_on];
        }
        self.split_at(tile, line, beside, axis)
    }

    /// The same where the tile beside the cut, at the low side, is known.
    fn split_at(&mut self, tile: usize, line: i32, beside: i32, axis: &Axis) -> usize {
        let other = self.free_record();
        self.table[other] = self.table[tile];
        let [start, end] = [self.table[tile][axis.span_from], self.table[tile][axis.high]];
        let crossing = |at: &Record| at[axis.low] >= line;
        self.table[tile][axis.high_side] =
            self.repoint(self.table[tile][axis.high_side], axis.low_on, axis.low_side, other, crossing);
        self.table[other][axis.low_side] = beside;
        self.repoint(beside, axis.high_on, axis.high_side, other, |at| at[axis.high] <= end);
        let over = self.table[tile][axis.high_on];
        self.repoint(over, axis.low_side, axis.low_on, other, |at| at[axis.span_from] >= start);
        self.table[other][axis.low] = line;
        self.table[tile][axis.high] = line;
        self.table[other][axis.low_on] = tile as i32;
        self.table[tile][axis.high_on] = other as i32;
        other
    }

    /// Makes one tile of two that are one rectangle together; the lower one first.
    fn join(&mut self, low: usize, high: usize, kept: usize, axis: &Axis) {
        let gone = low + high - kept;
        self.hand_over(gone, kept);
        for word in [axis.low, axis.low_on, axis.low_side] {
            self.table[kept][word] = self.table[low][word];
        }
        for word in [axis.high, axis.high_on, axis.high_side] {
            self.table[kept][word] = self.table[high][word];
        }
        self.table[gone] = [0; RECORD_WORDS];
        self.freed.push(gone);
    }

    /// Every stitch that names one tile names the other from now on.
    fn hand_over(&mut self, gone: usize, kept: usize) {
        for axis in [&ROWS, &COLUMNS] {
            let [start, end] = [self.table[gone][axis.low], self.table[gone][axis.high]];
            let (above, below) = (self.table[gone][axis.high_side], self.table[gone][axis.low_side]);
            self.repoint(above, axis.low_on, axis.low_side, kept, |at| at[axis.low] >= start);
            self.repoint(below, axis.high_on, axis.high_side, kept, |at| at[axis.high] <= end);
        }
    }

    /// Walks along a side while the tiles are such as asked for, and sets the stitch that points back. The first other.
    fn repoint(&mut self, from: i32, next: usize, back: usize, to: usize, such: impl Fn(&Record) -> bool) -> i32 {
        let mut named = from;
        while let Ok(at) = usize::try_from(named) {
            if !such(&self.table[at]) {
                break;
            }
            self.table[at][back] = to as i32;
            named = self.table[at][next];
        }
        named
    }
}
