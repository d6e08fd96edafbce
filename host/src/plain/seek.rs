//! Finding and listing on a sound table, by following stitches.
use crate::rects::Rect;
use crate::words::*;

/// One side of a tile as the words that a walk along it reads.
pub struct Side {
    /// The stitch to the first tile along the side.
    first: usize,
    /// The stitch from one tile along the side to the next.
    next: usize,
    /// The edge by which a tile ends in the walk's direction.
    end: usize,
    /// Whether that edge's numbers fall along the walk.
    falling: bool,
}

/// Right, left, top, bottom.
pub const SIDES: [Side; 4] = [
    Side { first: TR, next: LB, end: BOTTOM, falling: true },
    Side { first: BL, next: RT, end: TOP, falling: false },
    Side { first: RT, next: BL, end: LEFT, falling: true },
    Side { first: LB, next: TR, end: RIGHT, falling: false },
];

/// A used record to begin at: the hint, if it names one.
pub fn start(table: &[Record], hint: i32) -> usize {
    let hinted =
        usize::try_from(hint).ok().filter(|&place| table.get(place).is_some_and(|record| record[KIND] != FREE));
    hinted.unwrap_or_else(|| table.iter().position(|record| record[KIND] != FREE).expect("a sound table has a tile"))
}

/// The tile that holds the cell: to its row first, then sideways one tile at a time.
pub fn find(table: &[Record], from: usize, x: i32, y: i32) -> usize {
    let mut at = up_to(table, from, y);
    at = down_to(table, at, y);
    loop {
        if x < table[at][LEFT] {
            at = up_to(table, table[at][BL] as usize, y);
        } else if x >= table[at][RIGHT] {
            at = down_to(table, table[at][TR] as usize, y);
        } else {
            return at;
        }
    }
}

fn up_to(table: &[Record], mut at: usize, y: i32) -> usize {
    while y >= table[at][TOP] {
        at = table[at][RT] as usize;
    }
    at
}

fn down_to(table: &[Record], mut at: usize, y: i32) -> usize {
    while y < table[at][BOTTOM] {
        at = table[at][LB] as usize;
    }
    at
}

/// What a search of an area ends with.
pub enum Seen {
    /// The area is free; the tile met last holds its lower left cell.
    Nothing(usize),
    /// The solid that holds the area's first occupied cell, and that cell.
    Solid(usize, (i32, i32)),
}

/// Looks for the area's first occupied cell: down the area's left edge, one strip at a time.
pub fn search(table: &[Record], from: usize, area: &Rect) -> Seen {
    let mut at = from;
    let mut row = area.top - 1;
    loop {
        at = find(table, at, area.left, row);
        let tile = &table[at];
        if tile[KIND] == SOLID {
            return Seen::Solid(at, (area.left, row));
        }
        // The tile's own tr may lie above the area, so the row asked about decides.
        if tile[RIGHT] < area.right {
            return Seen::Solid(find(table, at, tile[RIGHT], row), (tile[RIGHT], row));
        }
        if tile[BOTTOM] <= area.bottom {
            return Seen::Nothing(at);
        }
        row = tile[BOTTOM] - 1;
    }
}

/// Something that meets tiles one after the other, the same ones each time.
pub trait Walk {
    /// Visits each tile's record.
    fn each(&self, visit: impl FnMut(usize));
}

/// The tiles along one side of a tile, in the side's order.
pub struct Along<'a> {
    /// A sound table.
    pub table: &'a [Record],
    /// The record of the tile.
    pub tile: usize,
    /// Which side.
    pub side: &'a Side,
}

impl Walk for Along<'_> {
    fn each(&self, mut visit: impl FnMut(usize)) {
        let Along { table, tile, side } = *self;
        let end = table[tile][side.end];
        let mut named = table[tile][side.first];
        while let Ok(at) = usize::try_from(named) {
            visit(at);
            let here = table[at][side.end];
            if if side.falling { here <= end } else { here >= end } {
                return;
            }
            named = table[at][side.next];
        }
    }
}

/// The tiles that share a cell with an area, in directed order.
pub struct Listing<'a> {
    /// A sound table.
    pub table: &'a [Record],
    /// Where to begin to look for the area.
    pub from: usize,
    /// The area.
    pub area: Rect,
}

impl Walk for Listing<'_> {
    fn each(&self, mut visit: impl FnMut(usize)) {
        let Listing { table, from, area } = self;
        let mut at = find(table, *from, area.left, area.top - 1);
        loop {
            self.subtree(at, &mut visit);
            if table[at][BOTTOM] <= area.bottom {
                return;
            }
            at = find(table, at, area.left, table[at][BOTTOM] - 1);
        }
    }
}

/// The tiles that share a cell with an area, each once: each waits in a queue until those that hang under it stand behind
/// it.
pub struct Gathering<'a> {
    /// A sound table.
    pub table: &'a [Record],
    /// Where to begin to look for the area.
    pub from: usize,
    /// The area.
    pub area: Rect,
}

impl Walk for Gathering<'_> {
    fn each(&self, visit: impl FnMut(usize)) {
        let mut queue = [0; MOST_RECORDS + 1];
        let mut end = self.put_roots(&mut queue);
        let mut next = 0;
        while next < end {
            end = self.put_hanging(queue[next], &mut queue, end);
            next += 1;
        }
        queue[..end].iter().copied().for_each(visit);
    }
}

impl Gathering<'_> {
    fn put_roots(&self, queue: &mut [usize]) -> usize {
        let Gathering { table, from, area } = self;
        let (mut at, mut top, mut end) = (*from, area.top, 0);
        while area.bottom < top {
            at = find(table, at, area.left, top - 1);
            queue[end] = at;
            end += 1;
            top = table[at][BOTTOM];
        }
        end
    }

    fn put_hanging(&self, tile: usize, queue: &mut [usize], mut end: usize) -> usize {
        let Gathering { table, area, .. } = self;
        let [_, bottom, right, ..] = table[tile];
        if right >= area.right {
            return end;
        }
        let floor = if bottom <= area.bottom { -EDGE } else { bottom };
        let mut at = table[tile][TR] as usize;
        loop {
            // Every tile is written, and counts only if it hangs under this one: so that is no branch.
            let low = table[at][BOTTOM];
            queue[end] = at;
            end += usize::from(floor <= low && low < area.top);
            if low <= bottom.max(area.bottom) {
                return end;
            }
            at = table[at][LB] as usize;
        }
    }
}

impl Listing<'_> {
    fn subtree(&self, tile: usize, visit: &mut impl FnMut(usize)) {
        visit(tile);
        let Listing { table, area, .. } = self;
        let [_, bottom, right, ..] = table[tile];
        if right >= area.right {
            return;
        }
        // A tile that begins lower hangs under another one, unless the area cuts both.
        let floor = if bottom <= area.bottom { -EDGE } else { bottom };
        let mut at = table[tile][TR] as usize;
        loop {
            let low = table[at][BOTTOM];
            if low < floor {
                return;
            }
            if low < area.top {
                self.subtree(at, visit);
            }
            if low <= bottom.max(area.bottom) {
                return;
            }
            at = table[at][LB] as usize;
        }
    }
}
