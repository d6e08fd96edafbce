//! The form of a lent table: which word is which, and how many records and solids a table may have.

/// The plane is every cell from -EDGE up to, but not with, EDGE in both directions.
pub const EDGE: i32 = 16_777_216;

/// How many words a record has.
pub const RECORD_WORDS: usize = 10;
/// The place of a tile's left edge among its record's words.
pub const LEFT: usize = 0;
/// The place of the bottom edge.
pub const BOTTOM: usize = 1;
/// The place of the right edge.
pub const RIGHT: usize = 2;
/// The place of the top edge.
pub const TOP: usize = 3;
/// The place of the stitch to the tile right of the upper right corner.
pub const TR: usize = 4;
/// The place of the stitch to the tile above the upper right corner.
pub const RT: usize = 5;
/// The place of the stitch to the tile left of the lower left corner.
pub const BL: usize = 6;
/// The place of the stitch to the tile below the lower left corner.
pub const LB: usize = 7;
/// The place of the kind.
pub const KIND: usize = 8;
/// The place of the label.
pub const LABEL: usize = 9;

/// The places of the four stitches.
pub const STITCHES: [usize; 4] = [TR, RT, BL, LB];
/// A stitch over the plane's edge, and the area search's answer for a free area.
pub const NO_TILE: i32 = -1;

/// The kind of a record that holds no tile.
pub const FREE: i32 = 0;
/// The kind of a space tile.
pub const SPACE: i32 = 1;
/// The kind of a solid.
pub const SOLID: i32 = 2;

/// A table has at least so many records.
pub const LEAST_RECORDS: usize = 20;
/// A table has at most so many records.
pub const MOST_RECORDS: usize = 4_016;

/// The words of one record.
pub type Record = [i32; RECORD_WORDS];

/// Whether a table may have so many words.
pub fn size_is_right(words: usize) -> bool {
    words.is_multiple_of(RECORD_WORDS) && (LEAST_RECORDS..=MOST_RECORDS).contains(&(words / RECORD_WORDS))
}

/// How many solids a table of so many records takes.
pub const fn most_solids(records: usize) -> usize {
    (records - 16) / 4
}

/// The fewest records that take so many solids.
pub fn records_for(solids: usize) -> usize {
    (4 * solids + 16).max(LEAST_RECORDS)
}

/// The words as records.
pub fn records(words: &[i32]) -> &[Record] {
    words.as_chunks().0
}

/// The words as records that can be written.
pub fn records_mut(words: &mut [i32]) -> &mut [Record] {
    words.as_chunks_mut().0
}

/// Whether the plane has the cell.
pub fn in_plane(x: i32, y: i32) -> bool {
    (-EDGE..EDGE).contains(&x) && (-EDGE..EDGE).contains(&y)
}
