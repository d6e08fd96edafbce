//! The density report on a sound table: the area's tiles are gathered once, and each solid's cells are counted in the
//! windows that it meets. The counts stand in the list, as floats, until they become shares.
use super::seek::{Gathering, Walk};
use crate::calls::{number, DensityReport};
use crate::density::Density;
use crate::rects::Rect;
use crate::words::*;

/// Writes the shares of the windows, which are exactly as many as there are. Looks for the area from a tile on.
pub fn write(table: &[Record], from: usize, area: &Rect, width: i32, height: i32, shares: &mut [f64]) -> DensityReport {
    let cells = width as u64 * height as u64;
    let share = |count: u64| Density::of(count, cells).share();
    let grid = Grid { area: *area, width, height, columns: ((area.right - area.left) / width) as usize };
    shares.fill(0.0);
    Gathering { table, from, area: *area }.each(|tile| {
        if table[tile][KIND] == SOLID {
            grid.add(&table[tile], shares);
        }
    });
    let (mut lowest, mut highest, mut covered) = (cells, 0, 0);
    for place in shares.iter_mut() {
        let count = *place as u64;
        *place = share(count);
        lowest = lowest.min(count);
        highest = highest.max(count);
        covered += count;
    }
    let value = shares.len() as i64;
    let (lowest, highest) = (share(lowest), share(highest));
    DensityReport { number: number::DONE, value, lowest, highest, covered: covered as i64 }
}

/// Windows of one size that fill an area.
struct Grid {
    area: Rect,
    width: i32,
    height: i32,
    columns: usize,
}

impl Grid {
    /// Adds the cells of a solid that meets the area, window by window, rows from the top.
    fn add(&self, solid: &Record, counts: &mut [f64]) {
        let Grid { area, width, height, columns } = self;
        let (left, right) = (solid[LEFT].max(area.left), solid[RIGHT].min(area.right));
        let (bottom, mut top) = (solid[BOTTOM].max(area.bottom), solid[TOP].min(area.top));
        let (row, column) = ((area.top - top) / height, (left - area.left) / width);
        let mut row_bottom = area.top - (row + 1) * height;
        for row in counts.chunks_exact_mut(*columns).skip(row as usize) {
            let rows = top - row_bottom.max(bottom);
            self.add_row(&mut row[column as usize..], column, left, right, rows);
            top = row_bottom;
            row_bottom -= height;
            if top <= bottom {
                return;
            }
        }
    }

    /// The columns from left to right, so many rows high; the first of the counts is that of the window in a column.
    fn add_row(&self, counts: &mut [f64], column: i32, mut left: i32, right: i32, rows: i32) {
        let mut window_right = self.area.left + (column + 1) * self.width;
        for count in counts {
            *count += f64::from(window_right.min(right) - left) * f64::from(rows);
            left = window_right;
            window_right += self.width;
            if right <= left {
                return;
            }
        }
    }
}
