//! The stitches of the tiles, each as an arrow from its corner of the tile into the tile that it names.
use crate::canvas::{Canvas, Dots};
use ushanderi_host::{Plane, Tile};

/// How far an arrow reaches over the side of its tile, in dots; it begins half as far inside.
const REACH: f64 = 15.0;
/// The radius of the dot where an arrow begins.
const KNOT: f64 = 2.4;
/// A tile whose shorter side has fewer dots has no room for arrows.
const LEAST_SIDE: f64 = 15.0;

/// What the arrows cover, and how many tiles had no room for theirs.
#[derive(Default)]
pub struct Arrows {
    pub taken: Vec<Dots>,
    pub left_out: usize,
}

impl Arrows {
    /// Adds those of a tile that begin and end in view.
    pub fn add(&mut self, canvas: &mut Canvas, plane: &Plane, record: usize, tile: &Tile) {
        let Some(dots) = canvas.dots(&tile.rect) else { return };
        if dots.shorter_side() < LEAST_SIDE {
            self.left_out += 1;
            return;
        }
        let reach = REACH.min(dots.shorter_side() / 3.0);
        let ((right, top), (left, bottom)) =
            (canvas.point(tile.rect.right, tile.rect.top), canvas.point(tile.rect.left, tile.rect.bottom));
        let high = (right - reach / 2.0, top + reach / 2.0);
        let low = (left + reach / 2.0, bottom - reach / 2.0);
        let arrows = [
            (high, (right + reach, high.1)),
            (high, (high.0, top - reach)),
            (low, (left - reach, low.1)),
            (low, (low.0, bottom + reach)),
        ];
        let named = plane.stitches(record).into_iter().zip(tile.rect.stitch_cells());
        for ((stitch, cell), (from, to)) in named.zip(arrows) {
            if stitch.is_some() && canvas.view().holds(cell) {
                self.add_arrow(canvas, from, to);
            }
        }
    }

    fn add_arrow(&mut self, canvas: &mut Canvas, from: (f64, f64), to: (f64, f64)) {
        canvas.line(from, to, "halo");
        canvas.line(from, to, "stitch");
        canvas.circle(from, KNOT, "knot");
        let middle = ((from.0 + to.0) / 2.0, (from.1 + to.1) / 2.0);
        let thick = 6.0;
        self.taken.push(Dots::around(middle, ((to.0 - from.0).abs() + thick, (to.1 - from.1).abs() + thick)));
    }
}
