//! The area of a search and, where it is blocked, the solid in the way and the cell where it is met. The cell is marked
//! so that it is seen however small it is.
use crate::canvas::{Canvas, Dots};
use ushanderi_host::{Met, Plane, Rect, Refusal, Tile};

/// A cell whose shorter side has fewer dots gets a ring and ticks around it.
const LEAST_SIDE: f64 = 12.0;
/// The ring's radius, or more around a long cell, and how far the ticks reach out of it.
const RING: f64 = 9.0;
const TICK: f64 = 6.0;
/// The dots between a long cell and its ring.
const GAP: f64 = 3.0;
/// A cell is drawn no smaller than this.
const DOT: f64 = 4.0;
pub const STYLE: &str = "\
.searched { fill: #5b2a86; fill-opacity: 0.07; stroke: #5b2a86; stroke-width: 2; stroke-dasharray: 2 4 }
.blocker { fill: none; stroke: #5b2a86; stroke-width: 2.2 }
.glow { fill: #ffffff; fill-opacity: 0.6; stroke: #ffffff; stroke-width: 6 }
.met { fill: none; stroke: #5b2a86; stroke-width: 2.4 }
.cell { fill: #5b2a86 }
";

pub struct Search {
    area: Rect,
    met: Option<(Tile, Rect)>,
}

/// Where the mark of a cell goes: the cell's own dots, and the radius of the ring around them if they need one.
struct Mark {
    cell: Dots,
    ring: Option<f64>,
}

impl Search {
    pub fn of(plane: &Plane, area: Rect) -> Result<Search, Refusal> {
        let named = |Met { record, cell: (x, y) }: Met| {
            (plane.tile(record).expect("an answer names a tile"), Rect::new(x, y, x + 1, y + 1))
        };
        Ok(Search { area, met: plane.search(area)?.map(named) })
    }

    fn mark(&self, canvas: &Canvas) -> Option<Mark> {
        let cell = canvas.dots(&self.met?.1)?;
        let radius = RING.max(cell.width.max(cell.height) / 2.0 + GAP);
        Some(Mark { cell, ring: (cell.shorter_side() < LEAST_SIDE).then_some(radius) })
    }

    /// What the mark takes, which other things keep off.
    pub fn taken(&self, canvas: &Canvas) -> Option<Dots> {
        let Mark { cell, ring } = self.mark(canvas)?;
        let side = ring.map(|radius| 2.0 * (radius + TICK));
        Some(side.map_or(cell, |side| Dots::around(cell.middle(), (side, side))))
    }

    pub fn add_area(&self, canvas: &mut Canvas) {
        canvas.dots(&self.area).into_iter().for_each(|dots| canvas.rect(dots, "searched"));
        let blocker = self.met.and_then(|(tile, _)| canvas.dots(&tile.rect));
        blocker.into_iter().for_each(|dots| canvas.rect(dots, "blocker"));
    }

    /// To be called last, so that nothing lies on the mark.
    pub fn add_mark(&self, canvas: &mut Canvas) {
        let Some(Mark { cell, ring }) = self.mark(canvas) else { return };
        for class in ["glow", "met"] {
            match ring {
                Some(radius) => add_ring(canvas, cell.middle(), radius, class),
                None => canvas.rect(cell, class),
            }
        }
        canvas.rect(Dots::around(cell.middle(), (cell.width.max(DOT), cell.height.max(DOT))), "cell");
    }

    pub fn add_words(&self, canvas: &mut Canvas) {
        let Some((tile, Rect { left, bottom, .. })) = self.met else {
            canvas.words(&format!("search of {}: free", self.area));
            return;
        };
        canvas.words(&format!("search of {}: blocked at ({left}, {bottom})", self.area));
        canvas.words(&format!("in the way there: the solid {} of label {}", tile.rect, tile.label));
    }
}

/// A ring with four ticks.
fn add_ring(canvas: &mut Canvas, (x, y): (f64, f64), radius: f64, class: &str) {
    canvas.circle((x, y), radius, class);
    for (across, down) in [(1.0, 0.0), (-1.0, 0.0), (0.0, 1.0), (0.0, -1.0)] {
        let at = |away: f64| (x + across * away, y + down * away);
        canvas.line(at(radius), at(radius + TICK), class);
    }
}
