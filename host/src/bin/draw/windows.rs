//! The windows of an area, each shaded by how much of it is metal, with the percentage where there is room.
use crate::canvas::{Canvas, Dots};
use crate::colours;
use std::collections::BTreeSet;
use ushanderi_host::{Densities, Density, Plane, Rect, Refusal, Tile};

/// A window whose shorter side has fewer dots cannot be seen.
const LEAST_SIDE: f64 = 2.0;
/// Digits smaller than the first cannot be read.
const SIZES: (f64, f64) = (8.5, 14.0);
const STYLE: &str = "\
.window { stroke: #c3cbd6; stroke-width: 0.7 }
.outline { fill: none; stroke: #1b2a49; stroke-opacity: 0.55; stroke-width: 0.9 }
.frame { fill: none }
";
/// What the legend shows, in percent.
const LEGEND: [(usize, &str); 5] = [(0, "bare"), (25, "25%"), (50, "50%"), (75, "75%"), (100, "filled")];

pub struct Windows {
    area: Rect,
    width: i32,
    height: i32,
    densities: Densities,
}

impl Windows {
    pub fn of(plane: &Plane, area: Rect, (width, height): (i32, i32)) -> Result<Windows, Refusal> {
        Ok(Windows { area, width, height, densities: plane.density(area, width, height)? })
    }

    /// Adds them with the outlines of the solids, and tells how many had no room. Digits keep off what is taken.
    pub fn add(&self, canvas: &mut Canvas, tiles: &[(usize, Tile)], taken: &[Dots]) -> usize {
        let windows = self.area.windows(self.width, self.height).into_iter().flatten();
        let seen = windows
            .zip(self.densities.windows())
            .filter_map(|(window, density)| Some((canvas.dots(&window)?, density)));
        let (shown, left_out): (Vec<_>, Vec<_>) = seen.partition(|(dots, _)| dots.shorter_side() >= LEAST_SIDE);
        for (dots, density) in &shown {
            canvas.rect(*dots, &format!("window shade{}", percent(*density)));
        }
        let solids = tiles.iter().filter(|(_, tile)| tile.is_solid());
        for part in solids.filter_map(|(_, tile)| tile.rect.common(&self.area)) {
            canvas.dots(&part).into_iter().for_each(|dots| canvas.rect(dots, "outline"));
        }
        shown.into_iter().for_each(|(dots, density)| add_digits(canvas, dots, density, taken));
        canvas.dots(&self.area).into_iter().for_each(|dots| canvas.rect(dots, "area frame"));
        left_out.len()
    }

    /// What the report says of all windows, and the legend.
    pub fn add_words(&self, canvas: &mut Canvas) {
        let Densities { shares, lowest, highest, covered } = &self.densities;
        let (count, width, height) = (shares.len(), self.width, self.height);
        canvas.words(&format!(
            "windows of {width} by {height} cells: {count}; shares from {lowest:.4} to {highest:.4}; covered cells {covered}"
        ));
        let shown = LEGEND.map(|(percent, words)| (format!("window shade{percent}"), words.to_string()));
        canvas.legend("metal:", &shown);
    }

    /// The style of what is added, with the shades that are shown, as rules of a style sheet.
    pub fn rules(&self) -> String {
        let shown = self.densities.windows().map(percent).chain(LEGEND.map(|(percent, _)| percent));
        let shown: BTreeSet<usize> = shown.collect();
        STYLE.to_string() + &shown.into_iter().map(colours::shade_rules).collect::<String>()
    }
}

fn add_digits(canvas: &mut Canvas, dots: Dots, density: Density, taken: &[Dots]) {
    let percent = percent(density);
    let digits = percent.to_string();
    let size = (dots.shorter_side() * 0.4).min(SIZES.1).min(dots.width / (0.7 * digits.len() as f64));
    if density != Density::Bare && size >= SIZES.0 && dots.of_digits(size, &digits).keeps_off(taken) {
        canvas.digits(dots, size, &format!("on_shade{percent}"), &digits);
    }
}

/// Only a bare window has 0 and only a filled one has 100.
fn percent(density: Density) -> usize {
    match density {
        Density::Bare => 0,
        Density::Filled => 100,
        Density::Share(share) => ((100.0 * share).round() as usize).clamp(1, 99),
    }
}

/// Whole windows from the rectangle's upper left corner on: as many as hold all of it, or as the plane has room for.
pub fn around(rect: Rect, (width, height): (i32, i32)) -> Rect {
    let whole = |side: i32, step: i32, most: i32| ((side - 1) / step + 1).min(most / step) * step;
    let Rect { left, bottom, right, top } = rect;
    Rect {
        right: left + whole(right - left, width, Rect::PLANE.right - left),
        bottom: top - whole(top - bottom, height, top - Rect::PLANE.bottom),
        ..rect
    }
}
