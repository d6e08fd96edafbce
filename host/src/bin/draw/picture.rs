//! What is drawn: strips, solids, stitches, the area with its numbers or its windows, the search, and the words below.
use crate::canvas::{Canvas, Dots};
use crate::options::Options;
use crate::search::{self, Search};
use crate::stitches::Arrows;
use crate::windows::{self, Windows};
use crate::{colours, numbers};
use ushanderi_host::words::EDGE;
use ushanderi_host::{Plane, Rect, Refusal, Tile};

/// Cells around what is shown where no view is asked for: this part of the longer side.
const MARGIN_PART: i32 = 10;
/// A label that would have to be written smaller than this is left to the legend.
const LEAST_LABEL: f64 = 8.5;

pub fn draw(plane: &Plane, options: &Options) -> Result<String, Refusal> {
    let tile = |record: usize| (record, plane.tile(record).expect("an answer names a tile"));
    let tiles: Vec<(usize, Tile)> = plane.enumerate(Rect::PLANE)?.into_iter().map(tile).collect();
    let area = options.area.or(options.density.map(|window| windows::around(around_solids(&tiles), window)));
    let marked = area.into_iter().chain(options.search).reduce(around_both);
    let mut canvas = Canvas::new(options.view.unwrap_or_else(|| view(marked.unwrap_or_else(|| around_solids(&tiles)))));
    let search = options.search.map(|area| Search::of(plane, area)).transpose()?;
    let taken: Vec<Dots> = search.iter().filter_map(|search| search.taken(&canvas)).collect();
    for solid in [false, true] {
        let drawn = tiles.iter().filter(|(_, tile)| tile.is_solid() == solid);
        drawn.for_each(|(_, tile)| add_tile(&mut canvas, tile, area, &taken));
    }
    let windows = area.zip(options.density).map(|(area, window)| Windows::of(plane, area, window)).transpose()?;
    let windows_left_out = windows.as_ref().map_or(0, |windows| windows.add(&mut canvas, &tiles, &taken));
    let mut arrows = Arrows::default();
    if options.stitches {
        tiles.iter().for_each(|(record, tile)| arrows.add(&mut canvas, plane, *record, tile));
    }
    search.iter().for_each(|search| search.add_area(&mut canvas));
    let mut numbers_left_out = 0;
    if let Some(area) = area.filter(|_| windows.is_none()) {
        canvas.dots(&area).into_iter().for_each(|dots| canvas.rect(dots, "area"));
        numbers_left_out = numbers::add(&mut canvas, plane, &area, [arrows.taken, taken].concat())?;
    }
    search.iter().for_each(|search| search.add_mark(&mut canvas));
    let labels = labels_in_view(&canvas, &tiles);
    add_words(&mut canvas, &tiles, &labels);
    windows.iter().for_each(|windows| windows.add_words(&mut canvas));
    search.iter().for_each(|search| search.add_words(&mut canvas));
    let left_out = [("numbers", numbers_left_out), ("tiles' stitches", arrows.left_out), ("windows", windows_left_out)];
    add_what_is_left_out(&mut canvas, &left_out);
    let mut rules: String = labels.iter().map(|&label| colours::rules(label)).collect();
    rules.extend(windows.map(|windows| windows.rules()));
    rules.extend(search.map(|_| search::STYLE));
    Ok(canvas.finish(&rules))
}

/// The smallest rectangle around all solids; some middle part of an empty plane.
fn around_solids(tiles: &[(usize, Tile)]) -> Rect {
    let solids = tiles.iter().filter(|(_, tile)| tile.is_solid()).map(|(_, tile)| tile.rect);
    solids.reduce(around_both).unwrap_or(Rect::new(-8, -8, 8, 8))
}

fn around_both(one: Rect, other: Rect) -> Rect {
    Rect {
        left: one.left.min(other.left),
        bottom: one.bottom.min(other.bottom),
        right: one.right.max(other.right),
        top: one.top.max(other.top),
    }
}

/// The rectangle with a margin, cut to the plane.
fn view(rect: Rect) -> Rect {
    let Rect { left, bottom, right, top } = rect;
    let margin = ((right - left).max(top - bottom) / MARGIN_PART).max(3);
    Rect {
        left: (left - margin).max(-EDGE),
        bottom: (bottom - margin).max(-EDGE),
        right: (right + margin).min(EDGE),
        top: (top + margin).min(EDGE),
    }
}

/// A solid inside the area has a number or is shaded, and needs no label beside it. Labels keep off what is taken.
fn add_tile(canvas: &mut Canvas, tile: &Tile, area: Option<Rect>, taken: &[Dots]) {
    let Some(dots) = canvas.dots(&tile.rect) else { return };
    if !tile.is_solid() {
        canvas.rect(dots, "space");
        return;
    }
    let label = tile.label;
    canvas.rect(dots, &format!("solid label{label}"));
    let digits = label.to_string();
    let size = (dots.shorter_side() * 0.6).min(16.0).min(dots.width / (0.65 * digits.len() as f64));
    let marked = area.is_some_and(|area| area.shares_cell(&tile.rect));
    if !marked && size >= LEAST_LABEL && dots.of_digits(size, &digits).keeps_off(taken) {
        canvas.digits(dots, size, &format!("on{label}"), &digits);
    }
}

fn labels_in_view(canvas: &Canvas, tiles: &[(usize, Tile)]) -> Vec<i32> {
    let shown = tiles.iter().filter(|(_, tile)| tile.is_solid() && canvas.dots(&tile.rect).is_some());
    let mut labels: Vec<i32> = shown.map(|(_, tile)| tile.label).collect();
    labels.sort_unstable();
    labels.dedup();
    labels
}

fn add_words(canvas: &mut Canvas, tiles: &[(usize, Tile)], labels: &[i32]) {
    let solids = tiles.iter().filter(|(_, tile)| tile.is_solid()).count();
    let spaces = tiles.len() - solids;
    let Rect { left, bottom, right, top } = canvas.view();
    canvas.words(&format!(
        "in the plane: solids {solids}, space tiles {spaces}; shown: columns {left} to {right}, rows {bottom} to {top}"
    ));
    if !labels.is_empty() {
        let shown: Vec<_> = labels.iter().map(|label| (format!("solid label{label}"), label.to_string())).collect();
        canvas.legend("labels:", &shown);
    }
}

fn add_what_is_left_out(canvas: &mut Canvas, left_out: &[(&str, usize)]) {
    let some: Vec<String> =
        left_out.iter().filter(|(_, count)| *count > 0).map(|(what, count)| format!("{what} {count}")).collect();
    if !some.is_empty() {
        canvas.words(&format!("left out for want of room: {}; a smaller --view shows more", some.join(", ")));
    }
}
