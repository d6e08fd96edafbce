//! The numbers of an area's tiles in directed order, each in a small box inside its tile, no box on another.
use crate::canvas::{Canvas, Dots};
use ushanderi_host::{Plane, Rect, Refusal};

/// A tile part whose shorter side has fewer dots cannot be pointed at.
const LEAST_SIDE: f64 = 4.0;
const SIZES: (f64, f64) = (8.5, 13.0);
/// Dots between two boxes.
const GAP: f64 = 2.0;

/// Adds them, and tells how many had no room. Boxes keep off what is taken.
pub fn add(canvas: &mut Canvas, plane: &Plane, area: &Rect, mut taken: Vec<Dots>) -> Result<usize, Refusal> {
    let listed = plane.enumerate(*area)?;
    let tiles = listed.iter().map(|&record| plane.tile(record).expect("an answer names a tile"));
    let mut parts: Vec<(usize, Dots)> = tiles
        .enumerate()
        .filter_map(|(place, tile)| Some((place + 1, canvas.dots(&tile.rect.common(area)?)?)))
        .collect();
    // Small tiles have the least choice and come first.
    parts.sort_by(|(_, one), (_, other)| (one.width * one.height).total_cmp(&(other.width * other.height)));
    let mut left_out = 0;
    for (number, dots) in parts {
        let digits = number.to_string();
        let size = (dots.shorter_side() * 0.6).clamp(SIZES.0, SIZES.1);
        let place = places(&dots, box_of(&digits, size)).find(|place| place.keeps_off(&taken));
        match place.filter(|_| dots.shorter_side() >= LEAST_SIDE) {
            Some(place) => {
                canvas.rounded(place, place.height / 2.0, "number");
                canvas.digits(place, size, "digits", &digits);
                taken.push(Dots::around(place.middle(), (place.width + GAP, place.height + GAP)));
            }
            None => left_out += 1,
        }
    }
    Ok(left_out)
}

fn box_of(digits: &str, size: f64) -> (f64, f64) {
    let height = size * 1.55;
    (height.max(size * (0.65 * digits.len() as f64 + 0.6)), height)
}

/// Boxes along the longer middle line of the part, the middle one first.
fn places(dots: &Dots, (width, height): (f64, f64)) -> impl Iterator<Item = Dots> {
    let (x, y) = dots.middle();
    let along_row = dots.width >= dots.height;
    let (free, step) = if along_row { (dots.width - width, width + GAP) } else { (dots.height - height, height + GAP) };
    let steps = (free.max(0.0) / 2.0 / step) as usize;
    let away = (0..=steps).flat_map(move |steps| [-1.0, 1.0].map(|way| way * step * steps as f64));
    away.map(move |away| if along_row { (x + away, y) } else { (x, y + away) })
        .map(move |middle| Dots::around(middle, (width, height)))
}
