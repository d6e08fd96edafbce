//! Tables put together wrongly on purpose: each passes most tests of a soundness check and fails few of them or one.
use crate::damage::Damage;
use crate::pictures::{halves, picture, STYLES};
use crate::random::Random;
use crate::rects::{tiles, Rect, Solid, Tile};
use crate::tables::{stitched, table_of, Sample, Stitched};
use crate::words::*;

/// Tables that were never right.
pub const FORGERIES: [Damage; 19] = [
    Damage { name: "space split at a row", make: space_split_at_row },
    Damage { name: "space split at a column", make: space_split_at_column },
    Damage { name: "a solid split", make: solid_split },
    Damage { name: "two tiles joined", make: tiles_joined },
    Damage { name: "the line between two tiles moved", make: line_moved },
    Damage { name: "space in upright strips", make: upright_strips },
    Damage { name: "a tile left out", make: tile_left_out },
    Damage { name: "a solid grown over others", make: solid_grown },
    Damage { name: "an empty tile more", make: empty_tile },
    Damage { name: "a tile inside out", make: tile_inside_out },
    Damage { name: "one sheet twice", make: one_sheet_twice },
    Damage { name: "one sheet twice, stitches across", make: one_sheet_twice_across },
    Damage { name: "an empty plane beneath", make: empty_plane_beneath },
    Damage { name: "two pictures on each other", make: two_pictures },
    Damage { name: "parts of two pictures", make: parts_of_two_pictures },
    Damage { name: "about as many solids as the table takes", make: about_full },
    Damage { name: "a hole paid for by an overlap", make: hole_paid_for },
    Damage { name: "a lost lower corner paid for by an overlap", make: lower_corner_paid_for },
    Damage { name: "a lost upper corner paid for by an overlap", make: upper_corner_paid_for },
];

fn table_of_tiles(tiles: &[Tile], records: usize, random: &mut Random) -> Option<Vec<i32>> {
    table_of(&stitched(tiles), records, random)
}

fn pick_tile(sample: &Sample, kind: i32, random: &mut Random) -> Option<usize> {
    let places: Vec<usize> = (0..sample.tiles.len()).filter(|&place| sample.tiles[place].kind == kind).collect();
    random.pick_some(&places)
}

fn split(sample: &Sample, kind: i32, at_row: bool, random: &mut Random) -> Option<Vec<i32>> {
    let place = pick_tile(sample, kind, random)?;
    let (one, other) = halves(sample.tiles[place].rect, at_row, random)?;
    let mut tiles = sample.tiles.clone();
    tiles[place].rect = one;
    tiles.push(Tile { rect: other, ..tiles[place] });
    table_of_tiles(&tiles, sample.records(), random)
}

fn space_split_at_row(sample: &Sample, random: &mut Random) -> Option<Vec<i32>> {
    split(sample, SPACE, true, random)
}

fn space_split_at_column(sample: &Sample, random: &mut Random) -> Option<Vec<i32>> {
    split(sample, SPACE, false, random)
}

/// Sound as long as the table takes one solid more.
fn solid_split(sample: &Sample, random: &mut Random) -> Option<Vec<i32>> {
    let at_row = random.one_in(2);
    split(sample, SOLID, at_row, random)
}

fn beside(one: &Rect, other: &Rect) -> bool {
    one.right == other.left && (one.bottom, one.top) == (other.bottom, other.top)
}

fn stacked(one: &Rect, other: &Rect) -> bool {
    one.top == other.bottom && (one.left, one.right) == (other.left, other.right)
}

/// Two tiles that are one rectangle together: the left or lower one first.
fn pick_pair(tiles: &[Tile], random: &mut Random) -> Option<(usize, usize)> {
    let start = random.below(tiles.len());
    let turns = (start..tiles.len()).chain(0..start);
    turns.into_iter().find_map(|one| {
        let fits = |other: &Tile| beside(&tiles[one].rect, &other.rect) || stacked(&tiles[one].rect, &other.rect);
        tiles.iter().position(fits).map(|other| (one, other))
    })
}

fn tiles_joined(sample: &Sample, random: &mut Random) -> Option<Vec<i32>> {
    let mut tiles = sample.tiles.clone();
    let (one, other) = pick_pair(&tiles, random)?;
    let (low, high) = (tiles[one].rect, tiles[other].rect);
    let rect = Rect::new(low.left, low.bottom, high.right, high.top);
    tiles[one] = if random.one_in(2) { Tile::space(rect) } else { Tile::solid(rect, 1) };
    tiles.swap_remove(other);
    table_of_tiles(&tiles, sample.records(), random)
}

fn line_moved(sample: &Sample, random: &mut Random) -> Option<Vec<i32>> {
    let mut tiles = sample.tiles.clone();
    let (one, other) = pick_pair(&tiles, random)?;
    let (low, high) = (tiles[one].rect, tiles[other].rect);
    let whole = Rect::new(low.left, low.bottom, high.right, high.top);
    let (lower, upper) = halves(whole, stacked(&low, &high), random)?;
    tiles[one].rect = lower;
    tiles[other].rect = upper;
    table_of_tiles(&tiles, sample.records(), random)
}

fn transposed(rect: Rect) -> Rect {
    Rect::new(rect.bottom, rect.left, rect.top, rect.right)
}

/// The same solids; all stitches right; space cut along columns, not rows.
fn upright_strips(sample: &Sample, random: &mut Random) -> Option<Vec<i32>> {
    let turned: Vec<Solid> =
        sample.solids.iter().map(|solid| Solid { rect: transposed(solid.rect), ..*solid }).collect();
    let upright: Vec<Tile> =
        tiles(&turned).into_iter().map(|tile| Tile { rect: transposed(tile.rect), ..tile }).collect();
    table_of_tiles(&upright, sample.records(), random)
}

fn tile_left_out(sample: &Sample, random: &mut Random) -> Option<Vec<i32>> {
    let mut tiles = sample.tiles.clone();
    tiles.swap_remove(random.below(tiles.len()));
    table_of_tiles(&tiles, sample.records(), random)
}

fn solid_grown(sample: &Sample, random: &mut Random) -> Option<Vec<i32>> {
    let mut tiles = sample.tiles.clone();
    let rect = &mut tiles[pick_tile(sample, SOLID, random)?].rect;
    let by = random.between(1, 12);
    match random.below(4) {
        0 => rect.left = (rect.left - by).max(-EDGE),
        1 => rect.bottom = (rect.bottom - by).max(-EDGE),
        2 => rect.right = (rect.right + by).min(EDGE),
        _ => rect.top = (rect.top + by).min(EDGE),
    }
    table_of_tiles(&tiles, sample.records(), random)
}

/// An empty rectangle has no area and no stitch names it.
fn empty_tile(sample: &Sample, random: &mut Random) -> Option<Vec<i32>> {
    let mut tiles = sample.tiles.clone();
    let mut tile = random.pick(&tiles);
    if random.one_in(2) {
        tile.rect.right = tile.rect.left;
    } else {
        tile.rect.top = tile.rect.bottom;
    }
    tiles.push(tile);
    table_of_tiles(&tiles, sample.records(), random)
}

/// Both sides negative: their product is the right area.
fn tile_inside_out(sample: &Sample, random: &mut Random) -> Option<Vec<i32>> {
    let mut sheet = stitched(&sample.tiles);
    let rect = &mut sheet[random.below(sample.tiles.len())].tile.rect;
    *rect = Rect::new(rect.right, rect.top, rect.left, rect.bottom);
    table_of(&sheet, sample.records(), random)
}

/// Both sheets in one, each with its own stitches.
fn both(one: Vec<Stitched>, other: Vec<Stitched>) -> Vec<Stitched> {
    let before = one.len();
    let moved = other
        .into_iter()
        .map(|item| Stitched { stitches: item.stitches.map(|named| named.map(|place| place + before)), ..item });
    one.into_iter().chain(moved).collect()
}

/// A table large enough that the number of solids is no reason to refuse the sheet.
fn roomy_table(sheet: &[Stitched], random: &mut Random) -> Option<Vec<i32>> {
    let solids = sheet.iter().filter(|item| item.tile.kind == SOLID).count();
    let records = records_for(solids).max(sheet.len()) + random.below(4);
    if records > MOST_RECORDS {
        return None;
    }
    table_of(sheet, records, random)
}

fn one_sheet_twice(sample: &Sample, random: &mut Random) -> Option<Vec<i32>> {
    let sheet = stitched(&sample.tiles);
    roomy_table(&both(sheet.clone(), sheet), random)
}

/// Each stitch names the tile of either sheet; both hold the cell.
fn one_sheet_twice_across(sample: &Sample, random: &mut Random) -> Option<Vec<i32>> {
    let single = stitched(&sample.tiles);
    let mut sheet = both(single.clone(), single);
    let count = sample.tiles.len();
    for named in sheet.iter_mut().flat_map(|item| item.stitches.iter_mut().flatten()) {
        *named = *named % count + count * random.below(2);
    }
    roomy_table(&sheet, random)
}

fn empty_plane_beneath(sample: &Sample, random: &mut Random) -> Option<Vec<i32>> {
    let kinds = [Tile::space(Rect::PLANE), Tile::solid(Rect::PLANE, 1)];
    let plane = stitched(&[random.pick(&kinds)]);
    roomy_table(&both(stitched(&sample.tiles), plane), random)
}

fn other_tiles(sample: &Sample, random: &mut Random) -> Vec<Tile> {
    let style = random.pick(&STYLES);
    tiles(&picture(style, sample.solids.len() + 1, random))
}

fn two_pictures(sample: &Sample, random: &mut Random) -> Option<Vec<i32>> {
    let other = stitched(&other_tiles(sample, random));
    roomy_table(&both(stitched(&sample.tiles), other), random)
}

fn parts_of_two_pictures(sample: &Sample, random: &mut Random) -> Option<Vec<i32>> {
    let mut mixed = sample.tiles.clone();
    mixed.extend(other_tiles(sample, random));
    mixed.retain(|_| random.one_in(2));
    random.shuffle(&mut mixed);
    roomy_table(&stitched(&mixed), random)
}

/// The same tiles in a table that just takes so many solids, or just does not.
fn about_full(sample: &Sample, random: &mut Random) -> Option<Vec<i32>> {
    let enough = 4 * sample.solids.len() + 16;
    let records = random.pick(&[enough - 1, enough, enough + 1, sample.tiles.len()]);
    if !(LEAST_RECORDS..=MOST_RECORDS).contains(&records) {
        return None;
    }
    table_of_tiles(&sample.tiles, records, random)
}

fn pick_solid_or_space(rect: Rect, random: &mut Random) -> Tile {
    if random.one_in(4) {
        return Tile::space(rect);
    }
    Tile::solid(rect, 1)
}

fn forged_sheet(rects: &[Rect], sample: &Sample, random: &mut Random) -> Option<Vec<i32>> {
    let tiles: Vec<Tile> = rects.iter().map(|&rect| pick_solid_or_space(rect, random)).collect();
    table_of_tiles(&tiles, sample.records().max(records_for(rects.len())), random)
}

/// Every stitch is right and the areas add up, but between the tiles there is a hole: at two of its corners tiles
/// overlap, and so no stitch is about a cell of the hole.
fn hole_paid_for(sample: &Sample, random: &mut Random) -> Option<Vec<i32>> {
    let power = random.between(1, 6);
    let height = EDGE >> power;
    let width = random.between(1, 5);
    // The hole is 2 ^ (power + 1) - 2 times as high as the overlaps, so they are as many times as wide together.
    let overlaps = width * ((2 << power) - 2);
    let at_left = random.between(1, overlaps - 1);
    let (low, high) = (-EDGE + height, EDGE - height);
    let rects = [
        Rect::new(-EDGE, low, 0, EDGE),
        Rect::new(-at_left, high, EDGE, EDGE),
        Rect::new(-EDGE, -EDGE, width + overlaps - at_left, low),
        Rect::new(width, -EDGE, EDGE, high),
    ];
    forged_sheet(&rects, sample, random)
}

/// Every stitch is right and the areas add up, but nothing holds the lower right corner. The walk down the first tile's
/// right side meets the fault at its second step only.
fn lower_corner_paid_for(sample: &Sample, random: &mut Random) -> Option<Vec<i32>> {
    let times = random.between(1, 30);
    let height = random.between(1, 2 * EDGE / (times + 2));
    let width = random.between(1, 1000);
    let lost_top = -EDGE + height * times;
    let lid = lost_top + height;
    let rects = [
        Rect::new(-EDGE, -EDGE, EDGE - width, EDGE),
        Rect::new(EDGE - width - width * times, lost_top, EDGE, lid),
        Rect::new(EDGE - width, lid, EDGE, EDGE),
    ];
    forged_sheet(&rects, sample, random)
}

/// Every stitch is right, the areas add up and all right sides are met, but nothing holds the upper left corner.
fn upper_corner_paid_for(sample: &Sample, random: &mut Random) -> Option<Vec<i32>> {
    let power = random.between(1, 5);
    let lost_height = random.between(1, 1000);
    let lost_right = EDGE - ((2 * EDGE) >> power);
    let top = EDGE - lost_height;
    let overlap_bottom = top - ((1 << power) - 1) * lost_height;
    let floor = overlap_bottom - random.between(0, 3);
    let middle = random.between(lost_right + 1, EDGE - 1);
    let rects = [
        Rect::new(-EDGE, floor, middle, top),
        Rect::new(middle, floor, EDGE, top),
        Rect::new(lost_right, overlap_bottom, EDGE, EDGE),
        Rect::new(-EDGE, -EDGE, EDGE, floor),
    ];
    forged_sheet(&rects, sample, random)
}
