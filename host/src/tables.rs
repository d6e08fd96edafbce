//! Tables of pictures: tiles get their stitches by the rectangle-list program and a random place in the table.
use crate::pictures::{picture, Style, STYLES};
use crate::random::Random;
use crate::rects::{stitches, tiles, Solid, Tile};
use crate::words::*;

/// A tile that has no place yet: its stitches name tiles of the same sheet by their place in the sheet.
#[derive(Clone, Copy, Debug)]
pub struct Stitched {
    /// The tile.
    pub tile: Tile,
    /// tr, rt, bl and lb.
    pub stitches: [Option<usize>; 4],
}

/// The tiles with their stitches, in the same order.
pub fn stitched(tiles: &[Tile]) -> Vec<Stitched> {
    tiles.iter().map(|&tile| Stitched { tile, stitches: stitches(tiles, &tile) }).collect()
}

/// A sheet as a table of so many records, each tile in a random one; nothing if the sheet has more tiles than that.
pub fn table_of(sheet: &[Stitched], records: usize, random: &mut Random) -> Option<Vec<i32>> {
    if sheet.len() > records {
        return None;
    }
    let mut places: Vec<usize> = (0..records).collect();
    random.shuffle(&mut places);
    let mut words = vec![0; records * RECORD_WORDS];
    let table = records_mut(&mut words);
    for (item, &place) in sheet.iter().zip(&places) {
        table[place] = record_of(item, &places);
    }
    Some(words)
}

fn record_of(item: &Stitched, places: &[usize]) -> Record {
    let rect = item.tile.rect;
    let [tr, rt, bl, lb] = item.stitches.map(|named| named.map_or(NO_TILE, |tile| places[tile] as i32));
    [rect.left, rect.bottom, rect.right, rect.top, tr, rt, bl, lb, item.tile.kind, item.tile.label]
}

/// A sound table together with the picture it was made from.
pub struct Sample {
    /// What sort of picture it is.
    pub style: Style,
    /// The picture.
    pub solids: Vec<Solid>,
    /// The picture's tiles.
    pub tiles: Vec<Tile>,
    /// The tiles in random records.
    pub table: Vec<i32>,
}

impl Sample {
    /// How many records the table has.
    pub fn records(&self) -> usize {
        self.table.len() / RECORD_WORDS
    }
}

/// A random picture in a table of so many records.
pub fn sample(records: usize, random: &mut Random) -> Sample {
    let style = random.pick(&STYLES);
    let room = most_solids(records);
    let most = if random.one_in(3) { room } else { random.below(room + 1) };
    let solids = picture(style, most, random);
    let tiles = tiles(&solids);
    let table = table_of(&stitched(&tiles), records, random).expect("n solids have at most 4n + 1 tiles");
    Sample { style, solids, tiles, table }
}
