//! The drawn examples, starred or not, as one list: each starts from its own table, whose records stand in random
//! places. They test the rectangle-list program as much as the server.
use crate::case::tile_of;
use crate::Report;
use ushanderi_host::calls::{self, number, Answer, MetAnswer};
use ushanderi_host::layouts::{A, B, C};
use ushanderi_host::random::Random;
use ushanderi_host::rects::{stitches, tiles, Rect, Solid, Tile};
use ushanderi_host::tables::{stitched, table_of};
use ushanderi_host::tally::agree;
use ushanderi_host::words::*;

/// Something to do with a table, and the rectangles or numbers it is to give.
type Example = (&'static str, fn() -> Told, &'static [i32]);
type Told = Vec<i32>;

const PLANE: Rect = Rect::PLANE;
const GAP: Solid = Solid { rect: Rect::new(10, 0, 20, 10), label: 4 };
const WHOLE: Solid = Solid { rect: PLANE, label: 1 };

/// Each picture with the number of its space tiles.
const PICTURES: [(&[Solid], usize); 6] =
    [(&[], 1), (&[A], 4), (&[A, B], 5), (&[A, B, C], 8), (&[A, B, C, GAP], 7), (&[WHOLE], 0)];

/// All examples, call by call: a call that the archive does not have yet is left out here, with its section below.
const EXAMPLES: [(&str, &[Example]); 9] = [
    ("fresh", FRESH),
    ("find", FIND),
    ("neighbours", NEIGHBOURS),
    ("search", SEARCH),
    ("enumerate", ENUMERATE),
    ("density", DENSITY),
    ("create", CREATE),
    ("delete", DELETE),
    ("save and load", SAVE_AND_LOAD),
];

pub fn run(_: f64) -> Report {
    for (solids, spaces) in PICTURES {
        let tiles = tiles(solids);
        let found = tiles.iter().filter(|tile| !tile.is_solid()).count();
        agree(found == spaces, || format!("{solids:?}: {found} space tiles, wanted {spaces}"))?;
        expect(&tiles, records_for(solids.len()), Answer::done(solids.len()))?;
    }
    expect(&tiles(&[A, B]), 20, Answer::refused(number::UNSOUND))?;
    stitches_of_a()?;
    for (call, examples) in EXAMPLES {
        for (words, example, wanted) in examples {
            let given = example();
            agree(given == *wanted, || format!("{call}, {words}: {given:?}, wanted {wanted:?}"))?;
        }
    }
    let examples: usize = EXAMPLES.iter().map(|(_, examples)| examples.len()).sum();
    Ok(vec![format!("{} pictures as drawn, {examples} examples", PICTURES.len())])
}

fn expect(tiles: &[Tile], records: usize, wanted: Answer) -> Result<(), String> {
    let table = table_of(&stitched(tiles), records, &mut Random::new(4)).expect("the picture fits");
    let answer = calls::check(&table);
    agree(answer == wanted, || format!("{tiles:?} in {records} records: {answer:?}, wanted {wanted:?}"))
}

/// A alone: the right space, the top strip, the left space, the bottom strip.
fn stitches_of_a() -> Result<(), String> {
    let tiles = tiles(&[A]);
    let named = stitches(&tiles, &tiles[0]).map(|named| named.map(|place| tiles[place].rect));
    let Rect { left, bottom, right, top } = PLANE;
    let wanted = [
        Rect::new(10, 0, right, 10),
        Rect::new(left, 10, right, top),
        Rect::new(left, 0, 0, 10),
        Rect::new(left, bottom, right, 0),
    ];
    agree(named == wanted.map(Some), || format!("the stitches of A: {named:?}, wanted {wanted:?}"))
}

fn table_with(solids: &[Solid], records: usize) -> Vec<i32> {
    table_of(&stitched(&tiles(solids)), records, &mut Random::new(5)).expect("the picture fits")
}

fn table(solids: &[Solid]) -> Vec<i32> {
    table_with(solids, records_for(solids.len()))
}

/// A, B and C with room for one solid more.
fn abc() -> Vec<i32> {
    table_with(&[A, B, C], records_for(4))
}

fn full() -> Vec<i32> {
    table(&[A, B, C])
}

fn told(answer: Answer) -> Told {
    vec![answer.number, answer.value]
}

fn told_all(MetAnswer { number, value, x, y }: MetAnswer) -> Told {
    vec![number, value, x, y]
}

/// Nothing where the record is none, so that an answer that is no record shows as such.
fn rect_at(table: &[i32], record: i32) -> Told {
    tile_of(table, record).map_or(Vec::new(), |Tile { rect, .. }| vec![rect.left, rect.bottom, rect.right, rect.top])
}

fn rect_of(table: &[i32], answer: Answer) -> Told {
    rect_at(table, answer.value)
}

/// The number, the rectangle of the solid that is in the way, and the cell where it is met.
fn blocked(table: &[i32], MetAnswer { number, value, x, y }: MetAnswer) -> Told {
    [vec![number], rect_at(table, value), vec![x, y]].concat()
}

fn spaces(table: &[i32]) -> i32 {
    records(table).iter().filter(|record| record[KIND] == SPACE).count() as i32
}

/// The left edges of what is listed.
fn lefts(table: &[i32], list: &[i32], answer: Answer) -> Told {
    let listed = list.iter().take(answer.value.max(0) as usize);
    listed.flat_map(|&record| rect_at(table, record).into_iter().take(1)).collect()
}

const FRESH: &[Example] = &[
    ("190 words: SIZE", || told(calls::fresh(&mut [7; 190])), &[1, 0]),
    ("200 words: accepted", || told(calls::fresh(&mut [7; 200])), &[0, 0]),
    ("40,160 words: accepted", || told(calls::fresh(&mut [7; 40_160])), &[0, 0]),
    ("40,170 words: SIZE", || told(calls::fresh(&mut [7; 40_170])), &[1, 0]),
];

const FIND: &[Example] = &[
    ("cell (9, 9) is A", || found(9, 9), &[0, 0, 10, 10]),
    ("cell (10, 5) is the gap", || found(10, 5), &[10, 0, 20, 10]),
    ("cell (0, 0) is A", || found(0, 0), &[0, 0, 10, 10]),
    ("cell (E, 0) is POINT", || told(calls::find(&abc(), EDGE, 0, 0)), &[3, 0]),
    ("cell (E - 1, E - 1) is found", || found(EDGE - 1, EDGE - 1), &[-EDGE, 20, EDGE, EDGE]),
];

fn found(x: i32, y: i32) -> Told {
    rect_of(&abc(), calls::find(&abc(), x, y, -1))
}

const NEIGHBOURS: &[Example] = &[("top of the bottom strip", || beside(0, -1, 2), &[30, 20, 10, 0, -EDGE])];

fn beside(x: i32, y: i32, side: i32) -> Told {
    let mut list = [0; 9];
    let answer = calls::neighbours(&abc(), x, y, side, &mut list);
    lefts(&abc(), &list, answer)
}

const SEARCH: &[Example] = &[
    ("10 0 20 10: free, no cell", || told_all(calls::search(&abc(), 10, 0, 20, 10)), &[0, NO_TILE, 0, 0]),
    ("5 0 25 20: C at (5, 19)", || searched(5, 0, 25, 20), &[0, 5, 15, 25, 20, 5, 19]),
    ("0 0 30 15: A at (0, 9)", || searched(0, 0, 30, 15), &[0, 0, 0, 10, 10, 0, 9]),
    ("8 0 30 17, from inside C: C at (8, 16)", || searched(8, 0, 30, 17), &[0, 5, 15, 25, 20, 8, 16]),
    ("-3 -3 1 1: A at (0, 0), which is a cell as well", || searched(-3, -3, 1, 1), &[0, 0, 0, 10, 10, 0, 0]),
    ("9 3 9 4: RECT, no cell", || told_all(calls::search(&abc(), 9, 3, 9, 4)), &[4, 0, 0, 0]),
    ("190 words: SIZE, no cell", || told_all(calls::search(&[7; 190], 9, 3, 12, 4)), &[1, 0, 0, 0]),
    ("200 zeros: UNSOUND, no cell", || told_all(calls::search(&[0; 200], 9, 3, 12, 4)), &[2, 0, 0, 0]),
];

fn searched(left: i32, bottom: i32, right: i32, top: i32) -> Told {
    blocked(&abc(), calls::search(&abc(), left, bottom, right, top))
}

const ENUMERATE: &[Example] = &[
    ("-5 0 35 20", || listed(-5, 0, 35, 20), &[-EDGE, 5, 25, -EDGE, -EDGE, 0, 10, 20, 30]),
    ("5 2 25 8: A, gap, B", || listed(5, 2, 25, 8), &[0, 10, 20]),
];

fn listed(left: i32, bottom: i32, right: i32, top: i32) -> Told {
    let mut list = [0; 16];
    let answer = calls::enumerate(&abc(), left, bottom, right, top, &mut list);
    lefts(&abc(), &list, answer)
}

/// Number, value, covered cells, lowest and highest share, then the list; shares in percent.
const DENSITY: &[Example] = &[
    ("10 by 10", || shared(AROUND, 10, 10, 6), &[0, 6, 300, 0, 100, 25, 50, 25, 100, 0, 100]),
    ("one window, a longer list", || shared(AROUND, 30, 20, 3), &[0, 1, 300, 50, 50, 50, KEPT, KEPT]),
    ("A alone, 5 by 10: filled", || shared(A.rect, 5, 10, 2), &[0, 2, 100, 100, 100, 100, 100]),
    ("the gap, 10 by 5: bare", || shared(GAP.rect, 10, 5, 2), &[0, 2, 0, 0, 0, 0, 0]),
    ("a list shorter by one: SHORT", || shared(AROUND, 15, 10, 3), &[10, 4, 0, 0, 0, KEPT, KEPT, KEPT]),
    ("7 by 10: STEP", || shared(AROUND, 7, 10, 1), &[13, 0, 0, 0, 0, KEPT]),
    ("60 by 20, wider than the area: STEP", || shared(AROUND, 60, 20, 1), &[13, 0, 0, 0, 0, KEPT]),
    ("10 by 0, and no list: STEP", || shared(AROUND, 10, 0, 0), &[13, 0, 0, 0, 0]),
    ("no area, 0 by 0: RECT", || shared(Rect::new(0, 0, 0, 10), 0, 0, 1), &[4, 0, 0, 0, 0, KEPT]),
    ("every cell of the plane: SHORT, and 2^50 windows", every_cell, &[10, 1]),
];

/// All of A, B and C.
const AROUND: Rect = Rect::new(0, 0, 30, 20);
/// What stands in the list before the report.
const KEPT: i32 = -100;

fn shared(area: Rect, width: i32, height: i32, room: usize) -> Told {
    let percent = |share: f64| (100.0 * share) as i32;
    let mut list = vec![f64::from(KEPT) / 100.0; room];
    let report = calls::density(&abc(), area, width, height, &mut list);
    let shares = [report.lowest, report.highest].into_iter().chain(list).map(percent);
    [report.number, report.value as i32, report.covered as i32].into_iter().chain(shares).collect()
}

fn every_cell() -> Told {
    let report = calls::density(&abc(), PLANE, 1, 1, &mut []);
    vec![report.number, i32::from(report.value == 1 << 50)]
}

const CREATE: &[Example] = &[
    ("9 3 12 4 is OCCUPIED by A at (9, 3)", || overlaps(abc()), &[6, 0, 0, 10, 10, 9, 3]),
    ("overlap in a full table: the same", || overlaps(full()), &[6, 0, 0, 10, 10, 9, 3]),
    ("10 0 20 10: done, no cell, 7 space tiles", || created(&mut abc(), 10, 0, 20, 10), &[0, 0, 0, 7]),
    ("the plane: done, no space tile left", || created(&mut table(&[]), -EDGE, -EDGE, EDGE, EDGE), &[0, 0, 0, 0]),
    ("3 3 3 4, label 0: RECT, no cell", || told_all(calls::create(&mut abc(), 3, 3, 3, 4, 0)), &[4, 0, 0, 0]),
    ("9 3 12 4, label 0: LABEL, no cell", || told_all(calls::create(&mut abc(), 9, 3, 12, 4, 0)), &[5, 0, 0, 0]),
    ("full table: FULL, no cell", || told_all(calls::create(&mut full(), 10, 0, 20, 10, 4)), &[7, 0, 0, 0]),
];

fn overlaps(mut table: Vec<i32>) -> Told {
    let answer = calls::create(&mut table, 9, 3, 12, 4, 4);
    blocked(&table, answer)
}

/// The number and the cell of a create, and the space tiles after it.
fn created(table: &mut [i32], left: i32, bottom: i32, right: i32, top: i32) -> Told {
    let answer = calls::create(table, left, bottom, right, top, 4);
    vec![answer.number, answer.x, answer.y, spaces(table)]
}

const DELETE: &[Example] = &[
    ("at (12, 17): label 3, 5 space tiles", || deleted(12, 17), &[0, 3, 5]),
    ("at (15, 5): SPACE", || told(calls::delete(&mut abc(), 15, 5)), &[8, 0]),
    ("20 records: A, B is FULL, delete A, B", one_solid_at_a_time, &[0, 7, 0, 0]),
];

fn deleted(x: i32, y: i32) -> Told {
    let mut table = abc();
    let answer = calls::delete(&mut table, x, y);
    vec![answer.number, answer.value, spaces(&table)]
}

fn one_solid_at_a_time() -> Told {
    let mut table = table_with(&[], 20);
    let first = calls::create(&mut table, 0, 0, 10, 10, 1).number;
    let refused = calls::create(&mut table, 20, 0, 30, 10, 2).number;
    let removed = calls::delete(&mut table, 5, 5).number;
    vec![first, refused, removed, calls::create(&mut table, 20, 0, 30, 10, 2).number]
}

const SAVE_AND_LOAD: &[Example] = &[
    ("save: highest top first", saved, &[5, 15, 25, 20, 3, 0, 0, 10, 10, 1, 20, 0, 30, 10, 2]),
    ("no bytes: a fresh plane", || loaded(&[]), &[0, 0, 0, 0, 1]),
    ("19 bytes: FILE", || told_all(calls::load(&mut abc(), &[0; 19])), &[11, 0, 0, 0]),
    ("A: done, 4 space tiles", || loaded(&[A]), &[0, 1, 0, 0, 4]),
    ("A twice: OCCUPIED, index 1, no cell", || loaded(&[A, A]), &[6, 1, 0, 0, 1]),
    ("A and an empty rectangle: RECT, index 1", || loaded(&[A, at(3, 3, 3, 4, 0)]), &[4, 1, 0, 0, 1]),
    ("a label of 0: LABEL", || loaded(&[at(3, 3, 4, 4, 0)]), &[5, 0, 0, 0, 1]),
    ("A and B into 20 records: FULL, index 1", || loaded(&[A, B]), &[7, 1, 0, 0, 1]),
];

const fn at(left: i32, bottom: i32, right: i32, top: i32, label: i32) -> Solid {
    Solid { rect: Rect::new(left, bottom, right, top), label }
}

fn saved() -> Told {
    let mut bytes = [0; 60];
    calls::save(&abc(), &mut bytes);
    bytes.as_chunks().0.iter().map(|&word| i32::from_le_bytes(word)).collect()
}

/// The answer of a load into 20 records, and the space tiles after it.
fn loaded(solids: &[Solid]) -> Told {
    let words = solids.iter().flat_map(|Solid { rect, label }| [rect.left, rect.bottom, rect.right, rect.top, *label]);
    let bytes: Vec<u8> = words.flat_map(i32::to_le_bytes).collect();
    let mut table = vec![3; 200];
    let answer = told_all(calls::load(&mut table, &bytes));
    [answer, vec![spaces(&table)]].concat()
}
