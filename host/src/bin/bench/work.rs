//! A table like a small layout, and the questions that are asked about it in turn.
use ushanderi_host::answers;
use ushanderi_host::calls::{self, Answer};
use ushanderi_host::pictures::workload;
use ushanderi_host::plain;
use ushanderi_host::random::Random;
use ushanderi_host::rects::{tiles, Rect, Solid, Tile};
use ushanderi_host::tables::{stitched, table_of};
use ushanderi_host::words::records_for;

/// The layout's side, in cells.
const SIDE: i32 = 20_000;
/// All of the layout.
pub const LAYOUT: Rect = Rect::new(0, 0, SIDE, SIDE);
const QUESTIONS: usize = 64;

pub struct Work {
    pub solids: Vec<Solid>,
    pub tiles: Vec<Tile>,
    pub table: Vec<i32>,
    /// The same without the last solid, so that there is room to create one.
    pub fewer_solids: Vec<Solid>,
    pub fewer: Vec<i32>,
    pub saved: Vec<u8>,
    /// Anywhere in the layout.
    pub cells: Vec<(i32, i32)>,
    /// About as large as a solid.
    pub areas: Vec<Rect>,
    /// Such areas that are free in the table with fewer solids.
    pub free: Vec<Rect>,
    /// A cell of one solid each.
    pub held: Vec<(i32, i32)>,
}

impl Work {
    pub fn new(count: usize) -> Work {
        let mut random = Random::new(7);
        let solids = workload(count, SIDE, &mut random);
        let fewer_solids = solids[..count - 1].to_vec();
        let mut made = |solids: &[Solid]| {
            let sheet = stitched(&tiles(solids));
            table_of(&sheet, records_for(count), &mut random).expect("the picture fits")
        };
        let (table, fewer) = (made(&solids), made(&fewer_solids));
        assert!(calls::check(&table) == Answer::done(count), "the measured table is sound");
        assert!(plain::check(&fewer) == Answer::done(count - 1), "the measured table is sound");
        let mut area = || {
            let (left, bottom) = (random.between(0, SIDE - 200), random.between(0, SIDE - 200));
            Rect::new(left, bottom, left + random.between(1, 200), bottom + random.between(1, 200))
        };
        let areas: Vec<Rect> = (0..QUESTIONS).map(|_| area()).collect();
        let is_free = |area: &Rect| !fewer_solids.iter().any(|solid| solid.rect.shares_cell(area));
        let free = std::iter::repeat_with(&mut area).filter(is_free).take(QUESTIONS).collect();
        let cells = areas.iter().map(|area| (area.left, area.bottom)).collect();
        let held = solids.iter().map(|solid| (solid.rect.left, solid.rect.bottom)).collect();
        let (tiles, saved) = (tiles(&solids), answers::save(&solids));
        Work { solids, tiles, table, fewer_solids, fewer, saved, cells, areas, free, held }
    }
}

/// One of the questions, in turn.
pub fn nth<T: Copy>(questions: &[T], number: usize) -> T {
    questions[number % questions.len()]
}
