//! The density report: any area, windows of any size, lists of any length, every share compared in every bit. And that
//! more covered cells are a larger share.
use crate::case::{ask_all, Case};
use crate::{scaled, Report};
use ushanderi_host::calls::{self, DensityReport};
use ushanderi_host::density::{bits, Density};
use ushanderi_host::lent::Lent;
use ushanderi_host::random::Random;
use ushanderi_host::rects::{tiles, Rect, Solid};
use ushanderi_host::tables::{stitched, table_of};
use ushanderi_host::tally::agree;
use ushanderi_host::words::{records_for, EDGE};
use ushanderi_host::{answers, asks, plain};

type Program = fn(&[i32], Rect, i32, i32, &mut [f64]) -> DensityReport;

const PROGRAMS: [(&str, Program); 2] = [("the server", calls::density), ("the plain program", plain::density)];

/// No list is lent that takes more windows.
const MOST_WINDOWS: usize = 1_500;

/// How many pairs of neighbouring counts are divided, and how many are drawn.
const DIVIDED: usize = 2_000_000;
const DRAWN: usize = 4_000;

pub fn run(scale: f64) -> Report {
    let mut lines = ask_all(scale, ask)?;
    let mut random = Random::new(6);
    let (divided, drawn) = (scaled(DIVIDED, scale), scaled(DRAWN, scale));
    (0..divided).try_for_each(|_| divided_rise(&mut random))?;
    (0..drawn).try_for_each(|_| drawn_rise(&mut random))?;
    lines.push(format!("{divided} pairs of counts divided, {drawn} drawn: the larger count has the larger share"));
    Ok(lines)
}

pub fn ask(case: &Case, random: &mut Random) -> Result<i32, String> {
    let (area, width, height) = asks::windows(&case.tiles, random);
    let windows = area.windows(width, height).map_or(3, |windows| windows.len());
    let room = asks::room(windows.min(MOST_WINDOWS), random);
    let wanted = case.answer(|case| Ok(answers::density(&case.solids, area, width, height, room)));
    let (wanted, shares) = wanted.unwrap_or_else(|number| (DensityReport::refused(number), Vec::new()));
    for (program, density) in PROGRAMS {
        let about = |message| format!("{program}: {area:?}, {width} by {height}, a list of {room}: {message}");
        compare(&case.table, room, (&wanted, &shares), |table, list| density(table, area, width, height, list))
            .map_err(about)?;
    }
    Ok(wanted.number)
}

/// Lends a list of so many places and compares the report and what it leaves in the list.
fn compare(
    table: &[i32],
    room: usize,
    (wanted, shares): (&DensityReport, &[f64]),
    call: impl FnOnce(&[i32], &mut [f64]) -> DensityReport,
) -> Result<(), String> {
    let mut table = Lent::new(table, 7);
    let old: Vec<f64> = (0..room).map(|place| -1_000.5 - place as f64).collect();
    let mut list = Lent::new(&old, 7.5);
    let report = call(table.for_reading(), list.for_writing());
    table.after("the table", 0..0)?;
    agree(report == *wanted, || format!("{report:?}, wanted {wanted:?}"))?;
    let written = &list.after("the list", 0..shares.len())?[..shares.len()];
    agree(bits(written) == bits(shares), || format!("shares {written:?}, wanted {shares:?}"))
}

/// Neighbouring counts of a window of any size, at both ends of what it can have as often as between.
fn divided_rise(random: &mut Random) -> Result<(), String> {
    let cells = side(random) * side(random);
    let last = cells - 1;
    let count = match random.below(3) {
        0 => last.min(random.below(9) as u64),
        1 => last - last.min(random.below(9) as u64),
        _ => random.below(cells as usize) as u64,
    };
    let shares = [count, count + 1].map(|count| Density::of(count, cells).share());
    agree(shares[0] < shares[1], || format!("{count} of {cells} cells and one more: {shares:?}"))
}

/// A side that a window may have: the plane's, any other, or a small one.
fn side(random: &mut Random) -> u64 {
    let most = random.pick(&[2 * EDGE, 5_000, 9]);
    if random.one_in(3) {
        return most as u64;
    }
    random.between(1, most) as u64
}

/// Two windows with equal solids, one of which has one covered cell more, in a report of the server's.
fn drawn_rise(random: &mut Random) -> Result<(), String> {
    let (width, height) = (random.between(2, EDGE), random.between(2, 2 * EDGE));
    let (left, bottom) = (random.between(-EDGE, EDGE - 2 * width), random.between(-EDGE, EDGE - height));
    let (wide, high) = (random.between(1, width - 1), random.between(1, height));
    let solid =
        |left: i32, wide: i32, high: i32| Solid { rect: Rect::new(left, bottom, left + wide, bottom + high), label: 1 };
    let solids = [solid(left, wide, high), solid(left + width, wide, high), solid(left + width + wide, 1, 1)];
    let table = table_of(&stitched(&tiles(&solids)), records_for(solids.len()), random).expect("the picture fits");
    let mut shares = [0.0; 2];
    let area = Rect::new(left, bottom, left + 2 * width, bottom + height);
    let report = calls::density(&table, area, width, height, &mut shares);
    let ends = (report.lowest, report.highest) == (shares[0], shares[1]);
    agree(ends && shares[0] < shares[1], || format!("{solids:?}, {area:?}: {report:?}, {shares:?}"))
}
