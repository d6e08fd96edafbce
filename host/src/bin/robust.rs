//! The long run: millions of calls through the C names, on sound, damaged and random tables, each compared with the
//! plain program's answer on a copy. `robust [CALLS]`, twelve million where no number is given. The comparison
//! runs tie the plain program to the rules; here the amount counts.
//!
//! The slices lent here lie between words that are not lent. The same calls on memory that ends at a page that cannot
//! be touched, with the host's side under the address sanitizer, are in robust/robust.c.
#![forbid(unsafe_code)]

use std::process::ExitCode;
use ushanderi_host::answers::{self, SAVED_BYTES};
use ushanderi_host::calls::{self, number, Answer, MetAnswer};
use ushanderi_host::damage::{Damage, WORD_DAMAGES};
use ushanderi_host::density::bits;
use ushanderi_host::forged::FORGERIES;
use ushanderi_host::lent::Lent;
use ushanderi_host::random::Random;
use ushanderi_host::rects::{solids_of, Solid, Tile};
use ushanderi_host::tables::sample;
use ushanderi_host::tally::{agree, Tally};
use ushanderi_host::words::*;
use ushanderi_host::{asks, plain};

const CALLS: usize = 12_000_000;
/// How many times every call is made on one table.
const TURNS: usize = 24;
/// No list is lent that takes more windows.
const MOST_WINDOWS: usize = 400;

/// A lent table, and tiles to make questions from.
struct Lot {
    table: Vec<i32>,
    tiles: Vec<Tile>,
}

/// Makes one call and compares it; the answer's number.
type Try = fn(&Lot, &mut Random) -> Result<i32, String>;

const TRIES: [(&str, Try); 12] = [
    ("fresh", fresh),
    ("check", check),
    ("find", find),
    ("view", view),
    ("neighbours", neighbours),
    ("search", search),
    ("enumerate", enumerate),
    ("density", density),
    ("create", create),
    ("delete", delete),
    ("save", save),
    ("load", load),
];

fn main() -> ExitCode {
    let calls = match std::env::args().nth(1).map(|argument| argument.parse()) {
        None => CALLS,
        Some(Ok(calls)) => calls,
        Some(Err(_)) => {
            eprintln!("usage: robust [CALLS]");
            return ExitCode::from(2);
        }
    };
    let mut tallies = TRIES.map(|_| Tally::default());
    let tables = calls.div_ceil(TRIES.len() * TURNS);
    for seed in 0..tables as u64 {
        if let Err(message) = try_table(seed, &mut tallies) {
            println!("DISAGREEMENT: seed {seed}, {message}");
            return ExitCode::FAILURE;
        }
    }
    for ((name, _), tally) in TRIES.iter().zip(&tallies) {
        println!("{name:>10}: {tally}");
    }
    println!("{tables} tables, {} calls, no disagreement", tallies.iter().map(Tally::total).sum::<usize>());
    ExitCode::SUCCESS
}

fn try_table(seed: u64, tallies: &mut [Tally]) -> Result<(), String> {
    let mut random = Random::new(seed);
    let lot = draw(&mut random);
    for _ in 0..TURNS {
        for ((name, call), tally) in TRIES.iter().zip(&mut *tallies) {
            let about = |message| format!("{} words, {name}: {message}", lot.table.len());
            tally.add(call(&lot, &mut random).map_err(about)?);
        }
    }
    Ok(())
}

/// A third of the tables is damaged, one in eight has a wrong size, the others are sound.
fn draw(random: &mut Random) -> Lot {
    let most = random.pick(&[24, 40, 40, 80, 80, 200]);
    let records = random.between(LEAST_RECORDS as i32, most) as usize;
    let sample = sample(records, random);
    let damages: Vec<&Damage> = WORD_DAMAGES.iter().chain(&FORGERIES).collect();
    let damaged = if random.one_in(3) { (random.pick(&damages).make)(&sample, random) } else { None };
    let mut table = damaged.unwrap_or(sample.table);
    if random.one_in(8) {
        let size = random.pick(&[0, 1, 9, 190, 199, table.len() - 1, table.len() + 1, 40_161, 40_170]);
        table.resize_with(size, || random.between(-1, 2));
    }
    Lot { table, tiles: sample.tiles }
}

fn same(answer: Answer, wanted: Answer, question: String) -> Result<i32, String> {
    agree(answer == wanted, || format!("{question}: {answer:?}, the plain program {wanted:?}"))?;
    Ok(answer.number)
}

/// A call that only reads, on a copy of the table.
fn reading<T>(lot: &Lot, call: impl FnOnce(&[i32]) -> T) -> Result<T, String> {
    let mut lent = Lent::new(&lot.table, 7);
    let answer = call(lent.for_reading());
    lent.after("the table", 0..0)?;
    Ok(answer)
}

fn fresh(lot: &Lot, _: &mut Random) -> Result<i32, String> {
    let mut lent = Lent::new(&lot.table, 7);
    let answer = calls::fresh(lent.for_writing());
    let mut plainly = lot.table.clone();
    let wanted = plain::fresh(&mut plainly);
    agree(lent.after("the table", 0..lot.table.len())? == plainly, || "another plane".to_string())?;
    same(answer, wanted, String::new())
}

fn check(lot: &Lot, _: &mut Random) -> Result<i32, String> {
    same(reading(lot, calls::check)?, plain::check(&lot.table), String::new())
}

fn find(lot: &Lot, random: &mut Random) -> Result<i32, String> {
    let ((x, y), hint) = (asks::cell(&lot.tiles, random), asks::hint(lot.table.len() / RECORD_WORDS, random));
    let answer = reading(lot, |table| calls::find(table, x, y, hint))?;
    same(answer, plain::find(&lot.table, x, y, hint), format!("({x}, {y}), hint {hint}"))
}

fn view(lot: &Lot, random: &mut Random) -> Result<i32, String> {
    let record = asks::hint(lot.table.len() / RECORD_WORDS, random);
    let part = calls::view(&lot.table, record);
    let all = if size_is_right(lot.table.len()) { records(&lot.table) } else { &[] };
    let wanted = usize::try_from(record).ok().and_then(|place| all.get(place)).map_or(&[][..], |words| &words[..]);
    agree(part == wanted, || format!("record {record}: {part:?}, wanted {wanted:?}"))?;
    Ok(number::DONE)
}

fn neighbours(lot: &Lot, random: &mut Random) -> Result<i32, String> {
    let ((x, y), side) = (asks::cell(&lot.tiles, random), asks::side(random));
    listing(lot, format!("({x}, {y}), side {side}"), random, |server, table, list| {
        if server {
            calls::neighbours(table, x, y, side, list)
        } else {
            plain::neighbours(table, x, y, side, list)
        }
    })
}

fn enumerate(lot: &Lot, random: &mut Random) -> Result<i32, String> {
    let area = asks::area(&lot.tiles, random);
    let (left, bottom, right, top) = (area.left, area.bottom, area.right, area.top);
    listing(lot, format!("{area:?}"), random, |server, table, list| {
        if server {
            calls::enumerate(table, left, bottom, right, top, list)
        } else {
            plain::enumerate(table, left, bottom, right, top, list)
        }
    })
}

/// Both lists are compared whole, so that entries past the count and refused lists are seen as well.
fn listing(
    lot: &Lot,
    question: String,
    random: &mut Random,
    call: impl Fn(bool, &[i32], &mut [i32]) -> Answer,
) -> Result<i32, String> {
    let old = vec![-9; asks::room(random.pick(&[1, 3, 9, lot.tiles.len()]), random)];
    let mut list = Lent::new(&old, 7);
    let answer = reading(lot, |table| call(true, table, list.for_writing()))?;
    let mut plain_list = old.clone();
    let wanted = call(false, &lot.table, &mut plain_list);
    agree(list.after("the list", 0..old.len())? == plain_list, || format!("{question}: another list"))?;
    same(answer, wanted, question)
}

fn search(lot: &Lot, random: &mut Random) -> Result<i32, String> {
    let area = asks::area(&lot.tiles, random);
    let answer = reading(lot, |table| calls::search(table, area.left, area.bottom, area.right, area.top))?;
    let wanted = plain::search(&lot.table, area.left, area.bottom, area.right, area.top);
    agree(answer == wanted, || format!("{area:?}: {answer:?}, the plain program {wanted:?}"))?;
    Ok(answer.number)
}

/// Where there are more windows than any list takes, the answer still comes at once.
fn density(lot: &Lot, random: &mut Random) -> Result<i32, String> {
    let (area, width, height) = asks::windows(&lot.tiles, random);
    let windows = area.windows(width, height).map_or(2, |windows| windows.len());
    let old = vec![-9.0; asks::room(windows.min(MOST_WINDOWS), random)];
    let mut shares = Lent::new(&old, 7.0);
    let report = reading(lot, |table| calls::density(table, area, width, height, shares.for_writing()))?;
    let mut plain_shares = old.clone();
    let wanted = plain::density(&lot.table, area, width, height, &mut plain_shares);
    let about = || format!("{area:?}, {width} by {height}, a list of {}", old.len());
    let same_shares = bits(shares.after("the shares", 0..old.len())?) == bits(&plain_shares);
    agree(same_shares, || format!("{}: other shares", about()))?;
    agree(report == wanted, || format!("{}: {report:?}, the plain program {wanted:?}", about()))?;
    Ok(report.number)
}

fn create(lot: &Lot, random: &mut Random) -> Result<i32, String> {
    let Solid { rect, label } = asks::solid(&lot.tiles, random);
    editing(lot, format!("{rect:?}, label {label}"), |server, table| {
        if server {
            calls::create(table, rect.left, rect.bottom, rect.right, rect.top, label)
        } else {
            plain::create(table, rect.left, rect.bottom, rect.right, rect.top, label)
        }
    })
}

fn delete(lot: &Lot, random: &mut Random) -> Result<i32, String> {
    let (x, y) = asks::cell(&lot.tiles, random);
    editing(lot, format!("({x}, {y})"), |server, table| {
        let answer = if server { calls::delete(table, x, y) } else { plain::delete(table, x, y) };
        MetAnswer::without_cell(answer)
    })
}

fn load(lot: &Lot, random: &mut Random) -> Result<i32, String> {
    let solids: Vec<Solid> = (0..random.below(6)).map(|_| asks::solid(&lot.tiles, random)).collect();
    let mut bytes: Vec<u8> = solids.iter().flat_map(|solid| answers::save(&[*solid])).collect();
    if random.one_in(6) {
        bytes.truncate(random.below(bytes.len() + 1));
    }
    let mut lent = Lent::new(&bytes, 7);
    let number = editing(lot, format!("{bytes:?}"), |server, table| {
        if server {
            calls::load(table, lent.for_reading())
        } else {
            plain::load(table, &bytes)
        }
    })?;
    lent.after("the bytes", 0..0)?;
    Ok(number)
}

/// The tables after both calls are equal, or sound with the same solids: which records are used is left open, and so is
/// the value of a create.
fn editing(lot: &Lot, question: String, mut call: impl FnMut(bool, &mut [i32]) -> MetAnswer) -> Result<i32, String> {
    let mut lent = Lent::new(&lot.table, 7);
    let answer = call(true, lent.for_writing());
    let after = lent.after("the table", 0..lot.table.len())?;
    let mut plainly = lot.table.clone();
    let wanted = call(false, &mut plainly);
    let refused = wanted.number != number::DONE;
    let same_answer = answer == if refused { wanted } else { MetAnswer { value: answer.value, ..wanted } };
    agree(same_answer, || format!("{question}: {answer:?}, the plain program {wanted:?}"))?;
    let same_table = after == plainly || (!refused && same_picture(after, &plainly));
    agree(same_table, || format!("{question}: another table"))?;
    Ok(answer.number)
}

fn same_picture(one: &[i32], other: &[i32]) -> bool {
    let (mut one_solids, mut other_solids) = (solids_of(one), solids_of(other));
    one_solids.sort_unstable();
    other_solids.sort_unstable();
    one_solids == other_solids && plain::check(one) == plain::check(other)
}

fn save(lot: &Lot, random: &mut Random) -> Result<i32, String> {
    let old = vec![0xa5; asks::room(SAVED_BYTES * random.below(12), random)];
    let mut bytes = Lent::new(&old, 7);
    let answer = reading(lot, |table| calls::save(table, bytes.for_writing()))?;
    let mut plain_bytes = old.clone();
    let wanted = plain::save(&lot.table, &mut plain_bytes);
    agree(bytes.after("the bytes", 0..old.len())? == plain_bytes, || "other bytes".to_string())?;
    same(answer, wanted, format!("{} bytes", old.len()))
}
