//! View, on sound and unsound tables: the part must lie in the caller's own slice, at the record's place.
use crate::case::Case;
use crate::{scaled, size_fits, Report, NAMED_SIZES};
use std::hint::black_box;
use ushanderi_host::calls::{self, number};
use ushanderi_host::random::Random;
use ushanderi_host::tables::sample;
use ushanderi_host::tally::agree;
use ushanderi_host::words::{LEAST_RECORDS, MOST_RECORDS, RECORD_WORDS};

const SAMPLES: usize = 400;

#[derive(Default)]
struct Tally {
    full: usize,
    empty: usize,
}

pub fn run(scale: f64) -> Report {
    let mut random = Random::new(3);
    let mut tally = Tally::default();
    for _ in 0..scaled(SAMPLES, scale) {
        let records = random.between(LEAST_RECORDS as i32, 300) as usize;
        view_all(&sample(records, &mut random).table, &mut tally)?;
        let unsound: Vec<i32> = (0..records * RECORD_WORDS).map(|_| random.word()).collect();
        view_all(&unsound, &mut tally)?;
    }
    let words: Vec<i32> = (0..(MOST_RECORDS + 1) * RECORD_WORDS).map(|_| random.word()).collect();
    for size in (0..=450).chain(NAMED_SIZES) {
        view_all(&words[..size], &mut tally)?;
    }
    Ok(vec![format!("{} records seen, {} empty parts", tally.full, tally.empty)])
}

/// Every record of the table, and numbers that name none: also such whose tenfold is a place again in 32 bits.
fn view_all(table: &[i32], tally: &mut Tally) -> Result<(), String> {
    let mut lent = table.to_vec();
    let count = (table.len() / RECORD_WORDS) as i32;
    let strange = [i32::MIN, -count, -2, -1, count, count + 1, 10 * count, 429_496_730, 858_993_460, i32::MAX];
    for record in (0..count).chain(strange) {
        let part = calls::view(&lent, record);
        let at = record as usize * RECORD_WORDS;
        if size_fits(table.len()) && (0..count).contains(&record) {
            agree(part == &table[at..at + RECORD_WORDS], || told(table, record, part))?;
            agree(std::ptr::eq(part, &lent[at..at + RECORD_WORDS]), || told(table, record, part))?;
            tally.full += 1;
        } else {
            agree(part.is_empty(), || told(table, record, part))?;
            tally.empty += 1;
        }
    }
    agree(*black_box(&mut lent) == table, || format!("{} words: view wrote to the table", table.len()))
}

pub fn ask(case: &Case, _: &mut Random) -> Result<i32, String> {
    view_all(&case.table, &mut Tally::default())?;
    Ok(number::DONE)
}

fn told(table: &[i32], record: i32, part: &[i32]) -> String {
    format!("{} words, record {record}: the part {part:?}", table.len())
}
