//! The tables that questions are asked about: sound ones, damaged ones, ones of a wrong size; and what the definition
//! says of each.
use crate::{scaled, Report};
use ushanderi_host::answers::MetSolid;
use ushanderi_host::calls::{number, MetAnswer};
use ushanderi_host::damage::{Damage, WORD_DAMAGES};
use ushanderi_host::forged::FORGERIES;
use ushanderi_host::random::Random;
use ushanderi_host::rects::{self, solids_of, tiles, Solid, Tile};
use ushanderi_host::tables::sample;
use ushanderi_host::tally::Tally;
use ushanderi_host::words::*;

/// How many tables with from so many up to so many records, and how many questions about each.
const AMOUNTS: [(usize, usize, usize, usize); 5] = [
    (10_000, LEAST_RECORDS, 40, 12),
    (5_000, 41, 120, 16),
    (600, 121, 400, 24),
    (16, 401, 2_000, 40),
    (4, MOST_RECORDS, MOST_RECORDS, 60),
];

/// A message shows no more solids than this; the seed gives the others.
const MOST_SHOWN: usize = 20;

/// A lent table and the picture that questions are made from.
pub struct Case {
    pub table: Vec<i32>,
    /// What every call refuses it with, if it does.
    pub refusal: Option<i32>,
    /// The table's own picture where it is sound, else the one it was before the damage.
    pub solids: Vec<Solid>,
    pub tiles: Vec<Tile>,
}

/// Asks one question and compares the answers; the answer's number.
pub type Ask = fn(&Case, &mut Random) -> Result<i32, String>;

impl Case {
    pub fn of(table: Vec<i32>) -> Case {
        let solids = solids_of(&table);
        Case { refusal: refusal(&table), tiles: tiles(&solids), solids, table }
    }

    pub fn draw(records: usize, random: &mut Random) -> Case {
        let sample = sample(records, random);
        let damages: Vec<&Damage> = WORD_DAMAGES.iter().chain(&FORGERIES).collect();
        let damaged = if random.one_in(8) { (random.pick(&damages).make)(&sample, random) } else { None };
        let mut table = damaged.unwrap_or(sample.table);
        if random.one_in(16) {
            let words = random.pick(&[0, 1, 190, 199, table.len() - 1, table.len() + 1, 40_161, 40_170]);
            table.resize(words, 0);
        }
        let refusal = refusal(&table);
        let solids = if refusal.is_none() { solids_of(&table) } else { sample.solids };
        Case { refusal, tiles: tiles(&solids), solids, table }
    }

    /// How many solids the table takes.
    pub fn most(&self) -> usize {
        most_solids(self.table.len() / RECORD_WORDS)
    }

    /// What a call answers: the table's own refusal comes before all others.
    pub fn answer<T>(&self, on_sound: impl FnOnce(&Case) -> Result<T, i32>) -> Result<T, i32> {
        match self.refusal {
            Some(number) => Err(number),
            None => on_sound(self),
        }
    }

    /// The tile in the record that an answer names.
    pub fn tile(&self, record: i32) -> Option<Tile> {
        tile_of(&self.table, record)
    }

    /// Whether the answer names what was met: its solid by the record, and its cell.
    pub fn names(&self, answer: MetAnswer, met: &MetSolid) -> bool {
        let MetSolid { solid, cell } = *met;
        self.tile(answer.value) == Some(Tile::solid(solid.rect, solid.label)) && answer.cell() == cell
    }

    pub fn about(&self) -> String {
        let shown = &self.solids[..self.solids.len().min(MOST_SHOWN)];
        let (words, solids) = (self.table.len(), self.solids.len());
        format!("{words} words, refused with {:?}, {solids} solids, first {shown:?}", self.refusal)
    }
}

pub fn tile_of(words: &[i32], record: i32) -> Option<Tile> {
    let place = usize::try_from(record).ok()?;
    records(words).get(place).filter(|record| record[KIND] != FREE).map(Tile::of_record)
}

fn refusal(table: &[i32]) -> Option<i32> {
    Some(rects::check(table).number).filter(|&number| number != number::DONE)
}

/// The number of a compared answer.
pub fn number_of<T>(wanted: &Result<T, i32>) -> i32 {
    wanted.as_ref().err().copied().unwrap_or(number::DONE)
}

/// Asks about many tables; each has its own seed, which a disagreement names.
pub fn ask_all(scale: f64, ask: Ask) -> Report {
    let mut tally = Tally::default();
    let mut tables = 0;
    for (amount, least, most, asks) in AMOUNTS {
        for seed in (0..scaled(amount, scale)).map(|number| number + ((least as u64) << 32)) {
            let mut random = Random::new(seed);
            let case = Case::draw(least + random.below(most - least + 1), &mut random);
            for _ in 0..asks {
                let number =
                    ask(&case, &mut random).map_err(|message| format!("seed {seed}, {}: {message}", case.about()))?;
                tally.add(number);
            }
            tables += 1;
        }
    }
    Ok(vec![format!("{tables} tables, {tally}")])
}
