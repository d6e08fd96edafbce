//! Check, against the definition of a sound table: sound tables, damaged ones, forged ones, wrong sizes.
use crate::case::Case;
use crate::{scaled, size_fits, Report, NAMED_SIZES};
use ushanderi_host::calls::{self, number, Answer};
use ushanderi_host::damage::{Damage, WORD_DAMAGES};
use ushanderi_host::forged::FORGERIES;
use ushanderi_host::lent::Lent;
use ushanderi_host::pictures::STYLES;
use ushanderi_host::random::Random;
use ushanderi_host::tables::{sample, Sample};
use ushanderi_host::tally::agree;
use ushanderi_host::words::{LEAST_RECORDS, MOST_RECORDS, RECORD_WORDS};
use ushanderi_host::{plain, rects};

/// How many samples of tables with so many records; each sample is damaged in every way once.
const AMOUNTS: [(usize, usize, usize); 5] = [
    (5_000, LEAST_RECORDS, 40),
    (4_000, 41, 120),
    (1_500, 121, 400),
    (40, 401, 2_000),
    (8, MOST_RECORDS, MOST_RECORDS),
];

#[derive(Default, Clone, Copy)]
struct Tally {
    sound: usize,
    unsound: usize,
}

impl Tally {
    fn add(&mut self, answer: Answer) {
        match answer.number {
            number::DONE => self.sound += 1,
            _ => self.unsound += 1,
        }
    }

    fn line(&self, name: &str) -> String {
        let all = self.sound + self.unsound;
        format!("{all:6} tables, {:6} sound, {:6} unsound: {name}", self.sound, self.unsound)
    }
}

pub fn run(scale: f64) -> Report {
    let mut lines = sizes()?;
    let mut styles = [Tally::default(); STYLES.len()];
    let mut damages = vec![Tally::default(); WORD_DAMAGES.len() + FORGERIES.len()];
    for (amount, least, most) in AMOUNTS {
        let samples = scaled(amount, scale);
        for seed in (0..samples).map(|number| number + ((least as u64) << 32)) {
            let mut random = Random::new(seed);
            let records = least + random.below(most - least + 1);
            let sample = sample(records, &mut random);
            let answer = sound_sample(&sample).map_err(|message| format!("seed {seed}, {message}"))?;
            styles[STYLES.iter().position(|&style| style == sample.style).expect("a listed style")].add(answer);
            damage_all(&sample, &mut random, &mut damages).map_err(|message| format!("seed {seed}, {message}"))?;
        }
        lines.push(format!("{samples} pictures in tables of {least} to {most} records"));
    }
    lines.extend(STYLES.iter().zip(styles).map(|(style, tally)| tally.line(&format!("a picture {style:?}"))));
    lines.extend(all_damages().zip(&damages).map(|(damage, tally)| tally.line(damage.name)));
    let total = damages.iter().map(|tally| tally.sound + tally.unsound).sum::<usize>();
    lines.push(format!("{total} damaged tables"));
    Ok(lines)
}

fn all_damages() -> impl Iterator<Item = &'static Damage> {
    WORD_DAMAGES.iter().chain(&FORGERIES)
}

fn sound_sample(sample: &Sample) -> Result<Answer, String> {
    let about = || format!("picture {:?}, {} records", sample.style, sample.records());
    let answer = compare(&sample.table).map_err(|message| format!("{}: {message}", about()))?;
    let wanted = Answer::done(sample.solids.len());
    agree(answer == wanted, || format!("{}: {answer:?}, wanted {wanted:?}", about()))?;
    Ok(answer)
}

fn damage_all(sample: &Sample, random: &mut Random, tallies: &mut [Tally]) -> Result<(), String> {
    for (damage, tally) in all_damages().zip(tallies) {
        let Some(table) = (damage.make)(sample, random).filter(|table| *table != sample.table) else { continue };
        let answer = compare(&table).map_err(|message| {
            format!("picture {:?}, {} records, {}: {message}", sample.style, sample.records(), damage.name)
        })?;
        tally.add(answer);
    }
    Ok(())
}

/// The server's answer, if the definition gives the same, the plain program too, and no word was written.
fn compare(table: &[i32]) -> Result<Answer, String> {
    let mut lent = Lent::new(table, 7);
    let answer = calls::check(lent.for_reading());
    lent.after("check's table", 0..0)?;
    let wanted = rects::check(table);
    agree(answer == wanted, || format!("{answer:?}, by the definition {wanted:?}"))?;
    let plain = plain::check(table);
    agree(plain == wanted, || format!("the plain program: {plain:?}, by the definition {wanted:?}"))?;
    Ok(answer)
}

pub fn ask(case: &Case, _: &mut Random) -> Result<i32, String> {
    compare(&case.table).map(|answer| answer.number)
}

/// A wrong size is told before anything else, whatever the words are.
fn sizes() -> Report {
    let mut random = Random::new(2);
    let mut full = sample(MOST_RECORDS, &mut random).table;
    full.resize(full.len() + 3 * RECORD_WORDS, 0);
    let garbage: Vec<i32> = full.iter().map(|_| random.word()).collect();
    let mut tally = 0;
    for size in (0..=450).chain(NAMED_SIZES) {
        for words in [&full, &garbage, &vec![0; full.len()]] {
            let answer = compare(&words[..size]).map_err(|message| format!("{size} words: {message}"))?;
            let fits = size_fits(size);
            agree(fits != (answer.number == number::SIZE), || format!("{size} words: {answer:?}"))?;
            tally += usize::from(!fits);
        }
    }
    Ok(vec![format!("{tally} tables of a wrong size")])
}
