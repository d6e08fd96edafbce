//! Load: layouts in any order, damaged ones, random bytes, into tables full of other words. No answer has a cell.
use crate::fresh::fresh_plane;
use crate::{edits, scaled, Report};
use ushanderi_host::answers::{self, RefusedLoad, SAVED_BYTES};
use ushanderi_host::calls::{self, number, Answer, MetAnswer};
use ushanderi_host::lent::Lent;
use ushanderi_host::random::Random;
use ushanderi_host::rects::{solids_of, Solid};
use ushanderi_host::tables::{sample, Sample};
use ushanderi_host::tally::{agree, Tally};
use ushanderi_host::words::*;
use ushanderi_host::{asks, plain};

pub type Load = fn(&mut [i32], &[u8]) -> MetAnswer;

const PROGRAMS: [(&str, Load); 2] = [("the server", calls::load), ("the plain program", plain::load)];

/// How many layouts into tables with from so many up to so many records.
const AMOUNTS: [(usize, usize, usize); 4] =
    [(30_000, LEAST_RECORDS, 40), (15_000, 41, 160), (1_000, 161, 800), (20, 801, MOST_RECORDS)];

pub fn run(scale: f64) -> Report {
    let mut tally = Tally::default();
    for (amount, least, most) in AMOUNTS {
        for seed in (0..scaled(amount, scale)).map(|number| number + ((least as u64) << 32)) {
            let mut random = Random::new(seed);
            let table = old_table(least + random.below(most - least + 1), &mut random);
            let bytes = layout(least + random.below(most - least + 1), &mut random);
            let number = ask(&table, &bytes).map_err(|message| format!("seed {seed}: {message}"))?;
            tally.add(number);
        }
    }
    Ok(vec![tally.to_string()])
}

/// Load does not look at what a table held, so it may be anything; some are of a wrong size.
fn old_table(records: usize, random: &mut Random) -> Vec<i32> {
    let words = match random.below(24) {
        0 => random.pick(&[0, 9, 190, records * RECORD_WORDS + 1, 40_170]),
        _ => records * RECORD_WORDS,
    };
    (0..words).map(|_| random.word()).collect()
}

/// The bytes of a picture that about fits a table of so many records, whole or damaged.
pub fn layout(records: usize, random: &mut Random) -> Vec<u8> {
    let Sample { mut solids, tiles, .. } = sample(records, random);
    random.shuffle(&mut solids);
    if random.one_in(4) {
        solids.insert(random.below(solids.len() + 1), asks::solid(&tiles, random));
    }
    if random.one_in(6) {
        let twice = random.pick_some(&solids);
        solids.extend(twice);
    }
    let mut bytes = in_file_order(&solids);
    if random.one_in(12) {
        bytes.truncate(random.below(bytes.len() + 1));
    }
    if random.one_in(8) && !bytes.is_empty() {
        let place = random.below(bytes.len());
        bytes[place] ^= 1 << random.below(8);
    }
    if random.one_in(24) {
        bytes = (0..random.below(4 * SAVED_BYTES)).map(|_| random.word() as u8).collect();
    }
    bytes
}

fn in_file_order(solids: &[Solid]) -> Vec<u8> {
    solids.iter().flat_map(|solid| answers::save(&[*solid])).collect()
}

fn ask(table: &[i32], bytes: &[u8]) -> Result<i32, String> {
    let mut number = 0;
    for (program, load) in PROGRAMS {
        let told = |message| format!("{program}: {} words, bytes {bytes:?}: {message}", table.len());
        let (answered, after) = compare(table, bytes, load).map_err(told)?;
        if answered == number::DONE {
            edits::is_sound(&after, bytes.len() / SAVED_BYTES).map_err(told)?;
            comes_back(&after, load).map_err(told)?;
        }
        number = answered;
    }
    Ok(number)
}

/// What is saved of a loaded table is the layout in the saved order, and loads as the same picture.
fn comes_back(table: &[i32], load: Load) -> Result<(), String> {
    let solids = solids_of(table);
    let wanted = answers::save(&solids);
    let mut bytes = vec![0; wanted.len()];
    let answer = calls::save(table, &mut bytes);
    agree(answer == Answer::done(wanted.len()) && bytes == wanted, || format!("saved again: {answer:?}, {bytes:?}"))?;
    let (_, again) = edits::edited(table, |table| load(table, &bytes))?;
    edits::has_picture(&again, &solids)
}

/// Makes the call and compares all but the soundness of what it leaves; the answer's number and the table after it.
pub fn compare(table: &[i32], bytes: &[u8], load: Load) -> Result<(i32, Vec<i32>), String> {
    let mut lent = Lent::new(bytes, 0x5a);
    let (answer, after) = edits::edited(table, |table| load(table, lent.for_reading()))?;
    lent.after("load's bytes", 0..0)?;
    if !size_is_right(table.len()) {
        agree(answer == MetAnswer::refused(number::SIZE), || format!("{answer:?}, wanted SIZE"))?;
        agree(after == table, || "a load refused for SIZE wrote".to_string())?;
        return Ok((answer.number, after));
    }
    let wanted = answers::load(bytes, most_solids(table.len() / RECORD_WORDS));
    let wanted_answer = MetAnswer::without_cell(match &wanted {
        Ok(solids) => Answer::done(solids.len()),
        Err(RefusedLoad { number, index }) => Answer::with(*number, *index),
    });
    agree(answer == wanted_answer, || format!("{answer:?}, wanted {wanted_answer:?}"))?;
    match wanted {
        Err(RefusedLoad { number: number::FILE, .. }) => {
            agree(after == table, || "a load refused for FILE wrote".to_string())?
        }
        Ok(solids) if !solids.is_empty() => edits::has_picture(&after, &solids)?,
        _ => agree(after == fresh_plane(table.len()), || "not a fresh plane".to_string())?,
    }
    Ok((answer.number, after))
}
