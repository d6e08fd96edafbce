//! Find: any cell, any hint.
use crate::case::{ask_all, number_of, Case};
use crate::Report;
use ushanderi_host::calls::{self, number, Answer};
use ushanderi_host::lent::Lent;
use ushanderi_host::random::Random;
use ushanderi_host::rects::Tile;
use ushanderi_host::tally::agree;
use ushanderi_host::words::RECORD_WORDS;
use ushanderi_host::{answers, asks, plain};

type Find = fn(&[i32], i32, i32, i32) -> Answer;

const PROGRAMS: [(&str, Find); 2] = [("the server", calls::find), ("the plain program", plain::find)];

pub fn run(scale: f64) -> Report {
    ask_all(scale, ask)
}

pub fn ask(case: &Case, random: &mut Random) -> Result<i32, String> {
    let (x, y) = asks::cell(&case.tiles, random);
    let hint = asks::hint(case.table.len() / RECORD_WORDS, random);
    let wanted = case.answer(|case| answers::find(&case.tiles, (x, y)));
    for (program, find) in PROGRAMS {
        let mut lent = Lent::new(&case.table, 7);
        let answer = find(lent.for_reading(), x, y, hint);
        lent.after("find's table", 0..0)?;
        let about = || format!("{program}: cell ({x}, {y}), hint {hint}: {answer:?}, wanted {wanted:?}");
        agree(same(case, answer, &wanted), about)?;
    }
    Ok(number_of(&wanted))
}

/// Whether the answer is the tile wanted, or the refusal wanted with no value.
pub fn same(case: &Case, answer: Answer, wanted: &Result<Tile, i32>) -> bool {
    match wanted {
        Ok(tile) => answer.number == number::DONE && case.tile(answer.value) == Some(*tile),
        Err(number) => answer == Answer::refused(*number),
    }
}
