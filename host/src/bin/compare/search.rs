//! Area search: any area; the solid that is met and the cell, or neither.
use crate::case::{ask_all, number_of, Case};
use crate::Report;
use ushanderi_host::calls::{self, number, MetAnswer};
use ushanderi_host::lent::Lent;
use ushanderi_host::random::Random;
use ushanderi_host::tally::agree;
use ushanderi_host::words::NO_TILE;
use ushanderi_host::{answers, asks, plain};

type Search = fn(&[i32], i32, i32, i32, i32) -> MetAnswer;

const PROGRAMS: [(&str, Search); 2] = [("the server", calls::search), ("the plain program", plain::search)];

const FREE_AREA: MetAnswer = MetAnswer { number: number::DONE, value: NO_TILE, x: 0, y: 0 };

pub fn run(scale: f64) -> Report {
    ask_all(scale, ask)
}

pub fn ask(case: &Case, random: &mut Random) -> Result<i32, String> {
    let area = asks::area(&case.tiles, random);
    let wanted = case.answer(|case| answers::search(&case.solids, &area));
    for (program, search) in PROGRAMS {
        let mut lent = Lent::new(&case.table, 7);
        let answer = search(lent.for_reading(), area.left, area.bottom, area.right, area.top);
        lent.after("search's table", 0..0)?;
        let right = match &wanted {
            Ok(None) => answer == FREE_AREA,
            Ok(Some(met)) => answer.number == number::DONE && case.names(answer, met),
            Err(number) => answer == MetAnswer::refused(*number),
        };
        agree(right, || format!("{program}: {area:?}: {answer:?}, wanted {wanted:?}"))?;
    }
    Ok(number_of(&wanted))
}
