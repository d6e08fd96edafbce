//! Neighbours: any cell, any side, lists of any length.
use crate::case::{ask_all, Case};
use crate::{lists, Report};
use ushanderi_host::calls::{self, Answer};
use ushanderi_host::random::Random;
use ushanderi_host::{answers, asks, plain};

type Neighbours = fn(&[i32], i32, i32, i32, &mut [i32]) -> Answer;

const PROGRAMS: [(&str, Neighbours); 2] = [("the server", calls::neighbours), ("the plain program", plain::neighbours)];

pub fn run(scale: f64) -> Report {
    ask_all(scale, ask)
}

pub fn ask(case: &Case, random: &mut Random) -> Result<i32, String> {
    let (x, y) = asks::cell(&case.tiles, random);
    let side = asks::side(random);
    let wanted = case.answer(|case| answers::neighbours(&case.tiles, (x, y), side));
    let room = lists::room(&wanted, random);
    let mut number = 0;
    for (program, neighbours) in PROGRAMS {
        number = lists::compare(case, &wanted, room, |table, list| neighbours(table, x, y, side, list))
            .map_err(|message| format!("{program}: cell ({x}, {y}), side {side}: {message}"))?;
    }
    Ok(number)
}
