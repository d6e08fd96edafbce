//! Enumerate: any area, lists of any length.
use crate::case::{ask_all, Case};
use crate::{lists, Report};
use ushanderi_host::calls::{self, Answer};
use ushanderi_host::random::Random;
use ushanderi_host::{answers, asks, plain};

type Enumerate = fn(&[i32], i32, i32, i32, i32, &mut [i32]) -> Answer;

const PROGRAMS: [(&str, Enumerate); 2] = [("the server", calls::enumerate), ("the plain program", plain::enumerate)];

pub fn run(scale: f64) -> Report {
    ask_all(scale, ask)
}

pub fn ask(case: &Case, random: &mut Random) -> Result<i32, String> {
    let area = asks::area(&case.tiles, random);
    let wanted = case.answer(|case| answers::enumerate(&case.tiles, &area));
    let room = lists::room(&wanted, random);
    let mut number = 0;
    for (program, enumerate) in PROGRAMS {
        let call =
            |table: &[i32], list: &mut [i32]| enumerate(table, area.left, area.bottom, area.right, area.top, list);
        number =
            lists::compare(case, &wanted, room, call).map_err(|message| format!("{program}: {area:?}: {message}"))?;
    }
    Ok(number)
}
