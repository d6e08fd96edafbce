//! Save: bytes of any length to write to.
use crate::case::{ask_all, Case};
use crate::Report;
use ushanderi_host::calls::{self, number, Answer};
use ushanderi_host::lent::Lent;
use ushanderi_host::random::Random;
use ushanderi_host::tally::agree;
use ushanderi_host::{answers, asks, plain};

type Save = fn(&[i32], &mut [u8]) -> Answer;

const PROGRAMS: [(&str, Save); 2] = [("the server", calls::save), ("the plain program", plain::save)];

pub fn run(scale: f64) -> Report {
    ask_all(scale, ask)
}

pub fn ask(case: &Case, random: &mut Random) -> Result<i32, String> {
    let saved = answers::save(&case.solids);
    let room = asks::room(saved.len(), random);
    let wanted = match case.refusal {
        Some(number) => Answer::refused(number),
        None if room < saved.len() => Answer::with(number::SHORT, saved.len()),
        None => Answer::done(saved.len()),
    };
    let written = if wanted.number == number::DONE { saved.len() } else { 0 };
    for (program, save) in PROGRAMS {
        let mut table = Lent::new(&case.table, 7);
        let mut bytes = Lent::new(&vec![0xa5; room], 0x5a);
        let answer = save(table.for_reading(), bytes.for_writing());
        table.after("save's table", 0..0)?;
        agree(answer == wanted, || format!("{program}: {room} bytes: {answer:?}, wanted {wanted:?}"))?;
        let after = bytes.after("save's bytes", 0..written)?;
        agree(after[..written] == saved[..written], || {
            format!("{program}: saved {:?}, wanted {saved:?}", &after[..written])
        })?;
    }
    Ok(wanted.number)
}
