//! Delete: at any cell.
use crate::case::{ask_all, Case};
use crate::{edits, Report};
use ushanderi_host::answers;
use ushanderi_host::calls::{self, number, Answer};
use ushanderi_host::random::Random;
use ushanderi_host::rects::{Solid, Tile};
use ushanderi_host::tally::agree;
use ushanderi_host::{asks, plain};

pub type Delete = fn(&mut [i32], i32, i32) -> Answer;

const PROGRAMS: [(&str, Delete); 2] = [("the server", calls::delete), ("the plain program", plain::delete)];

pub fn run(scale: f64) -> Report {
    ask_all(scale, ask)
}

pub fn ask(case: &Case, random: &mut Random) -> Result<i32, String> {
    let cell = cell(&case.solids, &case.tiles, random);
    let mut number = 0;
    for (program, delete) in PROGRAMS {
        let told = |message| format!("{program}: delete at {cell:?}: {message}");
        let (answered, after) = compare(case, cell, delete).map_err(told)?;
        if answered == number::DONE {
            edits::is_sound(&after, case.solids.len() - 1).map_err(told)?;
        }
        number = answered;
    }
    Ok(number)
}

/// Mostly a cell of some solid, at its corners first of all.
pub fn cell(solids: &[Solid], tiles: &[Tile], random: &mut Random) -> (i32, i32) {
    let solid = if random.one_in(3) { None } else { random.pick_some(solids) };
    match solid {
        None => asks::cell(tiles, random),
        Some(Solid { rect, .. }) => {
            (random.pick(&[rect.left, rect.right - 1]), random.pick(&[rect.bottom, rect.top - 1]))
        }
    }
}

/// Makes the call and compares all but the soundness of what it leaves; the answer's number and the table after it.
pub fn compare(case: &Case, cell: (i32, i32), delete: Delete) -> Result<(i32, Vec<i32>), String> {
    let (answer, after) = edits::edited(&case.table, |table| delete(table, cell.0, cell.1))?;
    let mut picture = case.solids.clone();
    let wanted = case.answer(|_| answers::delete(&mut picture, cell));
    let wanted_answer = match wanted {
        Ok(label) => Answer { number: number::DONE, value: label },
        Err(number) => Answer::refused(number),
    };
    agree(answer == wanted_answer, || format!("{answer:?}, wanted {wanted_answer:?}"))?;
    if wanted.is_err() {
        edits::unwritten(case, &after)?;
    } else {
        let removed = case.solids.iter().find(|solid| solid.rect.holds(cell)).copied();
        edits::has_picture(&after, &picture)?;
        edits::unnamed_keep_records(&case.table, &after, removed)?;
    }
    Ok((answer.number, after))
}
