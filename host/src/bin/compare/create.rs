//! Create: any rectangle, any label, on tables of any fill; what is in the way and at which cell.
use crate::case::{ask_all, tile_of, Case};
use crate::{edits, Report};
use ushanderi_host::answers::{self, Refused};
use ushanderi_host::calls::{self, number, MetAnswer, NO_CELL};
use ushanderi_host::random::Random;
use ushanderi_host::rects::{Solid, Tile};
use ushanderi_host::tally::agree;
use ushanderi_host::{asks, plain};

pub type Create = fn(&mut [i32], i32, i32, i32, i32, i32) -> MetAnswer;

const PROGRAMS: [(&str, Create); 2] = [("the server", calls::create), ("the plain program", plain::create)];

pub fn run(scale: f64) -> Report {
    ask_all(scale, ask)
}

pub fn ask(case: &Case, random: &mut Random) -> Result<i32, String> {
    let solid = asks::solid(&case.tiles, random);
    let mut number = 0;
    for (program, create) in PROGRAMS {
        let told = |message| format!("{program}: create {solid:?}: {message}");
        let (answered, after) = compare(case, solid, create).map_err(told)?;
        if answered == number::DONE {
            edits::is_sound(&after, case.solids.len() + 1).map_err(told)?;
        }
        number = answered;
    }
    Ok(number)
}

/// Makes the call and compares all but the soundness of what it leaves; the answer's number and the table after it.
pub fn compare(case: &Case, solid: Solid, create: Create) -> Result<(i32, Vec<i32>), String> {
    let Solid { rect, label } = solid;
    let (answer, after) =
        edits::edited(&case.table, |table| create(table, rect.left, rect.bottom, rect.right, rect.top, label))?;
    let mut picture = case.solids.clone();
    let wanted = match case.refusal {
        Some(number) => Err(Refused { number, met: None }),
        None => answers::create(&mut picture, case.most(), solid),
    };
    let right = match &wanted {
        Err(Refused { number, met: None }) => answer == MetAnswer::refused(*number),
        Err(Refused { number, met: Some(met) }) => answer.number == *number && case.names(answer, met),
        Ok(()) => {
            let names_it = tile_of(&after, answer.value) == Some(Tile::solid(rect, label));
            answer.number == number::DONE && names_it && answer.cell() == NO_CELL
        }
    };
    agree(right, || format!("{answer:?}, wanted {wanted:?}"))?;
    match wanted {
        Err(_) => edits::unwritten(case, &after)?,
        Ok(()) => {
            edits::has_picture(&after, &picture)?;
            edits::unnamed_keep_records(&case.table, &after, None)?;
        }
    }
    Ok((answer.number, after))
}
