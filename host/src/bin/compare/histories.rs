//! Long histories of calls. Three tables live through the same one: one drawn by the server, one whose records began in
//! random places, one under the plain program. After every step each has the picture that a list of solids has, and
//! the solids that the step did not name stand in the records where they stood.
use crate::case::{Ask, Case};
use crate::create::{self, Create};
use crate::delete::{self, Delete};
use crate::fresh::fresh_plane;
use crate::load::{self, Load};
use crate::{check, density, edits, enumerate, find, neighbours, save, scaled, search, view, Report};
use ushanderi_host::calls::{self, number, Answer};
use ushanderi_host::random::Random;
use ushanderi_host::rects::{solids_of, tiles, Solid};
use ushanderi_host::tables::{sample, stitched, table_of};
use ushanderi_host::tally::{agree, Tally};
use ushanderi_host::words::*;
use ushanderi_host::{answers, asks, plain};

/// How many histories of so many steps in tables with from so many up to so many records, and how many steps lie
/// between two looks at a table's soundness.
const AMOUNTS: [(usize, usize, usize, usize, usize); 5] = [
    (1_200, 60, LEAST_RECORDS, 23, 1),
    (1_000, 150, 24, 60, 1),
    (150, 250, 61, 240, 1),
    (8, 400, 241, 1_200, 8),
    (3, 500, MOST_RECORDS, MOST_RECORDS, 40),
];

/// Questions asked of a table in the middle of its history.
const ASKS: [Ask; 8] =
    [check::ask, find::ask, view::ask, neighbours::ask, search::ask, enumerate::ask, density::ask, save::ask];

/// A program that can edit.
#[derive(Clone, Copy)]
struct Editor {
    name: &'static str,
    fresh: fn(&mut [i32]) -> Answer,
    create: Create,
    delete: Delete,
    load: Load,
}

const SERVER: Editor =
    Editor { name: "the server", fresh: calls::fresh, create: calls::create, delete: calls::delete, load: calls::load };

const PLAIN: Editor = Editor {
    name: "the plain program",
    fresh: plain::fresh,
    create: plain::create,
    delete: plain::delete,
    load: plain::load,
};

struct Seat {
    editor: Editor,
    case: Case,
}

enum Step {
    Create(Solid),
    Delete((i32, i32)),
    Load(Vec<u8>),
    Fresh,
}

impl Step {
    fn told(&self) -> String {
        match self {
            Step::Create(solid) => format!("create {solid:?}"),
            Step::Delete(cell) => format!("delete at {cell:?}"),
            Step::Load(bytes) => format!("load {} bytes", bytes.len()),
            Step::Fresh => "fresh".to_string(),
        }
    }
}

pub fn run(scale: f64) -> Report {
    let mut lines = Vec::new();
    for (amount, steps, least, most, between_looks) in AMOUNTS {
        let mut tally = Tally::default();
        let histories = scaled(amount, scale);
        for seed in (0..histories).map(|number| number + ((least as u64) << 32)) {
            let mut random = Random::new(seed);
            let records = least + random.below(most - least + 1);
            history(records, steps, between_looks, &mut random, &mut tally)
                .map_err(|message| format!("seed {seed}, {records} records, {message}"))?;
        }
        lines.push(format!("{histories} histories in tables of {least} to {most} records, {tally}"));
    }
    Ok(lines)
}

fn history(
    records: usize,
    steps: usize,
    between_looks: usize,
    random: &mut Random,
    tally: &mut Tally,
) -> Result<(), String> {
    let mut picture = if random.one_in(2) { Vec::new() } else { sample(records, random).solids };
    let mut seats = seats(&picture, records, random)?;
    let mut growing = true;
    for number in 0..steps {
        growing ^= random.one_in(25);
        let step = draw(&picture, growing, records, random);
        follow(&mut picture, &step, most_solids(records));
        let look = number % between_looks == 0 || number + 1 == steps;
        for seat in &mut seats {
            let answered = take_and_compare(seat, &step, &picture, look);
            let told = |message| format!("step {number}, {}, {}: {message}", seat.editor.name, step.told());
            tally.add(answered.map_err(told)?);
        }
        if random.one_in(4 * between_looks) {
            let seat = &seats[random.below(seats.len())];
            // With its own seed, since what it draws depends on the records that the seat's table uses.
            let mut own_random = Random::new(random.word() as u64);
            tally.add(random.pick(&ASKS)(&seat.case, &mut own_random)?);
        }
    }
    Ok(())
}

/// The same picture in three tables: loaded by the server and by the plain program, and put down in random records.
fn seats(picture: &[Solid], records: usize, random: &mut Random) -> Result<Vec<Seat>, String> {
    let blank = vec![-5; records * RECORD_WORDS];
    let scattered = table_of(&stitched(&tiles(picture)), records, random).expect("the picture fits");
    let mut seats = vec![Seat { editor: SERVER, case: Case::of(scattered) }];
    for editor in [SERVER, PLAIN] {
        let (_, table) = load::compare(&blank, &answers::save(picture), editor.load)?;
        seats.push(Seat { editor, case: Case::of(table) });
    }
    Ok(seats)
}

/// Drawn from the list of solids alone, so that every server lives through the same history.
fn draw(picture: &[Solid], growing: bool, records: usize, random: &mut Random) -> Step {
    let tiles = tiles(picture);
    match random.below(60) {
        0 => Step::Fresh,
        1 => Step::Load(load::layout(records, random)),
        turn if (turn < 45) == growing => Step::Create(asks::solid(&tiles, random)),
        _ => Step::Delete(delete::cell(picture, &tiles, random)),
    }
}

/// The step on one seat's table, which then has the picture given.
fn take_and_compare(seat: &mut Seat, step: &Step, picture: &[Solid], look: bool) -> Result<i32, String> {
    let number = take(seat, step)?;
    edits::has_picture(&seat.case.table, picture)?;
    if look {
        edits::is_sound(&seat.case.table, picture.len())?;
    }
    Ok(number)
}

/// Makes the call on the seat's table and compares what can be compared without a look at the whole table.
fn take(seat: &mut Seat, step: &Step) -> Result<i32, String> {
    let Seat { editor, case } = seat;
    let (number, after) = match step {
        Step::Create(solid) => create::compare(case, *solid, editor.create)?,
        Step::Delete(cell) => delete::compare(case, *cell, editor.delete)?,
        Step::Load(bytes) => load::compare(&case.table, bytes, editor.load)?,
        Step::Fresh => edits::edited(&case.table, |table| (editor.fresh)(table).number)?,
    };
    if let Step::Fresh = step {
        agree(after == fresh_plane(after.len()), || "not a fresh plane".to_string())?;
    }
    if after != case.table {
        let solids = solids_of(&after);
        *case = Case { refusal: None, tiles: tiles(&solids), solids, table: after };
    }
    Ok(number)
}

/// What the step does to the list of solids.
fn follow(picture: &mut Vec<Solid>, step: &Step, most: usize) {
    match step {
        // A refusal leaves the list as it is; each seat compares the refusal itself.
        Step::Create(solid) => answers::create(picture, most, *solid).unwrap_or_default(),
        Step::Delete(cell) => _ = answers::delete(picture, *cell),
        Step::Fresh => picture.clear(),
        Step::Load(bytes) => match answers::load(bytes, most) {
            Ok(loaded) => *picture = loaded,
            Err(refused) if refused.number == number::FILE => {}
            Err(_) => picture.clear(),
        },
    }
}
