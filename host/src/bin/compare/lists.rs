//! What the calls with a lent list have in common: the list is written to the count and no further, and not at all
//! where it is too short.
use crate::case::Case;
use ushanderi_host::asks;
use ushanderi_host::calls::{number, Answer};
use ushanderi_host::lent::Lent;
use ushanderi_host::random::Random;
use ushanderi_host::rects::Tile;
use ushanderi_host::tally::agree;

/// What stands in the list before the call.
fn old_entry(place: usize) -> i32 {
    -1_000 - place as i32
}

/// Lends a list of a random length and compares what the call makes of it; the number of the answer.
pub fn compare(
    case: &Case,
    wanted: &Result<Vec<Tile>, i32>,
    room: usize,
    call: impl Fn(&[i32], &mut [i32]) -> Answer,
) -> Result<i32, String> {
    let mut table = Lent::new(&case.table, 7);
    let old: Vec<i32> = (0..room).map(old_entry).collect();
    let mut list = Lent::new(&old, 7);
    let answer = call(table.for_reading(), list.for_writing());
    table.after("the table", 0..0)?;
    let (wanted_answer, tiles) = match wanted {
        Err(number) => (Answer::refused(*number), &[][..]),
        Ok(tiles) if tiles.len() > room => (Answer::with(number::SHORT, tiles.len()), &[][..]),
        Ok(tiles) => (Answer::done(tiles.len()), &tiles[..]),
    };
    agree(answer == wanted_answer, || format!("a list of {room}: {answer:?}, wanted {wanted_answer:?}"))?;
    let entries = list.after("the list", 0..tiles.len())?;
    let listed: Option<Vec<Tile>> = entries[..tiles.len()].iter().map(|&record| case.tile(record)).collect();
    agree(listed.as_deref() == Some(tiles), || format!("listed {listed:?}, wanted {tiles:?}"))?;
    Ok(answer.number)
}

/// A length for the list: around what is needed, or anything where the call is refused before that.
pub fn room(wanted: &Result<Vec<Tile>, i32>, random: &mut Random) -> usize {
    asks::room(wanted.as_ref().map_or(3, Vec::len), random)
}
