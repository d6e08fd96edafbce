//! What create, delete and load have in common: a refusal writes nothing, anything else leaves the picture wanted,
//! the solids that were not named in their records, and a sound table.
use crate::case::Case;
use ushanderi_host::calls::Answer;
use ushanderi_host::lent::Lent;
use ushanderi_host::rects::{self, solids_of, Solid};
use ushanderi_host::tally::agree;
use ushanderi_host::words::{records, KIND, SOLID};

/// Makes the call on a copy of the table; its answer and the table after it.
pub fn edited<T>(table: &[i32], call: impl FnOnce(&mut [i32]) -> T) -> Result<(T, Vec<i32>), String> {
    let mut lent = Lent::new(table, 7);
    let answer = call(lent.for_writing());
    let after = lent.after("the table", 0..table.len())?.to_vec();
    Ok((answer, after))
}

/// A create or delete that was refused must not have written.
pub fn unwritten(case: &Case, after: &[i32]) -> Result<(), String> {
    agree(case.table == after, || "a refused call wrote to the table".to_string())
}

/// The table's solids are those wanted, in any order.
pub fn has_picture(after: &[i32], wanted: &[Solid]) -> Result<(), String> {
    let mut solids = solids_of(after);
    let mut wanted = wanted.to_vec();
    solids.sort_unstable();
    wanted.sort_unstable();
    agree(solids == wanted, || format!("the table's solids are {solids:?}, wanted {wanted:?}"))
}

pub fn is_sound(after: &[i32], solids: usize) -> Result<(), String> {
    let answer = rects::check(after);
    agree(answer == Answer::done(solids), || format!("the table is not sound after the call: {after:?}"))
}

/// Every solid but the one that was removed stands where it stood.
pub fn unnamed_keep_records(before: &[i32], after: &[i32], removed: Option<Solid>) -> Result<(), String> {
    for (place, (old, new)) in records(before).iter().zip(records(after)).enumerate() {
        let solid = Solid { rect: rects::Tile::of_record(old).rect, label: rects::Tile::of_record(old).label };
        let named = old[KIND] != SOLID || removed == Some(solid);
        let same = rects::Tile::of_record(old) == rects::Tile::of_record(new);
        agree(named || same, || format!("{solid:?} left its record {place}"))?;
    }
    Ok(())
}
