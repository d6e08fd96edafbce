//! Saved layouts: the solids of a table as bytes, and back.
use super::edit::{wipe_all, Editor};
use crate::calls::{number, Answer, MetAnswer};
use crate::rects::Rect;
use crate::words::*;

/// How many bytes one solid takes.
pub const SAVED_BYTES: usize = 20;

/// The words of a record that are saved, in the order of the bytes.
const SAVED_WORDS: [usize; 5] = [LEFT, BOTTOM, RIGHT, TOP, LABEL];

/// Writes the solids, highest top first, ties by smaller left; the bytes are exactly as many as are needed.
pub fn write(table: &[Record], bytes: &mut [u8]) {
    let mut solids: Vec<&Record> = table.iter().filter(|record| record[KIND] == SOLID).collect();
    solids.sort_unstable_by_key(|record| (-record[TOP], record[LEFT]));
    for (record, saved) in solids.iter().zip(bytes.chunks_exact_mut(SAVED_BYTES)) {
        for (word, place) in SAVED_WORDS.iter().zip(saved.chunks_exact_mut(4)) {
            place.copy_from_slice(&record[*word].to_le_bytes());
        }
    }
}

/// Makes the table the plane of the saved solids, or an empty one at the first that is refused. No cell is handed on:
/// the solid that held it is gone.
pub fn read(table: &mut [Record], bytes: &[u8]) -> MetAnswer {
    wipe_all(table);
    let mut editor = Editor::new(table);
    let mut last = 0;
    let saved = bytes.as_chunks::<SAVED_BYTES>().0;
    for (index, record) in saved.iter().enumerate() {
        let [left, bottom, right, top, label] = words_of(record);
        let answer = editor.create_if_allowed(last, index, &Rect { left, bottom, right, top }, label);
        if answer.number != number::DONE {
            wipe_all(table);
            return MetAnswer::without_cell(Answer::with(answer.number, index));
        }
        last = answer.value as usize;
    }
    MetAnswer::without_cell(Answer::done(saved.len()))
}

fn words_of(record: &[u8; SAVED_BYTES]) -> [i32; 5] {
    let words = record.as_chunks::<4>().0;
    std::array::from_fn(|place| i32::from_le_bytes(words[place]))
}
