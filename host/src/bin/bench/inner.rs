//! The calls' inner work, without the check of the table. A second archive exports, for each call, one that checks the
//! table once and then does the inner work so many times; what the check costs is taken off by a run of no times.
use crate::density::{turns, Ratios, Sheet};
use crate::timing::{consumed, medians, repeated, Medians};
use crate::work::{nth, Work};
use crate::Measure;
use std::hint::black_box;
use ushanderi_host::answers;
use ushanderi_host::plain;
use ushanderi_host::plain::edit::Editor;
use ushanderi_host::plain::saved;
use ushanderi_host::plain::seek::{self, Along, Listing};
use ushanderi_host::rects::{Rect, Solid};
use ushanderi_host::words::{records, records_mut};

pub const MEASURES: [Measure; 6] = [
    ("find", find),
    ("search", search),
    ("neighbours", neighbours),
    ("enumerate", enumerate),
    ("edit", edit),
    ("save", save),
];

/// How many questions a sample asks, and how often each.
const QUESTIONS: usize = 16;
const TIMES: u32 = 50;
const LABEL: i32 = 1;

/// What a repeated call gives: 01's number, and the value of its last run.
#[repr(C)]
struct Runs {
    number: u64,
    value: u64,
}

// All numbers are on the server's ruler. Run n, from 0 to `times`, starts its search at the record `from` + n (0 + n where
// there is no `from`), so that no run can be left out.
extern "C" {
    fn rep_find(table: *const i32, words: usize, x: u64, y: u64, from: u32, times: u32) -> Runs;
    #[rustfmt::skip]
    fn rep_search(
        table: *const i32,
        words: usize,
        left: u64,
        bottom: u64,
        right: u64,
        top: u64,
        from: u32,
        times: u32,
    ) -> Runs;
    #[rustfmt::skip]
    fn rep_neighbours(
        table: *const i32,
        words: usize,
        x: u64,
        y: u64,
        side: usize,
        list: *mut i32,
        room: usize,
        times: u32,
    ) -> Runs;
    #[rustfmt::skip]
    fn rep_enumerate(
        table: *const i32,
        words: usize,
        left: u64,
        bottom: u64,
        right: u64,
        top: u64,
        list: *mut i32,
        room: usize,
        times: u32,
    ) -> Runs;
    /// A create and the delete of what it created.
    #[rustfmt::skip]
    fn rep_edit(
        table: *mut i32,
        words: usize,
        left: u64,
        bottom: u64,
        right: u64,
        top: u64,
        label: u64,
        times: u32,
    ) -> Runs;
    #[rustfmt::skip]
    fn rep_density(
        table: *const i32,
        words: usize,
        left: u64,
        bottom: u64,
        right: u64,
        top: u64,
        width: u64,
        height: u64,
        shares: *mut f64,
        room: usize,
        times: u32,
    ) -> Runs;
    fn rep_save(table: *const i32, words: usize, bytes: *mut u8, room: usize, times: u32) -> Runs;
}

/// A word as the number that the server works with.
fn ruler(word: i32) -> u64 {
    (i64::from(word) + (1 << 31)) as u64
}

fn ruled(rect: &Rect) -> [u64; 4] {
    [rect.left, rect.bottom, rect.right, rect.top].map(ruler)
}

/// Every question of the benchmark is one that the server accepts.
fn accepted(runs: Runs) {
    assert!(runs.number == 0, "refused with {}", runs.number);
    black_box(runs.value);
}

/// The seconds of so many calls, the check taken off, as all questions together show them. Both programs are measured by it,
/// so that what a check leaves behind in the machine is the same for both.
fn without_check(times: usize, call: impl FnMut(usize, u32)) -> f64 {
    times as f64 * of_questions(QUESTIONS, call)
}

/// The seconds of one call, as so many questions show them.
fn of_questions(questions: usize, mut call: impl FnMut(usize, u32)) -> f64 {
    let mut seconds = 0.0;
    for number in 0..questions {
        seconds += repeated(1, |_| call(number, TIMES)) - repeated(1, |_| call(number, 0));
    }
    seconds.max(0.0) / (questions * TIMES as usize) as f64
}

/// The plain program's course, the same as the server's: one check, then the work of run 0 to `repeats`.
fn after_check(words: &[i32], repeats: u32, work: impl FnMut(i32)) {
    consumed(plain::check(black_box(words)));
    (0..=repeats as i32).for_each(work);
}

fn find(work: &Work) -> Medians {
    let (words, table) = (&work.table, records(&work.table));
    medians(
        &mut |times| {
            without_check(times, |number, repeats| {
                let (x, y) = nth(&work.cells, number);
                accepted(unsafe { rep_find(words.as_ptr(), words.len(), ruler(x), ruler(y), 0, repeats) });
            })
        },
        &mut |times| {
            without_check(times, |number, repeats| {
                after_check(words, repeats, |run| {
                    let (x, y) = nth(&work.cells, number);
                    black_box(seek::find(black_box(table), seek::start(table, run), x, y));
                })
            })
        },
        &mut |times| {
            repeated(times, |number| consumed(answers::find(black_box(&work.tiles), nth(&work.cells, number))))
        },
    )
}

fn search(work: &Work) -> Medians {
    let (words, table) = (&work.table, records(&work.table));
    medians(
        &mut |times| {
            without_check(times, |number, repeats| {
                let [left, bottom, right, top] = ruled(&nth(&work.areas, number));
                accepted(unsafe { rep_search(words.as_ptr(), words.len(), left, bottom, right, top, 0, repeats) });
            })
        },
        &mut |times| {
            without_check(times, |number, repeats| {
                after_check(words, repeats, |run| {
                    let from = seek::start(table, run);
                    black_box(seek::search(black_box(table), from, &nth(&work.areas, number)));
                })
            })
        },
        &mut |times| {
            repeated(times, |number| consumed(answers::search(black_box(&work.solids), &nth(&work.areas, number))))
        },
    )
}

fn neighbours(work: &Work) -> Medians {
    let (words, table) = (&work.table, records(&work.table));
    let mut list = vec![0; table.len()];
    let mut plain_list = list.clone();
    medians(
        &mut |times| {
            without_check(times, |number, repeats| {
                let ((x, y), side) = (nth(&work.held, number), number % 4);
                let (x, y, place, room) = (ruler(x), ruler(y), list.as_mut_ptr(), list.len());
                accepted(unsafe { rep_neighbours(words.as_ptr(), words.len(), x, y, side, place, room, repeats) });
            })
        },
        &mut |times| {
            without_check(times, |number, repeats| {
                after_check(words, repeats, |run| {
                    let ((x, y), side) = (nth(&work.held, number), number % 4);
                    let tile = seek::find(black_box(table), seek::start(table, run), x, y);
                    let walk = Along { table: black_box(table), tile, side: &seek::SIDES[side] };
                    consumed(plain::fill(black_box(&mut plain_list), &walk));
                })
            })
        },
        &mut |times| {
            repeated(times, |number| {
                let side = (number % 4) as i32;
                consumed(answers::neighbours(black_box(&work.tiles), nth(&work.held, number), side))
            })
        },
    )
}

fn enumerate(work: &Work) -> Medians {
    let (words, table) = (&work.table, records(&work.table));
    let [left, bottom, right, top] = ruled(&Rect::PLANE);
    let mut list = vec![0; table.len()];
    let mut plain_list = list.clone();
    medians(
        &mut |times| {
            without_check(times, |_, repeats| {
                let (place, room) = (list.as_mut_ptr(), list.len());
                accepted(unsafe {
                    rep_enumerate(words.as_ptr(), words.len(), left, bottom, right, top, place, room, repeats)
                });
            })
        },
        &mut |times| {
            without_check(times, |_, repeats| {
                after_check(words, repeats, |run| {
                    let walk = Listing { table: black_box(table), from: seek::start(table, run), area: Rect::PLANE };
                    consumed(plain::list_area(black_box(&mut plain_list), &walk));
                })
            })
        },
        &mut |times| repeated(times, |_| consumed(answers::enumerate(black_box(&work.tiles), &Rect::PLANE))),
    )
}

fn edit(work: &Work) -> Medians {
    let mut words = work.fewer.clone();
    let mut plain_words = work.fewer.clone();
    let mut solids = work.fewer_solids.clone();
    medians(
        &mut |times| {
            without_check(times, |number, repeats| {
                let [left, bottom, right, top] = ruled(&nth(&work.free, number));
                let (place, count, label) = (words.as_mut_ptr(), words.len(), ruler(LABEL));
                accepted(unsafe { rep_edit(place, count, left, bottom, right, top, label, repeats) });
            })
        },
        &mut |times| {
            without_check(times, |number, repeats| {
                after_check(&work.fewer, repeats, |run| {
                    let table = records_mut(black_box(&mut plain_words));
                    let from = seek::start(table, run);
                    let mut editor = Editor::new(table);
                    let solid = editor.create(from, &nth(&work.free, number), LABEL);
                    editor.delete(solid);
                })
            })
        },
        &mut |times| {
            repeated(times, |number| {
                let rect = nth(&work.free, number);
                drop(answers::create(&mut solids, work.solids.len(), Solid { rect, label: LABEL }));
                consumed(answers::delete(&mut solids, (rect.left, rect.bottom)));
            })
        },
    )
}

fn save(work: &Work) -> Medians {
    let (words, table) = (&work.table, records(&work.table));
    let mut bytes = vec![0; work.saved.len()];
    let mut plain_bytes = bytes.clone();
    medians(
        &mut |times| {
            without_check(times, |_, repeats| {
                let (place, room) = (bytes.as_mut_ptr(), bytes.len());
                accepted(unsafe { rep_save(words.as_ptr(), words.len(), place, room, repeats) });
            })
        },
        &mut |times| {
            without_check(times, |_, repeats| {
                after_check(words, repeats, |_| saved::write(black_box(table), black_box(&mut plain_bytes)))
            })
        },
        &mut |times| repeated(times, |_| consumed(answers::save(black_box(&work.solids)))),
    )
}

/// A round of the density report's inner work. Every run that counts follows another run, and is quicker than one that
/// follows a check: so these are fewer checks than a whole call takes beyond its own.
pub fn density(sheet: &Sheet, columns: i32, shares: &mut [f64]) -> Ratios {
    let (words, table) = (&sheet.table, records(&sheet.table));
    let [left, bottom, right, top] = ruled(&sheet.area);
    let ((width, height), turns) = (sheet.window(columns), turns());
    let check = sheet.checks(turns) / turns as f64;
    let server = of_questions(turns, |_, repeats| {
        let (wide, high, place, room) = (width as u64, height as u64, shares.as_mut_ptr(), shares.len());
        accepted(unsafe {
            rep_density(words.as_ptr(), words.len(), left, bottom, right, top, wide, high, place, room, repeats)
        });
    });
    let plain = of_questions(turns, |_, repeats| {
        after_check(words, repeats, |run| {
            let from = seek::start(table, run);
            consumed(plain::density::write(black_box(table), from, &sheet.area, width, height, black_box(shares)));
        })
    });
    Ratios { to_plain: server / plain, checks: server / check }
}
