//! The whole calls, each with its check of the table.
use crate::timing::{consumed, medians, on_copies, repeated, Medians};
use crate::work::{nth, Work, LAYOUT};
use crate::Measure;
use std::hint::black_box;
use ushanderi_host::calls::{Answer, DensityReport, MetAnswer};
use ushanderi_host::rects::{Rect, Solid};
use ushanderi_host::{answers, calls, plain, rects};

pub const MEASURES: [Measure; 10] = [
    ("check", check),
    ("find", find),
    ("search", search),
    ("neighbours", neighbours),
    ("enumerate", enumerate),
    ("density", density),
    ("create", create),
    ("delete", delete),
    ("save", save),
    ("load", load),
];

pub const CHECK_AND_PASS: [Measure; 1] = [("check", check_and_pass)];

const LABEL: i32 = 1;

/// A window's side, and how many windows the layout has.
const WINDOW: i32 = 1_000;
const WINDOWS: usize = 400;

type Search = fn(&[i32], i32, i32, i32, i32) -> MetAnswer;
type Enumerate = fn(&[i32], i32, i32, i32, i32, &mut [i32]) -> Answer;
type Density = fn(&[i32], Rect, i32, i32, &mut [f64]) -> DensityReport;
type Create = fn(&mut [i32], i32, i32, i32, i32, i32) -> MetAnswer;

fn check(work: &Work) -> Medians {
    let table = &work.table;
    medians(
        &mut |times| repeated(times, |_| consumed(calls::check(black_box(table)))),
        &mut |times| repeated(times, |_| consumed(plain::check(black_box(table)))),
        &mut |times| repeated(times, |_| consumed(rects::check(black_box(table)))),
    )
}

/// No check can be faster than one look at every word.
fn check_and_pass(work: &Work) -> Medians {
    let table = &work.table;
    let pass = |table: &[i32]| table.iter().fold(0i32, |sum, &word| sum.wrapping_add(word));
    medians(
        &mut |times| repeated(times, |_| consumed(calls::check(black_box(table)))),
        &mut |times| repeated(times, |_| consumed(plain::check(black_box(table)))),
        &mut |times| repeated(times, |_| consumed(pass(black_box(table)))),
    )
}

fn find(work: &Work) -> Medians {
    let by = |find: fn(&[i32], i32, i32, i32) -> Answer| {
        move |times| {
            repeated(times, |number| {
                let (x, y) = nth(&work.cells, number);
                consumed(find(black_box(&work.table), x, y, -1));
            })
        }
    };
    medians(&mut by(calls::find), &mut by(plain::find), &mut |times| {
        repeated(times, |number| consumed(answers::find(black_box(&work.tiles), nth(&work.cells, number))))
    })
}

fn search(work: &Work) -> Medians {
    let by = |search: Search| {
        move |times| {
            repeated(times, |number| {
                let Rect { left, bottom, right, top } = nth(&work.areas, number);
                consumed(search(black_box(&work.table), left, bottom, right, top));
            })
        }
    };
    medians(&mut by(calls::search), &mut by(plain::search), &mut |times| {
        repeated(times, |number| consumed(answers::search(black_box(&work.solids), &nth(&work.areas, number))))
    })
}

fn neighbours(work: &Work) -> Medians {
    let by = |neighbours: fn(&[i32], i32, i32, i32, &mut [i32]) -> Answer| {
        let mut list = vec![0; work.tiles.len()];
        move |times| {
            repeated(times, |number| {
                let (x, y) = nth(&work.held, number);
                consumed(neighbours(black_box(&work.table), x, y, side(number), black_box(&mut list)));
            })
        }
    };
    medians(&mut by(calls::neighbours), &mut by(plain::neighbours), &mut |times| {
        repeated(times, |number| {
            consumed(answers::neighbours(black_box(&work.tiles), nth(&work.held, number), side(number)))
        })
    })
}

fn side(number: usize) -> i32 {
    (number % 4) as i32
}

/// The whole plane.
fn enumerate(work: &Work) -> Medians {
    let by = |enumerate: Enumerate| {
        let Rect { left, bottom, right, top } = Rect::PLANE;
        let mut list = vec![0; work.tiles.len()];
        move |times| {
            repeated(times, |_| {
                consumed(enumerate(black_box(&work.table), left, bottom, right, top, black_box(&mut list)));
            })
        }
    };
    medians(&mut by(calls::enumerate), &mut by(plain::enumerate), &mut |times| {
        repeated(times, |_| consumed(answers::enumerate(black_box(&work.tiles), &Rect::PLANE)))
    })
}

/// The whole layout in windows.
fn density(work: &Work) -> Medians {
    let by = |density: Density| {
        let mut shares = vec![0.0; WINDOWS];
        move |times| {
            repeated(times, |_| {
                let report = density(black_box(&work.table), LAYOUT, WINDOW, WINDOW, black_box(&mut shares));
                consumed(report);
            })
        }
    };
    medians(&mut by(calls::density), &mut by(plain::density), &mut |times| {
        repeated(times, |_| consumed(answers::density(black_box(&work.solids), LAYOUT, WINDOW, WINDOW, WINDOWS)))
    })
}

fn create(work: &Work) -> Medians {
    let by = |create: Create| {
        move |times| {
            on_copies(times, &work.fewer, |table, number| {
                let Rect { left, bottom, right, top } = nth(&work.free, number);
                consumed(create(table, left, bottom, right, top, LABEL));
            })
        }
    };
    medians(&mut by(calls::create), &mut by(plain::create), &mut |times| {
        on_copies(times, &work.fewer_solids, |solids, number| {
            let solid = Solid { rect: nth(&work.free, number), label: LABEL };
            consumed(answers::create(solids, work.solids.len(), solid))
        })
    })
}

fn delete(work: &Work) -> Medians {
    let by = |delete: fn(&mut [i32], i32, i32) -> Answer| {
        move |times| {
            on_copies(times, &work.table, |table, number| {
                let (x, y) = nth(&work.held, number);
                consumed(delete(table, x, y));
            })
        }
    };
    medians(&mut by(calls::delete), &mut by(plain::delete), &mut |times| {
        on_copies(times, &work.solids, |solids, number| consumed(answers::delete(solids, nth(&work.held, number))))
    })
}

fn save(work: &Work) -> Medians {
    let by = |save: fn(&[i32], &mut [u8]) -> Answer| {
        let mut bytes = vec![0; work.saved.len()];
        move |times| repeated(times, |_| consumed(save(black_box(&work.table), black_box(&mut bytes))))
    };
    medians(&mut by(calls::save), &mut by(plain::save), &mut |times| {
        repeated(times, |_| consumed(answers::save(black_box(&work.solids))))
    })
}

fn load(work: &Work) -> Medians {
    let by = |load: fn(&mut [i32], &[u8]) -> MetAnswer| {
        let mut table = work.table.clone();
        move |times| repeated(times, |_| consumed(load(black_box(&mut table), black_box(&work.saved))))
    };
    medians(&mut by(calls::load), &mut by(plain::load), &mut |times| {
        repeated(times, |_| consumed(answers::load(black_box(&work.saved), work.solids.len())))
    })
}
