//! The density report with one window, with some and with many, on scattered solids and on the layouts that are hardest
//! on an edit: a whole call over the plain program's, and its work beyond the check, in checks of the same table.
use crate::timing::{consumed, median, quick, repeated, Rounds};
use crate::work::{Work, LAYOUT};
use crate::worst::{loaded, BRANCHES, LAYOUTS};
use std::hint::black_box;
use ushanderi_host::calls::{self, number, DensityReport};
use ushanderi_host::plain;
use ushanderi_host::rects::{Rect, Solid};

/// Columns of windows, and as many rows.
const COLUMNS: [i32; 3] = [1, 20, 100];

/// How often a round makes each call.
const TURNS: usize = 3;

type Density = fn(&[i32], Rect, i32, i32, &mut [f64]) -> DensityReport;

/// A table, and the area that the report is of.
pub struct Sheet {
    pub name: &'static str,
    pub table: Vec<i32>,
    pub area: Rect,
}

/// A report or its inner work over the plain program's, and the work without the check, in checks.
pub struct Ratios {
    pub to_plain: f64,
    pub checks: f64,
}

/// One round at so many columns; the list is as long as there are windows.
pub type Round = fn(&Sheet, i32, &mut [f64]) -> Ratios;

/// How many windows there are.
pub fn windows() -> [i32; COLUMNS.len()] {
    COLUMNS.map(|columns| columns * columns)
}

/// How often a round makes each call now.
pub fn turns() -> usize {
    if quick() {
        1
    } else {
        TURNS
    }
}

pub fn scattered(work: &Work) -> Sheet {
    Sheet { name: "scattered", table: work.table.clone(), area: LAYOUT }
}

/// Scattered solids, and every hard layout at its largest.
pub fn sheets(work: &Work) -> Vec<Sheet> {
    let hard = LAYOUTS.iter().map(|layout| {
        let solids = layout.solids(BRANCHES[BRANCHES.len() - 1]);
        Sheet { name: layout.name, table: loaded(&solids), area: around(&solids) }
    });
    std::iter::once(scattered(work)).chain(hard).collect()
}

/// A square that holds all solids and is divided by every number of columns.
fn around(solids: &[Solid]) -> Rect {
    let most = COLUMNS[COLUMNS.len() - 1];
    let lowest = |edge: fn(&Rect) -> i32| solids.iter().map(|solid| edge(&solid.rect)).min().unwrap_or(0);
    let (left, bottom) = (lowest(|rect| rect.left), lowest(|rect| rect.bottom));
    let (right, top) = (-lowest(|rect| -rect.right), -lowest(|rect| -rect.top));
    let side = ((right - left).max(top - bottom) + most - 1) / most * most;
    Rect::new(left, bottom, left + side, bottom + side)
}

impl Sheet {
    /// The passes at each number of windows.
    pub fn measure(&self, passes: usize, round: Round) -> [Vec<Ratios>; COLUMNS.len()] {
        let mut all = [const { Vec::new() }; COLUMNS.len()];
        for _ in 0..passes {
            COLUMNS.iter().zip(&mut all).for_each(|(&columns, passes)| passes.push(self.pass(columns, round)));
        }
        all
    }

    fn pass(&self, columns: i32, round: Round) -> Ratios {
        let Rounds { warm_up, counted } = Rounds::now();
        let mut shares = vec![0.0; (columns * columns) as usize];
        (0..warm_up).for_each(|_| consumed(round(self, columns, &mut shares)));
        let rounds: Vec<Ratios> = (0..counted).map(|_| round(self, columns, &mut shares)).collect();
        Ratios {
            to_plain: median(rounds.iter().map(|round| round.to_plain)),
            checks: median(rounds.iter().map(|round| round.checks)),
        }
    }

    /// A window's width and height.
    pub fn window(&self, columns: i32) -> (i32, i32) {
        let Rect { left, bottom, right, top } = self.area;
        ((right - left) / columns, (top - bottom) / columns)
    }

    /// The seconds of so many checks of the table.
    pub fn checks(&self, times: usize) -> f64 {
        repeated(times, |_| consumed(calls::check(black_box(&self.table))))
    }

    /// A round of whole calls.
    pub fn whole(&self, columns: i32, shares: &mut [f64]) -> Ratios {
        let ((width, height), turns) = (self.window(columns), turns());
        let check = self.checks(turns);
        let [server, plain] = [calls::density as Density, plain::density].map(|density| {
            repeated(turns, |_| {
                let report = density(black_box(&self.table), self.area, width, height, black_box(shares));
                assert!(report.number == number::DONE, "the report is accepted");
            })
        });
        Ratios { to_plain: server / plain, checks: (server - check) / check }
    }
}
