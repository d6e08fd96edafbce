//! Layouts that are hard on a solid with many neighbours. A call's work beyond its check is told in checks of the same
//! table, and beside the work on half as many neighbours: twice as much is linear.
use crate::timing::{median, quick, Rounds};
use std::hint::black_box;
use std::time::Instant;
use ushanderi_host::answers;
use ushanderi_host::calls::{self, number, Answer, MetAnswer};
use ushanderi_host::rects::{Rect, Solid};
use ushanderi_host::words::{records_for, RECORD_WORDS};

/// How many branches leave the trunk, or solids stand in the row.
pub const BRANCHES: [usize; 3] = [249, 499, 998];

/// How often a round makes each call, in turn with the others.
const TURNS: usize = 4;

/// Trunk and branches are one net: metal of two nets that touches is a short.
const LABEL: i32 = 1;
const PITCH: i32 = 10;
const WIDTH: i32 = 10;
const REACH: i32 = 40;

/// A whole call on a layout; its answer's number.
pub type Call = fn(&mut Worst) -> i32;

pub struct Layout {
    pub name: &'static str,
    /// The trunk, and the branch of a number.
    trunk: fn(i32) -> Rect,
    branch: fn(i32) -> Rect,
    pub calls: &'static [(&'static str, Call)],
}

const EDITS: &[(&str, Call)] = &[("delete", delete), ("create", create)];
const ALL: &[(&str, Call)] =
    &[("delete", delete), ("create", create), ("neighbours", neighbours), ("enumerate", enumerate)];

pub const LAYOUTS: [Layout; 8] = [
    Layout { name: "trunk, branches right", trunk: upright, branch: right, calls: EDITS },
    Layout { name: "trunk, branches left", trunk: upright, branch: left, calls: EDITS },
    Layout { name: "trunk, branches at both sides", trunk: upright, branch: both, calls: EDITS },
    Layout { name: "trunk, branches across a gap", trunk: upright, branch: over_a_gap, calls: EDITS },
    Layout { name: "trunk, branches stacked right", trunk: upright, branch: stacked_right, calls: EDITS },
    Layout { name: "trunk, branches stacked left", trunk: upright, branch: stacked_left, calls: EDITS },
    Layout { name: "wide strap with stubs", trunk: lying, branch: stub, calls: EDITS },
    Layout { name: "one row", trunk: first, branch: further, calls: ALL },
];

fn upright(count: i32) -> Rect {
    Rect::new(0, 0, WIDTH, PITCH * count)
}

fn right(number: i32) -> Rect {
    Rect::new(WIDTH, PITCH * number + 2, WIDTH + REACH, PITCH * number + 6)
}

fn left(number: i32) -> Rect {
    Rect::new(-REACH, PITCH * number + 2, 0, PITCH * number + 6)
}

fn both(number: i32) -> Rect {
    if number % 2 == 0 {
        left(number)
    } else {
        right(number)
    }
}

fn over_a_gap(number: i32) -> Rect {
    let near = right(number);
    Rect::new(near.left + 5 + number % 3, near.bottom, near.right, near.top)
}

/// No two of the same length, so that no two ends are one edge.
fn stacked_right(number: i32) -> Rect {
    Rect::new(WIDTH, PITCH * number, WIDTH + REACH + number % 7, PITCH * (number + 1))
}

fn stacked_left(number: i32) -> Rect {
    Rect::new(-REACH - number % 7, PITCH * number, 0, PITCH * (number + 1))
}

fn lying(count: i32) -> Rect {
    Rect::new(0, 0, PITCH * count, WIDTH)
}

fn stub(number: i32) -> Rect {
    Rect::new(PITCH * number + 2, WIDTH, PITCH * number + 6, WIDTH + REACH)
}

fn first(_: i32) -> Rect {
    Rect::new(-PITCH, 0, -4, WIDTH)
}

fn further(number: i32) -> Rect {
    Rect::new(PITCH * number, 0, PITCH * number + 6, WIDTH)
}

/// A layout's table, the solid that is deleted and created, and a list for every tile.
pub struct Worst {
    table: Vec<i32>,
    trunk: Rect,
    list: Vec<i32>,
}

/// The table of these solids, with room for no other.
pub fn loaded(solids: &[Solid]) -> Vec<i32> {
    let mut table = vec![0; RECORD_WORDS * records_for(solids.len())];
    let answer = calls::load(&mut table, &answers::save(solids));
    assert!(answer == MetAnswer::without_cell(Answer::done(solids.len())), "the layout loads");
    table
}

impl Layout {
    /// The branches, and the trunk as the last.
    pub fn solids(&self, count: usize) -> Vec<Solid> {
        let rects = (0..count as i32).map(self.branch).chain([(self.trunk)(count as i32)]);
        rects.map(|rect| Solid { rect, label: LABEL }).collect()
    }

    fn build(&self, count: usize) -> Worst {
        let table = loaded(&self.solids(count));
        let list = vec![0; table.len() / RECORD_WORDS];
        Worst { table, trunk: (self.trunk)(count as i32), list }
    }

    /// The passes of each call at each number of branches.
    pub fn measure(&self, passes: usize) -> Vec<[Vec<Beyond>; BRANCHES.len()]> {
        let mut tables = BRANCHES.map(|count| self.build(count));
        let mut all: Vec<[Vec<Beyond>; BRANCHES.len()]> = self.calls.iter().map(|_| Default::default()).collect();
        for _ in 0..passes {
            for (size, worst) in tables.iter_mut().enumerate() {
                let pass = self.pass(worst);
                all.iter_mut().zip(pass).for_each(|(call, beyond)| call[size].push(beyond));
            }
        }
        all
    }

    /// What one pass shows of each call.
    fn pass(&self, worst: &mut Worst) -> Vec<Beyond> {
        let Rounds { warm_up, counted } = Rounds::now();
        (0..warm_up).for_each(|_| drop(self.round(worst)));
        let rounds: Vec<Vec<f64>> = (0..counted).map(|_| self.round(worst)).collect();
        (1..=self.calls.len())
            .map(|call| Beyond {
                work: median(rounds.iter().map(|times| times[call] - times[0])),
                checks: median(rounds.iter().map(|times| (times[call] - times[0]) / times[0])),
            })
            .collect()
    }

    /// The microseconds of a check and of each call.
    fn round(&self, worst: &mut Worst) -> Vec<f64> {
        let calls = [check as Call].into_iter().chain(self.calls.iter().map(|&(_, call)| call));
        let calls: Vec<Call> = calls.collect();
        let mut times = vec![0.0; calls.len()];
        let turns = if quick() { 1 } else { TURNS };
        for turn in 0..turns * calls.len() {
            let place = turn % calls.len();
            let start = Instant::now();
            let number = black_box(calls[place](black_box(worst)));
            times[place] += start.elapsed().as_secs_f64() * 1e6 / turns as f64;
            assert!(number == number::DONE, "the call is accepted");
        }
        times
    }
}

/// What a call does beyond its check: the microseconds, and the same in checks of its table.
pub struct Beyond {
    pub work: f64,
    pub checks: f64,
}

fn check(worst: &mut Worst) -> i32 {
    calls::check(&worst.table).number
}

fn delete(worst: &mut Worst) -> i32 {
    calls::delete(&mut worst.table, worst.trunk.left, worst.trunk.bottom).number
}

fn create(worst: &mut Worst) -> i32 {
    let Rect { left, bottom, right, top } = worst.trunk;
    calls::create(&mut worst.table, left, bottom, right, top, LABEL).number
}

/// Of the strip under the layout, at its top.
fn neighbours(worst: &mut Worst) -> i32 {
    const TOP_SIDE: i32 = 2;
    calls::neighbours(&worst.table, worst.trunk.left, worst.trunk.bottom - 1, TOP_SIDE, &mut worst.list).number
}

fn enumerate(worst: &mut Worst) -> i32 {
    let Rect { left, bottom, right, top } = Rect::PLANE;
    calls::enumerate(&worst.table, left, bottom, right, top, &mut worst.list).number
}
