//! The comparison runs: every call against the rectangle-list program and the rules' own words, on seeded random
//! tables. Ends with a failure at the first disagreement. A first argument scales the amount, as 0.1 or 20.
mod case;
mod check;
mod create;
mod delete;
mod density;
mod edits;
mod enumerate;
mod examples;
mod find;
mod fresh;
mod histories;
mod lists;
mod load;
mod neighbours;
mod save;
mod search;
mod view;

use std::process::ExitCode;
use std::time::Instant;

/// What a run tried, a line for each kind; or the first disagreement.
type Report = Result<Vec<String>, String>;

/// What a run is about, and the run itself, which takes the scale.
type Run = (&'static str, fn(f64) -> Report);

/// A call that the archive does not have yet is left out here, in the examples and in the histories.
const RUNS: [Run; 14] = [
    ("examples", examples::run),
    ("fresh", fresh::run),
    ("check", check::run),
    ("view", view::run),
    ("find", find::run),
    ("neighbours", neighbours::run),
    ("search", search::run),
    ("enumerate", enumerate::run),
    ("density", density::run),
    ("create", create::run),
    ("delete", delete::run),
    ("save", save::run),
    ("load", load::run),
    ("histories", histories::run),
];

/// The word counts that the rules name, and those beside them.
const NAMED_SIZES: [usize; 14] = [0, 1, 9, 10, 190, 199, 200, 201, 210, 40_150, 40_159, 40_160, 40_161, 40_170];

fn main() -> ExitCode {
    let scale = match std::env::args().nth(1).map(|argument| argument.parse::<f64>()) {
        None => 1.0,
        Some(Ok(scale)) if scale > 0.0 => scale,
        Some(_) => {
            eprintln!("usage: compare [SCALE], SCALE a number above 0");
            return ExitCode::from(2);
        }
    };
    for (call, run) in RUNS {
        let start = Instant::now();
        match run(scale) {
            Ok(lines) => {
                lines.iter().for_each(|line| println!("{call}: {line}"));
                // Not on standard output, which is the same for every run.
                eprintln!("{call}: {:.1} s", start.elapsed().as_secs_f64());
            }
            Err(message) => {
                println!("{call}: DISAGREEMENT: {message}");
                return ExitCode::FAILURE;
            }
        }
    }
    println!("all agree");
    ExitCode::SUCCESS
}

/// The rule on sizes, in words instead of records.
fn size_fits(words: usize) -> bool {
    words.is_multiple_of(10) && (200..=40_160).contains(&words)
}

fn scaled(amount: usize, scale: f64) -> u64 {
    ((amount as f64 * scale) as u64).max(1)
}
