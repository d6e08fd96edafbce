//! The measured times as tables: one line for each size with times and ratios, or one for each call with ratios alone.
use crate::density::{windows, Ratios};
use crate::timing::{median, Medians};
use crate::worst::{Beyond, BRANCHES};
use crate::SIZES;

#[derive(Clone, Copy)]
pub enum Form {
    Times,
    Markdown,
}

impl Form {
    pub fn begin(self) {
        if let Form::Times = self {
            println!("Median times of one call. The list is not checked by anyone. Growth is against the size before.");
        }
    }

    pub fn head(self, title: &str, third: &str) {
        match self {
            Form::Times => println!(
                "\n{title:>11} {:>7} {:>12} {:>12} {third:>12} {:>9} {:>9} {:>8}",
                "solids",
                "server",
                "plain",
                "to plain",
                format!("to {third}"),
                "growth"
            ),
            Form::Markdown => {
                let to = |what: &str| SIZES.map(|size| format!(" to {what}, {size} |")).concat();
                let growth: String = SIZES[1..].iter().map(|size| format!(" growth to {size} |")).collect();
                println!("\n| {title} |{}{}{growth}", to("plain"), to(third));
                println!("|---|{}", "--:|".repeat(3 * SIZES.len() - 1));
            }
        }
    }

    /// The hardest layouts.
    pub fn worst_head(self) {
        match self {
            Form::Times => println!("\nWork beyond the check, in checks of the same table, and its growth"),
            Form::Markdown => {
                let checks = BRANCHES.map(|count| format!(" checks, {count} |")).concat();
                let growth: String = BRANCHES[1..].iter().map(|count| format!(" growth to {count} |")).collect();
                println!("\n| layout | call |{checks}{growth}");
                println!("|---|---|{}", "--:|".repeat(2 * BRANCHES.len() - 1));
            }
        }
    }

    /// One call on such a layout: its passes at each number of branches.
    pub fn worst_row(self, layout: &str, call: &str, passes: &[Vec<Beyond>]) {
        let checks = passes.iter().map(|passes| median(passes.iter().map(|pass| pass.checks)));
        let growth = passes.windows(2).map(|sizes| ratio(&sizes[0], &sizes[1], |pass| pass.work));
        let ratios: Vec<String> = checks.chain(growth).map(short).collect();
        match self {
            Form::Times => {
                let work = passes.iter().map(|passes| median(passes.iter().map(|pass| pass.work)));
                let work: Vec<String> = work.map(|work| format!("{work:>9.2} us")).collect();
                println!(
                    "{layout:>29} {call:>11} {} {}",
                    work.join(""),
                    ratios.iter().map(|ratio| format!("{ratio:>8}")).collect::<String>()
                );
            }
            Form::Markdown => println!("| {layout} | {call} | {} |", ratios.join(" | ")),
        }
    }

    /// The density report, or its inner work, by the number of windows: over the plain program's, and then so.
    pub fn density_head(self, title: &str, then: &str) {
        let windows = windows();
        match self {
            Form::Times => {
                println!("\nThe {title} at {windows:?} windows: to plain, then {then}")
            }
            Form::Markdown => {
                let of = |what: &str| windows.map(|windows| format!(" {what}, {windows} |")).concat();
                println!("\n| {title} |{}{}", of("to plain"), of("checks"));
                println!("|---|{}", "--:|".repeat(2 * windows.len()));
            }
        }
    }

    /// One layout: its passes at each number of windows.
    pub fn density_row(self, layout: &str, passes: &[Vec<Ratios>]) {
        let figures = |figure: fn(&Ratios) -> f64| passes.iter().map(move |passes| median(passes.iter().map(figure)));
        let ratios: Vec<String> = figures(|pass| pass.to_plain).chain(figures(|pass| pass.checks)).map(short).collect();
        match self {
            Form::Times => {
                println!("{layout:>29} {}", ratios.iter().map(|ratio| format!("{ratio:>8}")).collect::<String>())
            }
            Form::Markdown => println!("| {layout} | {} |", ratios.join(" | ")),
        }
    }

    /// One call: its passes at each size.
    pub fn row(self, call: &str, passes: &[Vec<Medians>]) {
        let medians: Vec<Medians> = passes.iter().map(|passes| Medians::of_passes(passes)).collect();
        let growth: Vec<f64> = passes.windows(2).map(|sizes| ratio(&sizes[0], &sizes[1], |pass| pass.server)).collect();
        match self {
            Form::Times => {
                let growth = std::iter::once(String::new()).chain(growth.iter().map(|growth| format!("{growth:.1}")));
                for ((medians, growth), solids) in medians.iter().zip(growth).zip(SIZES) {
                    print_times(call, solids, medians, &growth);
                }
            }
            Form::Markdown => {
                let to_plain = medians.iter().map(|medians| medians.to_plain);
                let to_third = medians.iter().map(|medians| medians.to_list);
                let ratios: Vec<String> = to_plain.chain(to_third).chain(growth).map(short).collect();
                println!("| {call} | {} |", ratios.join(" | "));
            }
        }
    }
}

/// How a figure grows from one size to the next, within each pass.
fn ratio<T>(smaller: &[T], larger: &[T], figure: fn(&T) -> f64) -> f64 {
    median(smaller.iter().zip(larger).map(|(smaller, larger)| figure(larger) / figure(smaller)))
}

fn print_times(call: &str, solids: usize, medians: &Medians, growth: &str) {
    let Medians { server, plain, list, to_plain, to_list } = medians;
    println!(
        "{call:>11} {solids:>7} {server:>9.2} us {plain:>9.2} us {list:>9.2} us {to_plain:>9.2} {to_list:>9.3} {growth:>8}"
    );
}

/// As many digits as mean something: 0.003, 0.098, 1.05, 12, 130.
fn short(ratio: f64) -> String {
    match ratio {
        _ if ratio >= 10.0 => format!("{ratio:.0}"),
        _ if ratio >= 0.1 => format!("{ratio:.2}"),
        _ => format!("{ratio:.3}"),
    }
}
