//! How long each call takes, as ratios to the same method in plain Rust and to the rectangle-list program, at three
//! sizes. All three, and all sizes, are timed in turns within one run, so that what disturbs one disturbs the others.
//! Then the density report by the number of windows, and the layouts that are hardest on an edit, against the check of
//! the same table. The feature `inner` adds the calls' inner work, without the check of the table.
//!
//! `bench [--markdown] [--quick]`: `--markdown` prints the ratios alone, as the README quotes them; `--quick` takes so
//! few samples that it tells only whether everything still runs.
mod calls;
mod density;
#[cfg(feature = "inner")]
mod inner;
mod report;
mod timing;
mod work;
mod worst;

use density::{Round, Sheet};
use report::Form;
use std::process::ExitCode;
use timing::Medians;
use work::Work;

/// How many solids the measured tables hold.
const SIZES: [usize; 3] = [10, 100, 1_000];

/// A call's name, and what measures it on a table.
type Measure = (&'static str, fn(&Work) -> Medians);

fn main() -> ExitCode {
    let mut form = Form::Times;
    for argument in std::env::args().skip(1) {
        match argument.as_str() {
            "--markdown" => form = Form::Markdown,
            "--quick" => timing::be_quick(),
            _ => {
                eprintln!("usage: bench [--markdown] [--quick]");
                return ExitCode::from(2);
            }
        }
    }
    let works = SIZES.map(Work::new);
    form.begin();
    table(form, "whole call", "list", &calls::MEASURES, &works);
    table(form, "whole call", "pass", &calls::CHECK_AND_PASS, &works);
    let largest = &works[SIZES.len() - 1];
    #[cfg(feature = "inner")]
    {
        table(form, "inner work", "list", &inner::MEASURES, &works);
        form.density_head("inner work of the density report", "in checks");
        density_row(form, &density::scattered(largest), inner::density);
    }
    form.density_head("density report", "work beyond the check in checks");
    density::sheets(largest).iter().for_each(|sheet| density_row(form, sheet, Sheet::whole));
    form.worst_head();
    for layout in worst::LAYOUTS {
        let measured = layout.measure(timing::passes());
        layout.calls.iter().zip(measured).for_each(|((call, _), passes)| form.worst_row(layout.name, call, &passes));
    }
    ExitCode::SUCCESS
}

/// What the third program is has no stitches: the rectangle list, or one pass over the table's words.
fn table(form: Form, title: &str, third: &str, measures: &[Measure], works: &[Work]) {
    form.head(title, third);
    for (call, measure) in measures {
        let mut passes = [const { Vec::new() }; SIZES.len()];
        for _ in 0..timing::passes() {
            works.iter().zip(&mut passes).for_each(|(work, passes)| passes.push(measure(work)));
        }
        form.row(call, &passes);
    }
}

/// One table's density report, by the number of windows.
fn density_row(form: Form, sheet: &Sheet, round: Round) {
    form.density_row(sheet.name, &sheet.measure(timing::passes(), round));
}
