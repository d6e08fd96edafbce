//! Draws a saved layout as an SVG picture on standard output.
//!
//! `draw [FILE] [--stitches] [--area L B R T] [--density W H] [--search L B R T] [--view L B R T]` reads standard
//! input where no file is named. Solids are coloured by their labels, space strips are faint. `--stitches` adds the
//! stitches as small arrows, `--area` marks an area and numbers its tiles in directed order, `--density` shades the
//! area's windows of this width and height by how much of them is metal instead, and where no area is named takes
//! windows around all solids. `--search` marks an area that is searched and, where it is blocked, the cell and the
//! solid that are met; it goes with all others. `--view` says what part of the plane is shown: otherwise the area and
//! the searched one, or all solids.
#![forbid(unsafe_code)]

mod canvas;
mod colours;
mod numbers;
mod options;
mod picture;
mod search;
mod stitches;
mod windows;

use options::Options;
use std::process::ExitCode;
use ushanderi_host::{Plane, MOST_SOLIDS};

fn main() -> ExitCode {
    match svg() {
        Ok(svg) => {
            print!("{svg}");
            ExitCode::SUCCESS
        }
        Err(message) => {
            eprintln!("draw: {message}");
            ExitCode::FAILURE
        }
    }
}

fn svg() -> Result<String, String> {
    let options = Options::parse(std::env::args().skip(1))?;
    let mut plane = Plane::with_room(MOST_SOLIDS).map_err(|refusal| refusal.to_string())?;
    plane.load(&options.bytes()?).map_err(|refusal| refusal.to_string())?;
    picture::draw(&plane, &options).map_err(|refusal| refusal.to_string())
}
