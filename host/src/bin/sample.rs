//! Writes the sample layouts into a folder: `sample [FOLDER]`, where no folder means `../samples`.
#![forbid(unsafe_code)]

use std::path::Path;
use std::process::ExitCode;
use std::{env, fs, io};
use ushanderi_host::layouts::{clock_tree, A, B, C};
use ushanderi_host::plane::Plane;
use ushanderi_host::rects::Solid;
use ushanderi_host::refusal::Refusal;

/// The lister takes no more solids than this.
const MOST_SOLIDS: usize = 400;

fn main() -> ExitCode {
    let folder = env::args().nth(1).unwrap_or("../samples".to_string());
    let samples = [("a.layout", vec![A]), ("abc.layout", vec![A, B, C]), ("clock.layout", clock_tree())];
    for (name, solids) in samples {
        let file = Path::new(&folder).join(name);
        match saved(&solids).map_err(|refusal| refusal.to_string()).and_then(|bytes| write(&file, &bytes)) {
            Ok(()) => println!("{}: {} solids", file.display(), solids.len()),
            Err(message) => {
                eprintln!("{}: {message}", file.display());
                return ExitCode::FAILURE;
            }
        }
    }
    ExitCode::SUCCESS
}

/// Drawn and saved by the server, so that a layout it refuses cannot become a sample.
fn saved(solids: &[Solid]) -> Result<Vec<u8>, Refusal> {
    let mut plane = Plane::with_room(MOST_SOLIDS)?;
    for solid in solids {
        plane.create(solid.rect, solid.label)?;
    }
    Ok(plane.save())
}

fn write(file: &Path, bytes: &[u8]) -> Result<(), String> {
    let told = |error: io::Error| error.to_string();
    fs::create_dir_all(file.parent().unwrap_or(Path::new("."))).map_err(told)?;
    fs::write(file, bytes).map_err(told)
}
