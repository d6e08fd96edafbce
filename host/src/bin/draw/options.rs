//! What the command line asks for.
use std::fs;
use std::io::{self, Read};
use ushanderi_host::Rect;

const USAGE: &str =
    "usage: draw [FILE] [--stitches] [--area L B R T] [--density W H] [--search L B R T] [--view L B R T]";

#[derive(Default)]
pub struct Options {
    file: Option<String>,
    pub stitches: bool,
    pub area: Option<Rect>,
    /// The width and height of the windows to shade.
    pub density: Option<(i32, i32)>,
    /// The area to search.
    pub search: Option<Rect>,
    pub view: Option<Rect>,
}

impl Options {
    pub fn parse(mut arguments: impl Iterator<Item = String>) -> Result<Options, String> {
        let mut options = Options::default();
        while let Some(argument) = arguments.next() {
            match argument.as_str() {
                "--stitches" => options.stitches = true,
                "--area" => options.area = Some(rect(&mut arguments)?),
                "--density" => options.density = Some(window(&mut arguments)?),
                "--search" => options.search = Some(rect(&mut arguments)?),
                "--view" => options.view = Some(rect(&mut arguments)?),
                flag if flag.starts_with("--") => return Err(format!("{flag} is not known\n{USAGE}")),
                _ if options.file.is_some() => return Err(format!("one file at most\n{USAGE}")),
                _ => options.file = Some(argument),
            }
        }
        Ok(options)
    }

    /// The saved layout.
    pub fn bytes(&self) -> Result<Vec<u8>, String> {
        let Some(file) = &self.file else {
            let mut bytes = Vec::new();
            io::stdin().read_to_end(&mut bytes).map_err(|error| format!("standard input: {error}"))?;
            return Ok(bytes);
        };
        fs::read(file).map_err(|error| format!("{file}: {error}"))
    }
}

fn number(arguments: &mut impl Iterator<Item = String>, wanted: &str) -> Result<i32, String> {
    arguments.next().and_then(|word| word.parse().ok()).ok_or(format!("{wanted}\n{USAGE}"))
}

fn window(arguments: &mut impl Iterator<Item = String>) -> Result<(i32, i32), String> {
    let mut side = || number(arguments, "a width and a height");
    match (side()?, side()?) {
        (width, height) if width >= 1 && height >= 1 => Ok((width, height)),
        (width, height) => Err(format!("{width} by {height} is no window")),
    }
}

fn rect(arguments: &mut impl Iterator<Item = String>) -> Result<Rect, String> {
    let mut edge = || number(arguments, "four edges");
    let rect = Rect::new(edge()?, edge()?, edge()?, edge()?);
    if !rect.keeps_limits() {
        return Err(format!("{rect} is no part of the plane"));
    }
    Ok(rect)
}
