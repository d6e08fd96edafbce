//! Carries a layout from one plane to another by its saved bytes, and shows what a load refuses. Run with
//! `cargo run --example carry`.
use std::error::Error;
use ushanderi_host::{Plane, Rect};

fn main() -> Result<(), Box<dyn Error>> {
    let mut here = Plane::with_room(10)?;
    here.create(Rect::new(0, 0, 10, 10), 1)?;
    here.create(Rect::new(20, 0, 30, 10), 2)?;
    here.create(Rect::new(5, 15, 25, 20), 3)?;
    let bytes = here.save();

    let mut there = Plane::with_room(10)?;
    println!("{} bytes, {} solids loaded", bytes.len(), there.load(&bytes)?);
    println!("the same layout again: {}", there.save() == bytes);

    let twice = [&bytes[..], &bytes[..20]].concat();
    for damaged in [&bytes[..30], &twice] {
        match there.load(damaged) {
            Ok(_) => println!("loaded"),
            Err(refusal) => println!("refused: {refusal}; {} solids now", there.solids()),
        }
    }
    Ok(())
}
