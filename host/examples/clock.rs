//! Draws a clock trunk with branches and asks what a seat asks: what is beside it, where is room, what is in the way.
//! Run with `cargo run --example clock`.
use ushanderi_host::{Met, Plane, Rect, Refusal, Side, Tile};

const TRUNK: i32 = 1;
const BRANCH: i32 = 2;

fn main() -> Result<(), Refusal> {
    let mut plane = Plane::with_room(50)?;
    plane.create(Rect::new(0, 0, 10, 100), TRUNK)?;
    for bottom in [10, 40, 70] {
        plane.create(Rect::new(10, bottom, 60, bottom + 5), BRANCH)?;
    }
    println!("{} solids in a plane that takes {}", plane.solids(), plane.room());

    println!("right of the trunk, from the top down:");
    for record in plane.neighbours(5, 50, Side::Right)? {
        println!("  {}", tile(&plane, record));
    }
    println!("in the area 20 30 80 60, in directed order:");
    for record in plane.enumerate(Rect::new(20, 30, 80, 60))? {
        println!("  {}", tile(&plane, record));
    }
    for area in [Rect::new(20, 50, 60, 65), Rect::new(20, 50, 60, 75)] {
        match plane.search(area)? {
            None => println!("{area} is free"),
            Some(Met { record, cell: (x, y) }) => {
                println!("{area} is blocked at ({x}, {y}) by {}", tile(&plane, record))
            }
        }
    }
    if let Err(refusal) = plane.create(Rect::new(50, 0, 55, 100), 3) {
        println!("refused: {refusal}");
    }
    Ok(())
}

fn tile(plane: &Plane, record: usize) -> Tile {
    plane.tile(record).expect("an answer names a tile")
}
