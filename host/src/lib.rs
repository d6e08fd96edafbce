//! The host's side of the tile server: its calls made safe, and the independent programs they are compared with.
//!
//! A program that only wants the server uses [`Plane`], whose answers are results with a [`Refusal`]. [`calls`] has the
//! calls as they are, on words that the caller owns. All other modules belong to the comparison runs and the benchmark:
//! [`rects`] and [`answers`] are the rectangle-list program, [`plain`] is the server's method in ordinary Rust.
//!
//! A call takes at most 320 KiB of stack, which only a thread that was made small lacks.
#![deny(unsafe_code)]
#![deny(missing_docs)]

pub mod answers;
pub mod asks;
#[allow(unsafe_code)]
pub mod calls;
pub mod damage;
pub mod density;
pub mod forged;
pub mod layouts;
pub mod lent;
pub mod pictures;
pub mod plain;
pub mod plane;
pub mod random;
pub mod rects;
pub mod refusal;
pub mod tables;
pub mod tally;
pub mod words;

pub use density::{Densities, Density};
pub use plane::{Met, Plane, Side, MOST_SOLIDS};
pub use rects::{Rect, Tile};
pub use refusal::{BadRecord, LoadRefusal, Refusal};
