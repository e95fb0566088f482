//! A plain Rust program for the same questions, as one would write it without proofs.
//!
//! It takes what the proved calls take. The arcs are laid out once in a `Vec`, and
//! every round walks every arc; Ends asks at one cycle time after another.

mod arcs;
mod ask;
mod ends;
mod read;

pub use self::arcs::{arcs, Arc};
pub use self::ask::{ask, Answer};
pub use self::ends::{ends, Ends};
pub use self::read::read;
