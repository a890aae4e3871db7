//! Random scenarios, drawn by a seed.

mod dice;
mod drawn;
mod fuzz;
mod heads;
mod lines;
mod orders;
mod seen;
mod shrink;

pub use dice::*;
pub use drawn::*;
pub use fuzz::*;
pub use heads::*;
pub use lines::*;
pub use orders::*;
pub use shrink::*;
