//! What is reported of orders, where queued orders stand, and when a coordinator gives up: what holds at each row of
//! random runs.

mod causes;
mod happened;
mod marks;
mod patience;
mod queue;
mod results;
mod rows;
mod run;

pub use causes::*;
pub use marks::*;
pub use rows::{check, Checker, Step};
pub use run::orders;
